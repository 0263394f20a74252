// Prints whether a file is there and its size, and puts one byte at the beginning of another one. Ends with the first error.
#include "wasi.h"
static unsigned char about[64];

void _start(void) {
    read_names();
    int target, failed = path_filestat_get(ROOT, 0, from, LENGTH, about);
    if (failed) proc_exit(failed);
    print(about + 32, 8);
    failed = path_open(ROOT, 0, to, LENGTH, MAKE, WRITE, 0, 0, &target);
    if (failed) proc_exit(failed);
    Piece piece = { "m", 1 };
    unsigned written;
    failed = fd_write(target, &piece, 1, &written);
    if (failed) proc_exit(failed);
}

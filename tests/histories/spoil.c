// Writes at the end of one file, and traps where another one is not there: then nothing of it is kept.
#include "wasi.h"
static unsigned char about[64];

void _start(void) {
    read_names();
    int target, failed = path_open(ROOT, 0, to, LENGTH, MAKE, WRITE, 0, 1, &target);
    if (failed) proc_exit(failed);
    Piece piece = { "spoilt", 6 };
    unsigned written;
    failed = fd_write(target, &piece, 1, &written);
    if (failed) proc_exit(failed);
    if (path_filestat_get(ROOT, 0, from, LENGTH, about)) __builtin_trap();
}

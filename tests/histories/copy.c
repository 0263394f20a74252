// Prints the first 64 bytes of a file and makes them the content of another one. Ends with the first error.
#include "wasi.h"
static char bytes[64];

void _start(void) {
    read_names();
    int source, target, failed = path_open(ROOT, 0, from, LENGTH, 0, READ, 0, 0, &source);
    if (failed) proc_exit(failed);
    Piece piece = { bytes, sizeof bytes };
    unsigned count, written;
    failed = fd_read(source, &piece, 1, &count);
    if (failed) proc_exit(failed);
    print(bytes, count);
    failed = path_open(ROOT, 0, to, LENGTH, MAKE | CUT, WRITE, 0, 0, &target);
    if (failed) proc_exit(failed);
    piece.length = count;
    failed = fd_write(target, &piece, 1, &written);
    proc_exit(failed);
}

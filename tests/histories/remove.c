// Takes a file away, and prints what that comes to; takes another one away too, and ends with what that comes to.
#include "wasi.h"

void _start(void) {
    read_names();
    unsigned char first = path_unlink_file(ROOT, from, LENGTH);
    print(&first, 1);
    proc_exit(path_unlink_file(ROOT, to, LENGTH));
}

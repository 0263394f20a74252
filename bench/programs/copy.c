// Copies a file of any size into another one, in pieces of 4 KiB.
#define IMPORT(name) __attribute__((import_module("wasi_snapshot_preview1"), import_name(#name))) extern
typedef struct { void *at; unsigned length; } Piece;
IMPORT(path_open) int path_open(int directory, int flags, const char *name, unsigned length, int how,
    unsigned long long rights, unsigned long long inheriting, int descriptor_flags, int *opened);
IMPORT(fd_read) int fd_read(int descriptor, const Piece *pieces, unsigned count, unsigned *read);
IMPORT(fd_write) int fd_write(int descriptor, const Piece *pieces, unsigned count, unsigned *written);
IMPORT(proc_exit) _Noreturn void proc_exit(int code);

enum { ROOT = 3, MAKE = 1, CUT = 8, READ = 1 << 1, WRITE = 1 << 6 };
static char bytes[4096];

void _start(void) {
    int source, target, failed = path_open(ROOT, 0, "d/in", 4, 0, READ, 0, 0, &source);
    if (failed) proc_exit(failed);
    failed = path_open(ROOT, 0, "d/out", 5, MAKE | CUT, WRITE, 0, 0, &target);
    if (failed) proc_exit(failed);
    for (;;) {
        Piece piece = { bytes, sizeof bytes };
        unsigned count, written;
        failed = fd_read(source, &piece, 1, &count);
        if (failed) proc_exit(failed);
        if (count == 0) return;
        piece.length = count;
        failed = fd_write(target, &piece, 1, &written);
        if (failed) proc_exit(failed);
    }
}

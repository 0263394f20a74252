// The calls of WASI that these programs make, and what they share.
#define IMPORT(name) __attribute__((import_module("wasi_snapshot_preview1"), import_name(#name))) extern
typedef struct { const void *at; unsigned length; } Piece;
IMPORT(path_open) int path_open(int directory, int flags, const char *name, unsigned length, int how,
    unsigned long long rights, unsigned long long inheriting, int descriptor_flags, int *opened);
IMPORT(path_unlink_file) int path_unlink_file(int directory, const char *name, unsigned length);
IMPORT(path_filestat_get) int path_filestat_get(int directory, int flags, const char *name, unsigned length, void *out);
IMPORT(fd_read) int fd_read(int descriptor, const Piece *pieces, unsigned count, unsigned *read);
IMPORT(fd_write) int fd_write(int descriptor, const Piece *pieces, unsigned count, unsigned *written);
IMPORT(proc_exit) _Noreturn void proc_exit(int code);

enum { ROOT = 3, MAKE = 1, CUT = 8, READ = 1 << 1, WRITE = 1 << 6, LENGTH = 3 };

// The names of the files that a program works on, of three bytes each. The test writes others in their places.
static volatile char FROM[LENGTH + 1] = "@@1", TO[LENGTH + 1] = "@@2";
static char from[LENGTH], to[LENGTH];

static void read_names(void) {
    for (int at = 0; at < LENGTH; at++) from[at] = FROM[at], to[at] = TO[at];
}

__attribute__((unused)) static void print(const void *at, unsigned length) {
    Piece piece = { at, length };
    unsigned written;
    int failed = fd_write(1, &piece, 1, &written);
    if (failed) proc_exit(failed);
}

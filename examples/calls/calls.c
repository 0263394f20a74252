// Makes calls of the C library one after the other, and prints what each of them gives.
#include <dirent.h>
#include <errno.h>
#include <fcntl.h>
#include <poll.h>
#include <sched.h>
#include <stdio.h>
#include <stdlib.h>
#include <sys/random.h>
#include <sys/stat.h>
#include <sys/time.h>
#include <time.h>
#include <unistd.h>

static char bytes[64];
static struct stat told;
static struct timespec moment;
static struct timeval instant;
static void *volatile block; // so that the compiler doesn't leave an allocation out

static const char *error_name(int number) {
    switch (number) {
    case EBADF: return "EBADF";
    case EEXIST: return "EEXIST";
    case EFBIG: return "EFBIG";
    case EINVAL: return "EINVAL";
    case ENOENT: return "ENOENT";
    case ENOMEM: return "ENOMEM";
    case ENOSYS: return "ENOSYS";
    case ENOTSUP: return "ENOTSUP";
    case ENOTCAPABLE: return "ENOTCAPABLE";
    default: return "an error";
    }
}

static void tell_number(const char *call, long result) {
    if (result < 0)
        printf("%-47s %s (%d)\n", call, error_name(errno), errno);
    else
        printf("%-47s %ld\n", call, result);
}

static void tell_pointer(const char *call, const void *result) {
    if (!result && errno)
        printf("%-47s %s (%d)\n", call, error_name(errno), errno);
    else
        printf("%-47s %s\n", call, result ? "a pointer" : "NULL");
}

#define NUMBER(call) (errno = 0, tell_number(#call, (long)(call)))
#define POINTER(call) (errno = 0, tell_pointer(#call, (call)))

static void read_files(void) {
    NUMBER(open("/data/in", O_RDONLY));
    NUMBER(read(4, bytes, 3));
    NUMBER(lseek(4, 0, SEEK_END));
    NUMBER(lseek(4, -9, SEEK_SET));
    NUMBER(write(4, "x", 1));
    NUMBER(fstat(4, &told));
    NUMBER(close(4));
    NUMBER(close(4));
    NUMBER(open("/data/none", O_RDONLY));
    NUMBER(open("/secret", O_RDONLY));
    NUMBER(open("a b", O_RDONLY));
    NUMBER(stat("/data/in", &told));
    NUMBER(stat("/data/none", &told));
    NUMBER(stat("/secret", &told));
    NUMBER(access("/data/in", R_OK));
}

static void write_files(void) {
    NUMBER(open("/data/in", O_WRONLY));
    NUMBER(write(4, "x", 1));
    NUMBER(close(4));
    NUMBER(open("/data/in", O_WRONLY | O_TRUNC));
    NUMBER(open("/data/new", O_WRONLY | O_CREAT, 0666));
    NUMBER(open("/out", O_RDWR | O_CREAT | O_TRUNC, 0666));
    NUMBER(write(4, "abcd", 4));
    NUMBER(lseek(4, 0, SEEK_SET));
    NUMBER(read(4, bytes, 9));
    NUMBER(ftruncate(4, 2));
    NUMBER(ftruncate(4, 16777217));
    NUMBER(fsync(4));
    NUMBER(close(4));
    NUMBER(open("/out", O_WRONLY | O_APPEND));
    NUMBER(write(4, "e", 1));
    NUMBER(lseek(4, 0, SEEK_CUR));
    NUMBER(open("/out", O_WRONLY | O_CREAT | O_EXCL, 0666));
    NUMBER(unlink("/out"));
    NUMBER(write(4, "f", 1));
    NUMBER(unlink("/data/in"));
    NUMBER(write(2, "dropped", 7));
}

static void use_folders(void) {
    POINTER(opendir("/"));
    POINTER(opendir("/data"));
    NUMBER(stat("/", &told));
    NUMBER(mkdir("/folder", 0777));
    NUMBER(rename("/data/in", "/out"));
    NUMBER(link("/data/in", "/out"));
    NUMBER(symlink("/data/in", "/out"));
    NUMBER(readlink("/data/in", bytes, sizeof bytes));
}

static void look_around(int count, char **words) {
    printf("%-47s %d, %s\n", "the arguments", count, words[0]);
    POINTER(getenv("HOME"));
    NUMBER(isatty(1));
    NUMBER(read(0, bytes, 9));
    NUMBER(time(NULL));
    NUMBER(clock_gettime(CLOCK_REALTIME, &moment));
    NUMBER(gettimeofday(&instant, NULL));
    NUMBER(usleep(1));
    NUMBER(getentropy(bytes, 8));
    NUMBER(rand());
    NUMBER(rand());
    NUMBER(sched_yield());
    NUMBER(poll(NULL, 0, 0));
    POINTER(block = malloc(1 << 20));
    POINTER(block = malloc(1 << 26));
}

int main(int count, char **words) {
    read_files();
    write_files();
    use_folders();
    look_around(count, words);
    return 7;
}

/* Lists and changes system calls of the program that it is loaded before.

   FAULT_FILE is a path as it stands on the command line. A call counts if it names this path, or a
   descriptor that was opened by it; `-` is the standard output. The calls are open, stat, lock,
   read, write, seek, sync and close; without FAULT_FILE none is counted. The calls `memory` are all
   requests for memory.

   FAULT_LIST is the path of a file, which receives a line for each counted call: its name, its
   number among the calls of this name from 1 on, an offset, a number of bytes, and the way in which
   it was changed. The offset is that of a read or a write in the file, -1 in a pipe, and else 0. The
   number of bytes is what a read, a write or a request for memory wants, and else 0.

   FAULTS is a list of changes, separated by commas. Each has a call, the number of the first and of
   the last call to be changed, and a way:

   NUMBER   the call does nothing, and fails with this error number
   short    the call moves half of its bytes, and at least one
   part     the same, but a call of at most 28 bytes, such as that of a header, moves all of them
   none     the call moves no byte, and does not fail
   other    the call `stat` returns another inode than the call before and after it
   kill     the program is killed before the call
   pause    the call waits before it begins until the file with the path FAULT_PAUSE is gone

   A request for memory is refused by any way. */
#define _GNU_SOURCE
#include <dlfcn.h>
#include <errno.h>
#include <fcntl.h>
#include <signal.h>
#include <stdarg.h>
#include <stdio.h>
#include <stdlib.h>
#include <string.h>
#include <sys/stat.h>
#include <sys/syscall.h>
#include <unistd.h>

#define DESCRIPTORS 1024
#define LIST 1000
#define HEADER 28

enum call { OPEN, STAT, LOCK, READ, WRITE, SEEK, SYNC, CLOSE, MEMORY, CALLS };

static const char *const names[CALLS] = {"open", "stat", "lock",  "read",  "write",
                                         "seek", "sync", "close", "memory"};

enum way { UNCHANGED, FAILS, SHORT, PART, NONE, OTHER };

static char is_file[DESCRIPTORS];
static long made[CALLS];
static int list = -1;

static int is_counted_path(const char *path) {
    const char *file = getenv("FAULT_FILE");
    return file && path && strcmp(path, file) == 0;
}

static int is_counted(int descriptor) {
    if (descriptor == STDOUT_FILENO && is_counted_path("-"))
        return 1;
    return descriptor >= 0 && descriptor < DESCRIPTORS && is_file[descriptor];
}

/* Returns the way of the first change of this call in FAULTS, or an empty text. */
static const char *way_of(enum call call, long number) {
    const char *rest = getenv("FAULTS");
    static char way[16];
    while (rest && *rest) {
        char name[16];
        long first, last;
        if (sscanf(rest, "%15s %ld %ld %15[^,]", name, &first, &last, way) == 4 &&
            strcmp(name, names[call]) == 0 && first <= number && number <= last)
            return way;
        rest = strchr(rest, ',');
        rest = rest ? rest + 1 : NULL;
    }
    return "";
}

/* Writes a line to FAULT_LIST, by system calls that this library does not change. */
static void write_line(enum call call, long number, long at, long bytes, const char *way) {
    const char *path = getenv("FAULT_LIST");
    char line[128];
    if (!path)
        return;
    if (list < 0) {
        int flags = O_WRONLY | O_CREAT | O_APPEND | O_CLOEXEC;
        int low = syscall(SYS_openat, AT_FDCWD, path, flags, 0666);
        list = syscall(SYS_fcntl, low, F_DUPFD_CLOEXEC, LIST);
        syscall(SYS_close, low);
    }
    int length = snprintf(line, sizeof line, "%s %ld %ld %ld %s\n", names[call], number, at, bytes,
                          way);
    syscall(SYS_write, list, line, length);
}

/* Counts a call for bytes at an offset, and returns in which way it is changed, after it has waited
   or killed. */
static enum way count_at(enum call call, long at, long bytes) {
    long number = ++made[call];
    const char *way = way_of(call, number);
    write_line(call, number, at, bytes, way);
    if (strcmp(way, "kill") == 0)
        kill(getpid(), SIGKILL);
    if (strcmp(way, "pause") == 0)
        while (syscall(SYS_faccessat, AT_FDCWD, getenv("FAULT_PAUSE"), F_OK) == 0)
            usleep(1000);
    if (strcmp(way, "short") == 0)
        return SHORT;
    if (strcmp(way, "part") == 0)
        return PART;
    if (strcmp(way, "none") == 0)
        return NONE;
    if (strcmp(way, "other") == 0)
        return OTHER;
    if (way[0] < '0' || way[0] > '9')
        return UNCHANGED;
    errno = atoi(way);
    return FAILS;
}

/* Counts a call without bytes. */
static enum way count(enum call call) { return count_at(call, 0, 0); }

/* Returns the offset at which the next read or write of a descriptor begins. */
static long place(int descriptor) { return syscall(SYS_lseek, descriptor, 0, SEEK_CUR); }

/* Counts a call that moves bytes, and reduces their number. Returns 0 if the call fails. */
static int count_bytes(enum call call, int descriptor, size_t *bytes, long at) {
    if (!is_counted(descriptor))
        return 1;
    switch (count_at(call, at, *bytes)) {
    case FAILS:
        return 0;
    case SHORT:
        *bytes = *bytes > 1 ? *bytes / 2 : *bytes;
        return 1;
    case PART:
        *bytes = *bytes > HEADER ? *bytes / 2 : *bytes;
        return 1;
    case NONE:
        *bytes = 0;
        return 1;
    default:
        return 1;
    }
}

static int opened(const char *path, int descriptor) {
    if (is_counted_path(path) && descriptor >= 0 && descriptor < DESCRIPTORS)
        is_file[descriptor] = 1;
    return descriptor;
}

#define OPENS(name, parameters, arguments)                                                         \
    int name parameters {                                                                          \
        int (*next) parameters = dlsym(RTLD_NEXT, #name);                                          \
        mode_t mode = 0;                                                                           \
        if (flags & O_CREAT) {                                                                     \
            va_list more;                                                                          \
            va_start(more, flags);                                                                 \
            mode = va_arg(more, mode_t);                                                           \
            va_end(more);                                                                          \
        }                                                                                          \
        if (is_counted_path(path) && count(OPEN) == FAILS)                                         \
            return -1;                                                                             \
        return opened(path, next arguments);                                                       \
    }

OPENS(open, (const char *path, int flags, ...), (path, flags, mode))
OPENS(open64, (const char *path, int flags, ...), (path, flags, mode))
OPENS(openat, (int folder, const char *path, int flags, ...), (folder, path, flags, mode))
OPENS(openat64, (int folder, const char *path, int flags, ...), (folder, path, flags, mode))

int close(int descriptor) {
    int (*next)(int) = dlsym(RTLD_NEXT, "close");
    if (is_counted(descriptor)) {
        count(CLOSE);
        is_file[descriptor] = 0;
    }
    return next(descriptor);
}

int statx(int folder, const char *path, int flags, unsigned mask, struct statx *found) {
    int (*next)(int, const char *, int, unsigned, struct statx *) = dlsym(RTLD_NEXT, "statx");
    int counts = path[0] ? is_counted_path(path) : is_counted(folder);
    enum way way = counts ? count(STAT) : UNCHANGED;
    if (way == FAILS)
        return -1;
    int result = next(folder, path, flags, mask, found);
    if (way == OTHER)
        found->stx_ino += made[STAT];
    return result;
}

int flock(int descriptor, int how) {
    int (*next)(int, int) = dlsym(RTLD_NEXT, "flock");
    if (is_counted(descriptor) && count(LOCK) == FAILS)
        return -1;
    return next(descriptor, how);
}

#define SEEKS(name, number)                                                                        \
    number name(int descriptor, number at, int from) {                                             \
        number (*next)(int, number, int) = dlsym(RTLD_NEXT, #name);                                \
        if (is_counted(descriptor) && count(SEEK) == FAILS)                                        \
            return -1;                                                                             \
        return next(descriptor, at, from);                                                         \
    }

SEEKS(lseek, off_t)
SEEKS(lseek64, off64_t)

#define SYNCS(name)                                                                                \
    int name(int descriptor) {                                                                     \
        int (*next)(int) = dlsym(RTLD_NEXT, #name);                                                \
        if (is_counted(descriptor) && count(SYNC) == FAILS)                                        \
            return -1;                                                                             \
        return next(descriptor);                                                                   \
    }

SYNCS(fsync)
SYNCS(fdatasync)

#define MOVES(call, name, parameters, arguments, place)                                            \
    ssize_t name parameters {                                                                      \
        ssize_t(*next) parameters = dlsym(RTLD_NEXT, #name);                                       \
        if (!count_bytes(call, file, &bytes, place))                                               \
            return -1;                                                                             \
        return next arguments;                                                                     \
    }

MOVES(READ, read, (int file, void *out, size_t bytes), (file, out, bytes), place(file))
MOVES(READ, pread, (int file, void *out, size_t bytes, off_t at), (file, out, bytes, at), at)
MOVES(READ, pread64, (int file, void *out, size_t bytes, off64_t at), (file, out, bytes, at), at)
MOVES(WRITE, write, (int file, const void *from, size_t bytes), (file, from, bytes), place(file))
MOVES(WRITE, pwrite, (int file, const void *from, size_t bytes, off_t at), (file, from, bytes, at),
      at)
MOVES(WRITE, pwrite64, (int file, const void *from, size_t bytes, off64_t at),
      (file, from, bytes, at), at)

void *__libc_malloc(size_t size);
void *__libc_realloc(void *old, size_t size);
void *__libc_calloc(size_t count, size_t size);

/* Counts a request for memory, if there is a list of changes with the word `memory`. */
static int is_refused(size_t size) {
    static int asked = -1;
    if (asked < 0) {
        const char *faults = getenv("FAULTS");
        asked = faults && strstr(faults, "memory") != NULL;
    }
    if (!asked)
        return 0;
    long number = ++made[MEMORY];
    const char *way = way_of(MEMORY, number);
    if (!way[0])
        return 0;
    write_line(MEMORY, number, 0, size, way);
    errno = ENOMEM;
    return 1;
}

void *malloc(size_t size) { return is_refused(size) ? NULL : __libc_malloc(size); }

void *realloc(void *old, size_t size) {
    return is_refused(size) ? NULL : __libc_realloc(old, size);
}

void *calloc(size_t number, size_t size) {
    return is_refused(number * size) ? NULL : __libc_calloc(number, size);
}

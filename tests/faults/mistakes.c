/* Makes one mistake, which the variable FAULT names, in the program that it is loaded before.

   tests/mutant_lists/wrappers.py lists the mistakes with the tests that must notice them. The
   program with the mistake

   unlocked     takes no lock
   exclusive    takes an exclusive lock instead of a shared one
   shared       takes a shared lock instead of an exclusive one
   brief        releases its lock at once
   kept         keeps its lock until it ends
   inherited    leaves its lock to a process that outlives it
   demanding    refuses a file system without locks
   first        works on the file that it has opened before it waited
   once         checks only once whether the file was replaced
   block        loses the first block of 65536 bytes that it writes
   refusing     takes an interrupted call for a fault
   blind        takes an interrupted read for one that has read all bytes
   losing       takes an interrupted write for one that has written all bytes
   stubborn     repeats an interrupted read or write of a file without end
   hasty        takes a write of some bytes for one of all bytes
   unreserved   does not write a header again that is already there
   careless     ignores that a device has not stored the written bytes */
#define _GNU_SOURCE
#include <dlfcn.h>
#include <errno.h>
#include <stdlib.h>
#include <string.h>
#include <sys/file.h>
#include <sys/stat.h>
#include <unistd.h>

#define BLOCK 65536
#define HEADER 28

static int locked = -1;

static int is(const char *mistake) {
    const char *made = getenv("FAULT");
    return made && strcmp(made, mistake) == 0;
}

static int next_close(int file) {
    int (*next)(int) = dlsym(RTLD_NEXT, "close");
    return next(file);
}

int flock(int file, int how) {
    int (*next)(int, int) = dlsym(RTLD_NEXT, "flock");
    if (is("unlocked") || (is("kept") && how == LOCK_UN))
        return 0;
    if (how == LOCK_UN)
        return next(file, how);
    locked = file;
    if (is("exclusive") && how == LOCK_SH)
        how = LOCK_EX;
    if (is("shared") && how == LOCK_EX)
        how = LOCK_SH;
    int result = next(file, how);
    if (is("brief"))
        next(file, LOCK_UN);
    if (is("inherited") && fork() == 0) {
        for (int standard = 0; standard <= 2; standard++)
            next_close(standard);
        sleep(60);
        _exit(0);
    }
    int has_no_locks = errno == ENOLCK || errno == EOPNOTSUPP;
    if (result < 0 && is("demanding") && has_no_locks)
        errno = EIO;
    if (result < 0 && is("refusing") && errno == EINTR)
        errno = EIO;
    return result;
}

int statx(int folder, const char *path, int flags, unsigned mask, struct statx *found) {
    int (*next)(int, const char *, int, unsigned, struct statx *) = dlsym(RTLD_NEXT, "statx");
    static int checks;
    int is_after_lock = path[0] && locked >= 0;
    if (is_after_lock && (is("first") || (is("once") && checks++ > 0)))
        return next(locked, "", AT_EMPTY_PATH, mask, found);
    return next(folder, path, flags, mask, found);
}

int close(int file) { return is("kept") && file == locked ? 0 : next_close(file); }

int fdatasync(int file) {
    int (*next)(int) = dlsym(RTLD_NEXT, "fdatasync");
    int result = next(file);
    return is("careless") ? 0 : result;
}

/* Returns the result of a call as the program sees it. With the mistake `lost` an interrupted call
   has moved all bytes. */
static ssize_t seen(ssize_t moved, size_t count, const char *lost) {
    if (moved >= 0 || errno != EINTR)
        return moved;
    if (is(lost))
        return (ssize_t)count;
    if (is("refusing"))
        errno = EIO;
    return moved;
}

static int is_repeated(ssize_t moved) { return moved < 0 && errno == EINTR && is("stubborn"); }

ssize_t read(int file, void *bytes, size_t count) {
    ssize_t (*next)(int, void *, size_t) = dlsym(RTLD_NEXT, "read");
    ssize_t moved;
    do
        moved = next(file, bytes, count);
    while (is_repeated(moved));
    return seen(moved, count, "blind");
}

static ssize_t read_at(const char *name, int file, void *bytes, size_t count, off_t at) {
    ssize_t (*next)(int, void *, size_t, off_t) = dlsym(RTLD_NEXT, name);
    ssize_t moved;
    do
        moved = next(file, bytes, count, at);
    while (is_repeated(moved));
    return seen(moved, count, "blind");
}

ssize_t pread(int file, void *bytes, size_t count, off_t at) {
    return read_at("pread", file, bytes, count, at);
}

ssize_t pread64(int file, void *bytes, size_t count, off_t at) {
    return read_at("pread64", file, bytes, count, at);
}

ssize_t write(int file, const void *bytes, size_t count) {
    ssize_t (*next)(int, const void *, size_t) = dlsym(RTLD_NEXT, "write");
    static int blocks;
    if (is("block") && count == BLOCK && blocks++ == 0)
        return (ssize_t)count;
    ssize_t moved = next(file, bytes, count);
    if (is("hasty") && moved > 0)
        return (ssize_t)count;
    return seen(moved, count, "losing");
}

/* Returns whether the file has these bytes of a header at a position already. */
static int has_header(int file, const void *bytes, size_t count, off_t at) {
    char there[HEADER];
    return count == HEADER && pread(file, there, HEADER, at) == HEADER &&
           memcmp(there, bytes, HEADER) == 0;
}

static ssize_t write_at(const char *name, int file, const void *bytes, size_t count, off_t at) {
    ssize_t (*next)(int, const void *, size_t, off_t) = dlsym(RTLD_NEXT, name);
    static int writes;
    ssize_t moved;
    if (is("unreserved") && has_header(file, bytes, count, at))
        return HEADER;
    if ((is("unlocked") || is("shared")) && writes++ == 0)
        usleep(5000); /* so that others read the bytes that it is about to change */
    do
        moved = next(file, bytes, count, at);
    while (is_repeated(moved));
    if (is("hasty") && moved > 0)
        return (ssize_t)count;
    return seen(moved, count, "losing");
}

ssize_t pwrite(int file, const void *bytes, size_t count, off_t at) {
    return write_at("pwrite", file, bytes, count, at);
}

ssize_t pwrite64(int file, const void *bytes, size_t count, off_t at) {
    return write_at("pwrite64", file, bytes, count, at);
}

// Stands before the system's calls on files, writes each into the file that CALLS names, a line a call with the name of the file,
// and has one of them fail as a broken disk does, or the process killed before it: that of the number in FAILED or KILLED, from 1.
#define _GNU_SOURCE
#include <dlfcn.h>
#include <errno.h>
#include <fcntl.h>
#include <signal.h>
#include <stdarg.h>
#include <stdio.h>
#include <stdlib.h>
#include <string.h>
#include <sys/file.h>
#include <sys/stat.h>
#include <sys/types.h>

#define MOST 64
static char names[MOST][300] = {"standard input", "standard output", "standard error"};
static unsigned long calls, failed, killed;
static FILE *told;

static unsigned long number_in(const char *variable) {
    const char *number = getenv(variable);
    return number ? strtoul(number, 0, 10) : 0;
}

// Notes a call, and says whether it fails.
static int fails(const char *what, const char *name, const char *more) {
    if (!told) {
        const char *to = getenv("CALLS");
        failed = number_in("FAILED");
        killed = number_in("KILLED");
        told = fopen(to ? to : "/dev/null", "we");
    }
    fprintf(told, "%s %s%s%s\n", what, name, *more ? " " : "", more);
    fflush(told);
    if (++calls == killed) raise(SIGKILL);
    if (calls != failed) return 0;
    errno = EIO;
    return 1;
}

static const char *name_of(int file) { return file >= 0 && file < MOST ? names[file] : "?"; }

// How a file is opened: one that is made must not have been there.
static const char *opening(int flags) {
    if ((flags & O_ACCMODE) == O_RDONLY) return "read";
    return flags & O_EXCL ? "create" : "overwrite";
}

// The system's own call of a name.
#define NEXT(name) __typeof__(name) *next = dlsym(RTLD_NEXT, #name)

int open(const char *path, int flags, ...) {
    NEXT(open);
    va_list rest;
    va_start(rest, flags);
    mode_t mode = flags & (O_CREAT | O_TMPFILE) ? va_arg(rest, mode_t) : 0;
    va_end(rest);
    if (fails(opening(flags), path, "")) return -1;
    int file = next(path, flags, mode);
    if (file >= 0 && file < MOST) snprintf(names[file], sizeof names[file], "%s", path);
    return file;
}

ssize_t write(int file, const void *bytes, size_t size) {
    NEXT(write);
    return fails("write", name_of(file), "") ? -1 : next(file, bytes, size);
}

int fsync(int file) {
    NEXT(fsync);
    return fails("sync", name_of(file), "") ? -1 : next(file);
}

int rename(const char *old, const char *new) {
    NEXT(rename);
    return fails("rename", old, new) ? -1 : next(old, new);
}

int unlink(const char *path) {
    NEXT(unlink);
    return fails("remove", path, "") ? -1 : next(path);
}

int flock(int file, int how) {
    NEXT(flock);
    return fails(how & LOCK_NB ? "trylock" : "lock", name_of(file), "") ? -1 : next(file, how);
}

int statx(int folder, const char *restrict path, int flags, unsigned mask, struct statx *restrict state) {
    NEXT(statx);
    return fails("state", *path ? path : name_of(folder), "") ? -1 : next(folder, path, flags, mask, state);
}

ssize_t readlink(const char *restrict path, char *restrict text, size_t size) {
    NEXT(readlink);
    return fails("follow", path, "") ? -1 : next(path, text, size);
}

int fchown(int file, uid_t user, gid_t group) {
    NEXT(fchown);
    return fails("owner", name_of(file), "") ? -1 : next(file, user, group);
}

int fchmod(int file, mode_t mode) {
    NEXT(fchmod);
    return fails("rights", name_of(file), "") ? -1 : next(file, mode);
}

/* Kills a program at a system call, or makes calls fail. Preloaded, it counts the calls that make and change files,
 * from 1. Before call STOP_AT the program is killed. The calls named in FAIL_CALL, a list separated by commas, fail
 * with the error number FAIL_ERROR: all of them, or only the one with number FAIL_AT among them, if set. The file that
 * FAIL_MARK names is created when one fails, and the number of calls is written to the file that COUNTED names at the
 * end. All other calls go to the C library. */
#define _GNU_SOURCE
#include <dlfcn.h>
#include <errno.h>
#include <fcntl.h>
#include <signal.h>
#include <stdarg.h>
#include <stdio.h>
#include <stdlib.h>
#include <string.h>
#include <sys/stat.h>
#include <sys/types.h>
#include <unistd.h>

/* The number of calls that change files so far, and of calls that FAIL_CALL names. */
static unsigned long counted;
static unsigned long named;

static unsigned long number_of(const char *name) {
    const char *text = getenv(name);
    return text ? strtoul(text, NULL, 10) : 0;
}

static void *next(const char *name) { return dlsym(RTLD_NEXT, name); }

/* Returns whether FAIL_CALL names this call. */
static int is_named(const char *call) {
    const char *list = getenv("FAIL_CALL");
    size_t length = strlen(call);
    while (list) {
        if (strncmp(list, call, length) == 0 && (list[length] == ',' || list[length] == 0))
            return 1;
        list = strchr(list, ',');
        list = list ? list + 1 : NULL;
    }
    return 0;
}

static void leave_mark(void) {
    const char *name = getenv("FAIL_MARK");
    FILE *file = name ? fopen(name, "w") : NULL;
    if (file)
        fclose(file);
}

/* Returns whether a call must fail. */
static int fails(const char *call) {
    if (!is_named(call))
        return 0;
    named++;
    if (getenv("FAIL_AT") && named != number_of("FAIL_AT"))
        return 0;
    leave_mark();
    errno = (int)number_of("FAIL_ERROR");
    return 1;
}

/* Counts a call that changes files, and kills the program at STOP_AT. Returns whether the call must fail. */
static int changing_fails(const char *call) {
    if (++counted == number_of("STOP_AT"))
        kill(getpid(), SIGKILL);
    return fails(call);
}

static int is_folder(int file) {
    struct stat found;
    return fstat(file, &found) == 0 && S_ISDIR(found.st_mode);
}

__attribute__((destructor)) static void end(void) {
    const char *name = getenv("COUNTED");
    FILE *file = name ? fopen(name, "w") : NULL;
    if (file) {
        fprintf(file, "%lu\n", counted);
        fclose(file);
    }
}

/* Returns whether opening a file for writing, or a folder, must fail. */
static int opening_fails(const char *path, int flags) {
    struct stat found;
    if (flags & (O_WRONLY | O_RDWR))
        return changing_fails(flags & O_EXCL ? "create" : "open");
    return stat(path, &found) == 0 && S_ISDIR(found.st_mode) && fails("open-folder");
}

int open(const char *path, int flags, ...) {
    va_list more;
    va_start(more, flags);
    int mode = flags & O_CREAT ? va_arg(more, int) : 0;
    va_end(more);
    if (opening_fails(path, flags))
        return -1;
    return ((int (*)(const char *, int, ...))next("open"))(path, flags, mode);
}

ssize_t write(int file, const void *bytes, size_t count) {
    if (file > 2 && changing_fails("write"))
        return -1;
    return ((ssize_t (*)(int, const void *, size_t))next("write"))(file, bytes, count);
}

int fsync(int file) {
    if (changing_fails(is_folder(file) ? "fsync-folder" : "fsync"))
        return -1;
    return ((int (*)(int))next("fsync"))(file);
}

int fdatasync(int file) {
    if (changing_fails("fdatasync"))
        return -1;
    return ((int (*)(int))next("fdatasync"))(file);
}

/* The file is closed even if the call must fail. */
int close(int file) {
    int answer = ((int (*)(int))next("close"))(file);
    return fails("close") ? -1 : answer;
}

int fchmod(int file, mode_t mode) {
    if (changing_fails("fchmod"))
        return -1;
    return ((int (*)(int, mode_t))next("fchmod"))(file, mode);
}

int chown(const char *path, uid_t owner, gid_t group) {
    if (changing_fails("chown"))
        return -1;
    return ((int (*)(const char *, uid_t, gid_t))next("chown"))(path, owner, group);
}

int ftruncate(int file, off_t length) {
    if (changing_fails("ftruncate"))
        return -1;
    return ((int (*)(int, off_t))next("ftruncate"))(file, length);
}

int link(const char *from, const char *to) {
    if (changing_fails("link"))
        return -1;
    return ((int (*)(const char *, const char *))next("link"))(from, to);
}

int rename(const char *from, const char *to) {
    if (changing_fails("rename"))
        return -1;
    return ((int (*)(const char *, const char *))next("rename"))(from, to);
}

int unlink(const char *path) {
    if (changing_fails("unlink"))
        return -1;
    return ((int (*)(const char *))next("unlink"))(path);
}

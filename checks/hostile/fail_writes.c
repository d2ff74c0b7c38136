/* Makes writes of a program fail. Preloaded, it counts the calls of `write` to files that the program opened, from 1:
 *   FAILED_WRITE=K   call K and all later ones fail;
 *   EMPTY_WRITE=K    call K and all later ones accept no byte;
 *   SHORT_WRITES=N   each call accepts at most N bytes.
 * The first call that fails makes the file that FAILED_MARK names, with the number of bytes that its file has so far. The
 * standard streams are left alone, but standard output counts as a file if FAILED_OUTPUT is set. */
#include <errno.h>
#include <fcntl.h>
#include <stdio.h>
#include <stdlib.h>
#include <sys/syscall.h>
#include <unistd.h>

static long counted;

static long number_of(const char *name) {
    const char *number = getenv(name);
    return number ? strtol(number, NULL, 10) : 0;
}

static ssize_t through(int file, const void *bytes, size_t count) {
    return syscall(SYS_write, file, bytes, count);
}

static void leave_mark(int file) {
    const char *name = getenv("FAILED_MARK");
    int mark = name ? open(name, O_WRONLY | O_CREAT | O_EXCL, 0644) : -1;
    if (mark < 0)
        return;
    char text[32];
    int length = snprintf(text, sizeof text, "%ld", (long)lseek(file, 0, SEEK_CUR));
    through(mark, text, (size_t)length);
    close(mark);
}

/* Returns whether a variable is set and this call has its number or a later one. */
static int goes_wrong(const char *name, int file) {
    long first = number_of(name);
    if (first == 0 || counted < first)
        return 0;
    leave_mark(file);
    return 1;
}

ssize_t write(int file, const void *bytes, size_t count) {
    if (file == 0 || file == 2 || (file == 1 && !getenv("FAILED_OUTPUT")))
        return through(file, bytes, count);
    counted++;
    if (goes_wrong("FAILED_WRITE", file)) {
        errno = ENOSPC;
        return -1;
    }
    if (goes_wrong("EMPTY_WRITE", file))
        return 0;
    long most = number_of("SHORT_WRITES");
    return through(file, bytes, most > 0 && count > (size_t)most ? (size_t)most : count);
}

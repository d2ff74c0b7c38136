/* Makes an allocation of a program fail. Preloaded, it lets the allocation with the number FAILED_ALLOCATION, counted
 * from 1, fail and creates the file that FAILED_MARK names. All other calls go to the C library, except requests for
 * 2^62 bytes or more, which fail and are not counted.
 *
 * If FAILED_SECTION names a file, all allocations in a section of the program fail: a request for 2^62 bytes begins the
 * section, and the next one ends it and creates that file. An allocation in the section creates the file of
 * FAILED_MARK. */
#include <errno.h>
#include <fcntl.h>
#include <stddef.h>
#include <stdlib.h>
#include <unistd.h>

void *__libc_malloc(size_t size);
void *__libc_calloc(size_t count, size_t size);
void *__libc_realloc(void *old, size_t size);
void *__libc_memalign(size_t align, size_t size);

/* More bytes than any machine has. */
static const size_t boundary = (size_t)1 << 62;

static unsigned long failing;
static unsigned long counted;
static int is_in_section;

__attribute__((constructor)) static void begin(void) {
    const char *number = getenv("FAILED_ALLOCATION");
    failing = number ? strtoul(number, NULL, 10) : 0;
    counted = 0;
}

/* Creates the file that an environment variable names, if it is set. */
static void create(const char *variable) {
    const char *file = getenv(variable);
    if (file)
        close(open(file, O_WRONLY | O_CREAT, 0644));
}

static int must_fail(size_t size) {
    if (size >= boundary) {
        if (is_in_section)
            create("FAILED_SECTION");
        is_in_section = !is_in_section && getenv("FAILED_SECTION");
    } else if (is_in_section || (failing != 0 && ++counted == failing)) {
        create("FAILED_MARK");
    } else {
        return 0;
    }
    errno = ENOMEM;
    return 1;
}

void *malloc(size_t size) { return must_fail(size) ? NULL : __libc_malloc(size); }

void *calloc(size_t count, size_t size) { return must_fail(size) ? NULL : __libc_calloc(count, size); }

void *realloc(void *old, size_t size) { return must_fail(size) ? NULL : __libc_realloc(old, size); }

void *memalign(size_t align, size_t size) { return must_fail(size) ? NULL : __libc_memalign(align, size); }

void *aligned_alloc(size_t align, size_t size) { return memalign(align, size); }

int posix_memalign(void **made, size_t align, size_t size) {
    void *memory = memalign(align, size);
    if (!memory)
        return ENOMEM;
    *made = memory;
    return 0;
}

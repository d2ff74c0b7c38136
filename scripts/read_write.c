/*
 * Reads and writes a file as `sfbank canon` does but without a bank, for comparison in scripts/bench: reads the whole
 * file into memory, and writes it in one call.
 *
 *   read_write IN OUT
 *   read_write IN          only reads
 *   read_write -z IN       only reads, in pieces that are filled with zeros before, as sfbank must
 */
#include <fcntl.h>
#include <stdio.h>
#include <stdlib.h>
#include <string.h>
#include <sys/stat.h>
#include <unistd.h>

/* The number of bytes that sfbank reads in one call. */
#define PIECE 262144

static void fail(const char *what)
{
    perror(what);
    exit(1);
}

/* Reads a whole file, and returns its length. */
static size_t read_file(const char *path, int zeros, char **bytes)
{
    struct stat about;
    int in = open(path, O_RDONLY);
    if (in < 0 || fstat(in, &about) < 0)
        fail(path);

    /* Requests one byte more than the file has, so that its end is noticed. */
    size_t room = (size_t)about.st_size + 1, at = 0;
    *bytes = malloc(room);
    if (*bytes == NULL)
        fail("malloc");
    for (;;) {
        size_t most = zeros && room - at > PIECE ? PIECE : room - at;
        if (zeros)
            memset(*bytes + at, 0, most);
        ssize_t count = read(in, *bytes + at, most);
        if (count < 0)
            fail(path);
        if (count == 0)
            return at;
        at += (size_t)count;
    }
}

static void write_file(const char *path, const char *bytes, size_t size)
{
    int out = open(path, O_WRONLY | O_CREAT | O_TRUNC, 0666);
    if (out < 0)
        fail(path);
    for (size_t at = 0; at < size;) {
        ssize_t count = write(out, bytes + at, size - at);
        if (count <= 0)
            fail(path);
        at += (size_t)count;
    }
}

int main(int argc, char **argv)
{
    int zeros = argc == 3 && strcmp(argv[1], "-z") == 0;
    if (argc != 2 && argc != 3) {
        fprintf(stderr, "usage: read_write IN [OUT] | -z IN\n");
        return 1;
    }
    char *bytes;
    size_t size = read_file(argv[1 + zeros], zeros, &bytes);
    if (argc == 3 && !zeros)
        write_file(argv[2], bytes, size);
    return 0;
}

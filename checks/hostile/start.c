/* Starts programs for a check that makes thousands of runs: a fork of Perl copies its page tables, which costs more
 * than the run itself. A request on standard input is a number of bytes, and then so many bytes: words that each end
 * with a zero byte. They are the program; the files of its standard input, output and error; environment variables
 * NAME=VALUE; an empty word; and the arguments. The answer on standard output is the `wait` status of the run and its
 * processor time in microseconds. A run is killed after two minutes. */
#define _GNU_SOURCE
#include <fcntl.h>
#include <signal.h>
#include <spawn.h>
#include <stdint.h>
#include <stdlib.h>
#include <string.h>
#include <sys/resource.h>
#include <sys/wait.h>
#include <unistd.h>

enum { LONGEST_RUN = 120, COULD_NOT_START = 127 << 8 };

static pid_t child;

static void kill_child(int signal) {
    (void)signal;
    kill(child, SIGKILL);
}

static int read_all(int file, void *bytes, size_t count) {
    for (size_t done = 0; done < count;) {
        ssize_t more = read(file, (char *)bytes + done, count - done);
        if (more <= 0)
            return 0;
        done += (size_t)more;
    }
    return 1;
}

/* The words of a request, then NULL. */
static char **words_of(char *bytes, size_t length) {
    size_t count = 0;
    char **words = malloc((length + 1) * sizeof *words);
    for (size_t at = 0; at < length; at += strlen(bytes + at) + 1)
        words[count++] = bytes + at;
    words[count] = NULL;
    return words;
}

/* Returns whether one of `count` settings has the same name. */
static int is_set(char **settings, size_t count, const char *variable) {
    size_t name = strcspn(variable, "=") + 1;
    for (size_t i = 0; i < count; i++)
        if (strncmp(settings[i], variable, name) == 0)
            return 1;
    return 0;
}

/* The environment of a run: `count` settings, and the other variables of this process. */
static char **environment_of(char **settings, size_t count) {
    size_t others = 0, all = count;
    while (environ[others])
        others++;
    char **variables = malloc((count + others + 1) * sizeof *variables);
    memcpy(variables, settings, count * sizeof *settings);
    for (size_t i = 0; i < others; i++)
        if (!is_set(settings, count, environ[i]))
            variables[all++] = environ[i];
    variables[all] = NULL;
    return variables;
}

static int start(char **words) {
    posix_spawn_file_actions_t files;
    size_t settings = 0;
    while (words[4 + settings][0])
        settings++;
    posix_spawn_file_actions_init(&files);
    posix_spawn_file_actions_addopen(&files, 0, words[1], O_RDONLY, 0);
    posix_spawn_file_actions_addopen(&files, 1, words[2], O_WRONLY | O_CREAT | O_TRUNC, 0666);
    posix_spawn_file_actions_addopen(&files, 2, words[3], O_WRONLY | O_CREAT | O_TRUNC, 0666);
    char **variables = environment_of(words + 4, settings);
    int error = posix_spawn(&child, words[0], &files, NULL, words + 5 + settings, variables);
    free(variables);
    posix_spawn_file_actions_destroy(&files);
    return error == 0;
}

/* Waits for the child, and returns its status and its processor time in microseconds. */
static void wait_for_child(int32_t answer[2]) {
    struct rusage used;
    int status = 0;
    alarm(LONGEST_RUN);
    while (wait4(child, &status, 0, &used) != child)
        ;
    alarm(0);
    answer[0] = status;
    answer[1] = (int32_t)((used.ru_utime.tv_sec + used.ru_stime.tv_sec) * 1000000 + used.ru_utime.tv_usec + used.ru_stime.tv_usec);
}

int main(void) {
    int requests = fcntl(0, F_DUPFD_CLOEXEC, 3), answers = fcntl(1, F_DUPFD_CLOEXEC, 3);
    struct sigaction killing = {.sa_handler = kill_child};
    sigaction(SIGALRM, &killing, NULL);
    uint32_t length;
    while (read_all(requests, &length, sizeof length)) {
        char *bytes = malloc(length);
        int32_t answer[2] = {COULD_NOT_START, 0};
        if (!read_all(requests, bytes, length))
            return 1;
        char **words = words_of(bytes, length);
        if (start(words))
            wait_for_child(answer);
        if (write(answers, answer, sizeof answer) != sizeof answer)
            return 1;
        free(words);
        free(bytes);
    }
    return 0;
}

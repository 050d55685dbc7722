// Refuses each request for memory of the program that this is loaded into, in a copy of the program: at a request the program is copied
// as it stands, the copy is refused and goes on, and the program waits for it. So all that the program did before is done once, and not
// once for each request. What the copy came to is added to the file OUTCOMES as a line: its status (or the signal that ended
// it), what it printed and what it said, each newline as '|'. The copies share the places in files that are open: one that reads on in them would
// change what the program itself prints.

#define _GNU_SOURCE
#include <fcntl.h>
#include <stddef.h>
#include <stdio.h>
#include <stdlib.h>
#include <sys/mman.h>
#include <sys/wait.h>
#include <unistd.h>

#define SECONDS 20
#define LONGEST 4096

extern void *__libc_malloc(size_t size);
extern void *__libc_realloc(void *block, size_t size);

static int outcomes = -1;
static int output;
static int errors;

__attribute__((constructor)) static void begin(void)
{
    output = memfd_create("output", 0);
    errors = memfd_create("errors", 0);
    outcomes = open(getenv("OUTCOMES"), O_CREAT | O_WRONLY | O_APPEND, 0600);
    if (output < 0 || errors < 0 || outcomes < 0)
        _exit(100);
}

static void empty(int file)
{
    if (ftruncate(file, 0) != 0 || lseek(file, 0, SEEK_SET) != 0)
        _exit(100);
}

// Adds what a file holds to a line, which has room for it.
static size_t add_text(char *line, size_t length, int file)
{
    ssize_t count = pread(file, line + length, LONGEST, 0);
    for (ssize_t i = 0; i < count; i++)
        if (line[length + i] == '\n')
            line[length + i] = '|';
    return length + (count > 0 ? count : 0);
}

static void tell(int status)
{
    char line[2 * LONGEST + 100];
    size_t length = WIFEXITED(status) ? sprintf(line, "status %d, output: ", WEXITSTATUS(status))
                                      : sprintf(line, "signal %d, output: ", WTERMSIG(status));
    length = add_text(line, length, output);
    length += sprintf(line + length, ", errors: ");
    length = add_text(line, length, errors);
    line[length++] = '\n';
    if (write(outcomes, line, length) != (ssize_t)length)
        _exit(100);
}

// Opens the files that are open anew, at the same places: those of the program and those of its copy go on apart.
static void open_anew(void)
{
    for (int file = 3; file < 64; file++) {
        char link[40];
        char path[LONGEST];
        off_t place = lseek(file, 0, SEEK_CUR);
        if (place < 0 || file == output || file == errors)
            continue;
        sprintf(link, "/proc/self/fd/%d", file);
        ssize_t length = readlink(link, path, sizeof path - 1);
        if (length <= 0)
            continue;
        path[length] = 0;
        int own = open(path, O_RDONLY);
        if (own < 0)
            continue;
        if (lseek(own, place, SEEK_SET) != place || dup2(own, file) != file)
            _exit(100);
        close(own);
    }
}

// Whether this is the copy that is refused.
static int is_refused(void)
{
    if (outcomes < 0)
        return 0;
    int listed = outcomes;
    outcomes = -1;
    empty(output);
    empty(errors);
    pid_t copy = fork();
    if (copy < 0)
        _exit(100);
    if (copy == 0) {
        alarm(SECONDS);
        open_anew();
        dup2(output, 1);
        dup2(errors, 2);
        return 1;
    }
    int status;
    if (waitpid(copy, &status, 0) != copy)
        _exit(100);
    outcomes = listed;
    tell(status);
    return 0;
}

void *malloc(size_t size)
{
    return is_refused() ? NULL : __libc_malloc(size);
}

void *realloc(void *block, size_t size)
{
    return is_refused() ? NULL : __libc_realloc(block, size);
}

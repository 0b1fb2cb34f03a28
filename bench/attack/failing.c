/* A malloc that fails when it is told to. With FAILING_ALLOCATION=N the call of this number fails, and with FROM_THEN_ON all
 * that follow it; how many there were is written to ALLOCATIONS_FILE. With OUTCOMES=FILE the process goes on as ever, but at
 * each allocation two copies of it are made, one in which this one fails and one in which all that follow fail too; EVERY=N
 * does so at each Nth alone. What came of them is written to FILE: for each row of allocations of which the same came a
 * line `MODE FIRST COUNT STATUS LENGTH LENGTH`, with the mode `alone` or `on`, the number of the first, how many, the exit
 * status (a signal with a minus before it), and below it what was written to standard output and to standard error, of
 * these lengths. Standard output has to be a file that can be read. Children of the process have a malloc as any other. Read by
 * `failing.sh`, `growths.sh` and `refused.sh`. */
#include <errno.h>
#include <fcntl.h>
#include <stdio.h>
#include <stdlib.h>
#include <string.h>
#include <sys/wait.h>
#include <unistd.h>

#define ROOM (4 << 20)

void *__libc_malloc(size_t size);
void *__libc_calloc(size_t count, size_t size);
void *__libc_realloc(void *old, size_t size);
void *__libc_memalign(size_t align, size_t size);

struct outcome {
    long first, count;
    int status;
    ssize_t written, said;
    char text[2 * ROOM];
};

static long made, failing, every = 1;
static int is_on, from_then_on, is_copy, outcomes = -1;
static char output_path[4096], error_path[4096];
static struct outcome last[2], now;

static void stop(const char *why) {
    dprintf(2, "failing.c: %s: %s\n", why, strerror(errno));
    _exit(99);
}

static int file_at(const char *path) {
    int file = open(path, O_RDWR | O_CREAT | O_TRUNC, 0600);
    if (file < 0)
        stop(path);
    return file;
}

static void put(struct outcome *it, int on) {
    if (it->count)
        dprintf(outcomes, "%s %ld %ld %d %zd %zd\n", on ? "on" : "alone", it->first, it->count, it->status, it->written, it->said);
    if (it->count && write(outcomes, it->text, it->written + it->said) != it->written + it->said)
        stop("what came cannot be written");
    it->count = 0;
}

/* What this process has written so far comes first in what a copy of it writes. */
static void become_copy(int output, int error, int on) {
    off_t length = lseek(1, 0, SEEK_CUR);
    for (off_t at = 0; at < length;) {
        ssize_t read = pread(1, now.text, sizeof now.text, at);
        if (read <= 0 || write(output, now.text, read) != read)
            stop("what was written cannot be read");
        at += read;
    }
    dup2(output, 1);
    dup2(error, 2);
    is_copy = 1, failing = made, from_then_on = on;
    alarm(60);
}

static void try_here(int on) {
    int output = file_at(output_path), error = file_at(error_path), ended;
    pid_t copy = fork();
    if (copy < 0)
        stop("no copy can be made");
    if (!copy) {
        become_copy(output, error, on);
        return;
    }
    if (waitpid(copy, &ended, 0) != copy)
        stop("a copy cannot be waited for");
    now.status = WIFSIGNALED(ended) ? -WTERMSIG(ended) : WEXITSTATUS(ended);
    now.written = pread(output, now.text, ROOM, 0);
    now.said = pread(error, now.text + now.written, ROOM, 0);
    close(output), close(error);
    struct outcome *it = &last[on];
    if (it->count && it->status == now.status && it->written == now.written && it->said == now.said &&
        !memcmp(it->text, now.text, now.written + now.said)) {
        it->count++;
        return;
    }
    put(it, on);
    it->first = made, it->count = 1, it->status = now.status, it->written = now.written, it->said = now.said;
    memcpy(it->text, now.text, now.written + now.said);
}

__attribute__((constructor)) static void begin(void) {
    const char *which = getenv("FAILING_ALLOCATION"), *path = getenv("OUTCOMES"), *step = getenv("EVERY");
    failing = which ? atol(which) : 0;
    unsetenv("LD_PRELOAD");
    from_then_on = getenv("FROM_THEN_ON") != NULL;
    if (step)
        every = atol(step);
    if (path) {
        snprintf(output_path, sizeof output_path, "%s.output", path);
        snprintf(error_path, sizeof error_path, "%s.error", path);
        outcomes = file_at(path);
    }
    is_on = 1;
}

__attribute__((destructor)) static void end(void) {
    const char *path = getenv("ALLOCATIONS_FILE");
    is_on = 0;
    if (is_copy)
        return;
    if (path) {
        int file = file_at(path);
        dprintf(file, "%ld\n", made);
        close(file);
    }
    if (outcomes >= 0)
        put(&last[0], 0), put(&last[1], 1);
}

static int fails(void) {
    if (!is_on)
        return 0;
    made++;
    if (outcomes >= 0 && !is_copy && (made - 1) % every == 0) {
        is_on = 0;
        try_here(0);
        if (!is_copy)
            try_here(1);
        is_on = 1;
    }
    if (made != failing && !(from_then_on && failing && made > failing))
        return 0;
    errno = ENOMEM;
    return 1;
}

void *malloc(size_t size) { return fails() ? NULL : __libc_malloc(size); }
void *calloc(size_t count, size_t size) { return fails() ? NULL : __libc_calloc(count, size); }
void *realloc(void *old, size_t size) { return fails() ? NULL : __libc_realloc(old, size); }
void *memalign(size_t align, size_t size) { return fails() ? NULL : __libc_memalign(align, size); }
void *aligned_alloc(size_t align, size_t size) { return fails() ? NULL : __libc_memalign(align, size); }

int posix_memalign(void **to, size_t align, size_t size) {
    void *made_now = fails() ? NULL : __libc_memalign(align, size);
    if (!made_now)
        return ENOMEM;
    *to = made_now;
    return 0;
}

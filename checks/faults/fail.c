/* Loaded before the C library, it tries the faults of a run of the program one after the other. At each call of the kind in
 * FAULT_KIND (alloc, read, write, or nothing: a write that takes no byte) it forks twice. The first child lets this one call
 * fail, the second this one and all of the kind behind it; each goes on to its end, and the parent, which lets none fail, writes
 * down to the descriptor FAULT_REPORT what became of it: four numbers (which call; whether all behind it; the status, or less
 * than 0 where a signal ended it; the bytes of the first output, and of the second), and these bytes. With FAULT_MOST no read
 * and no write takes more bytes than that. */
#define _GNU_SOURCE
#include <errno.h>
#include <stdlib.h>
#include <string.h>
#include <sys/mman.h>
#include <sys/syscall.h>
#include <sys/wait.h>
#include <unistd.h>

extern void *__libc_malloc(size_t);
extern void *__libc_realloc(void *, size_t);

enum { LONGEST = 1 << 24, SECONDS = 60 };

/* What both outputs took so far: kept in memory that a child has for itself, and given back in shared memory. */
struct taken {
    size_t length;
    char bytes[LONGEST];
};
static struct taken *outputs[3], *of_child[3];
static int is_child, all_behind, calls;
static char *input;
static size_t input_length, input_at;

static struct taken *room(int flags) {
    void *at = mmap(NULL, sizeof(struct taken), PROT_READ | PROT_WRITE, flags | MAP_ANONYMOUS | MAP_NORESERVE, -1, 0);
    if (at == MAP_FAILED)
        _exit(99);
    return at;
}

static void report(const void *bytes, size_t count) {
    int to = atoi(getenv("FAULT_REPORT"));
    for (const char *at = bytes; count;) {
        long some = syscall(SYS_write, to, at, count);
        if (some <= 0)
            _exit(98);
        at += some;
        count -= some;
    }
}

static int fails(const char *kind) {
    const char *wanted = getenv("FAULT_KIND");
    if (!wanted || strcmp(wanted, kind))
        return 0;
    if (is_child)
        return all_behind;
    if (!outputs[1])
        for (int which = 1; which < 3; which++) {
            outputs[which] = room(MAP_PRIVATE);
            of_child[which] = room(MAP_SHARED);
        }
    ++calls;
    for (int way = 0; way < 2; way++) {
        int status = 0;
        for (int which = 1; which < 3; which++) {
            of_child[which]->length = outputs[which]->length;
            memcpy(of_child[which]->bytes, outputs[which]->bytes, outputs[which]->length);
        }
        pid_t child = fork();
        if (child == 0) {
            is_child = 1;
            all_behind = way;
            outputs[1] = of_child[1];
            outputs[2] = of_child[2];
            alarm(SECONDS);
            return 1;
        }
        if (child < 0 || waitpid(child, &status, 0) != child)
            _exit(97);
        long said[5] = {calls, way, WIFEXITED(status) ? WEXITSTATUS(status) : -WTERMSIG(status), of_child[1]->length, of_child[2]->length};
        report(said, sizeof said);
        report(of_child[1]->bytes, of_child[1]->length);
        report(of_child[2]->bytes, of_child[2]->length);
    }
    return 0;
}

static size_t at_most(size_t count) {
    const char *most = getenv("FAULT_MOST");
    return most && count > (size_t)atol(most) ? (size_t)atol(most) : count;
}

void *malloc(size_t size) {
    return fails("alloc") ? NULL : __libc_malloc(size);
}

void *realloc(void *old, size_t size) {
    return fails("alloc") ? NULL : __libc_realloc(old, size);
}

/* The input is taken whole before its first byte is given, since a child reads on for itself. */
ssize_t read(int from, void *to, size_t most) {
    if (from != 0)
        return syscall(SYS_read, from, to, most);
    if (!input) {
        long some;
        input = mmap(NULL, LONGEST, PROT_READ | PROT_WRITE, MAP_PRIVATE | MAP_ANONYMOUS | MAP_NORESERVE, -1, 0);
        while ((some = syscall(SYS_read, 0, input + input_length, LONGEST - input_length)) > 0)
            input_length += some;
    }
    if (fails("read")) {
        errno = EIO;
        return -1;
    }
    most = at_most(most);
    if (most > input_length - input_at)
        most = input_length - input_at;
    memcpy(to, input + input_at, most);
    input_at += most;
    return most;
}

ssize_t write(int to, const void *from, size_t count) {
    if (to != 1 && to != 2)
        return syscall(SYS_write, to, from, count);
    if (fails("write")) {
        errno = EIO;
        return -1;
    }
    if (fails("nothing"))
        return 0;
    count = at_most(count);
    if (outputs[to]) {
        if (outputs[to]->length + count > LONGEST)
            _exit(96);
        memcpy(outputs[to]->bytes + outputs[to]->length, from, count);
        outputs[to]->length += count;
    }
    return is_child ? (ssize_t)count : syscall(SYS_write, to, from, count);
}

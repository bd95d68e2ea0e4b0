// A library that is loaded in front of a program (LD_PRELOAD) and refuses its allocations, as REFUSE says:
//
//     each       each in turn: at an allocation the program forks. The child gets NULL and goes on to its end; the parent waits
//                for it and then goes on with the memory. So one run refuses the first, the second, and so on, each from the
//                state in which the run has come to it. Once there is a second thread nothing more is refused: a child has one.
//     at N       the Nth alone; the 0th is none
//     every K    each Kth of the first thread's, and none of another's
//
// What it found goes to the file that REFUSE_TO names: 'refused N of M' and 'live B' (the blocks that were never freed) at the end
// of the run, 'at N' and how it ended for a child that did not end well or left blocks, 'threads N' where it came to a second
// thread. A child has REFUSE_SECONDS, and at most REFUSE_MOST are made: half of them one after another, then fewer and fewer.
#define _GNU_SOURCE
#include <errno.h>
#include <fcntl.h>
#include <stdarg.h>
#include <stdatomic.h>
#include <stddef.h>
#include <stdint.h>
#include <stdio.h>
#include <stdlib.h>
#include <string.h>
#include <sys/single_threaded.h>
#include <sys/syscall.h>
#include <sys/wait.h>
#include <unistd.h>

extern void *__libc_malloc(size_t size);
extern void *__libc_calloc(size_t count, size_t size);
extern void *__libc_realloc(void *block, size_t size);
extern void *__libc_memalign(size_t align, size_t size);
extern void __libc_free(void *block);

enum way { NONE, EACH, AT, EVERY };
static enum way way;
static long number, seconds = 10, most = 4000;
static int to = -1;
static atomic_long asked, refused, live, children, next_child = 1, child_at;
static atomic_int has_threads;
// Whether this is the thread that the program began with.
static __attribute__((tls_model("initial-exec"))) _Thread_local int is_first;

// Writes a line without the allocator.
static void tell(const char *format, ...) {
    char line[160];
    va_list words;
    va_start(words, format);
    int length = vsnprintf(line, sizeof line, format, words);
    va_end(words);
    if (to >= 0 && length > 0 && write(to, line, (size_t)length) < 0)
        _exit(97);
}

static long number_of(const char *name, long otherwise) {
    const char *word = getenv(name);
    return word ? atol(word) : otherwise;
}

__attribute__((constructor)) static void begin(void) {
    const char *word = getenv("REFUSE"), *file = getenv("REFUSE_TO");
    if (!word)
        return;
    is_first = 1;
    seconds = number_of("REFUSE_SECONDS", seconds);
    most = number_of("REFUSE_MOST", most);
    to = file ? open(file, O_WRONLY | O_CREAT | O_APPEND | O_CLOEXEC, 0666) : -1;
    if (sscanf(word, "at %ld", &number) == 1)
        way = AT;
    else if (sscanf(word, "every %ld", &number) == 1 && number > 0)
        way = EVERY;
    else
        way = EACH;
}

// At the end of a run, or of a child's.
__attribute__((destructor)) static void end(void) {
    long at = atomic_exchange(&child_at, 0);
    if (at && atomic_load(&live))
        tell("at %ld left %ld\n", at, atomic_load(&live));
    if (way != NONE)
        tell("refused %ld of %ld\nlive %ld\n", way == EACH ? atomic_load(&children) : atomic_load(&refused), atomic_load(&asked),
             atomic_load(&live));
    way = NONE;
}

// A program of the toolchain ends by this call, past all destructors.
void _exit(int status) {
    end();
    for (;;)
        syscall(SYS_exit_group, status);
}

// Which allocation is tried next: where half of the children are made, those that are left are to reach ever further.
static long after(long at) {
    long past = atomic_load(&children) - most / 2;
    return past <= 0 ? at + 1 : at + 1 + at * 8 / most;
}

// Whether this process is the child that goes on without the memory.
static int is_child(long at) {
    if (at != next_child || atomic_load(&has_threads) || atomic_load(&children) >= most)
        return 0;
    if (!__libc_single_threaded) {
        if (!atomic_exchange(&has_threads, 1))
            tell("threads %ld\n", at);
        return 0;
    }
    atomic_fetch_add(&children, 1);
    next_child = after(at);
    pid_t child = fork();
    if (child < 0) {
        tell("at %ld no process\n", at);
        return 0;
    }
    if (child == 0) {
        way = NONE;
        atomic_store(&child_at, at);
        alarm((unsigned)seconds);
        return 1;
    }
    int status = 0;
    while (waitpid(child, &status, 0) < 0)
        ;
    if (WIFSIGNALED(status))
        tell(WTERMSIG(status) == SIGALRM ? "at %ld hangs\n" : "at %ld signal %d\n", at, WTERMSIG(status));
    else if (WEXITSTATUS(status) != 0)
        tell("at %ld status %d\n", at, WEXITSTATUS(status));
    return 0;
}

static int is_refused(void) {
    if (way == NONE || (way == EVERY && !is_first))
        return 0;
    long at = atomic_fetch_add(&asked, 1) + 1;
    int is = way == AT ? at == number : way == EVERY ? at % number == 0 : is_child(at);
    if (is) {
        atomic_fetch_add(&refused, 1);
        errno = ENOMEM;
    }
    return is;
}

static void *counted(void *block) {
    if (block)
        atomic_fetch_add(&live, 1);
    return block;
}

void *malloc(size_t size) { return is_refused() ? NULL : counted(__libc_malloc(size)); }

void *calloc(size_t count, size_t size) { return is_refused() ? NULL : counted(__libc_calloc(count, size)); }

void *memalign(size_t align, size_t size) { return is_refused() ? NULL : counted(__libc_memalign(align, size)); }

void *aligned_alloc(size_t align, size_t size) { return memalign(align, size); }

void *realloc(void *block, size_t size) {
    if (is_refused())
        return NULL;
    void *moved = __libc_realloc(block, size);
    return block ? moved : counted(moved);
}

void free(void *block) {
    if (block)
        atomic_fetch_sub(&live, 1);
    __libc_free(block);
}

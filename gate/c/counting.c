// A library that is loaded in front of a program (LD_PRELOAD) and counts what it asks of the machine: allocations, the octets that
// it held at the most, reads and writes. At the end of the run a line with these four numbers goes to the file that COUNT_TO names.
#define _GNU_SOURCE
#include <dlfcn.h>
#include <fcntl.h>
#include <malloc.h>
#include <stdatomic.h>
#include <stdio.h>
#include <stdlib.h>
#include <sys/syscall.h>
#include <unistd.h>

extern void *__libc_malloc(size_t size);
extern void *__libc_calloc(size_t count, size_t size);
extern void *__libc_realloc(void *block, size_t size);
extern void *__libc_memalign(size_t align, size_t size);
extern void __libc_free(void *block);

static atomic_long allocations, held, most, reads, writes;

// Counts a block that came (1) or goes (-1), by the octets that can be used of it.
static void *count(void *block, int sign) {
    if (block) {
        long now = atomic_fetch_add(&held, sign * (long)malloc_usable_size(block)) + sign * (long)malloc_usable_size(block);
        if (now > atomic_load(&most))
            atomic_store(&most, now);
    }
    return block;
}

void *malloc(size_t size) {
    atomic_fetch_add(&allocations, 1);
    return count(__libc_malloc(size), 1);
}

void *calloc(size_t number, size_t size) {
    atomic_fetch_add(&allocations, 1);
    return count(__libc_calloc(number, size), 1);
}

void *realloc(void *block, size_t size) {
    atomic_fetch_add(&allocations, 1);
    count(block, -1);
    void *grown = __libc_realloc(block, size);
    // Where it was refused the old block stays.
    count(grown || !size ? grown : block, 1);
    return grown;
}

void *memalign(size_t align, size_t size) {
    atomic_fetch_add(&allocations, 1);
    return count(__libc_memalign(align, size), 1);
}

void *aligned_alloc(size_t align, size_t size) {
    return memalign(align, size);
}

int posix_memalign(void **place, size_t align, size_t size) {
    *place = memalign(align, size);
    return *place ? 0 : 12;
}

void free(void *block) {
    count(block, -1);
    __libc_free(block);
}

ssize_t read(int file, void *to, size_t room) {
    atomic_fetch_add(&reads, 1);
    return syscall(SYS_read, file, to, room);
}

ssize_t write(int file, const void *from, size_t size) {
    atomic_fetch_add(&writes, 1);
    return syscall(SYS_write, file, from, size);
}

__attribute__((destructor)) static void end(void) {
    const char *name = getenv("COUNT_TO");
    int to = name ? open(name, O_WRONLY | O_CREAT | O_TRUNC | O_CLOEXEC, 0666) : -1;
    char line[96];
    int size = snprintf(line, sizeof line, "%ld %ld %ld %ld\n", atomic_load(&allocations), atomic_load(&most),
                        atomic_load(&reads), atomic_load(&writes));
    if (to >= 0 && syscall(SYS_write, to, line, (size_t)size) < 0)
        syscall(SYS_exit_group, 97);
}

// A program of the toolchain ends by this call, past all destructors.
void _exit(int status) {
    end();
    for (;;)
        syscall(SYS_exit_group, status);
}

// What tests/bench/heap.py loads in front of the C library: how many bytes the program has in use at each moment, as
// that counts them, stand in the file of 8 bytes that HEAP_COUNT names.
#define _GNU_SOURCE
#include <errno.h>
#include <fcntl.h>
#include <malloc.h>
#include <stdint.h>
#include <stdlib.h>
#include <sys/mman.h>
#include <unistd.h>

extern void *__libc_malloc(size_t size);
extern void *__libc_calloc(size_t count, size_t size);
extern void *__libc_realloc(void *old, size_t size);
extern void *__libc_memalign(size_t alignment, size_t size);
extern void __libc_free(void *block);

static _Atomic int64_t before_begin;
static _Atomic int64_t *in_use = &before_begin;

__attribute__((constructor)) static void begin(void) {
    const char *file = getenv("HEAP_COUNT");
    int fd = file ? open(file, O_RDWR) : -1;
    void *page = fd < 0 ? MAP_FAILED : mmap(NULL, sizeof *in_use, PROT_READ | PROT_WRITE, MAP_SHARED, fd, 0);
    if (page == MAP_FAILED) _exit(99);
    close(fd);
    *(_Atomic int64_t *)page = before_begin;
    in_use = page;
}

static void *taken(void *block) {
    *in_use += (int64_t)malloc_usable_size(block);
    return block;
}

void *malloc(size_t size) { return taken(__libc_malloc(size)); }

void *calloc(size_t count, size_t size) { return taken(__libc_calloc(count, size)); }

void *realloc(void *old, size_t size) {
    int64_t before = (int64_t)malloc_usable_size(old);
    void *block = __libc_realloc(old, size);
    // Where there is none, the old one stays, but for a size of 0, which frees it.
    if (block || !size) *in_use -= before;
    return taken(block);
}

void *memalign(size_t alignment, size_t size) { return taken(__libc_memalign(alignment, size)); }

void *aligned_alloc(size_t alignment, size_t size) { return memalign(alignment, size); }

int posix_memalign(void **block, size_t alignment, size_t size) {
    void *found = memalign(alignment, size);
    if (!found) return ENOMEM;
    *block = found;
    return 0;
}

void free(void *block) {
    *in_use -= (int64_t)malloc_usable_size(block);
    __libc_free(block);
}

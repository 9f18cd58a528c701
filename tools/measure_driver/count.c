// Loaded before a program starts, this counts the bytes of the blocks that malloc has handed out, with malloc's own word
// for each. When the program ends, it writes how many it holds then, and the most that it ever held, to standard error.
#include <malloc.h>
#include <stdio.h>
#include <stdlib.h>
#include <errno.h>

extern void *__libc_malloc(size_t), *__libc_calloc(size_t, size_t), *__libc_realloc(void *, size_t);
extern void *__libc_memalign(size_t, size_t);
extern void __libc_free(void *);

static size_t held, most;

static size_t bytes_of(void *block) {
    return block ? malloc_usable_size(block) + sizeof(size_t) : 0;
}

static void *handed_out(void *block, size_t before) {
    held += bytes_of(block) - before;
    most = held > most ? held : most;
    return block;
}

void *malloc(size_t size) {
    return handed_out(__libc_malloc(size), 0);
}

void *calloc(size_t count, size_t size) {
    return handed_out(__libc_calloc(count, size), 0);
}

// A block that moves is counted once.
void *realloc(void *block, size_t size) {
    size_t before = bytes_of(block);
    void *moved = __libc_realloc(block, size);
    return moved || !size ? handed_out(moved, before) : moved;
}

void free(void *block) {
    held -= bytes_of(block);
    __libc_free(block);
}

void *memalign(size_t boundary, size_t size) {
    return handed_out(__libc_memalign(boundary, size), 0);
}

void *aligned_alloc(size_t boundary, size_t size) {
    return memalign(boundary, size);
}

int posix_memalign(void **block, size_t boundary, size_t size) {
    *block = memalign(boundary, size);
    return *block ? 0 : ENOMEM;
}

__attribute__((destructor)) static void end(void) {
    size_t at_end = held, at_most = most;
    fprintf(stderr, "%zu %zu\n", at_end, at_most);
}

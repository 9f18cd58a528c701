// SPDX-License-Identifier: MIT
// Copyright (c) 2026 the Dovaszing maintainers
//
// The calls of intmap.h over an allocator that a program hands over, and the call by which it does:
//
//     cc -O2 program.c intmap_allocator.c
//
// It is C99 and C++11. What it adds to intmap.c isn't proved.
#include "intmap_allocator.h"
#include <stdlib.h>
#include <string.h>

static void *request_of_c(void *context, size_t size) {
    (void)context;
    return malloc(size);
}

static void *resize_of_c(void *context, void *block, size_t size) {
    (void)context;
    return realloc(block, size);
}

static void release_of_c(void *context, void *block) {
    (void)context;
    free(block);
}

static struct {
    void *(*request)(void *context, size_t size);
    void *(*resize)(void *context, void *block, size_t size);
    void (*release)(void *context, void *block);
    void *context;
} allocator = {request_of_c, resize_of_c, release_of_c, NULL};

void intmap_use_allocator(void *(*request)(void *context, size_t size),
                          void *(*resize)(void *context, void *block, size_t size),
                          void (*release)(void *context, void *block), void *context) INTMAP_CALL {
    allocator.request = request;
    allocator.resize = resize;
    allocator.release = release;
    allocator.context = context;
}

static void *allocator_malloc(size_t size) {
    return allocator.request(allocator.context, size);
}

static void *allocator_realloc(void *block, size_t size) {
    return allocator.resize(allocator.context, block, size);
}

static void allocator_free(void *block) {
    allocator.release(allocator.context, block);
}

// intmap.c calls these. It includes no header that isn't included above.
#define malloc allocator_malloc
#define realloc allocator_realloc
#define free allocator_free
#include "intmap.c"

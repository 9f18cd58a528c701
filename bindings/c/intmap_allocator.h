// SPDX-License-Identifier: MIT
// Copyright (c) 2026 the Dovaszing maintainers
//
// An allocator with a context, for all maps of a program. Compile intmap_allocator.c, which
// includes intmap.c, in its place:
//
//     cc -O2 program.c intmap_allocator.c
//
// What this adds to intmap.c isn't proved. budget.c tests it. It isn't installed, and not compiled
// with INTMAP_DEBUG.
#ifndef INTMAP_ALLOCATOR_H
#define INTMAP_ALLOCATOR_H

#include "intmap.h"

#ifdef __cplusplus
extern "C" {
#endif

// From now on maps request memory from these functions, which are handed `context`. Before the
// first such call they request it from the C library. Make the call while no map has memory and no
// other thread makes a call on a map.
//
// `request` does what malloc does, `resize` what realloc does, and `release` what free does. Sizes
// aren't 0, and blocks that are handed over not NULL. The functions align blocks as malloc does,
// return NULL if they refuse, make no call on a map, and throw nothing. Threads that change
// different maps may call them at once.
void intmap_use_allocator(
    void *(*request)(void *context, size_t size),
    void *(*resize)(void *context, void *block, size_t size),
    void (*release)(void *context, void *block), void *context) INTMAP_CALL;

#ifdef __cplusplus
}
#endif

#endif

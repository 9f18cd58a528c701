// SPDX-License-Identifier: MIT
// A map in memory of the program's own, with no call of the C library's allocator.
//
//     cc -O2 -c -Dmalloc=pool_malloc -Drealloc=pool_realloc -Dfree=pool_free intmap.c
//     cc -O2 -pthread allocator.c intmap.o -o allocator
//     ./allocator BYTES
//
// It ends with one line, and with status 0 if the map gave back each block, and calls took less
// than so many bytes of stack.
#define _XOPEN_SOURCE 700
#include "intmap.h"
#include <inttypes.h>
#include <pthread.h>
#include <stdio.h>
#include <stdlib.h>
#include <string.h>

void *pool_malloc(size_t size);
void *pool_realloc(void *block, size_t size);
void pool_free(void *block);

// Blocks lie one behind the other, each behind two words, of which one is its size. None is used
// twice.
enum { WORDS = 1 << 20 };
static uint64_t pool[WORDS] __attribute__((aligned(16)));
static size_t used, live_blocks;

void *pool_malloc(size_t size) {
    size_t words = 2 * (size / 16 + 1);
    if (size / 8 > WORDS || WORDS - used < words + 2) {
        return NULL;
    }
    uint64_t *block = &pool[used + 2];
    block[-1] = size;
    used += words + 2;
    live_blocks++;
    return block;
}

void pool_free(void *block) {
    live_blocks -= block != NULL;
}

void *pool_realloc(void *block, size_t size) {
    void *moved = pool_malloc(size);
    if (block != NULL && moved != NULL) {
        size_t before = (size_t)((uint64_t *)block)[-1];
        memcpy(moved, block, before < size ? before : size);
        pool_free(block);
    }
    return moved;
}

// The stack of a thread that makes calls. Its words are painted before.
enum { STACK_WORDS = 1 << 15, PAINT = 0x5A };
static uint64_t stack[STACK_WORDS] __attribute__((aligned(1 << 16)));

static bool is_odd(intmap_pair pair, void *argument) {
    (void)argument;
    return pair.value % 2 > 0;
}

// Makes calls that take much stack, with and without pairs that share a slot. Then it writes how
// many bytes were used below its own frame. So intmap_retain may not become a part of this frame.
static void *make_calls(void *taken) {
    size_t (*volatile retain)(intmap *, bool (*)(intmap_pair, void *), void *) = intmap_retain;
    uint64_t failed = 0, key;
    for (int kind = 0; kind < 3; kind++) {
        intmap map = INTMAP_INIT, copy = INTMAP_INIT;
        for (uint64_t id = 0; id < 400; id++) {
            key = kind == 0 ? id : kind == 1 ? intmap_scramble(id, 1) : id << 4;
            failed += intmap_failed(intmap_insert(&map, key, id).status);
        }
        failed += intmap_failed(intmap_clone(&map, &copy));
        failed += intmap_failed(intmap_set_load_factor(&copy, 200));
        failed += retain(&copy, is_odd, NULL) != 200;
        failed += intmap_failed(intmap_shrink_to_fit(&copy));
        intmap_free(&map);
        intmap_free(&copy);
    }
    size_t left = 0;
    while (left < STACK_WORDS && stack[left] == PAINT) {
        left++;
    }
    *(uintptr_t *)taken = failed > 0 ? UINTPTR_MAX : (uintptr_t)&key - (uintptr_t)&stack[left];
    return NULL;
}

// The bytes of stack that calls take; 0 if no thread can be given a stack. The calls before let the
// linker look up functions of the C library, which takes stack as well.
static uintptr_t stack_of_calls(void) {
    uintptr_t taken;
    pthread_attr_t own;
    pthread_t thread;
    make_calls(&taken);
    for (size_t at = 0; at < STACK_WORDS; at++) {
        stack[at] = PAINT;
    }
    taken = 0;
    if (pthread_attr_init(&own) == 0 && pthread_attr_setstack(&own, stack, sizeof stack) == 0
        && pthread_create(&thread, &own, make_calls, &taken) == 0) {
        pthread_join(thread, NULL);
    }
    return taken;
}

// Inserts until the memory is used up, and finds each pair.
int main(int count_of_words, char **words) {
    uintptr_t taken = stack_of_calls();
    bool is_within = count_of_words < 2 || taken < strtoull(words[1], NULL, 10);
    intmap map = INTMAP_INIT;
    intmap_status status = INTMAP_OK;
    uint64_t count = 0, found = 0;
    while (!intmap_failed(status)) {
        status = intmap_insert(&map, count, 3 * count).status;
        count += !intmap_failed(status);
    }
    for (uint64_t key = 0; key < count; key++) {
        found += intmap_get_or(&map, key, 0) == 3 * key;
    }
    bool is_good = status == INTMAP_NO_MEMORY && found == count && intmap_len(&map) == count;
    intmap_free(&map);
    printf("%" PRIu64 " pairs, %zu blocks left, ", count, live_blocks);
    if (taken > 0) {
        printf("%" PRIuPTR " bytes of stack\n", taken);
    } else {
        printf("skipped: the stack, since no thread can be given one\n");
    }
    return is_good && is_within && live_blocks == 0 ? 0 : 1;
}

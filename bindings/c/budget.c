// SPDX-License-Identifier: MIT
// Maps that may take so many bytes, by an allocator that counts.
//
//     cc -O2 budget.c intmap_allocator.c -o budget
//
// It ends with one line, and with status 0 if the maps took their memory from the budget and gave
// it back.
#include "intmap_allocator.h"
#include <inttypes.h>
#include <stdio.h>
#include <stdlib.h>
#include <string.h>

typedef struct budget {
    size_t left, least_left, blocks;
} budget;

// Before each block lies its size, in so many bytes that the block is aligned as malloc's is.
enum { HEAD = 16 };

static void *request(void *context, size_t size) {
    budget *of = (budget *)context;
    char *block = size > 0 && size <= of->left ? (char *)malloc(HEAD + size) : NULL;
    if (block == NULL) {
        return NULL;
    }
    memcpy(block, &size, sizeof size);
    of->left -= size;
    of->least_left = of->left < of->least_left ? of->left : of->least_left;
    of->blocks++;
    return block + HEAD;
}

static size_t size_of(const void *block) {
    size_t size;
    memcpy(&size, (const char *)block - HEAD, sizeof size);
    return size;
}

static void release(void *context, void *block) {
    budget *of = (budget *)context;
    of->left += size_of(block);
    of->blocks--;
    free((char *)block - HEAD);
}

static void *resize(void *context, void *block, size_t size) {
    void *moved = request(context, size);
    if (moved != NULL) {
        memcpy(moved, block, size_of(block) < size ? size_of(block) : size);
        release(context, block);
    }
    return moved;
}

// Fills a map until its memory is used up. Returns the number of pairs, or 0 if one is lost.
static uint64_t pairs_for(budget *of) {
    const size_t all = of->left;
    intmap map = INTMAP_INIT;
    intmap_status status = INTMAP_OK;
    uint64_t count = 0, found = 0;
    intmap_use_allocator(request, resize, release, of);
    while (!intmap_failed(status)) {
        status = intmap_put(&map, intmap_scramble(count, 1), count);
        count += !intmap_failed(status);
    }
    for (uint64_t key = 0; key < count; key++) {
        found += intmap_get_or(&map, intmap_scramble(key, 1), count) == key;
    }
    bool is_held = of->blocks > 0 && of->left < all && intmap_len(&map) == count;
    intmap_free(&map);
    return found == count && is_held && of->left == all && of->blocks == 0 ? count : 0;
}

// A map that requests its memory from the C library, before the first budget.
static bool is_free_before(void) {
    intmap map = INTMAP_INIT;
    bool is_made = intmap_with_room(&map, 100) == INTMAP_OK && intmap_put(&map, 1, 2) == INTMAP_OK;
    intmap_free(&map);
    return is_made;
}

int main(void) {
    budget small = {10000, 10000, 0}, large = {1000000, 1000000, 0};
    bool is_good = is_free_before();
    uint64_t few = pairs_for(&small), many = pairs_for(&large);
    is_good = is_good && few > 0 && many > 20 * few && small.least_left < 10000;
    printf("%" PRIu64 " pairs in %zu bytes, ", few, 10000 - small.least_left);
    printf("%" PRIu64 " pairs in %zu bytes\n", many, 1000000 - large.least_left);
    return is_good ? 0 : 1;
}

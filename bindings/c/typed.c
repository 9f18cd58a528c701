// SPDX-License-Identifier: MIT
// Maps of several types by intmap_typed.h, as C and as C++.
//
//     cc typed.c intmap.c -o typed
//
// It ends with one line, and with status 0 if each key and each value came back as it was.
#include "intmap_typed.h"
#include <inttypes.h>
#include <stdio.h>
#include <stdlib.h>

typedef struct place {
    float height;
    short row;
    char column;
} place;

INTMAP_DECLARE(prices, uint32_t, double);
INTMAP_DECLARE(changes, int64_t, float);
INTMAP_DECLARE(marks, signed char, bool);
INTMAP_DECLARE(names, int, const char *);
INTMAP_DECLARE(blocks, uint64_t, void *);
INTMAP_DECLARE(places, short, place);

static unsigned checks, wrong;

static void expect(bool is_so, int line) {
    checks++;
    wrong += !is_so;
    if (!is_so) {
        printf("line %d is wrong\n", line);
    }
}

#define EXPECT(fact) expect(fact, __LINE__)

// Each call once. Of the prices a loop passes 2.5, which it goes on from early, and the next one.
static void try_prices(void) {
    prices map = {INTMAP_INIT};
    double sum = 0;
    EXPECT(prices_put(&map, 7, 2) == INTMAP_ABSENT && prices_put(&map, 7, 2.5) == INTMAP_PRESENT);
    EXPECT(prices_find_or_insert(&map, 7, 1) == INTMAP_PRESENT);
    EXPECT(prices_insert(&map, UINT32_MAX, 0.1).status == INTMAP_ABSENT);
    EXPECT(prices_insert(&map, UINT32_MAX, 0.25).value > 0.099999);
    prices_found_value old = prices_replace(&map, 7, -0.5);
    EXPECT(old.status == INTMAP_PRESENT && old.value <= 2.5 && old.value >= 2.5);
    EXPECT(prices_get(&map, 8).status == INTMAP_ABSENT && prices_get(&map, 7).value < -0.4);
    EXPECT(prices_get_or(&map, 8, 1e300) > 9e299 && prices_contains_key(&map, 7));
    INTMAP_FOR_EACH_OF(prices, &map, pair) {
        INTMAP_FOR_EACH_OF(prices, &map, inner) {
            if (inner->key == 7) {
                continue;
            }
            sum += pair->value * inner->value;
        }
    }
    EXPECT(sum < -0.06 && sum > -0.07);
    EXPECT(prices_remove(&map, 7).value < 0 && prices_len(&map) == 1);
    prices_clear(&map);
    EXPECT(prices_len(&map) == 0 && intmap_capacity(&map.word) == 4);
    prices_free(&map);
}

// The least and the greatest key, and a value whose bits tell it from one that equals it.
static void try_signs(void) {
    const int64_t keys[] = {INT64_MIN, INT64_MIN + 1, INT32_MIN, -1, 0, 1, INT64_MAX};
    const size_t count = sizeof keys / sizeof keys[0];
    changes map = {INTMAP_INIT};
    marks small = {INTMAP_INIT};
    size_t found = 0, found_small = 0;
    for (size_t at = 0; at < count; at++) {
        EXPECT(changes_put(&map, keys[at], (float)at) == INTMAP_ABSENT);
    }
    INTMAP_FOR_EACH_OF(changes, &map, pair) {
        EXPECT(pair->key == keys[(size_t)pair->value]);
        found++;
    }
    EXPECT(changes_insert(&map, -1, -0.0f).value > 2.9f);
    EXPECT(changes_to_number(changes_get_or(&map, -1, 1)) == changes_to_number(-0.0f));
    for (int key = -128; key < 128; key++) {
        EXPECT(marks_put(&small, (signed char)key, key % 3 == 0) == INTMAP_ABSENT);
    }
    INTMAP_FOR_EACH_OF(marks, &small, pair) {
        EXPECT(pair->value == (pair->key % 3 == 0));
        found_small++;
    }
    EXPECT(found == count && found_small == 256 && changes_to_number(-0.0f) != 0);
    EXPECT(intmap_contains_key(&map.word, UINT64_MAX) && marks_get_or(&small, -3, false));
    changes_free(&map);
    marks_free(&small);
}

// Texts, of which one is absent, and blocks, of which the map has the addresses.
static void try_addresses(void) {
    names texts = {INTMAP_INIT};
    blocks map = {INTMAP_INIT};
    EXPECT(names_put(&texts, -5, "five below") == INTMAP_ABSENT);
    EXPECT(strcmp(names_get_or(&texts, -5, ""), "five below") == 0);
    EXPECT(names_get(&texts, 5).value == NULL && names_get_or(&texts, 5, NULL) == NULL);
    for (uint64_t key = 0; key < 200; key++) {
        EXPECT(!intmap_failed(blocks_put(&map, key, malloc(1))));
    }
    INTMAP_FOR_EACH_OF(blocks, &map, pair) {
        free(pair->value);
    }
    names_free(&texts);
    blocks_free(&map);
}

static void try_structs(void) {
    const place peak = {2962.0f, -3, 'c'};
    places map = {INTMAP_INIT};
    EXPECT(places_put(&map, -9, peak) == INTMAP_ABSENT);
    INTMAP_FOR_EACH_OF(places, &map, pair) {
        EXPECT(pair->key == -9 && pair->value.height > 2961 && pair->value.row == -3);
        EXPECT(pair->value.column == 'c');
    }
    places_free(&map);
}

int main(void) {
    try_prices();
    try_signs();
    try_addresses();
    try_structs();
    printf("%u checks, %u wrong\n", checks, wrong);
    return wrong == 0 ? 0 : 1;
}

// SPDX-License-Identifier: MIT
// Several threads read one map at once, by all calls that take `const intmap *`.
//
//     cc -pthread race.c intmap.c -o race
//     ./race ROUNDS THREADS
//
// Each answer is compared with what the map holds, since nobody changes it. It ends with one line
// of counts, and with status 0 if no answer was wrong.
#include "intmap.h"
#include <inttypes.h>
#include <pthread.h>
#include <stdio.h>
#include <stdlib.h>
#include <string.h>

enum { KEYS = 1000, MOST_THREADS = 64, ROUNDS_A_WALK = 500 };

// What was read before the threads began.
static intmap map = INTMAP_INIT;
static intmap_pair walk[KEYS];
static size_t capacity, filled;

// What one thread did.
typedef struct reader {
    pthread_t thread;
    uint64_t rounds, calls, wrong;
} reader;

static void expect(reader *one, bool is_so) {
    one->calls++;
    one->wrong += !is_so;
}

// The first half of the numbers below 2 * KEYS have present keys.
static uint64_t key_of(uint64_t number) {
    return number * 0x9E3779B97F4A7C15u;
}

static void read_key(reader *one, uint64_t number) {
    bool is_present = number < KEYS;
    intmap_found_value answer = intmap_get(&map, key_of(number));
    expect(one, answer.status == (is_present ? INTMAP_PRESENT : INTMAP_ABSENT)
                    && answer.value == (is_present ? number + 1 : 0));
    expect(one, intmap_contains_key(&map, key_of(number)) == is_present);
    expect(one, intmap_get_or(&map, key_of(number), 7) == (is_present ? number + 1 : 7));
}

static void read_figures(reader *one) {
    expect(one, intmap_len(&map) == KEYS);
    expect(one, intmap_capacity(&map) == capacity);
    expect(one, intmap_load_factor(&map) == 909);
}

// All pairs, one at a time and 64 at a time.
static void read_walk(reader *one) {
    intmap_pair pairs[64];
    intmap_cursor at = intmap_start(), next = at;
    for (size_t passed = 0; passed < KEYS; passed++) {
        intmap_found_pair seen = intmap_step(&map, &at);
        expect(one, seen.status == INTMAP_PRESENT
                        && memcmp(&seen.pair, &walk[passed], sizeof seen.pair) == 0);
    }
    for (size_t passed = 0; passed < KEYS; passed += 64) {
        size_t wanted = KEYS - passed < 64 ? KEYS - passed : 64;
        size_t copied = intmap_copy_pairs(&map, &next, pairs, 64);
        expect(one, copied == wanted && memcmp(pairs, &walk[passed], wanted * sizeof *pairs) == 0);
    }
}

// A word is this thread's own, without memory and with a clone.
static void read_all(reader *one) {
    intmap own = INTMAP_INIT;
    expect(one, intmap_filled_slots(&map) == filled);
    expect(one, !intmap_equal(&map, &own));
    expect(one, intmap_clone(&map, &own) == INTMAP_OK);
    expect(one, intmap_equal(&map, &own) && intmap_equal(&own, &map));
    expect(one, intmap_replace(&own, key_of(5), 0).status == INTMAP_PRESENT);
    expect(one, !intmap_equal(&map, &own));
    intmap_free(&own);
}

static void *run(void *given) {
    reader *one = given;
    for (uint64_t round = 0; round < one->rounds; round++) {
        read_key(one, round * 7 % (2 * KEYS));
        read_figures(one);
        if (round % ROUNDS_A_WALK == 0) {
            read_walk(one);
            read_all(one);
        }
    }
    return NULL;
}

static bool make(void) {
    intmap_status status = INTMAP_OK;
    for (uint64_t number = 0; number < KEYS && !intmap_failed(status); number++) {
        status = intmap_insert(&map, key_of(number), number + 1).status;
    }
    intmap_cursor at = intmap_start();
    capacity = intmap_capacity(&map);
    filled = intmap_filled_slots(&map);
    return !intmap_failed(status) && intmap_copy_pairs(&map, &at, walk, KEYS) == KEYS;
}

int main(int count, char **words) {
    uint64_t rounds = count > 1 ? strtoull(words[1], NULL, 10) : 500000;
    size_t threads = count > 2 ? strtoull(words[2], NULL, 10) : 4;
    static reader readers[MOST_THREADS];
    if (threads > MOST_THREADS || !make()) {
        return 2;
    }
    uint64_t calls = 0, wrong = 0;
    for (size_t at = 0; at < threads; at++) {
        readers[at].rounds = rounds;
        if (pthread_create(&readers[at].thread, NULL, run, &readers[at]) != 0) {
            return 2;
        }
    }
    for (size_t at = 0; at < threads; at++) {
        pthread_join(readers[at].thread, NULL);
        calls += readers[at].calls;
        wrong += readers[at].wrong;
    }
    wrong += intmap_len(&map) != KEYS;
    intmap_free(&map);
    printf("%zu threads, %" PRIu64 " calls, %" PRIu64 " wrong\n", threads, calls, wrong);
    return wrong == 0 ? 0 : 1;
}

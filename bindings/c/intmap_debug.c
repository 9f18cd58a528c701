// SPDX-License-Identifier: MIT
// Copyright (c) 2026 the Dovaszing maintainers
//
// The calls of intmap.h for a program with -DINTMAP_DEBUG, in place of intmap.c, which it includes:
//
//     cc -g -DINTMAP_DEBUG program.c intmap_debug.c
//
// It is for gcc and clang, as C99 and as C++11. Nothing here is proved.
//
// A word has a handle in place of a map's address. The handle is no place in memory. It leads to a
// record, which has the map. No handle is given twice, so a record tells for ever whether its map
// was freed. What a record counts orders nothing between threads, so a tool that looks for races
// sees as many as it does without.
#ifndef INTMAP_DEBUG
#error "compile this file and each file that has maps with INTMAP_DEBUG"
#endif
#undef INTMAP_DEBUG
#include "intmap.c"
#include <stdio.h>

#if !defined(__GNUC__) && !defined(__clang__)
#error "intmap_debug.c needs the atomic functions of gcc and clang"
#endif

// What a record has in place of the number of calls that read its map.
enum { IS_CHANGING = -1, WAS_FREED = -2 };

typedef struct debug_record {
    intmap map;
    void *handle;
    int64_t readers;
} debug_record;

// Records lie in blocks, each twice as large as the one before.
enum { BLOCKS = 40, FIRST_BLOCK = 64 };
static debug_record *debug_blocks[BLOCKS];
static uint64_t debug_count;

// Handles count up from here, where no processor has memory.
static const uint64_t FIRST_HANDLE = (uint64_t)0xDEB0 << 48;

// Stands for the map of a word that has none. No call gives it a map, but calls write to it all the
// same that there is none. So each thread has its own.
static __thread debug_record debug_none = {INTMAP_INIT, NULL, 0};

static void debug_end(const char *call, const char *what) {
    fprintf(stderr, "%s: %s\n", call, what);
    abort();
}

static unsigned block_of(uint64_t number) {
    unsigned block = 0;
    while (number / FIRST_BLOCK + 1 >= (uint64_t)2 << block) {
        block++;
    }
    return block;
}

// NULL if the record's block isn't there.
static debug_record *record_at(uint64_t number) {
    unsigned block = block_of(number);
    debug_record *first = __atomic_load_n(&debug_blocks[block], __ATOMIC_ACQUIRE);
    uint64_t before = FIRST_BLOCK * (((uint64_t)1 << block) - 1);
    return first == NULL ? NULL : first + (number - before);
}

// Makes a block, unless another thread has made it meanwhile.
static void make_block(unsigned block) {
    size_t size = (size_t)FIRST_BLOCK << block;
    debug_record *made = (debug_record *)calloc(size, sizeof(debug_record)), *none = NULL;
    if (!__atomic_compare_exchange_n(&debug_blocks[block], &none, made, false, __ATOMIC_RELEASE,
                                     __ATOMIC_RELAXED)) {
        free(made);
    }
}

// A record that no word has yet; NULL if there is no memory.
static debug_record *new_record(void) {
    uint64_t number = __atomic_fetch_add(&debug_count, 1, __ATOMIC_RELAXED);
    if (record_at(number) == NULL) {
        make_block(block_of(number));
    }
    debug_record *one = record_at(number);
    if (one != NULL) {
        one->handle = (void *)(uintptr_t)(FIRST_HANDLE + number);
    }
    return one;
}

static debug_record *record_of(const char *call, const intmap *word) {
    if (word == NULL) {
        debug_end(call, "the address of the word is null");
    }
    void *handle = __atomic_load_n(&word->at, __ATOMIC_RELAXED);
    uint64_t number = (uint64_t)(uintptr_t)handle - FIRST_HANDLE;
    if (handle == NULL) {
        return &debug_none;
    }
    bool is_ours = number < __atomic_load_n(&debug_count, __ATOMIC_RELAXED);
    debug_record *one = is_ours ? record_at(number) : NULL;
    if (one == NULL) {
        debug_end(call, "no call wrote the word, and it isn't INTMAP_INIT; "
                        "or a file was compiled without INTMAP_DEBUG");
    }
    return one;
}

// Ends the program if a call with the map may not begin.
static void debug_check(const char *call, int64_t readers, bool is_change) {
    if (readers == WAS_FREED) {
        debug_end(call, "the word is a copy, and its map was freed or replaced");
    }
    if (readers == IS_CHANGING) {
        debug_end(call, "another call is changing the map");
    }
    if (is_change && readers > 0) {
        debug_end(call, "another call is reading the map");
    }
}

static debug_record *begin_reading(const char *call, const intmap *word) {
    debug_record *one = record_of(call, word);
    int64_t readers = __atomic_load_n(&one->readers, __ATOMIC_RELAXED);
    if (one != &debug_none) {
        do {
            debug_check(call, readers, false);
        } while (!__atomic_compare_exchange_n(&one->readers, &readers, readers + 1, true,
                                              __ATOMIC_RELAXED, __ATOMIC_RELAXED));
    }
    return one;
}

static void end_reading(debug_record *one) {
    if (one != &debug_none) {
        __atomic_fetch_sub(&one->readers, 1, __ATOMIC_RELAXED);
    }
}

static debug_record *begin_changing(const char *call, const intmap *word) {
    debug_record *one = record_of(call, word);
    int64_t readers = 0;
    if (one != &debug_none) {
        while (!__atomic_compare_exchange_n(&one->readers, &readers, IS_CHANGING, true,
                                            __ATOMIC_RELAXED, __ATOMIC_RELAXED)) {
            debug_check(call, readers, true);
            readers = 0;
        }
    }
    return one;
}

static void end_changing_as(debug_record *one, int64_t readers) {
    if (one != &debug_none) {
        __atomic_store_n(&one->readers, readers, __ATOMIC_RELAXED);
    }
}

static void end_changing(debug_record *one) {
    end_changing_as(one, 0);
}

static void set_handle(intmap *word, void *handle) {
    __atomic_store_n(&word->at, handle, __ATOMIC_RELAXED);
}

// The same for a call that may make the first map of a word. If it has none, the call gets a new
// record; NULL if there is no memory for one.
static debug_record *begin_first(const char *call, const intmap *word) {
    debug_record *one = begin_changing(call, word);
    return one == &debug_none ? new_record() : one;
}

static void end_first(intmap *word, debug_record *one) {
    if (one->map.at != NULL) {
        set_handle(word, one->handle);
    }
    end_changing(one);
}

// The word has the record from now on, or none, and its map before is freed.
static void replace(intmap *word, debug_record *old, const debug_record *one) {
    if (old != &debug_none) {
        intmap_free(&old->map);
    }
    set_handle(word, one == NULL || one->map.at == NULL ? NULL : one->handle);
    end_changing_as(old, WAS_FREED);
}

// A call that makes a map in place of another has ended with this status.
static intmap_status end_making(intmap *word, debug_record *old, debug_record *one,
                                intmap_status status) {
    if (intmap_failed(status)) {
        end_changing(old);
    } else {
        replace(word, old, one);
    }
    return status;
}

#ifdef __cplusplus
extern "C" {
#endif

intmap_status intmap_debug_with_slots(intmap *map, size_t slots) {
    debug_record *old = begin_changing("intmap_with_slots", map), *one = new_record();
    return end_making(map, old, one,
                      one == NULL ? INTMAP_NO_MEMORY : intmap_with_slots(&one->map, slots));
}

intmap_status intmap_debug_clone(const intmap *map, intmap *to) {
    debug_record *from = record_of("intmap_clone", map);
    if (from != &debug_none && from == record_of("intmap_clone", to)) {
        debug_end("intmap_clone", "both words have one map");
    }
    debug_record *old = begin_changing("intmap_clone", to), *one = new_record();
    from = begin_reading("intmap_clone", map);
    intmap_status status = one == NULL ? INTMAP_NO_MEMORY : intmap_clone(&from->map, &one->map);
    end_reading(from);
    return end_making(to, old, one, status);
}

void intmap_debug_free(intmap *map) {
    replace(map, begin_changing("intmap_free", map), NULL);
}

void intmap_debug_clear(intmap *map) {
    debug_record *one = begin_changing("intmap_clear", map);
    intmap_clear(&one->map);
    end_changing(one);
}

#ifdef INTMAP_HAS_AT
void intmap_debug_place(intmap *map, uint64_t key, uint64_t **at) {
    debug_record *one = begin_changing("intmap_place", map);
    intmap_place(&one->map, key, at);
    end_changing(one);
}
#endif

bool intmap_debug_equal(const intmap *map, const intmap *other) {
    debug_record *one = begin_reading("intmap_equal", map);
    debug_record *two = begin_reading("intmap_equal", other);
    bool answer = intmap_equal(&one->map, &two->map);
    end_reading(two);
    end_reading(one);
    return answer;
}

// The other calls, each with one map.
#define CALL(kind, type, name, parameters, arguments)                                              \
    type intmap_debug_##name parameters {                                                          \
        debug_record *one = begin_##kind("intmap_" #name, map);                                    \
        type answer = intmap_##name arguments;                                                     \
        end_##kind(one);                                                                           \
        return answer;                                                                             \
    }

CALL(reading, intmap_found_value, get, (const intmap *map, uint64_t key), (&one->map, key))
CALL(reading, bool, contains_key, (const intmap *map, uint64_t key), (&one->map, key))
CALL(reading, size_t, len, (const intmap *map), (&one->map))
CALL(reading, size_t, capacity, (const intmap *map), (&one->map))
CALL(reading, size_t, load_factor, (const intmap *map), (&one->map))
CALL(reading, size_t, filled_slots, (const intmap *map), (&one->map))
CALL(reading, intmap_found_pair, step, (const intmap *map, intmap_cursor *at), (&one->map, at))
CALL(reading, size_t, copy_pairs, (const intmap *map, intmap_cursor *at, intmap_pair *pairs,
                                   size_t room), (&one->map, at, pairs, room))
CALL(changing, intmap_found_value, replace, (intmap *map, uint64_t key, uint64_t value),
     (&one->map, key, value))
CALL(changing, intmap_found_value, add_present, (intmap *map, uint64_t key, uint64_t more),
     (&one->map, key, more))
CALL(changing, intmap_found_value, remove, (intmap *map, uint64_t key), (&one->map, key))
CALL(changing, intmap_found_pair, cut, (intmap *map, intmap_cursor *at), (&one->map, at))
CALL(changing, size_t, keep_marked, (intmap *map, intmap_cursor *at, uint64_t marks),
     (&one->map, at, marks))

// Those that may make the first map of a word.
#define FIRST_CALL(type, name, parameters, arguments, no_memory)                                   \
    type intmap_debug_##name parameters {                                                          \
        type answer = no_memory;                                                                   \
        debug_record *one = begin_first("intmap_" #name, map);                                     \
        if (one != NULL) {                                                                         \
            answer = intmap_##name arguments;                                                      \
            end_first(map, one);                                                                   \
        }                                                                                          \
        return answer;                                                                             \
    }

static const intmap_found_value NO_VALUE = {0, INTMAP_NO_MEMORY};

FIRST_CALL(intmap_found_value, insert, (intmap *map, uint64_t key, uint64_t value),
           (&one->map, key, value), NO_VALUE)
FIRST_CALL(intmap_status, find_or_insert, (intmap *map, uint64_t key, uint64_t value),
           (&one->map, key, value), INTMAP_NO_MEMORY)
FIRST_CALL(intmap_found_value, add_or_insert, (intmap *map, uint64_t key, uint64_t more),
           (&one->map, key, more), NO_VALUE)
FIRST_CALL(intmap_status, reserve_slots, (intmap *map, size_t additional), (&one->map, additional),
           INTMAP_NO_MEMORY)
FIRST_CALL(intmap_status, reserve, (intmap *map, size_t more), (&one->map, more), INTMAP_NO_MEMORY)
FIRST_CALL(intmap_status, reserve_insertions, (intmap *map, size_t more), (&one->map, more),
           INTMAP_NO_MEMORY)
FIRST_CALL(intmap_status, set_load_factor, (intmap *map, size_t thousandths),
           (&one->map, thousandths), INTMAP_NO_MEMORY)

#ifdef __cplusplus
}
#endif

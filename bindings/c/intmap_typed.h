// SPDX-License-Identifier: MIT
// Copyright (c) 2026 the Dovaszing maintainers
//
// Maps with keys and values of types of your own, over intmap.h, for C99 and C++11. Nothing here is
// proved: tests show it. Outside functions this declares the type `prices` and its functions:
//
//     INTMAP_DECLARE(prices, uint32_t, double);
//
// Keys are of an integer type. Values are of any type that may be copied byte by byte: a number, an
// address, a struct without a destructor. Both take at most 8 bytes. Other types aren't compiled. A
// map is defined by {INTMAP_INIT}, moved as a word is, and freed at the end:
//
//     prices map = {INTMAP_INIT};
//     if (intmap_failed(prices_put(&map, 7, 2.5))) {
//         fputs("out of memory\n", stderr);
//     }
//     INTMAP_FOR_EACH_OF(prices, &map, pair) {
//         printf("%" PRIu32 ": %g\n", pair->key, pair->value);
//     }
//     prices_free(&map);
//
// Each function does what the call of intmap.h does whose name ends alike, and the rules there
// hold: prices_put, _insert, _find_or_insert, _replace, _get, _get_or, _contains_key, _remove,
// _len, _clear, _free, _walk_begin and _walk_next. A prices_pair is a key with a value. A
// prices_found_value is a value with a status; if the status isn't INTMAP_PRESENT, all bits of the
// value are 0.
//
// Other calls take the word, as intmap_reserve(&map.word, 100). For them a key that is -1 is
// 2^64 - 1. prices_to_number and prices_from_number turn values. intmap_equal compares their bytes,
// also those between the fields of a struct.
#ifndef INTMAP_TYPED_H
#define INTMAP_TYPED_H

#include "intmap.h"
#include <string.h>

// No compiler warns of a function that isn't called.
#if defined(__GNUC__) || defined(__clang__)
#define INTMAP_TYPED __attribute__((unused)) static inline
#else
#define INTMAP_TYPED static inline
#endif

#define INTMAP_DECLARE(name, key_type, value_type)                                                 \
    typedef struct name {                                                                          \
        intmap word;                                                                               \
    } name;                                                                                        \
    typedef struct name##_found_value {                                                            \
        value_type value;                                                                          \
        intmap_status status;                                                                      \
    } name##_found_value;                                                                          \
    typedef struct name##_pair {                                                                   \
        key_type key;                                                                              \
        value_type value;                                                                          \
    } name##_pair;                                                                                 \
    typedef struct name##_walk {                                                                   \
        intmap_walk walk;                                                                          \
        name##_pair pair;                                                                          \
    } name##_walk;                                                                                 \
    INTMAP_TYPED uint64_t name##_to_number(value_type value) INTMAP_CALL {                         \
        uint64_t number = 0;                                                                       \
        memcpy(&number, &value, sizeof value);                                                     \
        return number;                                                                             \
    }                                                                                              \
    INTMAP_TYPED value_type name##_from_number(uint64_t number) INTMAP_CALL {                      \
        value_type value;                                                                          \
        memcpy(&value, &number, sizeof value);                                                     \
        return value;                                                                              \
    }                                                                                              \
    INTMAP_TYPED name##_found_value name##_from_found(intmap_found_value found) INTMAP_CALL {      \
        name##_found_value answer = {name##_from_number(found.value), found.status};               \
        return answer;                                                                             \
    }                                                                                              \
    INTMAP_MUST_USE INTMAP_TYPED intmap_status name##_put(name *map, key_type key,                 \
                                                          value_type value) INTMAP_CALL {          \
        return intmap_put(&map->word, (uint64_t)key, name##_to_number(value));                     \
    }                                                                                              \
    INTMAP_MUST_USE INTMAP_TYPED name##_found_value name##_insert(name *map, key_type key,         \
                                                                  value_type value) INTMAP_CALL {  \
        return name##_from_found(                                                                  \
            intmap_insert(&map->word, (uint64_t)key, name##_to_number(value)));                    \
    }                                                                                              \
    INTMAP_MUST_USE INTMAP_TYPED intmap_status name##_find_or_insert(name *map, key_type key,      \
                                                                     value_type value)             \
        INTMAP_CALL {                                                                              \
        return intmap_find_or_insert(&map->word, (uint64_t)key, name##_to_number(value));          \
    }                                                                                              \
    INTMAP_MUST_USE INTMAP_TYPED name##_found_value name##_replace(name *map, key_type key,        \
                                                                   value_type value) INTMAP_CALL { \
        return name##_from_found(                                                                  \
            intmap_replace(&map->word, (uint64_t)key, name##_to_number(value)));                   \
    }                                                                                              \
    INTMAP_TYPED name##_found_value name##_get(const name *map, key_type key) INTMAP_CALL {        \
        return name##_from_found(intmap_get(&map->word, (uint64_t)key));                           \
    }                                                                                              \
    INTMAP_TYPED value_type name##_get_or(const name *map, key_type key, value_type otherwise)     \
        INTMAP_CALL {                                                                              \
        return name##_from_number(                                                                 \
            intmap_get_or(&map->word, (uint64_t)key, name##_to_number(otherwise)));                \
    }                                                                                              \
    INTMAP_TYPED bool name##_contains_key(const name *map, key_type key) INTMAP_CALL {             \
        return intmap_contains_key(&map->word, (uint64_t)key);                                     \
    }                                                                                              \
    INTMAP_TYPED name##_found_value name##_remove(name *map, key_type key) INTMAP_CALL {           \
        return name##_from_found(intmap_remove(&map->word, (uint64_t)key));                        \
    }                                                                                              \
    INTMAP_TYPED size_t name##_len(const name *map) INTMAP_CALL {                                  \
        return intmap_len(&map->word);                                                             \
    }                                                                                              \
    INTMAP_TYPED void name##_clear(name *map) INTMAP_CALL {                                        \
        intmap_clear(&map->word);                                                                  \
    }                                                                                              \
    INTMAP_TYPED void name##_free(name *map) INTMAP_CALL {                                         \
        intmap_free(&map->word);                                                                   \
    }                                                                                              \
    INTMAP_TYPED name##_walk *name##_walk_begin(name##_walk *walk, const name *map) INTMAP_CALL {  \
        intmap_walk_begin(&walk->walk, &map->word);                                                \
        return walk;                                                                               \
    }                                                                                              \
    INTMAP_TYPED const name##_pair *name##_walk_next(name##_walk *walk) INTMAP_CALL {              \
        const intmap_pair *pair = intmap_walk_next(&walk->walk);                                   \
        if (pair == NULL) {                                                                        \
            return NULL;                                                                           \
        }                                                                                          \
        walk->pair.key = (key_type)pair->key;                                                      \
        walk->pair.value = name##_from_number(pair->value);                                        \
        return &walk->pair;                                                                        \
    }                                                                                              \
    typedef char name##_has_integers_for_keys_and_at_most_8_bytes                                  \
        [(key_type)1 / 2 == 0 && sizeof(key_type) <= 8 && sizeof(value_type) <= 8 ? 1 : -1]

#endif

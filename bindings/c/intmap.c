// intmap 1.1.0: a hash map from 64-bit keys to 64-bit values, as portable C. intmap.h declares it.
//
//     cc -O2 program.c intmap.c
//
// It is C99 and C++11, and later ones of both, for machines with addresses of 64 bits.
//
// Each function that intmap.h declares is compiled from Rattle code that is proved to keep its
// contract. This file is what LLVM's optimiser makes of that code, printed as C by tools/printed of the
// repository. It isn't to be edited. What comes before and after the functions of the module is written by
// hand, and isn't proved.
//
// Above each function of the module stands the first sentence of its comment in the sources, and where it
// is. Functions of Rattle's own library have no such sentence, since its sources aren't in the repository. A
// function returns no result that nobody uses, whatever the sentence says. It stands behind those that it
// calls.
//
// An enum for each type has the places of its fields: a map is a block of INT_MAP_SIZE bytes. Fields have the
// names of the sources. Those of a vector, an option and a result have none there: they are called ADDRESS,
// LEN and ROOM, HAS, and HAS_FAILED and MADE. If a result has a value where it may have a failure, the place
// has the names of both.
//
// Maps, slots, pairs and indices have the names of the sources too. Other values are called as the function
// that they come from, as the field that they are stored in or as the parameter that they become. A name
// such as r12 is the optimiser's. If several things have one name, a number is added to the name of each
// but the first.
//
// If this prints the SHA-256 that CHANGELOG.md of the repository has for this version, the file is as it
// was released:
//
//     grep -v '^// Compilers: ' intmap.c | sha256sum
//
// Compilers: rattle-kit-13b logic dac8208d650f15bf; clang version 22.1.8
// Sources: eb7a7e2a4186dfeb286712b20a5f55950cc51500438783d4a517921d6f56e306
//
// SPDX-License-Identifier: MIT
//
// MIT License
//
// Copyright (c) 2026 the Dovaszing maintainers
//
// Permission is hereby granted, free of charge, to any person obtaining a copy
// of this software and associated documentation files (the "Software"), to deal
// in the Software without restriction, including without limitation the rights
// to use, copy, modify, merge, publish, distribute, sublicense, and/or sell
// copies of the Software, and to permit persons to whom the Software is
// furnished to do so, subject to the following conditions:
//
// The above copyright notice and this permission notice shall be included in all
// copies or substantial portions of the Software.
//
// THE SOFTWARE IS PROVIDED "AS IS", WITHOUT WARRANTY OF ANY KIND, EXPRESS OR
// IMPLIED, INCLUDING BUT NOT LIMITED TO THE WARRANTIES OF MERCHANTABILITY,
// FITNESS FOR A PARTICULAR PURPOSE AND NONINFRINGEMENT. IN NO EVENT SHALL THE
// AUTHORS OR COPYRIGHT HOLDERS BE LIABLE FOR ANY CLAIM, DAMAGES OR OTHER
// LIABILITY, WHETHER IN AN ACTION OF CONTRACT, TORT OR OTHERWISE, ARISING FROM,
// OUT OF OR IN CONNECTION WITH THE SOFTWARE OR THE USE OR OTHER DEALINGS IN THE
// SOFTWARE.

#include "intmap.h"
#include <stdlib.h>
#include <string.h>

#if UINTPTR_MAX != UINT64_MAX
#error "intmap.c is for processors with addresses of 64 bits"
#endif
#ifdef INTMAP_DEBUG
#error "compile intmap_debug.c, which includes intmap.c, in its place"
#endif

// What gcc and clang add to C. INTMAP_PLAIN_C leaves it out, as it is for other compilers.
#if (defined(__GNUC__) || defined(__clang__)) && !defined(INTMAP_PLAIN_C)
#define HAS_ADDITIONS 1
#else
#define HAS_ADDITIONS 0
#endif

// What the optimiser knew of a function is told to the compiler. Some loops take a tenth longer if
// their function starts in the middle of a line of the cache.
#if HAS_ADDITIONS
#define ALWAYS_INLINE inline __attribute__((always_inline))
#define NOINLINE __attribute__((noinline))
#define COLD __attribute__((noinline, cold))
#define ALIGNED __attribute__((aligned(64)))
#elif defined(_MSC_VER)
#define ALWAYS_INLINE __forceinline
#define NOINLINE __declspec(noinline)
#define COLD __declspec(noinline)
#define ALIGNED
#else
#define ALWAYS_INLINE inline
#define NOINLINE
#define COLD
#define ALIGNED
#endif

// A map's bytes are the same on every machine: the low byte of a number comes first.
#if defined(__BYTE_ORDER__) && __BYTE_ORDER__ == __ORDER_BIG_ENDIAN__
#define HIGH_BYTE_FIRST 1
#define LOW_FIRST_16(x) __builtin_bswap16(x)
#define LOW_FIRST_32(x) __builtin_bswap32(x)
#define LOW_FIRST_64(x) __builtin_bswap64(x)
#else
#define HIGH_BYTE_FIRST 0
#define LOW_FIRST_16(x) (x)
#define LOW_FIRST_32(x) (x)
#define LOW_FIRST_64(x) (x)
#endif

static inline uint8_t load8(const char *at) {
    return (uint8_t)*at;
}

static inline uint16_t load16(const char *at) {
    uint16_t x;
    memcpy(&x, at, 2);
    return LOW_FIRST_16(x);
}

static inline uint32_t load32(const char *at) {
    uint32_t x;
    memcpy(&x, at, 4);
    return LOW_FIRST_32(x);
}

static inline uint64_t load64(const char *at) {
    uint64_t x;
    memcpy(&x, at, 8);
    return LOW_FIRST_64(x);
}

static inline void store8(char *at, uint8_t x) {
    *at = (char)x;
}

static inline void store16(char *at, uint16_t x) {
    x = LOW_FIRST_16(x);
    memcpy(at, &x, 2);
}

static inline void store32(char *at, uint32_t x) {
    x = LOW_FIRST_32(x);
    memcpy(at, &x, 4);
}

static inline void store64(char *at, uint64_t x) {
    x = LOW_FIRST_64(x);
    memcpy(at, &x, 8);
}

#if HIGH_BYTE_FIRST
static inline char *load_address(const char *at) {
    return (char *)(uintptr_t)load64(at);
}

static inline void store_address(char *at, char *x) {
    store64(at, (uint64_t)(uintptr_t)x);
}
#else
static inline char *load_address(const char *at) {
    char *x;
    memcpy(&x, at, 8);
    return x;
}

static inline void store_address(char *at, char *x) {
    memcpy(at, &x, 8);
}
#endif

// Loads the low bytes of a number, at most 8.
static inline uint64_t load_bytes(const char *at, size_t count) {
    uint64_t x = 0;
    memcpy(&x, at, count);
    return LOW_FIRST_64(x);
}

// Stores the low bytes of a number, at most 8.
static inline void store_bytes(char *at, uint64_t x, size_t count) {
    x = LOW_FIRST_64(x);
    memcpy(at, &x, count);
}

// Bits.

#if HAS_ADDITIONS
// The number has a bit that is 1.
static inline uint64_t place_of_lowest_1(uint64_t x) {
    return (uint64_t)__builtin_ctzll(x);
}

static inline uint64_t high_zeros(uint64_t x) {
    return x != 0 ? (uint64_t)__builtin_clzll(x) : 64;
}

static inline uint64_t ones_in(uint64_t x) {
    return (uint64_t)__builtin_popcountll(x);
}
#else
static inline uint64_t ones_in(uint64_t x) {
    x -= x >> 1 & 0x5555555555555555u;
    x = (x & 0x3333333333333333u) + (x >> 2 & 0x3333333333333333u);
    return ((x + (x >> 4)) & 0x0F0F0F0F0F0F0F0Fu) * 0x0101010101010101u >> 56;
}

static inline uint64_t place_of_lowest_1(uint64_t x) {
    return ones_in(~x & (x - 1));
}

static inline uint64_t high_zeros(uint64_t x) {
    x |= x >> 1;
    x |= x >> 2;
    x |= x >> 4;
    x |= x >> 8;
    x |= x >> 16;
    x |= x >> 32;
    return ones_in(~x);
}
#endif

static inline uint64_t greater(uint64_t one, uint64_t other) {
    return one > other ? one : other;
}

static inline uint64_t lesser(uint64_t one, uint64_t other) {
    return one < other ? one : other;
}

static inline uint64_t sum_or_most(uint64_t one, uint64_t other) {
    return one > ~other ? UINT64_MAX : one + other;
}

// The link that two parts make.
static inline uint64_t link_of(uint64_t high, uint64_t low) {
    return high << 32 | low;
}

// The least number of things of a size that take 2^63 bytes or more. No block of memory is so long.
#define TOO_MANY(size) ((uint64_t)INT64_MAX / (size) + 1)

// Numbers of 128 bits, which only the load factor needs.

#if HAS_ADDITIONS && defined(__SIZEOF_INT128__)
__extension__ typedef unsigned __int128 u128;

static inline u128 u128_of(uint64_t x) {
    return x;
}

static inline u128 u128_two(uint64_t high, uint64_t low) {
    return (u128)high << 64 | low;
}

static inline uint64_t u128_low(u128 x) {
    return (uint64_t)x;
}

static inline bool u128_above(u128 one, u128 other) {
    return one > other;
}

static inline u128 u128_add(u128 one, u128 other) {
    return one + other;
}

static inline u128 u128_less_one(u128 x) {
    return x - 1;
}

static inline u128 u128_mul(u128 one, u128 other) {
    return one * other;
}

static inline u128 u128_div(u128 x, u128 by) {
    return x / by;
}
#else
typedef struct u128 {
    uint64_t high, low;
} u128;

static inline u128 u128_two(uint64_t high, uint64_t low) {
    u128 x;
    x.high = high;
    x.low = low;
    return x;
}

static inline u128 u128_of(uint64_t x) {
    return u128_two(0, x);
}

static inline uint64_t u128_low(u128 x) {
    return x.low;
}

static inline bool u128_above(u128 one, u128 other) {
    return one.high > other.high || (one.high == other.high && one.low > other.low);
}

static inline u128 u128_add(u128 one, u128 other) {
    uint64_t low = one.low + other.low;
    return u128_two(one.high + other.high + (low < one.low), low);
}

static inline u128 u128_less_one(u128 x) {
    return u128_two(x.high - (x.low == 0), x.low - 1);
}

static inline u128 u128_mul(u128 one, u128 other) {
    uint64_t half = 0xFFFFFFFFu;
    uint64_t a = one.low & half, b = one.low >> 32, c = other.low & half, d = other.low >> 32;
    uint64_t first = a * c, second = b * c + (first >> 32), third = a * d + (second & half);
    uint64_t high = b * d + (second >> 32) + (third >> 32);
    return u128_two(high + one.high * other.low + one.low * other.high,
                    third << 32 | (first & half));
}

// The divisor is from 1 to 2^63 - 1.
static inline u128 u128_div(u128 x, u128 by) {
    u128 found = u128_of(0);
    uint64_t left = 0;
    for (int at = 127; at >= 0; at--) {
        found = u128_add(found, found);
        left = left << 1 | ((at >= 64 ? x.high >> (at - 64) : x.low >> at) & 1);
        if (left >= by.low) {
            left -= by.low;
            found.low |= 1;
        }
    }
    return found;
}
#endif

// Where things without bytes lie. It has the bytes of a slot, since branches that are never taken store
// one there.
static uint64_t no_bytes[3];

// What functions return. The fields have no names in the module.

struct byte_address {
    uint8_t first;
    char *second;
};
static inline struct byte_address made_byte_address(uint8_t first, char *second) {
    struct byte_address made;
    made.first = first;
    made.second = second;
    return made;
}
struct byte_word {
    uint8_t first;
    uint64_t second;
};
static inline struct byte_word made_byte_word(uint8_t first, uint64_t second) {
    struct byte_word made;
    made.first = first;
    made.second = second;
    return made;
}
struct word_word {
    uint64_t first;
    uint64_t second;
};
static inline struct word_word made_word_word(uint64_t first, uint64_t second) {
    struct word_word made;
    made.first = first;
    made.second = second;
    return made;
}
struct byte_byte {
    uint8_t first;
    uint8_t second;
};
static inline struct byte_byte made_byte_byte(uint8_t first, uint8_t second) {
    struct byte_byte made;
    made.first = first;
    made.second = second;
    return made;
}
struct word_half {
    uint64_t first;
    uint32_t second;
};
static inline struct word_half made_word_half(uint64_t first, uint32_t second) {
    struct word_half made;
    made.first = first;
    made.second = second;
    return made;
}
static inline struct word_half empty_word_half(void) {
    struct word_half made;
    memset(&made, 0, sizeof made);
    return made;
}

// Requests for memory. A success has 1 and the block. `same` keeps compilers from making one call of calloc
// of a request and the memset behind it: a program may have a malloc of its own.
static inline struct word_word granted(void *block) {
    void *volatile same = block;
    block = same;
    char *at = block != NULL ? (char *)block : (char *)no_bytes;
    return made_word_word(block != NULL, (uint64_t)(uintptr_t)at);
}

static inline struct word_word rattle_alloc(uint64_t size, uint64_t align) {
    return granted(malloc((size_t)(size != 0 ? size : align)));
}

static inline struct word_word rattle_realloc(char *block, uint64_t before, uint64_t size,
                                              uint64_t align) {
    (void)before;
    return granted(realloc(block, (size_t)(size != 0 ? size : align)));
}

static inline void rattle_dealloc(char *block) {
    free(block);
}

// The functions of the module.

// Where the fields of structs lie, by the names of the sources, and how many bytes a struct has.

// Result<IntMap<u64, u64, Global>, Cause>
enum {
    MADE_INT_MAP_HAS_FAILED = 0,
    MADE_INT_MAP_MASK = 8,
    MADE_INT_MAP_WORDS = 16,
    MADE_INT_MAP_WORDS_LEN = 24,
    MADE_INT_MAP_WORDS_ROOM = 32,
    MADE_INT_MAP_SLOTS = 40,
    MADE_INT_MAP_SLOTS_LEN = 48,
    MADE_INT_MAP_SLOTS_ROOM = 56,
    MADE_INT_MAP_NODES = 64,
    MADE_INT_MAP_NODES_LEN = 72,
    MADE_INT_MAP_NODES_ROOM = 80,
    MADE_INT_MAP_FREE = 88,
    MADE_INT_MAP_SPARE = 96,
    MADE_INT_MAP_LEN = 104,
    MADE_INT_MAP_THRESHOLD = 112,
    MADE_INT_MAP_FACTOR = 120,
    MADE_INT_MAP_CAUSE = 1,
    MADE_INT_MAP_SIZE = 128
};
// A hash map from integer keys to values.
// IntMap<u64, u64>, in crates/intmap/src/map.rt
enum {
    INT_MAP_MASK = 0,
    INT_MAP_WORDS = 8,
    INT_MAP_WORDS_LEN = 16,
    INT_MAP_WORDS_ROOM = 24,
    INT_MAP_SLOTS = 32,
    INT_MAP_SLOTS_LEN = 40,
    INT_MAP_SLOTS_ROOM = 48,
    INT_MAP_NODES = 56,
    INT_MAP_NODES_LEN = 64,
    INT_MAP_NODES_ROOM = 72,
    INT_MAP_FREE = 80,
    INT_MAP_SPARE = 88,
    INT_MAP_LEN = 96,
    INT_MAP_THRESHOLD = 104,
    INT_MAP_FACTOR = 112,
    INT_MAP_SIZE = 120
};
// Result<Slots<u64, Kept<u64>, Global>, AllocError>
enum {
    MADE_SLOTS_HAS_FAILED = 0,
    MADE_SLOTS_MASK = 8,
    MADE_SLOTS_WORDS = 16,
    MADE_SLOTS_WORDS_LEN = 24,
    MADE_SLOTS_WORDS_ROOM = 32,
    MADE_SLOTS_SLOTS = 40,
    MADE_SLOTS_SLOTS_LEN = 48,
    MADE_SLOTS_SLOTS_ROOM = 56,
    MADE_SLOTS_NODES = 64,
    MADE_SLOTS_NODES_LEN = 72,
    MADE_SLOTS_NODES_ROOM = 80,
    MADE_SLOTS_FREE = 88,
    MADE_SLOTS_SPARE = 96,
    MADE_SLOTS_SIZE = 104
};
// Slots, the nodes of their further pairs, and one bit for each slot, which says whether it holds a pair.
// Slots<u64, Kept<u64>, Global>, in crates/intmap_table/src/table/slots.rt
enum {
    SLOTS_SIZE = 96
};
// Slots, whose number is a power of two.
// Table<u64, Kept<u64>, Global>, in crates/intmap_table/src/table.rt
enum {
    TABLE_SIZE = 96
};
// Nodes, and a list of those without a pair.
// Pool<(Stored<u64>, Kept<u64>), Global>, in crates/intmap_table/src/linked/pool.rt
enum {
    POOL_NODES = 0,
    POOL_NODES_LEN = 8,
    POOL_NODES_ROOM = 16,
    POOL_FREE = 24,
    POOL_SPARE = 32,
    POOL_SIZE = 40
};
// Result<Bits<Global>, AllocError>
enum {
    MADE_BITS_HAS_FAILED = 0,
    MADE_BITS_WORDS = 8,
    MADE_BITS_WORDS_LEN = 16,
    MADE_BITS_WORDS_ROOM = 24,
    MADE_BITS_SIZE = 32
};
// Result<Location<u64>, Refused<u64>>
enum {
    MADE_LOCATION_HAS_FAILED = 0,
    MADE_LOCATION_KEY_OR_VALUE = 8,
    MADE_LOCATION_SLOT_OR_CAUSE = 16,
    MADE_LOCATION_PLACE = 24,
    MADE_LOCATION_SIZE = 32
};
// One bit for each index: whether it is marked.
// Bits<Global>, in crates/intmap_table/src/bits.rt
enum {
    BITS_WORDS = 0,
    BITS_WORDS_LEN = 8,
    BITS_WORDS_ROOM = 16,
    BITS_SIZE = 24
};
// A pair, if there is one.
// FoundPair, in crates/intmap_c/src/answer.rt
enum {
    FOUND_PAIR_KEY = 0,
    FOUND_PAIR_VALUE = 8,
    FOUND_PAIR_STATUS = 16,
    FOUND_PAIR_SIZE = 24
};
// Result<bool, Refused<u64>>
enum {
    MADE_BOOL_HAS_FAILED = 0,
    MADE_BOOL_MADE = 1,
    MADE_BOOL_VALUE = 8,
    MADE_BOOL_CAUSE = 16,
    MADE_BOOL_SIZE = 24
};
// Result<Option<u64>, Refused<u64>>
enum {
    MADE_OPTION_2_HAS_FAILED = 0,
    MADE_OPTION_2_HAS_MADE_OR_VALUE = 8,
    MADE_OPTION_2_MADE_OR_CAUSE = 16,
    MADE_OPTION_2_SIZE = 24
};
// Result<Option<Kept<u64>>, Kept<u64>>
enum {
    MADE_OPTION_HAS_FAILED = 0,
    MADE_OPTION_HAS_MADE_OR_VALUE = 8,
    MADE_OPTION_VALUE = 16,
    MADE_OPTION_SIZE = 24
};
// Result<usize, (Stored<u64>, Kept<u64>)>
enum {
    MADE_USIZE_HAS_FAILED = 0,
    MADE_USIZE_MADE_OR_KEY = 8,
    MADE_USIZE_VALUE = 16,
    MADE_USIZE_SIZE = 24
};
// A place for a pair.
// Node<(Stored<u64>, Kept<u64>)>, in crates/intmap_table/src/linked/node.rt
enum {
    NODE_HAS_PAIR = 0,
    NODE_HIGH = 2,
    NODE_LOW = 4,
    NODE_KEY = 8,
    NODE_VALUE = 16,
    NODE_SIZE = 24
};
// Option, in Rattle's library
enum {
    OPTION_HAS = 0,
    OPTION_KEY = 8,
    OPTION_VALUE = 16,
    OPTION_SIZE = 24
};
// Vec, in Rattle's library
enum {
    VEC_ADDRESS = 0,
    VEC_LEN = 8,
    VEC_ROOM = 16,
    VEC_SIZE = 24
};
// A position in a walk: before the pair at this place of this slot or, if the slot has no such pair, before the pairs
// of the slots behind it.
// Cursor, in crates/intmap_table/src/table/walk.rt
enum {
    CURSOR_SLOT = 0,
    CURSOR_PLACE = 8,
    CURSOR_SIZE = 16
};
// Bits for the next pairs, as many as are left: those of the word, from its lowest one up.
// KeepBits, in crates/intmap_table/src/linked/keep.rt
enum {
    KEEP_BITS_WORD = 0,
    KEEP_BITS_LEFT = 8,
    KEEP_BITS_SIZE = 16
};
// The marks of one word that a walk hasn't passed yet, and the place of this word.
// MarksLeft, in crates/intmap_table/src/bits.rt
enum {
    MARKS_LEFT_AT = 0,
    MARKS_LEFT_WORD = 8,
    MARKS_LEFT_SIZE = 16
};
// (Stored<u64>, Kept<u64>)
enum {
    PAIR_SIZE = 16
};
// Numbers that the sources name. Statuses are those of intmap.h, without a sign.

#define MULTIPLIER UINT64_C(11400714819323198549)
#define NOWHERE_HIGH 65535
#define NOWHERE UINT64_C(281474976710655)
#define NODE_LIMIT UINT64_C(281470681743360)
#define NOWHERE_LOW 4294967295u
#define NO_MEMORY 4294967295u
#define TOO_LARGE 4294967294u
#define GREATEST_CAPACITY UINT64_C(9223372036854775808)
#define MOST_FIRST_PAIRS UINT64_C(8393268553537845985)

// A mutable reference to the value of the key, or `None` if the key is absent.
// intmap::map::IntMap::get_mut, in crates/intmap/src/map/get.rt
static ALWAYS_INLINE struct byte_address intmap_get_mut(char *map, uint64_t key) {
    char *node = load_address(map + INT_MAP_SLOTS) + ((load64(map + INT_MAP_MASK) & (key * MULTIPLIER)) * NODE_SIZE);
    if (load8(node + NODE_HAS_PAIR) != 1) {
        return made_byte_address(0, NULL);
    }
    if (load64(node + NODE_KEY) == key) {
        return made_byte_address(1, node + NODE_VALUE);
    }
    uint64_t link = link_of(load16(node + NODE_HIGH), load32(node + NODE_LOW));
    uint64_t nodes_len = load64(map + INT_MAP_NODES_LEN);
    if (nodes_len <= link) {
        return made_byte_address(0, NULL);
    }
    char *nodes = load_address(map + INT_MAP_NODES);
    uint64_t at = link;
    for (;;) {
        char *node_2 = nodes + (at * NODE_SIZE);
        if (load8(node_2 + NODE_HAS_PAIR) != 1) {
            return made_byte_address(0, NULL);
        }
        if (load64(node_2 + NODE_KEY) == key) {
            return made_byte_address(1, node_2 + NODE_VALUE);
        }
        uint64_t link_2 = link_of(load16(node_2 + NODE_HIGH), load32(node_2 + NODE_LOW));
        if (nodes_len <= link_2) {
            return made_byte_address(0, NULL);
        }
        at = link_2;
    }
}

// The same as `get`, but each comparison of a stored key with the sought one is counted in `steps`.
// intmap::map::IntMap::get_counted, in crates/intmap/src/map/get.rt
static ALWAYS_INLINE struct byte_address intmap_get_counted(char *map, uint64_t key) {
    char *node_2;
    char *node = load_address(map + INT_MAP_SLOTS) + ((load64(map + INT_MAP_MASK) & (key * MULTIPLIER)) * NODE_SIZE);
    if (load8(node + NODE_HAS_PAIR) != 1) {
        return made_byte_address(0, NULL);
    }
    uint64_t link = link_of(load16(node + NODE_HIGH), load32(node + NODE_LOW));
    if (load64(node + NODE_KEY) == key) {
        node_2 = node;
    } else {
        uint64_t nodes_len = load64(map + INT_MAP_NODES_LEN);
        if (nodes_len <= link) {
            return made_byte_address(0, NULL);
        }
        char *nodes = load_address(map + INT_MAP_NODES);
        uint64_t at = link;
        for (;;) {
            char *node_3 = nodes + (at * NODE_SIZE);
            if (load8(node_3 + NODE_HAS_PAIR) != 1) {
                return made_byte_address(0, NULL);
            }
            if (load64(node_3 + NODE_KEY) == key) {
                node_2 = node_3;
                break;
            }
            uint64_t link_2 = link_of(load16(node_3 + NODE_HIGH), load32(node_3 + NODE_LOW));
            if (nodes_len <= link_2) {
                return made_byte_address(0, NULL);
            }
            at = link_2;
        }
    }
    return made_byte_address(1, node_2 + NODE_VALUE);
}

// A link that leads through the pairs of the cursor's slot from its place on, but for the first one of the slot.
// intmap_table::table::slots::reached::link_to, in crates/intmap_table/src/table/slots/reached.rt
static ALWAYS_INLINE uint64_t reached_link_to(char *slots, uint64_t slots_len, char *pool, uint64_t at_slot, uint64_t at_place) {
    if (!((slots_len > at_slot) & (at_place != 0))) {
        return NOWHERE;
    }
    char *node = slots + (at_slot * NODE_SIZE);
    if (load8(node + NODE_HAS_PAIR) != 1) {
        return NOWHERE;
    }
    uint16_t high = load16(node + NODE_HIGH);
    uint64_t link = link_of(high, load32(node + NODE_LOW));
    uint64_t r2 = at_place - 1;
    if (!((r2 != 0) & (high != NOWHERE_HIGH))) {
        return link;
    }
    char *nodes = load_address(pool + POOL_NODES);
    uint64_t r2_2 = r2;
    uint64_t at = link;
    for (;;) {
        char *node_2 = nodes + (at * NODE_SIZE);
        if (load8(node_2 + NODE_HAS_PAIR) != 1) {
            abort(); // The proof excludes this.
        }
        uint16_t high_2 = load16(node_2 + NODE_HIGH);
        uint64_t link_2 = link_of(high_2, load32(node_2 + NODE_LOW));
        uint64_t r2_3 = r2_2 - 1;
        if (!((r2_3 != 0) & (high_2 != NOWHERE_HIGH))) {
            return link_2;
        }
        r2_2 = r2_3;
        at = link_2;
    }
}

// The first marked index from `_from` on.
// intmap_table::bits::Bits::next_in, in crates/intmap_table/src/bits.rt
static ALWAYS_INLINE struct byte_word bits_next_in(char *bits, char *left) {
    uint64_t at_4, r18;
    uint64_t word = load64(left + MARKS_LEFT_WORD);
    uint64_t at = load64(left + MARKS_LEFT_AT);
    if (word == 0) {
        uint64_t at_2 = at;
        for (;;) {
            uint64_t at_3 = at_2 + 1;
            if (load64(bits + BITS_WORDS_LEN) <= at_3) {
                return made_byte_word(0, 0);
            }
            uint64_t bits_2 = load64(load_address(bits + BITS_WORDS) + (at_3 << 3));
            store64(left + MARKS_LEFT_WORD, bits_2);
            store64(left + MARKS_LEFT_AT, at_3);
            if (bits_2 != 0) {
                at_4 = at_3;
                r18 = bits_2;
                break;
            }
            at_2 = at_3;
        }
    } else {
        at_4 = at;
        r18 = word;
    }
    uint64_t lowest = place_of_lowest_1(r18);
    store64(left + MARKS_LEFT_WORD, (r18 - 1) & r18);
    return made_byte_word(1, (at_4 << 6) | lowest);
}

// Removes the pair of a node, which is used again before any other one that is free.
// intmap_table::linked::pool::Pool::release, in crates/intmap_table/src/linked/pool.rt
static ALWAYS_INLINE struct word_word pool_release(char *pool, uint64_t at) {
    char *node = load_address(pool + POOL_NODES) + (at * NODE_SIZE);
    uint64_t free = load64(pool + POOL_FREE);
    uint64_t key = load64(node + NODE_KEY);
    uint64_t value = load64(node + NODE_VALUE);
    uint8_t has_pair = load8(node + NODE_HAS_PAIR);
    store16(node + NODE_HAS_PAIR, 0);
    store16(node + NODE_HIGH, (uint16_t)(free >> 32));
    store32(node + NODE_LOW, (uint32_t)free);
    memset(node + NODE_KEY, 0, PAIR_SIZE);
    if (has_pair != 1) {
        abort(); // The proof excludes this.
    }
    store64(pool + POOL_FREE, at);
    store64(pool + POOL_SPARE, load64(pool + POOL_SPARE) + 1);
    return made_word_word(key, value);
}

// Removes the pair of node `at`, which is behind the first pair of a slot.
// intmap_table::linked::row::removal::unlink, in crates/intmap_table/src/linked/row/removal.rt
static ALWAYS_INLINE struct word_word removal_unlink(char *slot, char *pool, uint64_t before, uint64_t at) {
    char *node = load_address(pool + POOL_NODES) + (at * NODE_SIZE);
    if (load8(node + NODE_HAS_PAIR) != 1) {
        abort(); // The proof excludes this.
    }
    uint16_t high = load16(node + NODE_HIGH);
    uint32_t low = load32(node + NODE_LOW);
    struct word_word release = pool_release(pool, at);
    if (before >= NODE_LIMIT) {
        if (load8(slot + NODE_HAS_PAIR) != 1) {
            abort(); // The proof excludes this.
        }
        store16(slot + NODE_HIGH, high);
        store32(slot + NODE_LOW, low);
        return release;
    }
    char *node_2 = load_address(pool + POOL_NODES) + (before * NODE_SIZE);
    if (load8(node_2 + NODE_HAS_PAIR) != 1) {
        abort(); // The proof excludes this.
    }
    store16(node_2 + NODE_HIGH, high);
    store32(node_2 + NODE_LOW, low);
    return release;
}

// Removes the first pair of a slot that holds others, which move up by one place.
// intmap_table::linked::row::removal::pop_front_of_several, in crates/intmap_table/src/linked/row/removal.rt
static ALIGNED NOINLINE struct word_word removal_pop_front_of_several(char *slot, uint64_t link, char *pool) {
    struct word_word unlink = removal_unlink(slot, pool, NOWHERE, link);
    if (load8(slot + NODE_HAS_PAIR) != 1) {
        abort(); // The proof excludes this.
    }
    uint64_t key = load64(slot + NODE_KEY);
    uint64_t value = load64(slot + NODE_VALUE);
    store64(slot + NODE_KEY, unlink.first);
    store64(slot + NODE_VALUE, unlink.second);
    return made_word_word(key, value);
}

// std_alloc::vec::Vec::grow_amortized, in Rattle's library std_alloc
static COLD bool vec_grow_amortized(char *vec, uint64_t a1) {
    struct word_word block_2;
    uint64_t len = load64(vec + VEC_LEN);
    if (a1 > (~len)) {
        return false;
    }
    uint64_t room = load64(vec + VEC_ROOM);
    uint64_t most = greater(len + a1, 4);
    uint64_t most_2 = greater(most, room << 1);
    uint64_t most_3 = (room < UINT64_C(4611686018427387904)) ? most_2 : most;
    if (most_3 >= TOO_MANY(24)) {
        return false;
    }
    if (room == 0) {
        struct word_word block = rattle_alloc(most_2 * 24, 8);
        if ((block.first & 1) == 0) {
            return false;
        }
        block_2 = block;
    } else {
        struct word_word block_3 = rattle_realloc(load_address(vec + VEC_ADDRESS), len * 24, most_3 * 24, 8);
        if ((block_3.first & 1) == 0) {
            return false;
        }
        block_2 = block_3;
    }
    store_address(vec + VEC_ADDRESS, (char *)(uintptr_t)block_2.second);
    store64(vec + VEC_ROOM, most_3);
    return true;
}

// Adds slots without a pair, so that there are `count`.
// intmap_table::table::slots::add_empty, in crates/intmap_table/src/table/slots.rt
static ALIGNED NOINLINE void slots_add_empty(char *slots, uint64_t count) {
    uint64_t len_2;
    uint64_t len = load64(slots + VEC_LEN);
    if (count <= len) {
        if (len <= count) {
            return;
        }
        store64(slots + VEC_LEN, count);
        return;
    }
    uint64_t r30 = count - len;
    if (r30 > (load64(slots + VEC_ROOM) - len)) {
        bool grow_amortized = vec_grow_amortized(slots, r30);
        if (!grow_amortized) {
            return;
        }
        len_2 = load64(slots + VEC_LEN);
    } else {
        len_2 = len;
    }
    if (len_2 >= count) {
        return;
    }
    uint64_t at = len_2;
    for (;;) {
        uint64_t next_at = at + 1;
        memset(load_address(slots + VEC_ADDRESS) + (at * NODE_SIZE), 0, NODE_SIZE);
        store64(slots + VEC_LEN, next_at);
        if (next_at == count) {
            return;
        }
        at = next_at;
    }
}

// Removes the pair at a place of a slot, if there is one.
// intmap_table::table::slots::Slots::remove_at, in crates/intmap_table/src/table/slots/pairs.rt
static ALWAYS_INLINE void slots_remove_at(char *result, char *map, uint64_t index, uint64_t place) {
    uint8_t has_pair_2;
    uint64_t has, key_3, value_3;
    if (load64(map + INT_MAP_MASK) < index) {
        memset(result, 0, OPTION_SIZE);
        return;
    }
    char *node = load_address(map + INT_MAP_SLOTS) + (index * NODE_SIZE);
    uint8_t has_pair = load8(node + NODE_HAS_PAIR);
    if (has_pair == 1) {
        uint64_t r2, key_2, value_2;
        uint16_t high = load16(node + NODE_HIGH);
        uint64_t link = link_of(high, load32(node + NODE_LOW));
        if (place == 0) {
            struct word_word pop_front_of_several;
            if (high == NOWHERE_HIGH) {
                uint64_t key = load64(node + NODE_KEY);
                uint64_t value = load64(node + NODE_VALUE);
                memset(node, 0, NODE_SIZE);
                pop_front_of_several = made_word_word(key, value);
            } else {
                struct word_word pop_front_of_several_2 = removal_pop_front_of_several(node, link, map + INT_MAP_NODES);
                pop_front_of_several = pop_front_of_several_2;
            }
            r2 = 1;
            key_2 = pop_front_of_several.first;
            value_2 = pop_front_of_several.second;
        } else {
            uint64_t r40 = place - 1;
            uint64_t nodes_len = load64(map + INT_MAP_NODES_LEN);
            if (nodes_len > link) {
                char *nodes = load_address(map + INT_MAP_NODES);
                uint64_t place_2 = 0;
                uint64_t at = link;
                uint64_t at_2 = NOWHERE;
                for (;;) {
                    char *node_2 = nodes + (at * NODE_SIZE);
                    if (load8(node_2 + NODE_HAS_PAIR) != 1) {
                        r2 = 0;
                        key_2 = 0;
                        value_2 = 0;
                        break;
                    }
                    if (place_2 == r40) {
                        struct word_word unlink = removal_unlink(node, map + INT_MAP_NODES, at_2, at);
                        r2 = 1;
                        key_2 = unlink.first;
                        value_2 = unlink.second;
                        break;
                    }
                    uint64_t link_2 = link_of(load16(node_2 + NODE_HIGH), load32(node_2 + NODE_LOW));
                    if (nodes_len <= link_2) {
                        r2 = 0;
                        key_2 = 0;
                        value_2 = 0;
                        break;
                    }
                    place_2 = place_2 + 1;
                    at_2 = at;
                    at = link_2;
                }
            } else {
                r2 = 0;
                key_2 = 0;
                value_2 = 0;
            }
        }
        has_pair_2 = load8(node + NODE_HAS_PAIR);
        has = r2;
        key_3 = key_2;
        value_3 = value_2;
    } else {
        has_pair_2 = has_pair;
        has = 0;
        key_3 = 0;
        value_3 = 0;
    }
    if (has_pair_2 == 0) {
        char *word_at = load_address(map + INT_MAP_WORDS) + ((index >> 3) & UINT64_C(0x1FFFFFFFFFFFFFF8));
        store64(word_at, load64(word_at) & (~((uint64_t)1 << (index & 63))));
    }
    store64(result + OPTION_HAS, has);
    store64(result + OPTION_KEY, key_3);
    store64(result + OPTION_VALUE, value_3);
}

// Removes pairs from the front of a slot, up to the first one whose bit is set.
// intmap_table::linked::keep::drop_front, in crates/intmap_table/src/linked/keep.rt
static ALWAYS_INLINE bool keep_drop_front(char *slot, char *pool, char *bits) {
    uint64_t left = load64(bits + KEEP_BITS_LEFT);
    if (left == 0) {
        return false;
    }
    uint64_t left_2 = left;
    for (;;) {
        if (load8(slot + NODE_HAS_PAIR) != 1) {
            return false;
        }
        uint16_t high = load16(slot + NODE_HIGH);
        uint64_t link = link_of(high, load32(slot + NODE_LOW));
        uint64_t word = load64(bits + KEEP_BITS_WORD);
        store64(bits + KEEP_BITS_WORD, word >> 1);
        store64(bits + KEEP_BITS_LEFT, left_2 - 1);
        if ((word & 1) != 0) {
            return true;
        }
        if (high == NOWHERE_HIGH) {
            uint8_t has_pair = load8(slot + NODE_HAS_PAIR);
            memset(slot, 0, NODE_SIZE);
            if (has_pair != 1) {
                abort(); // The proof excludes this.
            }
        } else {
            removal_pop_front_of_several(slot, link, pool);
        }
        uint64_t left_3 = load64(bits + KEEP_BITS_LEFT);
        if (left_3 == 0) {
            return false;
        }
        left_2 = left_3;
    }
}

// Keeps or removes pairs behind the first one of a slot, from the place on, each as its bit says.
// intmap_table::linked::keep::keep_behind, in crates/intmap_table/src/linked/keep.rt
static ALIGNED NOINLINE void keep_keep_behind(char *slot, char *pool, char *place, char *bits) {
    if (load8(slot + NODE_HAS_PAIR) != 1) {
        return;
    }
    uint64_t link = link_of(load16(slot + NODE_HIGH), load32(slot + NODE_LOW));
    uint64_t r27 = load64(place) - 1;
    uint64_t nodes_len = load64(pool + POOL_NODES_LEN);
    if (nodes_len <= link) {
        return;
    }
    char *nodes = load_address(pool + POOL_NODES);
    uint64_t place_2 = 0;
    uint64_t at = link;
    uint64_t at_2 = NOWHERE;
    for (;;) {
        char *node = nodes + (at * NODE_SIZE);
        if (load8(node + NODE_HAS_PAIR) != 1) {
            return;
        }
        if (place_2 == r27) {
            uint64_t left = load64(bits + KEEP_BITS_LEFT);
            if (left == 0) {
                return;
            }
            uint64_t left_2 = left;
            uint64_t at_3 = at_2;
            uint64_t at_4 = at;
            for (;;) {
                uint64_t at_5;
                if (load64(pool + POOL_NODES_LEN) <= at_4) {
                    return;
                }
                char *node_2 = load_address(pool + POOL_NODES) + (at_4 * NODE_SIZE);
                if (load8(node_2 + NODE_HAS_PAIR) != 1) {
                    return;
                }
                uint64_t link_2 = link_of(load16(node_2 + NODE_HIGH), load32(node_2 + NODE_LOW));
                uint64_t word = load64(bits + KEEP_BITS_WORD);
                store64(bits + KEEP_BITS_WORD, word >> 1);
                store64(bits + KEEP_BITS_LEFT, left_2 - 1);
                if ((word & 1) == 0) {
                    removal_unlink(slot, pool, at_3, at_4);
                    at_5 = at_3;
                } else {
                    store64(place, load64(place) + 1);
                    at_5 = at_4;
                }
                uint64_t left_3 = load64(bits + KEEP_BITS_LEFT);
                if (left_3 == 0) {
                    return;
                }
                left_2 = left_3;
                at_3 = at_5;
                at_4 = link_2;
            }
        }
        uint64_t link_3 = link_of(load16(node + NODE_HIGH), load32(node + NODE_LOW));
        if (nodes_len <= link_3) {
            return;
        }
        place_2 = place_2 + 1;
        at_2 = at;
        at = link_3;
    }
}

// Removes the key's pair from a slot that holds several.
// intmap_table::linked::row::removal::remove_of_several, in crates/intmap_table/src/linked/row/removal.rt
static ALIGNED NOINLINE struct byte_word removal_remove_of_several(char *slot, uint64_t link, char *pool, uint64_t key_number) {
    if (load8(slot + NODE_HAS_PAIR) != 1) {
        abort(); // The proof excludes this.
    }
    if (load64(slot + NODE_KEY) == key_number) {
        uint64_t before, at;
        char *nodes = load_address(pool + POOL_NODES);
        char *node = nodes + (link * NODE_SIZE);
        if (load8(node + NODE_HAS_PAIR) != 1) {
            abort(); // The proof excludes this.
        }
        uint16_t high = load16(node + NODE_HIGH);
        if (high == NOWHERE_HIGH) {
            before = NOWHERE;
            at = link;
        } else {
            uint64_t at_2 = link_of(high, load32(node + NODE_LOW));
            uint64_t r2 = link;
            for (;;) {
                char *node_2 = nodes + (at_2 * NODE_SIZE);
                if (load8(node_2 + NODE_HAS_PAIR) != 1) {
                    abort(); // The proof excludes this.
                }
                uint16_t high_2 = load16(node_2 + NODE_HIGH);
                if (high_2 == NOWHERE_HIGH) {
                    before = r2;
                    at = at_2;
                    break;
                }
                r2 = at_2;
                at_2 = link_of(high_2, load32(node_2 + NODE_LOW));
            }
        }
        struct word_word unlink = removal_unlink(slot, pool, before, at);
        if (load8(slot + NODE_HAS_PAIR) != 1) {
            abort(); // The proof excludes this.
        }
        uint64_t value = load64(slot + NODE_VALUE);
        store64(slot + NODE_KEY, unlink.first);
        store64(slot + NODE_VALUE, unlink.second);
        return made_byte_word(1, value);
    }
    uint64_t nodes_len = load64(pool + POOL_NODES_LEN);
    if (nodes_len <= link) {
        return made_byte_word(0, 0);
    }
    char *nodes_2 = load_address(pool + POOL_NODES);
    uint64_t at_3 = link;
    uint64_t at_4 = NOWHERE;
    for (;;) {
        uint64_t offset = at_3 * NODE_SIZE;
        char *node_3 = nodes_2 + offset;
        if (load8(node_3 + NODE_HAS_PAIR) != 1) {
            return made_byte_word(0, 0);
        }
        uint16_t high_3 = load16(node_3 + NODE_HIGH);
        if (load64(node_3 + NODE_KEY) == key_number) {
            struct word_word unlink_3;
            if (high_3 == NOWHERE_HIGH) {
                struct word_word unlink_2 = removal_unlink(slot, pool, at_4, at_3);
                unlink_3 = unlink_2;
            } else {
                uint64_t at_5 = link_of(high_3, load32(node_3 + NODE_LOW));
                uint64_t at_6 = at_3;
                for (;;) {
                    char *node_4 = nodes_2 + (at_5 * NODE_SIZE);
                    if (load8(node_4 + NODE_HAS_PAIR) != 1) {
                        abort(); // The proof excludes this.
                    }
                    uint16_t high_4 = load16(node_4 + NODE_HIGH);
                    if (high_4 == NOWHERE_HIGH) {
                        struct word_word unlink_4 = removal_unlink(slot, pool, at_6, at_5);
                        if (at_5 == at_3) {
                            unlink_3 = unlink_4;
                            break;
                        }
                        char *node_5 = load_address(pool + POOL_NODES) + offset;
                        if (load8(node_5 + NODE_HAS_PAIR) != 1) {
                            abort(); // The proof excludes this.
                        }
                        uint64_t key = load64(node_5 + NODE_KEY);
                        uint64_t value_2 = load64(node_5 + NODE_VALUE);
                        store64(node_5 + NODE_KEY, unlink_4.first);
                        store64(node_5 + NODE_VALUE, unlink_4.second);
                        unlink_3 = made_word_word(key, value_2);
                        break;
                    }
                    at_6 = at_5;
                    at_5 = link_of(high_4, load32(node_4 + NODE_LOW));
                }
            }
            return made_byte_word(1, unlink_3.second);
        }
        uint64_t link_2 = link_of(high_3, load32(node_3 + NODE_LOW));
        if (nodes_len <= link_2) {
            return made_byte_word(0, 0);
        }
        at_4 = at_3;
        at_3 = link_2;
    }
}

// core::ptr::copy_drop::copy_bits, in Rattle's library core
static ALWAYS_INLINE void copy_drop_copy_bits(char *a0, char *a1, uint64_t a2) {
    uint64_t size = a2 << 3;
    if ((((uint64_t)(uintptr_t)a1) - ((uint64_t)(uintptr_t)a0)) >= size) {
        memmove(a1, a0, size);
        return;
    }
    if (a2 == 0) {
        return;
    }
    uint64_t word = 0;
    for (;;) {
        uint64_t offset = word << 3;
        store64(a1 + offset, load64(a0 + offset));
        uint64_t next_word = word + 1;
        if (next_word == a2) {
            return;
        }
        word = next_word;
    }
}

// A copy of the marks.
// intmap_table::bits::Bits::clone, in crates/intmap_table/src/bits.rt
static ALWAYS_INLINE void bits_clone(char *result, char *bits) {
    char *words_2;
    char *dangling = (char *)no_bytes;
    char *words = load_address(bits + BITS_WORDS);
    uint64_t words_len = load64(bits + BITS_WORDS_LEN);
    if (words_len != 0) {
        if (words_len < TOO_MANY(8)) {
            struct word_word block = rattle_alloc(words_len << 3, 8);
            if ((block.first & 1) != 0) {
                words_2 = (char *)(uintptr_t)block.second;
                goto arm_1;
            }
        }
        store8(result + MADE_BITS_HAS_FAILED, 1);
        memset(result + MADE_BITS_WORDS, 0, BITS_SIZE);
        return;
    }
    words_2 = dangling;
arm_1:;
    copy_drop_copy_bits(words, words_2, words_len);
    store8(result + MADE_BITS_HAS_FAILED, 0);
    store_address(result + MADE_BITS_WORDS, words_2);
    store64(result + MADE_BITS_WORDS_LEN, words_len);
    store64(result + MADE_BITS_WORDS_ROOM, words_len);
}

// Puts a pair with a link into a new node behind the others, none of which may be free, and returns which.
// intmap_table::linked::pool::Pool::add_new, in crates/intmap_table/src/linked/pool.rt
static ALWAYS_INLINE void pool_add_new(char *result, char *pool, uint64_t link, uint64_t pair_key, uint64_t pair_value) {
    uint64_t nodes_len = load64(pool + POOL_NODES_LEN);
    if (nodes_len != NODE_LIMIT) {
        uint64_t at;
        if (load64(pool + POOL_NODES_ROOM) == nodes_len) {
            bool grow_amortized = vec_grow_amortized(pool, 1);
            if (!grow_amortized) {
                goto join_5;
            }
            at = load64(pool + POOL_NODES_LEN);
        } else {
            at = nodes_len;
        }
        char *node = load_address(pool + POOL_NODES) + (at * NODE_SIZE);
        store16(node + NODE_HAS_PAIR, 1);
        store16(node + NODE_HIGH, (uint16_t)(link >> 32));
        store32(node + NODE_LOW, (uint32_t)link);
        store64(node + NODE_KEY, pair_key);
        store64(node + NODE_VALUE, pair_value);
        store64(pool + POOL_NODES_LEN, at + 1);
        store64(result + MADE_USIZE_HAS_FAILED, 0);
        store64(result + MADE_USIZE_MADE_OR_KEY, nodes_len);
        store64(result + MADE_USIZE_VALUE, 0);
        return;
    }
join_5:;
    store64(result + MADE_USIZE_HAS_FAILED, 1);
    store64(result + MADE_USIZE_MADE_OR_KEY, pair_key);
    store64(result + MADE_USIZE_VALUE, pair_value);
}

// Puts clones of the pairs that a link leads through, of which there is at least one, into new nodes of `made`, in
// their order, and returns the link to them.
// intmap_table::table::slots::clone::clone_chain, in crates/intmap_table/src/table/slots/clone.rt
static ALIGNED NOINLINE struct byte_word clone_clone_chain(char *pool, uint64_t from, char *made) {
    uint64_t made_usize_room[3];
    char *made_usize = (char *)made_usize_room;
    uint64_t r10 = load64(made + POOL_NODES_LEN) - load64(made + POOL_SPARE);
    uint64_t at = from;
    for (;;) {
        if (load64(pool + POOL_NODES_LEN) <= at) {
            return made_byte_word(0, r10);
        }
        char *node = load_address(pool + POOL_NODES) + (at * NODE_SIZE);
        uint8_t has_pair = load8(node + NODE_HAS_PAIR);
        if (has_pair != 1) {
            return made_byte_word(has_pair, r10);
        }
        uint16_t high = load16(node + NODE_HIGH);
        uint64_t link = link_of(high, load32(node + NODE_LOW));
        pool_add_new(made_usize, made, (high == NOWHERE_HIGH) ? NOWHERE : ((load64(made + POOL_NODES_LEN) + 1) - load64(made + POOL_SPARE)), load64(node + NODE_KEY), load64(node + NODE_VALUE));
        if (load8(made_usize + MADE_USIZE_HAS_FAILED) != 0) {
            return made_byte_word(1, 0);
        }
        at = link;
    }
}

// The same keys in the same slots, with clones of their values.
// intmap_table::table::slots::Slots::clone, in crates/intmap_table/src/table/slots/clone.rt
static ALWAYS_INLINE void slots_clone(char *result, char *map) {
    char *address;
    char *dangling = (char *)no_bytes;
    uint64_t marks_left_room[2];
    char *marks_left = (char *)marks_left_room;
    uint64_t vec_room[3];
    char *vec = (char *)vec_room;
    uint64_t pool_room[5];
    char *pool = (char *)pool_room;
    uint64_t made_bits_room[4];
    char *made_bits = (char *)made_bits_room;
    store64(pool + POOL_SPARE, 0);
    memset(made_bits, 0, MADE_BITS_SIZE);
    uint64_t slots_len = load64(map + INT_MAP_SLOTS_LEN);
    bool slots_len_is_0 = slots_len == 0;
    if (!slots_len_is_0) {
        if (slots_len < TOO_MANY(24)) {
            struct word_word block = rattle_alloc(slots_len * 24, 8);
            if ((block.first & 1) != 0) {
                address = (char *)(uintptr_t)block.second;
                goto arm_1;
            }
        }
        store8(result + MADE_SLOTS_HAS_FAILED, 1);
        memset(result + MADE_SLOTS_MASK, 0, SLOTS_SIZE);
        return;
    }
    address = dangling;
arm_1:;
    store_address(vec + VEC_ADDRESS, address);
    store64(vec + VEC_LEN, 0);
    store64(vec + VEC_ROOM, slots_len);
    bits_clone(made_bits, map + INT_MAP_WORDS);
    if (load8(made_bits + MADE_BITS_HAS_FAILED) != 0) {
        if (!slots_len_is_0) {
            rattle_dealloc(address);
        }
        store8(result + MADE_SLOTS_HAS_FAILED, 1);
        memset(result + MADE_SLOTS_MASK, 0, SLOTS_SIZE);
        return;
    }
    char *words = load_address(made_bits + MADE_BITS_WORDS);
    uint64_t words_len = load64(made_bits + MADE_BITS_WORDS_LEN);
    uint64_t words_room = load64(made_bits + MADE_BITS_WORDS_ROOM);
    uint64_t nodes_len = load64(map + INT_MAP_NODES_LEN);
    uint64_t spare = load64(map + INT_MAP_SPARE);
    uint64_t nodes_room = nodes_len - spare;
    if (nodes_room <= NODE_LIMIT) {
        char *nodes;
        uint64_t bits;
        if (nodes_len == spare) {
            nodes = dangling;
        } else {
            struct word_word block_2 = rattle_alloc(nodes_room * 24, 8);
            if ((block_2.first & 1) == 0) {
                goto arm_9;
            }
            nodes = (char *)(uintptr_t)block_2.second;
        }
        store_address(pool + POOL_NODES, nodes);
        store64(pool + POOL_NODES_LEN, 0);
        store64(pool + POOL_NODES_ROOM, nodes_room);
        store64(pool + POOL_FREE, NOWHERE);
        store64(pool + POOL_SPARE, 0);
        char *slots = load_address(map + INT_MAP_SLOTS);
        uint64_t slots_len_2 = load64(map + INT_MAP_SLOTS_LEN);
        if (load64(map + INT_MAP_WORDS_LEN) == 0) {
            bits = 0;
        } else {
            bits = load64(load_address(map + INT_MAP_WORDS));
        }
        store64(marks_left + MARKS_LEFT_AT, 0);
        store64(marks_left + MARKS_LEFT_WORD, bits);
        struct byte_word next_in = bits_next_in(map + INT_MAP_WORDS, marks_left);
        if (next_in.first == 1) {
            struct byte_word at = next_in;
            for (;;) {
                uint16_t high_2;
                uint32_t low;
                if (load64(vec + VEC_LEN) <= at.second) {
                    uint64_t least = lesser(at.second + 64, slots_len_2);
                    slots_add_empty(vec, least);
                }
                uint64_t offset = at.second * NODE_SIZE;
                char *node = slots + offset;
                if (load8(node + NODE_HAS_PAIR) != 1) {
                    abort(); // The proof excludes this.
                }
                uint16_t high = load16(node + NODE_HIGH);
                uint64_t value = load64(node + NODE_VALUE);
                uint64_t key = load64(node + NODE_KEY);
                if (high == NOWHERE_HIGH) {
                    high_2 = NOWHERE_HIGH;
                    low = NOWHERE_LOW;
                } else {
                    struct byte_word clone_chain = clone_clone_chain(map + INT_MAP_NODES, link_of(high, load32(node + NODE_LOW)), pool);
                    if (clone_chain.first != 0) {
                        if (load64(pool + POOL_NODES_ROOM) != 0) {
                            rattle_dealloc(load_address(pool + POOL_NODES));
                        }
                        if (words_room != 0) {
                            rattle_dealloc(words);
                        }
                        if (load64(vec + VEC_ROOM) != 0) {
                            rattle_dealloc(load_address(vec + VEC_ADDRESS));
                        }
                        store8(result + MADE_SLOTS_HAS_FAILED, 1);
                        memset(result + MADE_SLOTS_MASK, 0, SLOTS_SIZE);
                        return;
                    }
                    high_2 = (uint16_t)(clone_chain.second >> 32);
                    low = (uint32_t)clone_chain.second;
                }
                char *node_2 = load_address(vec + VEC_ADDRESS) + offset;
                store16(node_2 + NODE_HAS_PAIR, 1);
                store16(node_2 + NODE_HIGH, high_2);
                store32(node_2 + NODE_LOW, low);
                store64(node_2 + NODE_KEY, key);
                store64(node_2 + NODE_VALUE, value);
                struct byte_word next_in_2 = bits_next_in(map + INT_MAP_WORDS, marks_left);
                if (next_in_2.first != 1) {
                    break;
                }
                at = next_in_2;
            }
        }
        slots_add_empty(vec, slots_len_2);
        uint64_t mask = load64(map + INT_MAP_MASK);
        store8(result + MADE_SLOTS_HAS_FAILED, 0);
        store64(result + MADE_SLOTS_MASK, mask);
        store_address(result + MADE_SLOTS_WORDS, words);
        store64(result + MADE_SLOTS_WORDS_LEN, words_len);
        store64(result + MADE_SLOTS_WORDS_ROOM, words_room);
        memcpy(result + MADE_SLOTS_SLOTS, vec, VEC_SIZE);
        memcpy(result + MADE_SLOTS_NODES, pool, POOL_SIZE);
        return;
    }
arm_9:;
    if (words_room != 0) {
        rattle_dealloc(words);
    }
    if (!slots_len_is_0) {
        rattle_dealloc(address);
    }
    store8(result + MADE_SLOTS_HAS_FAILED, 1);
    memset(result + MADE_SLOTS_MASK, 0, SLOTS_SIZE);
}

// Puts a new map into the handle and returns `OK`.
// intmap_c::make::keep, in crates/intmap_c/src/make.rt
static ALIGNED uint32_t make_keep(char *handle, char *made) {
    uint64_t r2_room[2];
    char *r2 = (char *)r2_room;
    uint64_t r2_2_room[3];
    char *r2_2 = (char *)r2_2_room;
    char *mask = load_address(made + MADE_INT_MAP_MASK);
    char *words = load_address(made + MADE_INT_MAP_WORDS);
    uint64_t words_len = load64(made + MADE_INT_MAP_WORDS_LEN);
    uint64_t words_room = load64(made + MADE_INT_MAP_WORDS_ROOM);
    char *slots = load_address(made + MADE_INT_MAP_SLOTS);
    uint64_t slots_len = load64(made + MADE_INT_MAP_SLOTS_LEN);
    uint64_t slots_room = load64(made + MADE_INT_MAP_SLOTS_ROOM);
    char *nodes = load_address(made + MADE_INT_MAP_NODES);
    uint64_t nodes_len = load64(made + MADE_INT_MAP_NODES_LEN);
    uint64_t nodes_room = load64(made + MADE_INT_MAP_NODES_ROOM);
    if (load8(made + MADE_INT_MAP_HAS_FAILED) != 0) {
        return (load8(made + MADE_INT_MAP_CAUSE) == 0) ? NO_MEMORY : TOO_LARGE;
    }
    memcpy(r2, made + MADE_INT_MAP_FREE, 16);
    memcpy(r2_2, made + MADE_INT_MAP_LEN, 24);
    struct word_word block = rattle_alloc(INT_MAP_SIZE, 8);
    if ((block.first & 1) == 0) {
        if (words_room != 0) {
            rattle_dealloc(words);
        }
        if (slots_room != 0) {
            rattle_dealloc(slots);
        }
        if (nodes_room == 0) {
            return NO_MEMORY;
        }
        rattle_dealloc(nodes);
        return NO_MEMORY;
    }
    char *map = (char *)(uintptr_t)block.second;
    store_address(map + INT_MAP_MASK, mask);
    store_address(map + INT_MAP_WORDS, words);
    store64(map + INT_MAP_WORDS_LEN, words_len);
    store64(map + INT_MAP_WORDS_ROOM, words_room);
    store_address(map + INT_MAP_SLOTS, slots);
    store64(map + INT_MAP_SLOTS_LEN, slots_len);
    store64(map + INT_MAP_SLOTS_ROOM, slots_room);
    store_address(map + INT_MAP_NODES, nodes);
    store64(map + INT_MAP_NODES_LEN, nodes_len);
    store64(map + INT_MAP_NODES_ROOM, nodes_room);
    memcpy(map + INT_MAP_FREE, r2, 16);
    memcpy(map + INT_MAP_LEN, r2_2, 24);
    uint64_t map_address = load64(handle);
    store64(handle, block.second);
    if (map_address == 0) {
        return 0;
    }
    char *map_2 = (char *)(uintptr_t)map_address;
    char *words_2 = load_address(map_2 + INT_MAP_WORDS);
    char *slots_2 = load_address(map_2 + INT_MAP_SLOTS);
    uint64_t slots_room_2 = load64(map_2 + INT_MAP_SLOTS_ROOM);
    char *nodes_2 = load_address(map_2 + INT_MAP_NODES);
    uint64_t nodes_room_2 = load64(map_2 + INT_MAP_NODES_ROOM);
    uint64_t words_room_2 = load64(map_2 + INT_MAP_WORDS_ROOM);
    rattle_dealloc(map_2);
    if (words_room_2 != 0) {
        rattle_dealloc(words_2);
    }
    if (slots_room_2 != 0) {
        rattle_dealloc(slots_2);
    }
    if (nodes_room_2 == 0) {
        return 0;
    }
    rattle_dealloc(nodes_2);
    return 0;
}

// An empty map of `slots` slots.
// intmap::map::IntMap::of_slots, in crates/intmap/src/map/build.rt
static ALIGNED void intmap_of_slots(char *result, uint64_t slots) {
    char *address, *address_2, *words, *nodes;
    uint64_t r4_2, r15, mask, words_len, words_room, free, threshold, factor;
    u128 r17;
    uint8_t has_failed;
    char *dangling = (char *)no_bytes;
    uint64_t vec_room[3];
    char *vec = (char *)vec_room;
    uint64_t vec_2_room[3];
    char *vec_2 = (char *)vec_2_room;
    uint64_t vec_3_room[3];
    char *vec_3 = (char *)vec_3_room;
    uint64_t r4_room[2];
    char *r4 = (char *)r4_room;
    memset(vec_3, 0, VEC_SIZE);
    memset(r4, 0, 16);
    bool slots_is_0 = slots == 0;
    if (slots_is_0) {
        address = dangling;
    } else {
        if (slots >= TOO_MANY(24)) {
            goto after_Table_new;
        }
        struct word_word block = rattle_alloc(slots * 24, 8);
        if ((block.first & 1) == 0) {
            goto after_Table_new;
        }
        address = (char *)(uintptr_t)block.second;
    }
    store_address(vec + VEC_ADDRESS, address);
    store64(vec + VEC_LEN, 0);
    store64(vec + VEC_ROOM, slots);
    r4_2 = (slots >> 6) + ((uint64_t)((slots & 63) != 0));
    if (slots_is_0) {
        address_2 = dangling;
        r15 = 0;
    } else {
        uint64_t r3;
        uint64_t size = r4_2 << 3;
        struct word_word block_2 = rattle_alloc(size, 8);
        if ((block_2.first & 1) == 0) {
            rattle_dealloc(address);
            goto after_Table_new;
        }
        char *address_3 = (char *)(uintptr_t)block_2.second;
        if (r4_2 == 1) {
            r3 = 0;
        } else {
            memset(address_3, 0, size - 8);
            r3 = r4_2 - 1;
        }
        store64(address_3 + (r3 << 3), 0);
        address_2 = address_3;
        r15 = r3 + 1;
    }
    slots_add_empty(vec, slots);
    memcpy(vec_2, vec, VEC_SIZE);
    r17 = u128_less_one(u128_mul(u128_of(slots), u128_of(910u)));
    memcpy(vec_3, vec_2, VEC_SIZE);
    memset(r4, 0, 16);
    has_failed = 0;
    mask = slots - 1;
    words = address_2;
    words_len = r15;
    words_room = r4_2;
    nodes = dangling;
    free = NOWHERE;
    threshold = u128_above(r17, u128_two(999, UINT64_MAX)) ? UINT64_MAX : u128_low(u128_div(r17, u128_of(1000u)));
    factor = 909;
    goto join_4;
after_Table_new:;
    has_failed = 1;
    mask = 0;
    words = NULL;
    words_len = 0;
    words_room = 0;
    nodes = NULL;
    free = 0;
    threshold = 0;
    factor = 0;
join_4:;
    store8(result + MADE_INT_MAP_HAS_FAILED, has_failed);
    store8(result + MADE_INT_MAP_CAUSE, 0);
    store64(result + MADE_INT_MAP_MASK, mask);
    store_address(result + MADE_INT_MAP_WORDS, words);
    store64(result + MADE_INT_MAP_WORDS_LEN, words_len);
    store64(result + MADE_INT_MAP_WORDS_ROOM, words_room);
    memcpy(result + MADE_INT_MAP_SLOTS, vec_3, VEC_SIZE);
    store_address(result + MADE_INT_MAP_NODES, nodes);
    memcpy(result + MADE_INT_MAP_NODES_LEN, r4, 16);
    store64(result + MADE_INT_MAP_FREE, free);
    memset(result + MADE_INT_MAP_SPARE, 0, 16);
    store64(result + MADE_INT_MAP_THRESHOLD, threshold);
    store64(result + MADE_INT_MAP_FACTOR, factor);
}

// Makes a new map, for which there may be no memory.
// intmap_c::handle::make_first, in crates/intmap_c/src/handle.rt
static ALIGNED NOINLINE struct byte_address handle_make_first(void) {
    char *dangling = (char *)no_bytes;
    uint64_t vec_room[3];
    char *vec = (char *)vec_room;
    struct word_word block = rattle_alloc(96, 8);
    if ((block.first & 1) != 0) {
        char *address = (char *)(uintptr_t)block.second;
        store_address(vec + VEC_ADDRESS, address);
        store64(vec + VEC_LEN, 0);
        store64(vec + VEC_ROOM, 4);
        struct word_word block_2 = rattle_alloc(8, 8);
        if ((block_2.first & 1) != 0) {
            char *block_3 = (char *)(uintptr_t)block_2.second;
            store64(block_3, 0);
            slots_add_empty(vec, 4);
            char *address_2 = load_address(vec + VEC_ADDRESS);
            uint64_t len = load64(vec + VEC_LEN);
            uint64_t room = load64(vec + VEC_ROOM);
            struct word_word block_4 = rattle_alloc(120, 8);
            if ((block_4.first & 1) == 0) {
                rattle_dealloc(block_3);
                if (room == 0) {
                    return made_byte_address(0, NULL);
                }
                rattle_dealloc(address_2);
                return made_byte_address(0, NULL);
            }
            char *map = (char *)(uintptr_t)block_4.second;
            store_address(map + INT_MAP_MASK, (char *)(uintptr_t)3);
            store_address(map + INT_MAP_WORDS, block_3);
            store64(map + INT_MAP_WORDS_LEN, 1);
            store64(map + INT_MAP_WORDS_ROOM, 1);
            store_address(map + INT_MAP_SLOTS, address_2);
            store64(map + INT_MAP_SLOTS_LEN, len);
            store64(map + INT_MAP_SLOTS_ROOM, room);
            store_address(map + INT_MAP_NODES, dangling);
            memset(map + INT_MAP_NODES_LEN, 0, 16);
            store64(map + INT_MAP_FREE, NOWHERE);
            memset(map + INT_MAP_SPARE, 0, 16);
            store64(map + INT_MAP_THRESHOLD, 3);
            store64(map + INT_MAP_FACTOR, 909);
            return made_byte_address(1, map);
        }
        rattle_dealloc(address);
    }
    return made_byte_address(0, NULL);
}

// The node at a place of a chain.
// intmap_table::linked::chain::seek, in crates/intmap_table/src/linked/chain.rt
static ALWAYS_INLINE uint64_t chain_seek(char *pool, uint64_t from, uint64_t place) {
    if (place == 0) {
        return from;
    }
    char *nodes = load_address(pool + POOL_NODES);
    uint64_t at = from;
    uint64_t place_2 = 0;
    for (;;) {
        char *node = nodes + (at * NODE_SIZE);
        if (load8(node + NODE_HAS_PAIR) != 1) {
            abort(); // The proof excludes this.
        }
        uint64_t link = link_of(load16(node + NODE_HIGH), load32(node + NODE_LOW));
        uint64_t next_place = place_2 + 1;
        if (next_place == place) {
            return link;
        }
        at = link;
        place_2 = next_place;
    }
}

// Whether the map needn't grow for one more pair.
// intmap::map::IntMap::takes_one_more, in crates/intmap/src/map/insert.rt
static ALWAYS_INLINE bool intmap_takes_one_more(char *map) {
    uint64_t len = load64(map + INT_MAP_LEN);
    if (len < load64(map + INT_MAP_THRESHOLD)) {
        return true;
    }
    return (len != UINT64_MAX) ? (((len + 1) & 4) == 0) : false;
}

// The least capacity, among `capacity` and its doublings, in which `len` pairs meet the load factor `factor`, in
// thousandths.
// intmap::load::wanted_capacity, in crates/intmap/src/load.rt
static ALWAYS_INLINE struct byte_word load_wanted_capacity(uint64_t len, uint64_t capacity, uint64_t factor) {
    u128 r10 = u128_mul(u128_of(len), u128_of(1000u));
    u128 r13 = u128_add(u128_of(factor), u128_of(1u));
    if (u128_above(u128_mul(r13, u128_of(capacity)), r10)) {
        return made_byte_word(1, capacity);
    }
    uint64_t capacity_2 = capacity;
    for (;;) {
        if (capacity_2 == GREATEST_CAPACITY) {
            return made_byte_word(0, 0);
        }
        uint64_t r31 = capacity_2 << 1;
        if (u128_above(u128_mul(r13, u128_of(r31)), r10)) {
            return made_byte_word(1, r31);
        }
        capacity_2 = r31;
    }
}

// std_alloc::vec::Vec::reserve_exact, in Rattle's library std_alloc
static ALWAYS_INLINE uint8_t vec_reserve_exact(char *vec, uint64_t a1) {
    struct word_word block_2;
    uint64_t len = load64(vec + VEC_LEN);
    uint64_t room = load64(vec + VEC_ROOM);
    if (a1 <= (room - len)) {
        return 0;
    }
    if (a1 > (~len)) {
        return 1;
    }
    uint64_t room_2 = len + a1;
    if (room_2 >= TOO_MANY(24)) {
        return 1;
    }
    if (room == 0) {
        struct word_word block = rattle_alloc(room_2 * 24, 8);
        if ((block.first & 1) == 0) {
            return 1;
        }
        block_2 = block;
    } else {
        struct word_word block_3 = rattle_realloc(load_address(vec + VEC_ADDRESS), len * 24, room_2 * 24, 8);
        if ((block_3.first & 1) == 0) {
            return 1;
        }
        block_2 = block_3;
    }
    store_address(vec + VEC_ADDRESS, (char *)(uintptr_t)block_2.second);
    store64(vec + VEC_ROOM, room_2);
    return 0;
}

// std_alloc::vec::Vec::shrink_to_fit, in Rattle's library std_alloc
static ALWAYS_INLINE void vec_shrink_to_fit(char *slots_at) {
    char *dangling = (char *)no_bytes;
    uint64_t slots_len = load64(slots_at + VEC_LEN);
    if (load64(slots_at + VEC_ROOM) <= slots_len) {
        return;
    }
    if (slots_len == 0) {
        rattle_dealloc(load_address(slots_at + VEC_ADDRESS));
        store_address(slots_at + VEC_ADDRESS, dangling);
        memset(slots_at + VEC_LEN, 0, 16);
        return;
    }
    uint64_t size = slots_len * NODE_SIZE;
    struct word_word block = rattle_realloc(load_address(slots_at + VEC_ADDRESS), size, size, 8);
    if ((block.first & 1) == 0) {
        return;
    }
    store_address(slots_at + VEC_ADDRESS, (char *)(uintptr_t)block.second);
    store64(slots_at + VEC_ROOM, slots_len);
}

// Puts a pair before the first one of a slot that holds some, and returns its place.
// intmap_table::linked::row::growth::put_before_first, in crates/intmap_table/src/linked/row/growth.rt
static ALIGNED NOINLINE void growth_put_before_first(char *slot, char *pool, uint64_t pair_key, uint64_t pair_value) {
    uint64_t link;
    uint64_t made_usize_room[3];
    char *made_usize = (char *)made_usize_room;
    if (load8(slot + NODE_HAS_PAIR) != 1) {
        abort(); // The proof excludes this.
    }
    uint16_t high = load16(slot + NODE_HIGH);
    uint32_t low = load32(slot + NODE_LOW);
    uint64_t key = load64(slot + NODE_KEY);
    uint64_t value = load64(slot + NODE_VALUE);
    store64(slot + NODE_KEY, pair_key);
    store64(slot + NODE_VALUE, pair_value);
    uint64_t spare = load64(pool + POOL_SPARE);
    if (spare == 0) {
        pool_add_new(made_usize, pool, link_of(high, low), key, value);
        if (load8(made_usize + MADE_USIZE_HAS_FAILED) != 0) {
            abort(); // The proof excludes this.
        }
        link = load64(made_usize + MADE_USIZE_MADE_OR_KEY);
    } else {
        uint64_t free = load64(pool + POOL_FREE);
        char *node = load_address(pool + POOL_NODES) + (free * NODE_SIZE);
        if (load8(node + NODE_HAS_PAIR) != 0) {
            abort(); // The proof excludes this.
        }
        store64(pool + POOL_FREE, link_of(load16(node + NODE_HIGH), load32(node + NODE_LOW)));
        store64(pool + POOL_SPARE, spare - 1);
        uint8_t has_pair = load8(node + NODE_HAS_PAIR);
        store16(node + NODE_HAS_PAIR, 1);
        store16(node + NODE_HIGH, high);
        store32(node + NODE_LOW, low);
        store64(node + NODE_KEY, key);
        store64(node + NODE_VALUE, value);
        if (has_pair != 0) {
            abort(); // The proof excludes this.
        }
        link = free;
    }
    if (load8(slot + NODE_HAS_PAIR) != 1) {
        abort(); // The proof excludes this.
    }
    store16(slot + NODE_HIGH, (uint16_t)(link >> 32));
    store32(slot + NODE_LOW, (uint32_t)link);
}

// Puts a pair behind the first one of a slot that holds some, and returns its place.
// intmap_table::linked::row::growth::put_behind_first, in crates/intmap_table/src/linked/row/growth.rt
static ALIGNED NOINLINE void growth_put_behind_first(char *slot, char *pool, uint64_t pair_key, uint64_t pair_value) {
    uint64_t link;
    uint64_t made_usize_room[3];
    char *made_usize = (char *)made_usize_room;
    if (load8(slot + NODE_HAS_PAIR) != 1) {
        abort(); // The proof excludes this.
    }
    uint16_t high = load16(slot + NODE_HIGH);
    uint32_t low = load32(slot + NODE_LOW);
    uint64_t spare = load64(pool + POOL_SPARE);
    if (spare == 0) {
        pool_add_new(made_usize, pool, link_of(high, low), pair_key, pair_value);
        if (load8(made_usize + MADE_USIZE_HAS_FAILED) != 0) {
            abort(); // The proof excludes this.
        }
        link = load64(made_usize + MADE_USIZE_MADE_OR_KEY);
    } else {
        uint64_t free = load64(pool + POOL_FREE);
        char *node = load_address(pool + POOL_NODES) + (free * NODE_SIZE);
        if (load8(node + NODE_HAS_PAIR) != 0) {
            abort(); // The proof excludes this.
        }
        store64(pool + POOL_FREE, link_of(load16(node + NODE_HIGH), load32(node + NODE_LOW)));
        store64(pool + POOL_SPARE, spare - 1);
        uint8_t has_pair = load8(node + NODE_HAS_PAIR);
        store16(node + NODE_HAS_PAIR, 1);
        store16(node + NODE_HIGH, high);
        store32(node + NODE_LOW, low);
        store64(node + NODE_KEY, pair_key);
        store64(node + NODE_VALUE, pair_value);
        if (has_pair != 0) {
            abort(); // The proof excludes this.
        }
        link = free;
    }
    if (load8(slot + NODE_HAS_PAIR) != 1) {
        abort(); // The proof excludes this.
    }
    store16(slot + NODE_HIGH, (uint16_t)(link >> 32));
    store32(slot + NODE_LOW, (uint32_t)link);
}

// The last node of a chain (no node if there is no pair), and the number of pairs.
// intmap_table::linked::chain::last_in, in crates/intmap_table/src/linked/chain.rt
static ALWAYS_INLINE struct word_word chain_last_in(char *pool, uint64_t from) {
    if (from >= NODE_LIMIT) {
        return made_word_word(NOWHERE, 0);
    }
    char *nodes = load_address(pool + POOL_NODES);
    uint64_t place = 0;
    uint64_t at = from;
    for (;;) {
        char *node = nodes + (at * NODE_SIZE);
        if (load8(node + NODE_HAS_PAIR) != 1) {
            abort(); // The proof excludes this.
        }
        uint16_t high = load16(node + NODE_HIGH);
        uint64_t next_place = place + 1;
        if (high == NOWHERE_HIGH) {
            return made_word_word(at, next_place);
        }
        place = next_place;
        at = link_of(high, load32(node + NODE_LOW));
    }
}

// Puts a pair last, and returns its place.
// intmap_table::linked::row::insertion::push_further, in crates/intmap_table/src/linked/row/insertion.rt
static ALIGNED NOINLINE void insertion_push_further(char *result, char *slot, char *pool, uint64_t pair_key, uint64_t pair_value) {
    uint64_t link;
    uint64_t made_usize_room[3];
    char *made_usize = (char *)made_usize_room;
    if (load8(slot + NODE_HAS_PAIR) != 1) {
        abort(); // The proof excludes this.
    }
    struct word_word at = chain_last_in(pool, link_of(load16(slot + NODE_HIGH), load32(slot + NODE_LOW)));
    uint64_t spare = load64(pool + POOL_SPARE);
    if (spare == 0) {
        pool_add_new(made_usize, pool, NOWHERE, pair_key, pair_value);
        uint64_t made_or_key = load64(made_usize + MADE_USIZE_MADE_OR_KEY);
        uint64_t value = load64(made_usize + MADE_USIZE_VALUE);
        if (load8(made_usize + MADE_USIZE_HAS_FAILED) != 0) {
            store64(result + MADE_USIZE_HAS_FAILED, 1);
            store64(result + MADE_USIZE_MADE_OR_KEY, made_or_key);
            store64(result + MADE_USIZE_VALUE, value);
            return;
        }
        link = made_or_key;
    } else {
        uint64_t free = load64(pool + POOL_FREE);
        char *node = load_address(pool + POOL_NODES) + (free * NODE_SIZE);
        if (load8(node + NODE_HAS_PAIR) != 0) {
            abort(); // The proof excludes this.
        }
        store64(pool + POOL_FREE, link_of(load16(node + NODE_HIGH), load32(node + NODE_LOW)));
        store64(pool + POOL_SPARE, spare - 1);
        uint8_t has_pair = load8(node + NODE_HAS_PAIR);
        store16(node + NODE_HAS_PAIR, 1);
        store16(node + NODE_HIGH, NOWHERE_HIGH);
        store32(node + NODE_LOW, NOWHERE_LOW);
        store64(node + NODE_KEY, pair_key);
        store64(node + NODE_VALUE, pair_value);
        if (has_pair != 0) {
            abort(); // The proof excludes this.
        }
        link = free;
    }
    if (at.first >= NODE_LIMIT) {
        if (load8(slot + NODE_HAS_PAIR) != 1) {
            abort(); // The proof excludes this.
        }
        store16(slot + NODE_HIGH, (uint16_t)(link >> 32));
        store32(slot + NODE_LOW, (uint32_t)link);
    } else {
        char *node_2 = load_address(pool + POOL_NODES) + (at.first * NODE_SIZE);
        if (load8(node_2 + NODE_HAS_PAIR) != 1) {
            abort(); // The proof excludes this.
        }
        store16(node_2 + NODE_HIGH, (uint16_t)(link >> 32));
        store32(node_2 + NODE_LOW, (uint32_t)link);
    }
    store64(result + MADE_USIZE_HAS_FAILED, 0);
    store64(result + MADE_USIZE_MADE_OR_KEY, at.second + 1);
    store64(result + MADE_USIZE_VALUE, 0);
}

// Puts a pair into its slot, where `order` says, marks the slot, counts the pair, and returns its place.
// intmap_table::table::slots::refill::put_at, in crates/intmap_table/src/table/slots/refill.rt
static ALWAYS_INLINE uint64_t refill_put_at(char *slots, char *bits, char *pool, uint64_t index, uint8_t order, uint64_t pair_key, uint64_t pair_value) {
    uint64_t made_or_key;
    uint64_t made_usize_room[3];
    char *made_usize = (char *)made_usize_room;
    char *node = load_address(slots + VEC_ADDRESS) + (index * NODE_SIZE);
    uint8_t has_pair = load8(node + NODE_HAS_PAIR);
    if (has_pair == 1) {
        switch (order) {
        case 0:
            growth_put_before_first(node, pool, pair_key, pair_value);
            made_or_key = 0;
            break;
        case 1:
            growth_put_behind_first(node, pool, pair_key, pair_value);
            made_or_key = 1;
            break;
        case 2:
            memset(made_usize, 0, MADE_USIZE_SIZE);
            insertion_push_further(made_usize, node, pool, pair_key, pair_value);
            if (load8(made_usize + MADE_USIZE_HAS_FAILED) != 0) {
                abort(); // The proof excludes this.
            }
            made_or_key = load64(made_usize + MADE_USIZE_MADE_OR_KEY);
            break;
        default:
            abort(); // The proof excludes this.
        }
    } else {
        store16(node + NODE_HAS_PAIR, 1);
        store16(node + NODE_HIGH, NOWHERE_HIGH);
        store32(node + NODE_LOW, NOWHERE_LOW);
        store64(node + NODE_KEY, pair_key);
        store64(node + NODE_VALUE, pair_value);
        if (has_pair != 0) {
            abort(); // The proof excludes this.
        }
        made_or_key = 0;
    }
    char *word_at = load_address(bits + BITS_WORDS) + ((index >> 3) & UINT64_C(0x1FFFFFFFFFFFFFF8));
    store64(word_at, load64(word_at) | ((uint64_t)1 << (index & 63)));
    return made_or_key;
}

// Adds slots, so that there are `capacity`, and moves all pairs, in the order of the walk, to their slots among
// these.
// intmap_table::table::slots::Slots::enlarge, in crates/intmap_table/src/table/slots/grow.rt
static ALIGNED uint8_t slots_enlarge(char *map, uint64_t capacity, uint64_t room) {
    char *address;
    uint64_t words_len;
    char *dangling = (char *)no_bytes;
    uint64_t marks_left_room[2];
    char *marks_left = (char *)marks_left_room;
    uint64_t bits_room[3];
    char *bits = (char *)bits_room;
    uint64_t pool_room[5];
    char *pool = (char *)pool_room;
    uint8_t reserve_exact = vec_reserve_exact(map + INT_MAP_SLOTS, capacity - load64(map + INT_MAP_SLOTS_LEN));
    if ((reserve_exact & 1) != 0) {
        return 1;
    }
    uint64_t words_room = (capacity >> 6) + ((uint64_t)((capacity & 63) != 0));
    bool capacity_is_0 = capacity == 0;
    if (capacity_is_0) {
        address = dangling;
        words_len = 0;
    } else {
        uint64_t r3;
        uint64_t size = words_room << 3;
        struct word_word block = rattle_alloc(size, 8);
        if ((block.first & 1) == 0) {
            goto arm_7;
        }
        char *address_2 = (char *)(uintptr_t)block.second;
        if (words_room == 1) {
            r3 = 0;
        } else {
            memset(address_2, 0, size - 8);
            r3 = words_room - 1;
        }
        store64(address_2 + (r3 << 3), 0);
        address = address_2;
        words_len = r3 + 1;
    }
    if (room <= NODE_LIMIT) {
        char *nodes;
        uint64_t bits_2;
        if (room == 0) {
            nodes = dangling;
        } else {
            struct word_word block_2 = rattle_alloc(room * 24, 8);
            if ((block_2.first & 1) == 0) {
                goto arm_6_2;
            }
            nodes = (char *)(uintptr_t)block_2.second;
        }
        slots_add_empty(map + INT_MAP_SLOTS, capacity);
        store_address(bits + BITS_WORDS, address);
        store64(bits + BITS_WORDS_LEN, words_len);
        store64(bits + BITS_WORDS_ROOM, words_room);
        store_address(pool + POOL_NODES, nodes);
        store64(pool + POOL_NODES_LEN, 0);
        store64(pool + POOL_NODES_ROOM, room);
        store64(pool + POOL_FREE, NOWHERE);
        store64(pool + POOL_SPARE, 0);
        uint64_t mask = load64(map + INT_MAP_MASK);
        uint64_t mask_2 = capacity - 1;
        if (load64(map + INT_MAP_WORDS_LEN) == 0) {
            bits_2 = 0;
        } else {
            bits_2 = load64(load_address(map + INT_MAP_WORDS));
        }
        store64(marks_left + MARKS_LEFT_AT, 0);
        store64(marks_left + MARKS_LEFT_WORD, bits_2);
        struct byte_word next_in = bits_next_in(map + INT_MAP_WORDS, marks_left);
        if (next_in.first == 1) {
            uint64_t a3 = ~mask;
            uint64_t x = a3 & mask_2;
            uint64_t x_2 = a3 & mask_2;
            struct byte_word at = next_in;
            for (;;) {
                char *node = load_address(map + INT_MAP_SLOTS) + (at.second * NODE_SIZE);
                if (load8(node + NODE_HAS_PAIR) != 1) {
                    abort(); // The proof excludes this.
                }
                uint16_t high = load16(node + NODE_HIGH);
                uint32_t low = load32(node + NODE_LOW);
                uint64_t key = load64(node + NODE_KEY);
                uint64_t index = (key * MULTIPLIER) & x;
                uint64_t value = load64(node + NODE_VALUE);
                memset(node, 0, NODE_SIZE);
                refill_put_at(map + INT_MAP_SLOTS, bits, pool, index + at.second, 0, key, value);
                if (high != NOWHERE_HIGH) {
                    uint64_t at_2 = NOWHERE;
                    uint64_t at_3 = link_of(high, low);
                    for (;;) {
                        char *node_2 = load_address(map + INT_MAP_NODES) + (at_3 * NODE_SIZE);
                        if (load8(node_2 + NODE_HAS_PAIR) != 1) {
                            abort(); // The proof excludes this.
                        }
                        uint16_t high_2 = load16(node_2 + NODE_HIGH);
                        uint64_t link = link_of(high_2, load32(node_2 + NODE_LOW));
                        store16(node_2 + NODE_HIGH, (uint16_t)(at_2 >> 32));
                        store32(node_2 + NODE_LOW, (uint32_t)at_2);
                        if (high_2 == NOWHERE_HIGH) {
                            if (at_3 >= NODE_LIMIT) {
                                break;
                            }
                            uint64_t at_4 = at_3;
                            for (;;) {
                                char *node_3 = load_address(map + INT_MAP_NODES) + (at_4 * NODE_SIZE);
                                if (load8(node_3 + NODE_HAS_PAIR) != 1) {
                                    abort(); // The proof excludes this.
                                }
                                uint64_t index_2 = (load64(node_3 + NODE_KEY) * MULTIPLIER) & x_2;
                                uint16_t high_3 = load16(node_3 + NODE_HIGH);
                                uint64_t link_2 = link_of(high_3, load32(node_3 + NODE_LOW));
                                struct word_word release = pool_release(map + INT_MAP_NODES, at_4);
                                refill_put_at(map + INT_MAP_SLOTS, bits, pool, index_2 + at.second, (uint8_t)(index == index_2), release.first, release.second);
                                if (high_3 == NOWHERE_HIGH) {
                                    goto loop_2_loopexit;
                                }
                                at_4 = link_2;
                            }
                        }
                        at_2 = at_3;
                        at_3 = link;
                    }
                }
            loop_2_loopexit:;
                struct byte_word next_in_2 = bits_next_in(map + INT_MAP_WORDS, marks_left);
                if (next_in_2.first != 1) {
                    break;
                }
                at = next_in_2;
            }
        }
        store64(map + INT_MAP_MASK, mask_2);
        char *words = load_address(map + INT_MAP_WORDS);
        uint64_t words_room_2 = load64(map + INT_MAP_WORDS_ROOM);
        memcpy(map + INT_MAP_WORDS, bits, BITS_SIZE);
        if (words_room_2 != 0) {
            rattle_dealloc(words);
        }
        char *nodes_2 = load_address(map + INT_MAP_NODES);
        uint64_t nodes_room = load64(map + INT_MAP_NODES_ROOM);
        memcpy(map + INT_MAP_NODES, pool, POOL_SIZE);
        if (nodes_room == 0) {
            return 0;
        }
        rattle_dealloc(nodes_2);
        return 0;
    }
arm_6_2:;
    if (!capacity_is_0) {
        rattle_dealloc(address);
    }
arm_7:;
    vec_shrink_to_fit(map + INT_MAP_SLOTS);
    return 1;
}

// Adds the pair of an absent key, if the slots don't take one more, and returns where it is.
// intmap::map::IntMap::add_growing, in crates/intmap/src/map/insert.rt
static ALIGNED NOINLINE void intmap_add_growing(char *result, char *map, uint64_t slot, uint64_t key_key, uint64_t key_number, uint64_t value) {
    uint64_t room, has_failed, key_or_value, r25, place;
    uint8_t slot_or_cause;
    uint64_t len = load64(map + INT_MAP_LEN);
    if (len == UINT64_MAX) {
        store64(result + MADE_LOCATION_HAS_FAILED, 1);
        store64(result + MADE_LOCATION_KEY_OR_VALUE, value);
        store8(result + MADE_LOCATION_SLOT_OR_CAUSE, 1);
        store_bytes(result + MADE_LOCATION_SLOT_OR_CAUSE + 1, 0, 7);
        store64(result + MADE_LOCATION_PLACE, 0);
        return;
    }
    uint64_t len_2 = len + 1;
    uint64_t factor = load64(map + INT_MAP_FACTOR);
    struct byte_word wanted_capacity = load_wanted_capacity(len_2, load64(map + INT_MAP_SLOTS_LEN), factor);
    if (wanted_capacity.first != 1) {
        store64(result + MADE_LOCATION_HAS_FAILED, 1);
        store64(result + MADE_LOCATION_KEY_OR_VALUE, value);
        store8(result + MADE_LOCATION_SLOT_OR_CAUSE, 1);
        store_bytes(result + MADE_LOCATION_SLOT_OR_CAUSE + 1, 0, 7);
        store64(result + MADE_LOCATION_PLACE, 0);
        return;
    }
    u128 r17 = u128_less_one(u128_mul(u128_add(u128_of(factor), u128_of(1u)), u128_of(wanted_capacity.second)));
    uint64_t threshold = u128_above(r17, u128_two(999, UINT64_MAX)) ? UINT64_MAX : u128_low(u128_div(r17, u128_of(1000u)));
    uint64_t r4 = wanted_capacity.second - 1;
    uint64_t index = r4 & (key_number * MULTIPLIER);
    uint64_t nodes_len = load64(map + INT_MAP_NODES_LEN);
    uint64_t r10 = nodes_len - load64(map + INT_MAP_SPARE);
    char *node = load_address(map + INT_MAP_SLOTS) + (slot * NODE_SIZE);
    if (load8(node + NODE_HAS_PAIR) == 1) {
        if (((load64(node + NODE_KEY) * MULTIPLIER) & r4) != index) {
            uint64_t at = link_of(load16(node + NODE_HIGH), load32(node + NODE_LOW));
            for (;;) {
                if (nodes_len <= at) {
                    room = r10;
                    goto after_Slots_needed;
                }
                char *node_2 = load_address(map + INT_MAP_NODES) + (at * NODE_SIZE);
                if (load8(node_2 + NODE_HAS_PAIR) != 1) {
                    room = r10;
                    goto after_Slots_needed;
                }
                if (((load64(node_2 + NODE_KEY) * MULTIPLIER) & r4) == index) {
                    break;
                }
                at = link_of(load16(node_2 + NODE_HIGH), load32(node_2 + NODE_LOW));
            }
        }
        room = r10 + 1;
    } else {
        room = r10;
    }
after_Slots_needed:;
    uint8_t enlarge = slots_enlarge(map, wanted_capacity.second, room);
    if ((enlarge & 1) != 0) {
        has_failed = 1;
        key_or_value = value;
        r25 = 0;
        slot_or_cause = 0;
        place = 0;
    } else {
        uint64_t put_at = refill_put_at(map + INT_MAP_SLOTS, map + INT_MAP_WORDS, map + INT_MAP_NODES, index, 2, key_key, value);
        store64(map + INT_MAP_LEN, len_2);
        store64(map + INT_MAP_THRESHOLD, threshold);
        has_failed = 0;
        key_or_value = key_key;
        r25 = (uint64_t)((index >> 8) & UINT64_C(72057594037927935));
        slot_or_cause = (uint8_t)index;
        place = put_at;
    }
    store64(result + MADE_LOCATION_HAS_FAILED, has_failed);
    store64(result + MADE_LOCATION_KEY_OR_VALUE, key_or_value);
    store8(result + MADE_LOCATION_SLOT_OR_CAUSE, slot_or_cause);
    store_bytes(result + MADE_LOCATION_SLOT_OR_CAUSE + 1, r25, 7);
    store64(result + MADE_LOCATION_PLACE, place);
}

// Inserts the pair of a key and a value as `insert_checked` does, if the first place of the slot doesn't settle it.
// intmap::map::IntMap::insert_checked_otherwise, in crates/intmap/src/map/insert.rt
static ALIGNED NOINLINE void intmap_insert_checked_otherwise(char *result, char *map, uint64_t slot, uint64_t key_key, uint64_t key_number, uint64_t value) {
    uint64_t value_2, value_3, r20_2, r24_2;
    uint8_t slot_or_cause, has_failed, made, slot_or_cause_2, has_failed_2, has_failed_4, slot_or_cause_3, r24_3;
    uint64_t made_location_room[4];
    char *made_location = (char *)made_location_room;
    uint64_t made_usize_room[3];
    char *made_usize = (char *)made_usize_room;
    uint64_t r16_room[1];
    char *r16 = (char *)r16_room;
    uint64_t r20_room[1];
    char *r20 = (char *)r20_room;
    uint64_t r24_room[1];
    char *r24 = (char *)r24_room;
    memset(r16, 0, 7);
    memset(r24, 0, 7);
    bool takes_one_more = intmap_takes_one_more(map);
    char *node = load_address(map + INT_MAP_SLOTS) + (slot * NODE_SIZE);
    if (load8(node + NODE_HAS_PAIR) == 1) {
        uint64_t at;
        uint64_t link = link_of(load16(node + NODE_HIGH), load32(node + NODE_LOW));
        uint64_t nodes_len = load64(map + INT_MAP_NODES_LEN);
        if (nodes_len > link) {
            char *nodes = load_address(map + INT_MAP_NODES);
            char *node_2 = nodes + (link * NODE_SIZE);
            if (load8(node_2 + NODE_HAS_PAIR) == 1) {
                char *node_3 = node_2;
                uint64_t link_2 = link;
                for (;;) {
                    if (load64(node_3 + NODE_KEY) == key_number) {
                        value_2 = 0;
                        slot_or_cause = 0;
                        has_failed = 0;
                        made = 0;
                        goto join_4;
                    }
                    uint64_t link_3 = link_of(load16(node_3 + NODE_HIGH), load32(node_3 + NODE_LOW));
                    if (nodes_len <= link_3) {
                        at = link_2;
                        break;
                    }
                    char *node_4 = nodes + (link_3 * NODE_SIZE);
                    if (load8(node_4 + NODE_HAS_PAIR) != 1) {
                        at = link_2;
                        break;
                    }
                    node_3 = node_4;
                    link_2 = link_3;
                }
            } else {
                at = NOWHERE;
            }
        } else {
            at = NOWHERE;
        }
        if (takes_one_more) {
            uint64_t link_4;
            uint64_t spare = load64(map + INT_MAP_SPARE);
            if (spare == 0) {
                pool_add_new(made_usize, map + INT_MAP_NODES, NOWHERE, key_key, value);
                if (load8(made_usize + MADE_USIZE_HAS_FAILED) != 0) {
                    value_3 = load64(made_usize + MADE_USIZE_VALUE);
                    goto arm_2_2;
                }
                link_4 = load64(made_usize + MADE_USIZE_MADE_OR_KEY);
            } else {
                uint64_t free = load64(map + INT_MAP_FREE);
                char *node_5 = load_address(map + INT_MAP_NODES) + (free * NODE_SIZE);
                if (load8(node_5 + NODE_HAS_PAIR) != 0) {
                    abort(); // The proof excludes this.
                }
                store64(map + INT_MAP_FREE, link_of(load16(node_5 + NODE_HIGH), load32(node_5 + NODE_LOW)));
                store64(map + INT_MAP_SPARE, spare - 1);
                uint8_t has_pair = load8(node_5 + NODE_HAS_PAIR);
                store16(node_5 + NODE_HAS_PAIR, 1);
                store16(node_5 + NODE_HIGH, NOWHERE_HIGH);
                store32(node_5 + NODE_LOW, NOWHERE_LOW);
                store64(node_5 + NODE_KEY, key_key);
                store64(node_5 + NODE_VALUE, value);
                if (has_pair != 0) {
                    abort(); // The proof excludes this.
                }
                link_4 = free;
            }
            if (at >= NODE_LIMIT) {
                if (load8(node + NODE_HAS_PAIR) != 1) {
                    abort(); // The proof excludes this.
                }
                store16(node + NODE_HIGH, (uint16_t)(link_4 >> 32));
                store32(node + NODE_LOW, (uint32_t)link_4);
            } else {
                char *node_6 = load_address(map + INT_MAP_NODES) + (at * NODE_SIZE);
                if (load8(node_6 + NODE_HAS_PAIR) != 1) {
                    abort(); // The proof excludes this.
                }
                store16(node_6 + NODE_HIGH, (uint16_t)(link_4 >> 32));
                store32(node_6 + NODE_LOW, (uint32_t)link_4);
            }
            store64(map + INT_MAP_LEN, load64(map + INT_MAP_LEN) + 1);
            value_2 = 0;
            slot_or_cause = 0;
            has_failed = 0;
            made = 1;
            goto join_4;
        }
        value_3 = value;
    } else {
        value_3 = value;
    }
arm_2_2:;
    memset(made_location, 0, MADE_LOCATION_SIZE);
    if (takes_one_more) {
        memset(r20, 0, 7);
        slot_or_cause_2 = 0;
        r20_2 = value_3;
        has_failed_2 = 1;
    } else {
        intmap_add_growing(made_location, map, slot, key_key, key_number, value_3);
        uint8_t has_failed_3 = load8(made_location + MADE_LOCATION_HAS_FAILED);
        if (has_failed_3 == 0) {
            has_failed_4 = 0;
            r24_2 = 0;
            slot_or_cause_3 = 0;
            r24_3 = 1;
            goto join_10;
        }
        uint64_t key_or_value = load64(made_location + MADE_LOCATION_KEY_OR_VALUE);
        uint8_t slot_or_cause_4 = load8(made_location + MADE_LOCATION_SLOT_OR_CAUSE);
        memcpy(r20, made_location + MADE_LOCATION_SLOT_OR_CAUSE + 1, 7);
        slot_or_cause_2 = slot_or_cause_4;
        r20_2 = key_or_value;
        has_failed_2 = has_failed_3;
    }
    memcpy(r24, r20, 7);
    has_failed_4 = has_failed_2;
    r24_2 = r20_2;
    slot_or_cause_3 = slot_or_cause_2;
    r24_3 = 0;
join_10:;
    memcpy(r16, r24, 7);
    value_2 = r24_2;
    slot_or_cause = slot_or_cause_3;
    has_failed = has_failed_4;
    made = r24_3;
join_4:;
    store8(result + MADE_BOOL_HAS_FAILED, has_failed);
    store8(result + MADE_BOOL_MADE, made);
    store64(result + MADE_BOOL_VALUE, value_2);
    store8(result + MADE_BOOL_CAUSE, slot_or_cause);
    memcpy(result + MADE_BOOL_CAUSE + 1, r16, 7);
}

// Removes the first pair of a slot with this link that holds others.
// intmap_table::linked::row::insertion::replace_first_of_several, in crates/intmap_table/src/linked/row/insertion.rt
static COLD uint64_t insertion_replace_first_of_several(char *slot, uint64_t link, char *pool, uint64_t new_key, uint64_t new_value) {
    struct word_word at = chain_last_in(pool, link);
    char *node = load_address(pool + POOL_NODES) + (at.first * NODE_SIZE);
    if (load8(node + NODE_HAS_PAIR) != 1) {
        abort(); // The proof excludes this.
    }
    uint64_t key = load64(node + NODE_KEY);
    uint64_t value = load64(node + NODE_VALUE);
    store64(node + NODE_KEY, new_key);
    store64(node + NODE_VALUE, new_value);
    if (load8(slot + NODE_HAS_PAIR) != 1) {
        abort(); // The proof excludes this.
    }
    uint64_t value_2 = load64(slot + NODE_VALUE);
    store64(slot + NODE_KEY, key);
    store64(slot + NODE_VALUE, value);
    return value_2;
}

// Puts the pair of a key and a value last in a slot whose first pair, if there is one, has another key.
// intmap_table::linked::row::insertion::put, in crates/intmap_table/src/linked/row/insertion.rt
static ALWAYS_INLINE void insertion_put(char *result, char *slot, char *pool, uint64_t key_key, uint64_t key_number, uint64_t value, bool adds) {
    uint64_t has_failed, value_3, value_4, at_2;
    uint64_t made_usize_room[3];
    char *made_usize = (char *)made_usize_room;
    if (load8(slot + NODE_HAS_PAIR) != 1) {
        store64(result + MADE_OPTION_HAS_FAILED, 1);
        store64(result + MADE_OPTION_HAS_MADE_OR_VALUE, value);
        store64(result + MADE_OPTION_VALUE, 0);
        return;
    }
    uint64_t link = link_of(load16(slot + NODE_HIGH), load32(slot + NODE_LOW));
    uint64_t nodes_len = load64(pool + POOL_NODES_LEN);
    if (nodes_len > link) {
        char *nodes = load_address(pool + POOL_NODES);
        uint64_t offset = link * NODE_SIZE;
        char *node = nodes + offset;
        if (load8(node + NODE_HAS_PAIR) == 1) {
            char *node_2 = node;
            uint64_t offset_2 = offset;
            uint64_t link_2 = link;
            for (;;) {
                if (load64(node_2 + NODE_KEY) == key_number) {
                    struct word_word at = chain_last_in(pool, link_2);
                    char *node_3 = nodes + (at.first * NODE_SIZE);
                    if (load8(node_3 + NODE_HAS_PAIR) != 1) {
                        abort(); // The proof excludes this.
                    }
                    uint64_t key = load64(node_3 + NODE_KEY);
                    uint64_t value_2 = load64(node_3 + NODE_VALUE);
                    store64(node_3 + NODE_KEY, key_key);
                    store64(node_3 + NODE_VALUE, value);
                    if (at.first == link_2) {
                        has_failed = 0;
                        value_3 = 1;
                        value_4 = value_2;
                        goto join_7_2;
                    }
                    char *node_4 = load_address(pool + POOL_NODES) + offset_2;
                    if (load8(node_4 + NODE_HAS_PAIR) != 1) {
                        abort(); // The proof excludes this.
                    }
                    uint64_t value_5 = load64(node_4 + NODE_VALUE);
                    store64(node_4 + NODE_KEY, key);
                    store64(node_4 + NODE_VALUE, value_2);
                    has_failed = 0;
                    value_3 = 1;
                    value_4 = value_5;
                    goto join_7_2;
                }
                uint64_t link_3 = link_of(load16(node_2 + NODE_HIGH), load32(node_2 + NODE_LOW));
                if (nodes_len <= link_3) {
                    at_2 = link_2;
                    break;
                }
                uint64_t offset_3 = link_3 * NODE_SIZE;
                char *node_5 = nodes + offset_3;
                if (load8(node_5 + NODE_HAS_PAIR) != 1) {
                    at_2 = link_2;
                    break;
                }
                node_2 = node_5;
                offset_2 = offset_3;
                link_2 = link_3;
            }
        } else {
            at_2 = NOWHERE;
        }
    } else {
        at_2 = NOWHERE;
    }
    if (adds) {
        uint64_t link_4;
        uint64_t spare = load64(pool + POOL_SPARE);
        if (spare == 0) {
            pool_add_new(made_usize, pool, NOWHERE, key_key, value);
            if (load8(made_usize + MADE_USIZE_HAS_FAILED) != 0) {
                has_failed = 1;
                value_3 = load64(made_usize + MADE_USIZE_VALUE);
                value_4 = 0;
                goto join_7_2;
            }
            link_4 = load64(made_usize + MADE_USIZE_MADE_OR_KEY);
        } else {
            uint64_t free = load64(pool + POOL_FREE);
            char *node_6 = load_address(pool + POOL_NODES) + (free * NODE_SIZE);
            if (load8(node_6 + NODE_HAS_PAIR) != 0) {
                abort(); // The proof excludes this.
            }
            store64(pool + POOL_FREE, link_of(load16(node_6 + NODE_HIGH), load32(node_6 + NODE_LOW)));
            store64(pool + POOL_SPARE, spare - 1);
            uint8_t has_pair = load8(node_6 + NODE_HAS_PAIR);
            store16(node_6 + NODE_HAS_PAIR, 1);
            store16(node_6 + NODE_HIGH, NOWHERE_HIGH);
            store32(node_6 + NODE_LOW, NOWHERE_LOW);
            store64(node_6 + NODE_KEY, key_key);
            store64(node_6 + NODE_VALUE, value);
            if (has_pair != 0) {
                abort(); // The proof excludes this.
            }
            link_4 = free;
        }
        if (at_2 >= NODE_LIMIT) {
            if (load8(slot + NODE_HAS_PAIR) != 1) {
                abort(); // The proof excludes this.
            }
            store16(slot + NODE_HIGH, (uint16_t)(link_4 >> 32));
            store32(slot + NODE_LOW, (uint32_t)link_4);
            has_failed = 0;
            value_3 = 0;
            value_4 = 0;
        } else {
            char *node_7 = load_address(pool + POOL_NODES) + (at_2 * NODE_SIZE);
            if (load8(node_7 + NODE_HAS_PAIR) != 1) {
                abort(); // The proof excludes this.
            }
            store16(node_7 + NODE_HIGH, (uint16_t)(link_4 >> 32));
            store32(node_7 + NODE_LOW, (uint32_t)link_4);
            has_failed = 0;
            value_3 = 0;
            value_4 = 0;
        }
    } else {
        has_failed = 1;
        value_3 = value;
        value_4 = 0;
    }
join_7_2:;
    store64(result + MADE_OPTION_HAS_FAILED, has_failed);
    store64(result + MADE_OPTION_HAS_MADE_OR_VALUE, value_3);
    store64(result + MADE_OPTION_VALUE, value_4);
}

// Inserts the pair of a key and a value as `insert` does, if it can't be put at once.
// intmap::map::IntMap::insert_otherwise, in crates/intmap/src/map/insert.rt
static ALIGNED NOINLINE void intmap_insert_otherwise(char *result, char *map, uint64_t slot, uint64_t key_key, uint64_t key_number, uint64_t value) {
    uint64_t has_failed, has_made_or_value_2, made_or_cause;
    uint64_t made_option_room[3];
    char *made_option = (char *)made_option_room;
    uint64_t made_location_room[4];
    char *made_location = (char *)made_location_room;
    bool takes_one_more = intmap_takes_one_more(map);
    memset(made_option, 0, MADE_OPTION_SIZE);
    insertion_put(made_option, load_address(map + INT_MAP_SLOTS) + (slot * NODE_SIZE), map + INT_MAP_NODES, key_key, key_number, value, takes_one_more);
    uint64_t has_made_or_value = load64(made_option + MADE_OPTION_HAS_MADE_OR_VALUE);
    if (load8(made_option + MADE_OPTION_HAS_FAILED) == 0) {
        if ((has_made_or_value & 255) == 1) {
            has_failed = 0;
            has_made_or_value_2 = 1;
            made_or_cause = load64(made_option + MADE_OPTION_VALUE);
        } else {
            store64(map + INT_MAP_LEN, load64(map + INT_MAP_LEN) + 1);
            has_failed = 0;
            has_made_or_value_2 = 0;
            made_or_cause = 0;
        }
    } else {
        uint8_t has_failed_2;
        uint64_t r24, r24_2;
        memset(made_location, 0, MADE_LOCATION_SIZE);
        if (takes_one_more) {
            has_failed_2 = 1;
            r24 = has_made_or_value;
            r24_2 = 0;
        } else {
            intmap_add_growing(made_location, map, slot, key_key, key_number, has_made_or_value);
            uint8_t has_failed_3 = load8(made_location + MADE_LOCATION_HAS_FAILED);
            bool has_failed_is_0 = has_failed_3 == 0;
            has_failed_2 = has_failed_3;
            r24 = has_failed_is_0 ? 0 : load64(made_location + MADE_LOCATION_KEY_OR_VALUE);
            r24_2 = (has_failed_is_0 ? 0 : (((uint64_t)((uint64_t)load_bytes(made_location + MADE_LOCATION_SLOT_OR_CAUSE + 1, 7))) << 8)) | ((uint64_t)(has_failed_is_0 ? 0 : load8(made_location + MADE_LOCATION_SLOT_OR_CAUSE)));
        }
        bool has_failed_is_0_2 = has_failed_2 == 0;
        has_failed = (uint64_t)has_failed_2;
        has_made_or_value_2 = has_failed_is_0_2 ? 0 : r24;
        made_or_cause = has_failed_is_0_2 ? 0 : r24_2;
    }
    store64(result + MADE_OPTION_2_HAS_FAILED, has_failed);
    store64(result + MADE_OPTION_2_HAS_MADE_OR_VALUE, has_made_or_value_2);
    store64(result + MADE_OPTION_2_MADE_OR_CAUSE, made_or_cause);
}

// Makes the slots in which `pairs` pairs meet this load factor, and sets it.
// intmap::map::IntMap::fit, in crates/intmap/src/map/grow.rt
static ALWAYS_INLINE struct byte_byte intmap_fit(char *map, uint64_t pairs, uint64_t thousandths, uint64_t sharing) {
    uint8_t r0;
    uint64_t slots_len = load64(map + INT_MAP_SLOTS_LEN);
    struct byte_word wanted_capacity = load_wanted_capacity(pairs, slots_len, thousandths);
    if (wanted_capacity.first != 1) {
        return made_byte_byte(1, 1);
    }
    if (wanted_capacity.second == slots_len) {
        uint64_t spare = load64(map + INT_MAP_SPARE);
        if (sharing <= spare) {
            goto join_8;
        }
        uint64_t r19 = sharing - spare;
        if ((NODE_LIMIT - load64(map + INT_MAP_NODES_LEN)) < r19) {
            return made_byte_byte(1, 0);
        }
        uint8_t reserve_exact = vec_reserve_exact(map + INT_MAP_NODES, r19);
        r0 = reserve_exact;
    } else {
        uint64_t r10 = load64(map + INT_MAP_NODES_LEN) - load64(map + INT_MAP_SPARE);
        if (r10 > (~sharing)) {
            return made_byte_byte(1, 0);
        }
        uint8_t enlarge = slots_enlarge(map, wanted_capacity.second, r10 + sharing);
        r0 = enlarge;
    }
    if ((r0 & 1) != 0) {
        return made_byte_byte(1, 0);
    }
join_8:;
    store64(map + INT_MAP_FACTOR, thousandths);
    u128 r17 = u128_less_one(u128_mul(u128_add(u128_of(thousandths), u128_of(1u)), u128_of(wanted_capacity.second)));
    store64(map + INT_MAP_THRESHOLD, u128_above(r17, u128_two(999, UINT64_MAX)) ? UINT64_MAX : u128_low(u128_div(r17, u128_of(1000u))));
    return made_byte_byte(0, 0);
}

// Writes the address of the value of the key, or null if the key is absent.
// intmap_place, in crates/intmap_c/src/place.rt
static ALWAYS_INLINE void do_intmap_place(char *word, uint64_t key, char *at) {
    store_address(at, NULL);
    char *map = load_address(word);
    if (map == NULL) {
        return;
    }
    struct byte_address get_mut = intmap_get_mut(map, key);
    if (get_mut.first != 1) {
        return;
    }
    store_address(at, get_mut.second);
}

// The version of the code, which is 1.1.0: 10000 times the first number, 100 times the second, and the third.
// intmap_version, in crates/intmap_c/src/version.rt
static ALWAYS_INLINE uint32_t do_intmap_version(void) {
    return 10100;
}

// The number of slots, which is 4 if there is no map yet.
// intmap_capacity, in crates/intmap_c/src/read.rt
static ALWAYS_INLINE uint64_t do_intmap_capacity(char *word) {
    char *map = load_address(word);
    if (map == NULL) {
        return 4;
    }
    return load64(map + INT_MAP_SLOTS_LEN);
}

// Whether the key is present.
// intmap_contains_key, in crates/intmap_c/src/read.rt
static ALWAYS_INLINE bool do_intmap_contains_key(char *word, uint64_t key) {
    char *map = load_address(word);
    if (map == NULL) {
        return false;
    }
    struct byte_address get_counted = intmap_get_counted(map, key);
    return (get_counted.first & 1) != 0;
}

// Copies the pairs of the walk from the cursor on to the front of an array, and moves the cursor behind them.
// intmap_copy_pairs, in crates/intmap_c/src/read.rt
static ALWAYS_INLINE uint64_t do_intmap_copy_pairs(char *word, char *at, char *pairs, uint64_t pairs_len) {
    uint64_t r0, place_2, slot_2, pairs_len_2;
    uint64_t r3_room[10];
    char *r3 = (char *)r3_room;
    char *r4 = pairs + ((pairs == NULL) ? 4096 : 0);
    char *map = load_address(word);
    if (map == NULL) {
        return 0;
    }
    uint64_t slot = load64(at + CURSOR_SLOT);
    uint64_t place = load64(at + CURSOR_PLACE);
    uint64_t sum = sum_or_most(slot, 1);
    uint64_t chosen = (place == 0) ? slot : sum;
    char *slots = load_address(map + INT_MAP_SLOTS);
    uint64_t slots_len = load64(map + INT_MAP_SLOTS_LEN);
    uint64_t link_to = reached_link_to(slots, slots_len, map + INT_MAP_NODES, slot, place);
    uint64_t word_2 = chosen >> 6;
    if (load64(map + INT_MAP_WORDS_LEN) > word_2) {
        r0 = load64(load_address(map + INT_MAP_WORDS) + (word_2 << 3)) & (UINT64_MAX << (chosen & 63));
    } else {
        r0 = 0;
    }
    store64(r3, slot);
    store64(r3 + 8, place);
    store64(r3 + 16, link_to);
    store64(r3 + 24, chosen);
    store64(r3 + 32, word_2);
    store64(r3 + 40, r0);
    store_address(r3 + 48, map + INT_MAP_WORDS);
    store_address(r3 + 56, slots);
    store64(r3 + 64, slots_len);
    store_address(r3 + 72, map + INT_MAP_NODES);
    if (pairs_len == 0) {
        place_2 = place;
        slot_2 = slot;
        pairs_len_2 = 0;
    } else {
        uint64_t slot_3 = slot;
        uint64_t place_3 = place;
        uint64_t r21 = link_to;
        uint64_t r3_2 = 0;
        for (;;) {
            uint64_t slot_4, next_place_2, link_2, link_3;
            char *r61, *r61_2;
            struct byte_word next_in;
            char *r19 = load_address(r3 + 72);
            if (load64(r19 + 8) > r21) {
                char *r11 = load_address(r19) + (r21 * 24);
                if (load8(r11) == 1) {
                    uint64_t link = link_of(load16(r11 + 2), load32(r11 + 4));
                    store64(r3 + 16, link);
                    uint64_t next_place = place_3 + 1;
                    store64(r3 + 8, next_place);
                    slot_4 = slot_3;
                    next_place_2 = next_place;
                    link_2 = link;
                    r61 = r11;
                    goto arm_6_2;
                }
            }
            next_in = bits_next_in(load_address(r3 + 48), r3 + 32);
            if (next_in.first != 1) {
                place_2 = load64(r3 + 8);
                slot_2 = load64(r3);
                pairs_len_2 = r3_2;
                break;
            }
            r61_2 = load_address(r3 + 56) + (next_in.second * 24);
            if (load8(r61_2) != 1) {
                abort(); // The proof excludes this.
            }
            link_3 = link_of(load16(r61_2 + 2), load32(r61_2 + 4));
            store64(r3, next_in.second);
            store64(r3 + 8, 1);
            store64(r3 + 16, link_3);
            store64(r3 + 24, next_in.second + 1);
            slot_4 = next_in.second;
            next_place_2 = 1;
            link_2 = link_3;
            r61 = r61_2;
        arm_6_2:;
            char *r63 = r4 + (r3_2 << 4);
            uint64_t r48 = load64(r61 + 16);
            store64(r63, load64(r61 + 8));
            store64(r63 + 8, r48);
            uint64_t r70 = r3_2 + 1;
            if (r70 == pairs_len) {
                place_2 = next_place_2;
                slot_2 = slot_4;
                pairs_len_2 = pairs_len;
                break;
            }
            slot_3 = slot_4;
            place_3 = next_place_2;
            r21 = link_2;
            r3_2 = r70;
        }
    }
    store64(at + CURSOR_SLOT, slot_2);
    store64(at + CURSOR_PLACE, place_2);
    return pairs_len_2;
}

// Whether the same keys have the same values in both maps.
// intmap_equal, in crates/intmap_c/src/read.rt
static ALWAYS_INLINE bool do_intmap_equal(char *word, char *other) {
    uint64_t bits, r6;
    char *word_at;
    char *map = load_address(word);
    char *map_2 = load_address(other);
    bool map_is_null = map_2 == NULL;
    if (map == NULL) {
        if (map_is_null) {
            return true;
        }
        return load64(map_2 + INT_MAP_LEN) == 0;
    }
    uint64_t len = load64(map + INT_MAP_LEN);
    if (map_is_null) {
        return len == 0;
    }
    if (len != load64(map_2 + INT_MAP_LEN)) {
        return false;
    }
    uint64_t words_len = load64(map + INT_MAP_WORDS_LEN);
    if (words_len == 0) {
        bits = 0;
        word_at = (char *)no_bytes;
        r6 = 0;
    } else {
        char *words = load_address(map + INT_MAP_WORDS);
        bits = load64(words);
        word_at = words + 8;
        r6 = words_len - 1;
    }
    char *slots = load_address(map + INT_MAP_SLOTS);
    uint64_t nodes_len = load64(map + INT_MAP_NODES_LEN);
    uint64_t at = NOWHERE;
    uint64_t bits_2 = bits;
    uint64_t r1 = 0;
    char *word_at_2 = word_at;
    uint64_t r1_2 = r6;
    for (;;) {
        uint64_t bits_3, r1_3, r1_4, link, r1_7, r1_8, bits_5, lowest;
        char *word_at_3, *node_2, *word_at_5, *node_3;
        if (nodes_len > at) {
            char *node = load_address(map + INT_MAP_NODES) + (at * NODE_SIZE);
            if (load8(node + NODE_HAS_PAIR) == 1) {
                bits_3 = bits_2;
                r1_3 = r1;
                word_at_3 = word_at_2;
                r1_4 = r1_2;
                link = link_of(load16(node + NODE_HIGH), load32(node + NODE_LOW));
                node_2 = node;
                goto arm_6_2;
            }
        }
        if (bits_2 == 0) {
            uint64_t r1_5 = r1;
            char *word_at_4 = word_at_2;
            uint64_t r1_6 = r1_2;
            for (;;) {
                if (r1_6 == 0) {
                    return true;
                }
                uint64_t r33 = r1_6 - 1;
                uint64_t bits_4 = load64(word_at_4);
                uint64_t r60 = r1_5 + 64;
                if (bits_4 != 0) {
                    r1_7 = r60;
                    word_at_5 = word_at_4 + 8;
                    r1_8 = r33;
                    bits_5 = bits_4;
                    break;
                }
                r1_5 = r60;
                word_at_4 = word_at_4 + 8;
                r1_6 = r33;
            }
        } else {
            r1_7 = r1;
            word_at_5 = word_at_2;
            r1_8 = r1_2;
            bits_5 = bits_2;
        }
        lowest = place_of_lowest_1(bits_5);
        node_3 = slots + ((lowest + r1_7) * NODE_SIZE);
        if (load8(node_3 + NODE_HAS_PAIR) != 1) {
            abort(); // The proof excludes this.
        }
        bits_3 = (bits_5 - 1) & bits_5;
        r1_3 = r1_7;
        word_at_3 = word_at_5;
        r1_4 = r1_8;
        link = link_of(load16(node_3 + NODE_HIGH), load32(node_3 + NODE_LOW));
        node_2 = node_3;
    arm_6_2:;
        struct byte_address get_counted = intmap_get_counted(map_2, load64(node_2 + NODE_KEY));
        if (get_counted.first != 1) {
            return false;
        }
        if (load64(node_2 + NODE_VALUE) != load64(get_counted.second)) {
            return false;
        }
        at = link;
        bits_2 = bits_3;
        r1 = r1_3;
        word_at_2 = word_at_3;
        r1_2 = r1_4;
    }
}

// The number of slots that hold a pair.
// intmap_filled_slots, in crates/intmap_c/src/read.rt
static ALWAYS_INLINE uint64_t do_intmap_filled_slots(char *word) {
    char *map = load_address(word);
    if (map == NULL) {
        return 0;
    }
    char *words = load_address(map + INT_MAP_WORDS);
    uint64_t words_len = load64(map + INT_MAP_WORDS_LEN);
    if (words_len == 0) {
        return 0;
    }
    uint64_t r1 = 0;
    uint64_t word_2 = 0;
    for (;;) {
        uint64_t ones = ones_in(load64(words + (word_2 << 3)));
        uint64_t r44 = ones + r1;
        uint64_t next_word = word_2 + 1;
        if (next_word == words_len) {
            return r44;
        }
        r1 = r44;
        word_2 = next_word;
    }
}

// The number of pairs.
// intmap_len, in crates/intmap_c/src/read.rt
static ALWAYS_INLINE uint64_t do_intmap_len(char *word) {
    char *map = load_address(word);
    if (map == NULL) {
        return 0;
    }
    return load64(map + INT_MAP_LEN);
}

// The load factor in thousandths, which is 909 if there is no map yet.
// intmap_load_factor, in crates/intmap_c/src/read.rt
static ALWAYS_INLINE uint64_t do_intmap_load_factor(char *word) {
    char *map = load_address(word);
    if (map == NULL) {
        return 909;
    }
    return load64(map + INT_MAP_FACTOR);
}

// The value of the key.
// intmap_get, in crates/intmap_c/src/read.rt
static ALWAYS_INLINE struct word_word do_intmap_get(char *word, uint64_t key) {
    struct word_half returned;
    char *map = load_address(word);
    if (map == NULL) {
        returned = empty_word_half();
    } else {
        uint64_t value;
        struct byte_address get_counted = intmap_get_counted(map, key);
        if ((get_counted.first & 1) != 0) {
            value = load64(get_counted.second);
        } else {
            value = 0;
        }
        uint32_t has = (uint32_t)get_counted.first;
        returned = made_word_half(value, has);
    }
    uint64_t status = (uint64_t)returned.second;
    return made_word_word(returned.first, status);
}

// The first pair of the walk from the cursor on, behind which the cursor moves.
// intmap_step, in crates/intmap_c/src/read.rt
static ALWAYS_INLINE char *do_intmap_step(char *result, char *word, char *at) {
    uint64_t key, value;
    uint32_t status;
    uint64_t r1_room[10];
    char *r1 = (char *)r1_room;
    char *map = load_address(word);
    if (map == NULL) {
        key = 0;
        value = 0;
        status = 0;
    } else {
        uint64_t r0, place_2, slot_2;
        char *node_2, *r61;
        struct byte_word next_in;
        uint64_t slot = load64(at + CURSOR_SLOT);
        uint64_t place = load64(at + CURSOR_PLACE);
        uint64_t sum = sum_or_most(slot, 1);
        uint64_t chosen = (place == 0) ? slot : sum;
        char *slots = load_address(map + INT_MAP_SLOTS);
        uint64_t slots_len = load64(map + INT_MAP_SLOTS_LEN);
        uint64_t at_2 = reached_link_to(slots, slots_len, map + INT_MAP_NODES, slot, place);
        uint64_t word_2 = chosen >> 6;
        if (load64(map + INT_MAP_WORDS_LEN) > word_2) {
            r0 = load64(load_address(map + INT_MAP_WORDS) + (word_2 << 3)) & (UINT64_MAX << (chosen & 63));
        } else {
            r0 = 0;
        }
        store64(r1, slot);
        store64(r1 + 8, place);
        store64(r1 + 16, at_2);
        store64(r1 + 24, chosen);
        store64(r1 + 32, word_2);
        store64(r1 + 40, r0);
        store_address(r1 + 48, map + INT_MAP_WORDS);
        store_address(r1 + 56, slots);
        store64(r1 + 64, slots_len);
        store_address(r1 + 72, map + INT_MAP_NODES);
        if (load64(map + INT_MAP_NODES_LEN) > at_2) {
            char *node = load_address(map + INT_MAP_NODES) + (at_2 * NODE_SIZE);
            if (load8(node + NODE_HAS_PAIR) == 1) {
                place_2 = place + 1;
                slot_2 = slot;
                node_2 = node;
                goto arm_5;
            }
        }
        next_in = bits_next_in(map + INT_MAP_WORDS, r1 + 32);
        if (next_in.first != 1) {
            key = 0;
            value = 0;
            status = 0;
            goto after_read_intmap_step;
        }
        r61 = load_address(r1 + 56) + (next_in.second * 24);
        if (load8(r61) != 1) {
            abort(); // The proof excludes this.
        }
        place_2 = 1;
        slot_2 = next_in.second;
        node_2 = r61;
    arm_5:;
        store64(at + CURSOR_SLOT, slot_2);
        store64(at + CURSOR_PLACE, place_2);
        key = load64(node_2 + 8);
        value = load64(node_2 + 16);
        status = 1;
    }
after_read_intmap_step:;
    store64(result + FOUND_PAIR_KEY, key);
    store64(result + FOUND_PAIR_VALUE, value);
    store32(result + FOUND_PAIR_STATUS, status);
    store32(result + FOUND_PAIR_STATUS + 4, 0);
    return result;
}

// Adds to the value of a present key, modulo 2^64, and returns the value before.
// intmap_add_present, in crates/intmap_c/src/pairs.rt
static ALWAYS_INLINE struct word_word do_intmap_add_present(char *handle, uint64_t key, uint64_t more) {
    struct word_half returned;
    uint64_t map_address = load64(handle);
    store64(handle, 0);
    if (map_address == 0) {
        returned = empty_word_half();
    } else {
        struct word_half returned_2;
        struct byte_address get_mut = intmap_get_mut((char *)(uintptr_t)map_address, key);
        if (get_mut.first == 1) {
            uint64_t value = load64(get_mut.second);
            store64(get_mut.second, value + more);
            returned_2 = made_word_half(value, 1);
        } else {
            returned_2 = empty_word_half();
        }
        store64(handle, map_address);
        returned = returned_2;
    }
    uint64_t status = (uint64_t)returned.second;
    return made_word_word(returned.first, status);
}

// Removes all pairs.
// intmap_clear, in crates/intmap_c/src/walk.rt
static ALWAYS_INLINE void do_intmap_clear(char *handle) {
    uint64_t bits, r1;
    char *word_at;
    uint64_t map_address = load64(handle);
    store64(handle, 0);
    char *map = (char *)(uintptr_t)map_address;
    if (map_address == 0) {
        return;
    }
    uint64_t words_len = load64(map + INT_MAP_WORDS_LEN);
    if (words_len == 0) {
        bits = 0;
        word_at = (char *)no_bytes;
        r1 = 0;
    } else {
        char *words = load_address(map + INT_MAP_WORDS);
        bits = load64(words);
        word_at = words + 8;
        r1 = words_len - 1;
    }
    uint64_t bits_2 = bits;
    uint64_t r1_2 = 0;
    char *word_at_2 = word_at;
    uint64_t r1_3 = r1;
    for (;;) {
        uint64_t bits_4, r1_6, r1_7;
        char *word_at_4;
        if (bits_2 == 0) {
            uint64_t r1_4 = r1_3;
            char *word_at_3 = word_at_2;
            uint64_t r1_5 = r1_2;
            for (;;) {
                if (r1_4 == 0) {
                    char *words_2 = load_address(map + INT_MAP_WORDS);
                    uint64_t words_len_2 = load64(map + INT_MAP_WORDS_LEN);
                    if (words_len_2 != 0) {
                        uint64_t word = words_len_2 - 1;
                        if (word != 0) {
                            memset(words_2, 0, (words_len_2 << 3) - 8);
                        }
                        store64(words_2 + (word << 3), 0);
                    }
                    store64(map + INT_MAP_LEN, 0);
                    store64(handle, map_address);
                    return;
                }
                uint64_t r33 = r1_4 - 1;
                uint64_t bits_3 = load64(word_at_3);
                uint64_t r60 = r1_5 + 64;
                if (bits_3 != 0) {
                    bits_4 = bits_3;
                    r1_6 = r60;
                    word_at_4 = word_at_3 + 8;
                    r1_7 = r33;
                    break;
                }
                r1_4 = r33;
                word_at_3 = word_at_3 + 8;
                r1_5 = r60;
            }
        } else {
            bits_4 = bits_2;
            r1_6 = r1_2;
            word_at_4 = word_at_2;
            r1_7 = r1_3;
        }
        uint64_t lowest = place_of_lowest_1(bits_4);
        uint64_t bits_5 = (bits_4 - 1) & bits_4;
        char *node = load_address(map + INT_MAP_SLOTS) + ((r1_6 + lowest) * NODE_SIZE);
        if (load8(node + NODE_HAS_PAIR) == 1) {
            for (;;) {
                uint16_t high = load16(node + NODE_HIGH);
                if (high == NOWHERE_HIGH) {
                    memset(node, 0, NODE_SIZE);
                    break;
                }
                removal_pop_front_of_several(node, link_of(high, load32(node + NODE_LOW)), map + INT_MAP_NODES);
                if (load8(node + NODE_HAS_PAIR) != 1) {
                    break;
                }
            }
        }
        bits_2 = bits_5;
        r1_2 = r1_6;
        word_at_2 = word_at_4;
        r1_3 = r1_7;
    }
}

// Removes the first pair of the walk from the cursor on and returns it.
// intmap_cut, in crates/intmap_c/src/walk.rt
static ALWAYS_INLINE char *do_intmap_cut(char *result, char *handle, char *at) {
    uint64_t key, value;
    uint32_t status;
    uint64_t marks_left_room[2];
    char *marks_left = (char *)marks_left_room;
    uint64_t option_room[3];
    char *option = (char *)option_room;
    uint64_t map_address = load64(handle);
    store64(handle, 0);
    char *map = (char *)(uintptr_t)map_address;
    if (map_address == 0) {
        key = 0;
        value = 0;
        status = 0;
    } else {
        uint64_t key_2, value_2, key_4, value_4;
        uint32_t r8;
        memset(option, 0, OPTION_SIZE);
        slots_remove_at(option, map, load64(at + CURSOR_SLOT), load64(at + CURSOR_PLACE));
        if (load8(option + OPTION_HAS) == 1) {
            key_2 = load64(option + OPTION_KEY);
            value_2 = load64(option + OPTION_VALUE);
        } else {
            uint64_t word;
            struct word_word pop_front_of_several;
            uint64_t sum = sum_or_most(load64(at + CURSOR_SLOT), 1);
            uint64_t at_2 = sum >> 6;
            if (load64(map + INT_MAP_WORDS_LEN) > at_2) {
                word = load64(load_address(map + INT_MAP_WORDS) + (at_2 << 3)) & (UINT64_MAX << (sum & 63));
            } else {
                word = 0;
            }
            store64(marks_left + MARKS_LEFT_AT, at_2);
            store64(marks_left + MARKS_LEFT_WORD, word);
            struct byte_word at_3 = bits_next_in(map + INT_MAP_WORDS, marks_left);
            if (at_3.first != 1) {
                key_4 = 0;
                r8 = 0;
                value_4 = 0;
                goto after_walk_cut;
            }
            store64(at + CURSOR_SLOT, at_3.second);
            store64(at + CURSOR_PLACE, 0);
            char *node = load_address(map + INT_MAP_SLOTS) + (at_3.second * NODE_SIZE);
            if (load8(node + NODE_HAS_PAIR) != 1) {
                abort(); // The proof excludes this.
            }
            uint16_t high = load16(node + NODE_HIGH);
            if (high == NOWHERE_HIGH) {
                uint64_t offset = (at_3.second >> 3) & UINT64_C(0x1FFFFFFFFFFFFFF8);
                uint64_t bits = load64(load_address(map + INT_MAP_WORDS) + offset);
                uint64_t key_3 = load64(node + NODE_KEY);
                uint64_t value_3 = load64(node + NODE_VALUE);
                memset(node, 0, NODE_SIZE);
                store64(load_address(map + INT_MAP_WORDS) + offset, bits & (~((uint64_t)1 << (at_3.second & 63))));
                pop_front_of_several = made_word_word(key_3, value_3);
            } else {
                struct word_word pop_front_of_several_2 = removal_pop_front_of_several(node, link_of(high, load32(node + NODE_LOW)), map + INT_MAP_NODES);
                pop_front_of_several = pop_front_of_several_2;
            }
            key_2 = pop_front_of_several.first;
            value_2 = pop_front_of_several.second;
        }
        store64(map + INT_MAP_LEN, load64(map + INT_MAP_LEN) - 1);
        key_4 = key_2;
        r8 = 1;
        value_4 = value_2;
    after_walk_cut:;
        store64(handle, map_address);
        key = key_4;
        value = value_4;
        status = r8;
    }
    store64(result + FOUND_PAIR_KEY, key);
    store64(result + FOUND_PAIR_VALUE, value);
    store32(result + FOUND_PAIR_STATUS, status);
    store32(result + FOUND_PAIR_STATUS + 4, 0);
    return result;
}

// Frees the map of the handle, which then has none.
// intmap_free, in crates/intmap_c/src/make.rt
static ALWAYS_INLINE void do_intmap_free(char *handle) {
    uint64_t map_address = load64(handle);
    store64(handle, 0);
    if (map_address == 0) {
        return;
    }
    char *map = (char *)(uintptr_t)map_address;
    char *words = load_address(map + INT_MAP_WORDS);
    char *slots = load_address(map + INT_MAP_SLOTS);
    uint64_t slots_room = load64(map + INT_MAP_SLOTS_ROOM);
    char *nodes = load_address(map + INT_MAP_NODES);
    uint64_t nodes_room = load64(map + INT_MAP_NODES_ROOM);
    uint64_t words_room = load64(map + INT_MAP_WORDS_ROOM);
    rattle_dealloc(map);
    if (words_room != 0) {
        rattle_dealloc(words);
    }
    if (slots_room != 0) {
        rattle_dealloc(slots);
    }
    if (nodes_room == 0) {
        return;
    }
    rattle_dealloc(nodes);
}

// Keeps the pairs whose bit is set among the next 64 of the walk from the cursor on, removes the others, and returns
// how many these are.
// intmap_keep_marked, in crates/intmap_c/src/keep.rt
static ALWAYS_INLINE uint64_t do_intmap_keep_marked(char *handle, char *at, uint64_t marks) {
    uint64_t word, left_2;
    uint64_t marks_left_room[2];
    char *marks_left = (char *)marks_left_room;
    uint64_t keep_bits_room[2];
    char *keep_bits = (char *)keep_bits_room;
    uint64_t map_address = load64(handle);
    store64(handle, 0);
    char *map = (char *)(uintptr_t)map_address;
    if (map_address == 0) {
        return 0;
    }
    store64(keep_bits + KEEP_BITS_WORD, marks);
    store64(keep_bits + KEEP_BITS_LEFT, 64);
    uint64_t slot = load64(at + CURSOR_SLOT);
    if (load64(map + INT_MAP_MASK) >= slot) {
        char *node = load_address(map + INT_MAP_SLOTS) + (slot * NODE_SIZE);
        if (load64(at + CURSOR_PLACE) == 0) {
            bool drop_front = keep_drop_front(node, map + INT_MAP_NODES, keep_bits);
            if (drop_front) {
                store64(at + CURSOR_PLACE, 1);
                keep_keep_behind(node, map + INT_MAP_NODES, at + CURSOR_PLACE, keep_bits);
            }
        } else {
            keep_keep_behind(node, map + INT_MAP_NODES, at + CURSOR_PLACE, keep_bits);
        }
        if (load8(node + NODE_HAS_PAIR) == 0) {
            char *word_at = load_address(map + INT_MAP_WORDS) + ((slot >> 3) & UINT64_C(0x1FFFFFFFFFFFFFF8));
            store64(word_at, load64(word_at) & (~((uint64_t)1 << (slot & 63))));
        }
    }
    uint64_t sum = sum_or_most(load64(at + CURSOR_SLOT), 1);
    uint64_t at_2 = sum >> 6;
    if (load64(map + INT_MAP_WORDS_LEN) > at_2) {
        word = load64(load_address(map + INT_MAP_WORDS) + (at_2 << 3)) & (UINT64_MAX << (sum & 63));
    } else {
        word = 0;
    }
    store64(marks_left + MARKS_LEFT_AT, at_2);
    store64(marks_left + MARKS_LEFT_WORD, word);
    uint64_t left = load64(keep_bits + KEEP_BITS_LEFT);
    if (left == 0) {
        left_2 = 0;
    } else {
        struct byte_word next_in = bits_next_in(map + INT_MAP_WORDS, marks_left);
        if (next_in.first == 1) {
            struct byte_word at_3 = next_in;
            for (;;) {
                store64(at + CURSOR_SLOT, at_3.second);
                store64(at + CURSOR_PLACE, 0);
                if (load64(map + INT_MAP_MASK) >= at_3.second) {
                    char *node_2 = load_address(map + INT_MAP_SLOTS) + (at_3.second * NODE_SIZE);
                    bool drop_front_2 = keep_drop_front(node_2, map + INT_MAP_NODES, keep_bits);
                    if (drop_front_2) {
                        store64(at + CURSOR_PLACE, 1);
                        keep_keep_behind(node_2, map + INT_MAP_NODES, at + CURSOR_PLACE, keep_bits);
                    }
                    if (load8(node_2 + NODE_HAS_PAIR) == 0) {
                        char *word_at_2 = load_address(map + INT_MAP_WORDS) + ((at_3.second >> 3) & UINT64_C(0x1FFFFFFFFFFFFFF8));
                        store64(word_at_2, load64(word_at_2) & (~((uint64_t)1 << (at_3.second & 63))));
                    }
                }
                uint64_t left_3 = load64(keep_bits + KEEP_BITS_LEFT);
                if (left_3 == 0) {
                    left_2 = 0;
                    break;
                }
                struct byte_word next_in_2 = bits_next_in(map + INT_MAP_WORDS, marks_left);
                if (next_in_2.first != 1) {
                    left_2 = left_3;
                    break;
                }
                at_3 = next_in_2;
            }
        } else {
            left_2 = left;
        }
    }
    uint64_t ones = ones_in(marks);
    uint64_t ones_2 = ones_in(load64(keep_bits + KEEP_BITS_WORD));
    uint64_t r33 = (uint64_t)64 - (left_2 + ((ones - ones_2) & UINT64_C(0xFFFFFFFF)));
    store64(map + INT_MAP_LEN, load64(map + INT_MAP_LEN) - r33);
    store64(handle, map_address);
    return r33;
}

// Removes the pair of the key, and returns its value.
// intmap_remove, in crates/intmap_c/src/pairs.rt
static ALWAYS_INLINE struct word_word do_intmap_remove(char *handle, uint64_t key) {
    struct word_half returned;
    uint64_t map_address = load64(handle);
    store64(handle, 0);
    char *map = (char *)(uintptr_t)map_address;
    if (map_address == 0) {
        returned = empty_word_half();
    } else {
        uint32_t status;
        uint64_t value_3;
        uint64_t index = load64(map + INT_MAP_MASK) & (key * MULTIPLIER);
        char *node = load_address(map + INT_MAP_SLOTS) + (index * NODE_SIZE);
        if (load8(node + NODE_HAS_PAIR) == 1) {
            uint64_t value_2;
            uint16_t high = load16(node + NODE_HIGH);
            if (high == NOWHERE_HIGH) {
                if (load64(node + NODE_KEY) != key) {
                    status = 0;
                    value_3 = 0;
                    goto after_pairs_remove;
                }
                uint64_t offset = (index >> 3) & UINT64_C(0x1FFFFFFFFFFFFFF8);
                uint64_t bits = load64(load_address(map + INT_MAP_WORDS) + offset);
                uint64_t value = load64(node + NODE_VALUE);
                memset(node, 0, NODE_SIZE);
                store64(load_address(map + INT_MAP_WORDS) + offset, bits & (~((uint64_t)1 << (index & 63))));
                value_2 = value;
            } else {
                struct byte_word remove_of_several = removal_remove_of_several(node, link_of(high, load32(node + NODE_LOW)), map + INT_MAP_NODES, key);
                if (remove_of_several.first != 1) {
                    status = 0;
                    value_3 = 0;
                    goto after_pairs_remove;
                }
                value_2 = remove_of_several.second;
            }
            store64(map + INT_MAP_LEN, load64(map + INT_MAP_LEN) - 1);
            status = 1;
            value_3 = value_2;
        } else {
            status = 0;
            value_3 = 0;
        }
    after_pairs_remove:;
        store64(handle, map_address);
        returned = made_word_half(value_3, status);
    }
    uint64_t status_2 = (uint64_t)returned.second;
    return made_word_word(returned.first, status_2);
}

// Replaces the value of a present key, whose pair keeps its place, and returns the value before.
// intmap_replace, in crates/intmap_c/src/pairs.rt
static ALWAYS_INLINE struct word_word do_intmap_replace(char *handle, uint64_t key, uint64_t value) {
    struct word_half returned;
    uint64_t map_address = load64(handle);
    store64(handle, 0);
    if (map_address == 0) {
        returned = empty_word_half();
    } else {
        struct word_half returned_2;
        struct byte_address get_mut = intmap_get_mut((char *)(uintptr_t)map_address, key);
        if (get_mut.first == 1) {
            uint64_t value_2 = load64(get_mut.second);
            store64(get_mut.second, value);
            returned_2 = made_word_half(value_2, 1);
        } else {
            returned_2 = empty_word_half();
        }
        store64(handle, map_address);
        returned = returned_2;
    }
    uint64_t status = (uint64_t)returned.second;
    return made_word_word(returned.first, status);
}

// Makes a map in `to` with the same pairs in the same order, as many slots and the same load factor, and returns
// `OK`.
// intmap_clone, in crates/intmap_c/src/read.rt
static ALWAYS_INLINE uint32_t do_intmap_clone(char *word, char *to) {
    uint32_t keep;
    uint64_t made_slots_room[13];
    char *made_slots = (char *)made_slots_room;
    uint64_t r2_room[13];
    char *r2 = (char *)r2_room;
    uint64_t made_int_map_room[16];
    char *made_int_map = (char *)made_int_map_room;
    char *map = load_address(word);
    memset(made_int_map, 0, 104);
    if (map == NULL) {
        uint64_t map_address = load64(to);
        store64(to, 0);
        if (map_address == 0) {
            keep = 0;
        } else {
            char *map_2 = (char *)(uintptr_t)map_address;
            char *words = load_address(map_2 + INT_MAP_WORDS);
            char *slots = load_address(map_2 + INT_MAP_SLOTS);
            uint64_t slots_room = load64(map_2 + INT_MAP_SLOTS_ROOM);
            char *nodes = load_address(map_2 + INT_MAP_NODES);
            uint64_t nodes_room = load64(map_2 + INT_MAP_NODES_ROOM);
            uint64_t words_room = load64(map_2 + INT_MAP_WORDS_ROOM);
            rattle_dealloc(map_2);
            if (words_room != 0) {
                rattle_dealloc(words);
            }
            if (slots_room != 0) {
                rattle_dealloc(slots);
            }
            if (nodes_room == 0) {
                keep = 0;
            } else {
                rattle_dealloc(nodes);
                keep = 0;
            }
        }
    } else {
        uint8_t has_failed;
        uint64_t len_2, threshold_2, factor_2;
        memset(made_slots, 0, MADE_SLOTS_SIZE);
        slots_clone(made_slots, map);
        if (load8(made_slots + MADE_SLOTS_HAS_FAILED) == 0) {
            memcpy(r2 + 7, made_slots + MADE_SLOTS_MASK, 96);
            uint64_t len = load64(map + INT_MAP_LEN);
            uint64_t threshold = load64(map + INT_MAP_THRESHOLD);
            uint64_t factor = load64(map + INT_MAP_FACTOR);
            memcpy(made_int_map + MADE_INT_MAP_MASK, r2 + 7, TABLE_SIZE);
            has_failed = 0;
            len_2 = len;
            threshold_2 = threshold;
            factor_2 = factor;
        } else {
            memset(made_int_map + MADE_INT_MAP_MASK, 0, TABLE_SIZE);
            has_failed = 1;
            len_2 = 0;
            threshold_2 = 0;
            factor_2 = 0;
        }
        store8(made_int_map + MADE_INT_MAP_HAS_FAILED, has_failed);
        store8(made_int_map + MADE_INT_MAP_CAUSE, 0);
        store64(made_int_map + MADE_INT_MAP_LEN, len_2);
        store64(made_int_map + MADE_INT_MAP_THRESHOLD, threshold_2);
        store64(made_int_map + MADE_INT_MAP_FACTOR, factor_2);
        uint32_t keep_2 = make_keep(to, made_int_map);
        keep = keep_2;
    }
    return keep;
}

// Makes an empty map, with a load factor of 909 thousandths, and returns `OK`.
// intmap_with_slots, in crates/intmap_c/src/make.rt
static ALWAYS_INLINE uint32_t do_intmap_with_slots(char *handle, uint64_t slots) {
    uint8_t has_failed, cause;
    uint64_t made_int_map_room[16];
    char *made_int_map = (char *)made_int_map_room;
    uint64_t made_int_map_2_room[16];
    char *made_int_map_2 = (char *)made_int_map_2_room;
    memset(made_int_map_2, 0, MADE_INT_MAP_SIZE);
    memset(made_int_map, 0, MADE_INT_MAP_SIZE);
    if (slots > GREATEST_CAPACITY) {
        memset(made_int_map_2 + MADE_INT_MAP_MASK, 0, INT_MAP_SIZE);
        has_failed = 1;
        cause = 1;
    } else {
        uint64_t most = greater(slots, 2);
        uint64_t zeros = high_zeros(most - 1);
        intmap_of_slots(made_int_map, (uint64_t)1 << ((uint64_t)64 - zeros));
        uint8_t has_failed_2 = load8(made_int_map + MADE_INT_MAP_HAS_FAILED);
        uint8_t cause_2 = load8(made_int_map + MADE_INT_MAP_CAUSE);
        memcpy(made_int_map_2 + MADE_INT_MAP_MASK, made_int_map + MADE_INT_MAP_MASK, INT_MAP_SIZE);
        has_failed = has_failed_2;
        cause = cause_2;
    }
    store8(made_int_map_2 + MADE_INT_MAP_HAS_FAILED, has_failed);
    store8(made_int_map_2 + MADE_INT_MAP_CAUSE, cause);
    uint32_t keep = make_keep(handle, made_int_map_2);
    return keep;
}

// Adds to the value of a present key as `intmap_add_present` does, or inserts an absent key with `more`.
// intmap_add_or_insert, in crates/intmap_c/src/pairs.rt
static ALWAYS_INLINE struct word_word do_intmap_add_or_insert(char *handle, uint64_t key, uint64_t more) {
    char *map;
    uint64_t value_2, status;
    bool takes_one_more;
    uint64_t made_usize_room[3];
    char *made_usize = (char *)made_usize_room;
    uint64_t made_location_room[4];
    char *made_location = (char *)made_location_room;
    uint64_t map_address = load64(handle);
    store64(handle, 0);
    if (map_address == 0) {
        struct byte_address make_first = handle_make_first();
        if (make_first.first == 0) {
            return made_word_word(0, NO_MEMORY);
        }
        map = make_first.second;
    } else {
        map = (char *)(uintptr_t)map_address;
    }
    uint64_t map_address_2 = (uint64_t)(uintptr_t)map;
    uint64_t index = load64(map + INT_MAP_MASK) & (key * MULTIPLIER);
    char *node = load_address(map + INT_MAP_SLOTS) + (index * NODE_SIZE);
    uint8_t has_pair = load8(node + NODE_HAS_PAIR);
    if (has_pair == 1) {
        char *node_2;
        uint64_t link = link_of(load16(node + NODE_HIGH), load32(node + NODE_LOW));
        if (load64(node + NODE_KEY) == key) {
            node_2 = node;
        } else {
            uint64_t nodes_len = load64(map + INT_MAP_NODES_LEN);
            if (nodes_len <= link) {
                goto arm_2_2;
            }
            char *nodes = load_address(map + INT_MAP_NODES);
            uint64_t place = 0;
            uint64_t at = link;
            for (;;) {
                char *node_3 = nodes + (at * NODE_SIZE);
                if (load8(node_3 + NODE_HAS_PAIR) != 1) {
                    goto arm_2_2;
                }
                if (load64(node_3 + NODE_KEY) == key) {
                    if (place == UINT64_MAX) {
                        node_2 = node;
                        break;
                    }
                    uint64_t at_2 = chain_seek(map + INT_MAP_NODES, link, place);
                    char *node_4 = nodes + (at_2 * NODE_SIZE);
                    if (load8(node_4 + NODE_HAS_PAIR) != 1) {
                        abort(); // The proof excludes this.
                    }
                    node_2 = node_4;
                    break;
                }
                uint64_t link_2 = link_of(load16(node_3 + NODE_HIGH), load32(node_3 + NODE_LOW));
                if (nodes_len <= link_2) {
                    goto arm_2_2;
                }
                place = place + 1;
                at = link_2;
            }
        }
        uint64_t value = load64(node_2 + NODE_VALUE);
        store64(node_2 + NODE_VALUE, value + more);
        value_2 = value;
        status = 1;
        goto after_pairs_add_or_insert;
    }
arm_2_2:;
    memset(made_location, 0, MADE_LOCATION_SIZE);
    takes_one_more = intmap_takes_one_more(map);
    if (takes_one_more) {
        memset(made_usize, 0, MADE_USIZE_SIZE);
        if (has_pair == 0) {
            uint64_t offset = (index >> 3) & UINT64_C(0x1FFFFFFFFFFFFFF8);
            uint64_t bits = load64(load_address(map + INT_MAP_WORDS) + offset);
            store16(node + NODE_HAS_PAIR, 1);
            store16(node + NODE_HIGH, NOWHERE_HIGH);
            store32(node + NODE_LOW, NOWHERE_LOW);
            store64(node + NODE_KEY, key);
            store64(node + NODE_VALUE, more);
            store64(load_address(map + INT_MAP_WORDS) + offset, bits | ((uint64_t)1 << (index & 63)));
        } else {
            insertion_push_further(made_usize, node, map + INT_MAP_NODES, key, more);
            if (load8(made_usize + MADE_USIZE_HAS_FAILED) != 0) {
                value_2 = 0;
                status = NO_MEMORY;
                goto after_pairs_add_or_insert;
            }
        }
        store64(map + INT_MAP_LEN, load64(map + INT_MAP_LEN) + 1);
        value_2 = 0;
        status = 0;
    } else {
        intmap_add_growing(made_location, map, index, key, key, more);
        if (load8(made_location + MADE_LOCATION_HAS_FAILED) == 0) {
            value_2 = 0;
            status = 0;
        } else {
            value_2 = 0;
            status = (load8(made_location + MADE_LOCATION_SLOT_OR_CAUSE) == 0) ? NO_MEMORY : TOO_LARGE;
        }
    }
after_pairs_add_or_insert:;
    store64(handle, map_address_2);
    return made_word_word(value_2, status);
}

// Finds the key, or inserts the pair if the key is absent, and returns whether the key was present.
// intmap_find_or_insert, in crates/intmap_c/src/pairs.rt
static ALWAYS_INLINE uint32_t do_intmap_find_or_insert(char *handle, uint64_t key, uint64_t value) {
    char *map;
    bool takes_one_more;
    uint32_t r4;
    uint64_t made_bool_room[3];
    char *made_bool = (char *)made_bool_room;
    uint64_t map_address = load64(handle);
    store64(handle, 0);
    if (map_address == 0) {
        struct byte_address make_first = handle_make_first();
        if (make_first.first == 0) {
            return NO_MEMORY;
        }
        map = make_first.second;
    } else {
        map = (char *)(uintptr_t)map_address;
    }
    uint64_t map_address_2 = (uint64_t)(uintptr_t)map;
    memset(made_bool, 0, MADE_BOOL_SIZE);
    uint64_t index = load64(map + INT_MAP_MASK) & (key * MULTIPLIER);
    char *node = load_address(map + INT_MAP_SLOTS) + (index * NODE_SIZE);
    switch (load8(node + NODE_HAS_PAIR)) {
    case 0:
        takes_one_more = intmap_takes_one_more(map);
        if (takes_one_more) {
            uint64_t offset = (index >> 3) & UINT64_C(0x1FFFFFFFFFFFFFF8);
            uint64_t bits = load64(load_address(map + INT_MAP_WORDS) + offset);
            store16(node + NODE_HAS_PAIR, 1);
            store16(node + NODE_HIGH, NOWHERE_HIGH);
            store32(node + NODE_LOW, NOWHERE_LOW);
            store64(node + NODE_KEY, key);
            store64(node + NODE_VALUE, value);
            store64(load_address(map + INT_MAP_WORDS) + offset, bits | ((uint64_t)1 << (index & 63)));
            store64(map + INT_MAP_LEN, load64(map + INT_MAP_LEN) + 1);
            r4 = 0;
            goto after_pairs_find_or_insert;
        }
        break;
    case 1:
        if (load64(node + NODE_KEY) == key) {
            r4 = 1;
            goto after_pairs_find_or_insert;
        }
        break;
    default:
        break;
    }
    intmap_insert_checked_otherwise(made_bool, map, index, key, key, value);
    r4 = (load8(made_bool + MADE_BOOL_HAS_FAILED) == 0) ? ((uint32_t)((uint8_t)(((uint8_t)(load8(made_bool + MADE_BOOL_MADE) & 1)) ^ 1))) : ((load8(made_bool + MADE_BOOL_CAUSE) == 0) ? NO_MEMORY : TOO_LARGE);
after_pairs_find_or_insert:;
    store64(handle, map_address_2);
    return r4;
}

// Inserts the pair of the key and the value at the end of its slot, and returns the value before.
// intmap_insert, in crates/intmap_c/src/pairs.rt
static ALWAYS_INLINE struct word_word do_intmap_insert(char *handle, uint64_t key, uint64_t value) {
    char *map;
    bool takes_one_more, r0_2, r0_3;
    uint64_t offset, bits, r0, made_or_cause, made_or_cause_2, made_or_cause_3, joined;
    uint16_t high;
    uint64_t made_option_room[3];
    char *made_option = (char *)made_option_room;
    uint64_t map_address = load64(handle);
    store64(handle, 0);
    if (map_address == 0) {
        struct byte_address make_first = handle_make_first();
        if (make_first.first == 0) {
            return made_word_word(0, NO_MEMORY);
        }
        map = make_first.second;
    } else {
        map = (char *)(uintptr_t)map_address;
    }
    uint64_t map_address_2 = (uint64_t)(uintptr_t)map;
    uint64_t index = load64(map + INT_MAP_MASK) & (key * MULTIPLIER);
    char *node = load_address(map + INT_MAP_SLOTS) + (index * NODE_SIZE);
    switch (load8(node + NODE_HAS_PAIR)) {
    case 0:
        takes_one_more = intmap_takes_one_more(map);
        if (!takes_one_more) {
            goto after_IntMap_insert_2;
        }
        offset = (index >> 3) & UINT64_C(0x1FFFFFFFFFFFFFF8);
        bits = load64(load_address(map + INT_MAP_WORDS) + offset);
        store16(node + NODE_HAS_PAIR, 1);
        store16(node + NODE_HIGH, NOWHERE_HIGH);
        store32(node + NODE_LOW, NOWHERE_LOW);
        store64(node + NODE_KEY, key);
        store64(node + NODE_VALUE, value);
        store64(load_address(map + INT_MAP_WORDS) + offset, bits | ((uint64_t)1 << (index & 63)));
        store64(map + INT_MAP_LEN, load64(map + INT_MAP_LEN) + 1);
        r0 = 0;
        r0_2 = false;
        break;
    case 1:
        if (load64(node + NODE_KEY) != key) {
            goto after_IntMap_insert_2;
        }
        high = load16(node + NODE_HIGH);
        if (high == NOWHERE_HIGH) {
            uint64_t value_2 = load64(node + NODE_VALUE);
            store64(node + NODE_KEY, key);
            store64(node + NODE_VALUE, value);
            r0 = value_2;
            r0_2 = true;
        } else {
            uint64_t replace_first_of_several = insertion_replace_first_of_several(node, link_of(high, load32(node + NODE_LOW)), map + INT_MAP_NODES, key, value);
            r0 = replace_first_of_several;
            r0_2 = true;
        }
        break;
    default:
        goto after_IntMap_insert_2;
    }
    r0_3 = r0_2;
    made_or_cause = r0;
    goto arm_1_2;
after_IntMap_insert_2:;
    intmap_insert_otherwise(made_option, map, index, key, key, value);
    made_or_cause_2 = load64(made_option + MADE_OPTION_2_MADE_OR_CAUSE);
    if (load8(made_option + MADE_OPTION_2_HAS_FAILED) != 0) {
        made_or_cause_3 = 0;
        joined = ((made_or_cause_2 & 255) == 0) ? NO_MEMORY : TOO_LARGE;
        goto after_pairs_insert;
    }
    r0_3 = load8(made_option + MADE_OPTION_2_HAS_MADE_OR_VALUE) == 1;
    made_or_cause = made_or_cause_2;
arm_1_2:;
    made_or_cause_3 = r0_3 ? made_or_cause : 0;
    joined = (uint64_t)r0_3;
after_pairs_insert:;
    store64(handle, map_address_2);
    return made_word_word(made_or_cause_3, joined);
}

// Doubles the slots until their number meets the load factor with `more` pairs more, and returns `OK`.
// intmap_reserve, in crates/intmap_c/src/figures.rt
static ALWAYS_INLINE uint32_t do_intmap_reserve(char *handle, uint64_t more) {
    char *map;
    uint32_t status;
    uint64_t map_address = load64(handle);
    store64(handle, 0);
    if (map_address == 0) {
        struct byte_address make_first = handle_make_first();
        if (make_first.first == 0) {
            return (more > MOST_FIRST_PAIRS) ? TOO_LARGE : NO_MEMORY;
        }
        map = make_first.second;
    } else {
        map = (char *)(uintptr_t)map_address;
    }
    uint64_t map_address_2 = (uint64_t)(uintptr_t)map;
    uint64_t len = load64(map + INT_MAP_LEN);
    if (len > (~more)) {
        status = TOO_LARGE;
    } else {
        struct byte_byte fit = intmap_fit(map, len + more, load64(map + INT_MAP_FACTOR), 0);
        if (fit.first == 0) {
            status = 0;
        } else {
            status = (fit.second == 0) ? NO_MEMORY : TOO_LARGE;
        }
    }
    store64(handle, map_address_2);
    return status;
}

// Does what `intmap_reserve` does, and allocates memory for `more` pairs that share a slot with another.
// intmap_reserve_insertions, in crates/intmap_c/src/figures.rt
static ALWAYS_INLINE uint32_t do_intmap_reserve_insertions(char *handle, uint64_t more) {
    char *map;
    uint32_t status;
    uint64_t map_address = load64(handle);
    store64(handle, 0);
    if (map_address == 0) {
        struct byte_address make_first = handle_make_first();
        if (make_first.first == 0) {
            return (more > MOST_FIRST_PAIRS) ? TOO_LARGE : NO_MEMORY;
        }
        map = make_first.second;
    } else {
        map = (char *)(uintptr_t)map_address;
    }
    uint64_t map_address_2 = (uint64_t)(uintptr_t)map;
    uint64_t len = load64(map + INT_MAP_LEN);
    if (len > (~more)) {
        status = TOO_LARGE;
    } else {
        struct byte_byte fit = intmap_fit(map, len + more, load64(map + INT_MAP_FACTOR), more);
        if (fit.first == 0) {
            status = 0;
        } else {
            status = (fit.second == 0) ? NO_MEMORY : TOO_LARGE;
        }
    }
    store64(handle, map_address_2);
    return status;
}

// Makes slots, and returns `OK`.
// intmap_reserve_slots, in crates/intmap_c/src/figures.rt
static ALWAYS_INLINE uint32_t do_intmap_reserve_slots(char *handle, uint64_t additional) {
    char *map;
    uint32_t status;
    uint64_t map_address = load64(handle);
    store64(handle, 0);
    if (map_address == 0) {
        struct byte_address make_first = handle_make_first();
        if (make_first.first == 0) {
            return (additional > GREATEST_CAPACITY) ? TOO_LARGE : NO_MEMORY;
        }
        map = make_first.second;
    } else {
        map = (char *)(uintptr_t)map_address;
    }
    uint64_t map_address_2 = (uint64_t)(uintptr_t)map;
    uint64_t len = load64(map + INT_MAP_LEN);
    if ((len > GREATEST_CAPACITY) ? true : ((GREATEST_CAPACITY - len) < additional)) {
        status = TOO_LARGE;
    } else {
        uint64_t r2;
        uint64_t r42 = len + additional;
        if (r42 < 2) {
            r2 = 1;
        } else {
            uint64_t zeros = high_zeros(r42 - 1);
            r2 = (uint64_t)1 << ((uint64_t)64 - zeros);
        }
        uint64_t slots_len = load64(map + INT_MAP_SLOTS_LEN);
        uint64_t most = greater(slots_len, r2);
        if (slots_len < r2) {
            uint8_t enlarge = slots_enlarge(map, most, load64(map + INT_MAP_NODES_LEN) - load64(map + INT_MAP_SPARE));
            if ((enlarge & 1) != 0) {
                status = NO_MEMORY;
                goto after_figures_reserve_slots;
            }
        }
        u128 r17 = u128_less_one(u128_mul(u128_add(u128_of(load64(map + INT_MAP_FACTOR)), u128_of(1u)), u128_of(most)));
        store64(map + INT_MAP_THRESHOLD, u128_above(r17, u128_two(999, UINT64_MAX)) ? UINT64_MAX : u128_low(u128_div(r17, u128_of(1000u))));
        status = 0;
    }
after_figures_reserve_slots:;
    store64(handle, map_address_2);
    return status;
}

// Sets the load factor in thousandths, doubles the slots until their number meets it, and returns `OK`.
// intmap_set_load_factor, in crates/intmap_c/src/figures.rt
static ALWAYS_INLINE uint32_t do_intmap_set_load_factor(char *handle, uint64_t thousandths) {
    char *map;
    uint64_t map_address = load64(handle);
    store64(handle, 0);
    if (map_address == 0) {
        struct byte_address make_first = handle_make_first();
        if (make_first.first == 0) {
            return NO_MEMORY;
        }
        map = make_first.second;
    } else {
        map = (char *)(uintptr_t)map_address;
    }
    struct byte_byte fit = intmap_fit(map, load64(map + INT_MAP_LEN), thousandths, 0);
    store64(handle, (uint64_t)(uintptr_t)map);
    return (fit.first == 0) ? 0 : ((fit.second == 0) ? NO_MEMORY : TOO_LARGE);
}

// The calls of intmap.h, by value and by address as this compiler passes them.

// The module takes these places for granted.
typedef char intmap_word_is_as_printed[sizeof(intmap) == 8 ? 1 : -1];
typedef char intmap_pair_is_as_printed[sizeof(intmap_found_pair) == 24
                                               && offsetof(intmap_found_pair, status) == 16
                                           ? 1
                                           : -1];
typedef char intmap_cursor_is_as_printed[sizeof(intmap_cursor) == 16
                                                 && offsetof(intmap_cursor, place) == 8
                                             ? 1
                                             : -1];

#define BYTES(x) ((char *)(uintptr_t)(x))
#define STATUS(x) ((intmap_status)(uint32_t)(x))

static inline intmap_found_value found_value(struct word_word given) {
    intmap_found_value found;
    found.value = given.first;
    found.status = STATUS(given.second);
    return found;
}

uint32_t intmap_version(void) INTMAP_CALL {
    return do_intmap_version();
}

intmap_status intmap_with_slots(intmap *map, size_t slots) INTMAP_CALL {
    return STATUS(do_intmap_with_slots(BYTES(map), slots));
}

intmap_status intmap_clone(const intmap *map, intmap *to) INTMAP_CALL {
    return STATUS(do_intmap_clone(BYTES(map), BYTES(to)));
}

void intmap_free(intmap *map) INTMAP_CALL {
    do_intmap_free(BYTES(map));
}

ALIGNED intmap_found_value intmap_get(const intmap *map, uint64_t key) INTMAP_CALL {
    return found_value(do_intmap_get(BYTES(map), key));
}

ALIGNED bool intmap_contains_key(const intmap *map, uint64_t key) INTMAP_CALL {
    return do_intmap_contains_key(BYTES(map), key);
}

ALIGNED intmap_found_value intmap_insert(intmap *map, uint64_t key, uint64_t value) INTMAP_CALL {
    return found_value(do_intmap_insert(BYTES(map), key, value));
}

ALIGNED intmap_status intmap_find_or_insert(intmap *map, uint64_t key,
                                            uint64_t value) INTMAP_CALL {
    return STATUS(do_intmap_find_or_insert(BYTES(map), key, value));
}

ALIGNED intmap_found_value intmap_replace(intmap *map, uint64_t key, uint64_t value) INTMAP_CALL {
    return found_value(do_intmap_replace(BYTES(map), key, value));
}

ALIGNED intmap_found_value intmap_add_present(intmap *map, uint64_t key,
                                              uint64_t more) INTMAP_CALL {
    return found_value(do_intmap_add_present(BYTES(map), key, more));
}

ALIGNED intmap_found_value intmap_add_or_insert(intmap *map, uint64_t key,
                                                uint64_t more) INTMAP_CALL {
    return found_value(do_intmap_add_or_insert(BYTES(map), key, more));
}

#if !HIGH_BYTE_FIRST
ALIGNED void intmap_place(intmap *map, uint64_t key, uint64_t **at) INTMAP_CALL {
    do_intmap_place(BYTES(map), key, BYTES(at));
}
#endif

ALIGNED intmap_found_value intmap_remove(intmap *map, uint64_t key) INTMAP_CALL {
    return found_value(do_intmap_remove(BYTES(map), key));
}

void intmap_clear(intmap *map) INTMAP_CALL {
    do_intmap_clear(BYTES(map));
}

size_t intmap_len(const intmap *map) INTMAP_CALL {
    return do_intmap_len(BYTES(map));
}

size_t intmap_capacity(const intmap *map) INTMAP_CALL {
    return do_intmap_capacity(BYTES(map));
}

size_t intmap_load_factor(const intmap *map) INTMAP_CALL {
    return do_intmap_load_factor(BYTES(map));
}

size_t intmap_filled_slots(const intmap *map) INTMAP_CALL {
    return do_intmap_filled_slots(BYTES(map));
}

intmap_status intmap_reserve_slots(intmap *map, size_t additional) INTMAP_CALL {
    return STATUS(do_intmap_reserve_slots(BYTES(map), additional));
}

intmap_status intmap_reserve(intmap *map, size_t more) INTMAP_CALL {
    return STATUS(do_intmap_reserve(BYTES(map), more));
}

intmap_status intmap_reserve_insertions(intmap *map, size_t more) INTMAP_CALL {
    return STATUS(do_intmap_reserve_insertions(BYTES(map), more));
}

intmap_status intmap_set_load_factor(intmap *map, size_t thousandths) INTMAP_CALL {
    return STATUS(do_intmap_set_load_factor(BYTES(map), thousandths));
}

// The next four read and write structs of the caller by address, with the low byte first.

static inline void turn_cursor(intmap_cursor *at) {
    if (HIGH_BYTE_FIRST) {
        at->slot = LOW_FIRST_64(at->slot);
        at->place = LOW_FIRST_64(at->place);
    }
}

static inline intmap_found_pair turned(intmap_found_pair found) {
    if (HIGH_BYTE_FIRST) {
        found.pair.key = LOW_FIRST_64(found.pair.key);
        found.pair.value = LOW_FIRST_64(found.pair.value);
        found.status = STATUS(LOW_FIRST_32((uint32_t)found.status));
    }
    return found;
}

ALIGNED intmap_found_pair intmap_step(const intmap *map, intmap_cursor *at) INTMAP_CALL {
    intmap_found_pair found;
    turn_cursor(at);
    do_intmap_step(BYTES(&found), BYTES(map), BYTES(at));
    turn_cursor(at);
    return turned(found);
}

ALIGNED size_t intmap_copy_pairs(const intmap *map, intmap_cursor *at, intmap_pair *pairs,
                                 size_t room) INTMAP_CALL {
    size_t copied;
    turn_cursor(at);
    copied = do_intmap_copy_pairs(BYTES(map), BYTES(at), BYTES(pairs), room);
    turn_cursor(at);
    for (size_t i = 0; HIGH_BYTE_FIRST && i < copied; i++) {
        pairs[i].key = LOW_FIRST_64(pairs[i].key);
        pairs[i].value = LOW_FIRST_64(pairs[i].value);
    }
    return copied;
}

ALIGNED intmap_found_pair intmap_cut(intmap *map, intmap_cursor *at) INTMAP_CALL {
    intmap_found_pair found;
    turn_cursor(at);
    do_intmap_cut(BYTES(&found), BYTES(map), BYTES(at));
    turn_cursor(at);
    return turned(found);
}

ALIGNED size_t intmap_keep_marked(intmap *map, intmap_cursor *at, uint64_t marks) INTMAP_CALL {
    turn_cursor(at);
    size_t removed = (size_t)do_intmap_keep_marked(BYTES(map), BYTES(at), marks);
    turn_cursor(at);
    return removed;
}

bool intmap_equal(const intmap *map, const intmap *other) INTMAP_CALL {
    return do_intmap_equal(BYTES(map), BYTES(other));
}

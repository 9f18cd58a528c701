// SPDX-License-Identifier: MIT
// Copyright (c) 2026 the Dovaszing maintainers
//
// A hash map from 64-bit keys to 64-bit values, version 1.1.0. Each function that is declared here
// has a contract in crates/intmap_c of the repository, and its code there is proved to keep it.
// Tests show the rest: what the functions and the loop do that are defined here, that calls succeed
// if malloc does, which calls request no memory, that memory is given back, and how much stack
// calls take.
// README.md says what has to be trusted.
//
// For C99 and C++11, on machines with addresses of 64 bits. Take this file and intmap.c:
//
//     cc -O2 program.c intmap.c
//
// intmap_typed.h has maps of other types, intmap.hpp a class for C++, and intmap_allocator.h an
// allocator with a context.
//
// A variable of type intmap is one machine word, called the word below. It leads to the map's
// memory. Define it as INTMAP_INIT, which is an empty map. Hand its address to the calls, and free
// the map at the end. With <inttypes.h> and <stdio.h>:
//
//     intmap map = INTMAP_INIT;
//     if (intmap_failed(intmap_put(&map, 21, 7))) {
//         fputs("out of memory\n", stderr);
//     }
//     printf("%" PRIu64 "\n", intmap_get_or(&map, 21, 0));
//     intmap_free(&map);
//
// CALLS. Each is explained where it is declared.
//
//     intmap_insert, intmap_put                           insert a pair, or replace the value
//     intmap_find_or_insert                               insert unless the key is present
//     intmap_add_or_insert, intmap_add_present            add to the value of a key
//     intmap_replace                                      replace the value of a present key
//     intmap_get, intmap_get_or, intmap_contains_key      look a key up
//     intmap_at, intmap_place, intmap_at_or_insert        give the address of a value
//     intmap_remove, intmap_clear                         remove one pair, all pairs
//     INTMAP_FOR_EACH                                     loops over all pairs
//     intmap_walk_begin, intmap_walk_next                 are for loops of other forms
//     intmap_start, intmap_step, intmap_copy_pairs        go on from a cursor, by one pair or many
//     intmap_cut, intmap_keep_marked, intmap_retain       remove pairs on the way
//     intmap_len, intmap_capacity, intmap_filled_slots    count pairs, slots, slots with a pair
//     intmap_load_factor, intmap_set_load_factor          say how many pairs a slot is to have
//     intmap_shrink_to_fit, intmap_free                   give memory back
//     intmap_clone, intmap_equal                          copy a map, compare two
//     intmap_from_pointer, intmap_to_pointer              make a value of an address, and back
//     intmap_scramble, intmap_unscramble                  guard against keys that strangers choose
//     intmap_failed                                       says whether a status is of a failure
//     intmap_version                                      is the version of the code
//
// ROOM. Five calls make it in advance. Take the first that fits:
//
//     intmap_reserve_insertions    before insertions of any keys that mustn't fail
//     intmap_with_room             for a new map that is to have so many pairs
//     intmap_reserve               for so many pairs more
//     intmap_with_slots            for a new map of so many slots; once intmap_with_capacity
//     intmap_reserve_slots         for so many slots more than pairs, whatever the load factor
//
// SLOTS. The number of slots is a power of two. The low bits of a key choose its slot, and a slot
// holds any number of pairs. The walk is the order of the pairs: slot after slot, and each slot
// from front to back. It depends only on the calls that succeeded.
//
// WHAT THE CALLER OWES. Nothing checks these rules. If a program breaks one, anything may happen.
//
// - No address that is passed is null, unless the call says that it may be.
// - Before the first call with a word it is INTMAP_INIT, or all its bits are zero. After that only
//   calls write it, and moves.
// - A word isn't copied, since a copy is the same map. It may be moved to a word without memory, if
//   its old place is then set to INTMAP_NONE, or never used again: intmap b = a; a = INTMAP_NONE;
// - No signal handler makes a call, and neither does the forked child of a process with several
//   threads. Nothing jumps out of a call: no longjmp, no exception, no cancellation of its thread.
// - malloc, realloc and free belong to one allocator, make no call on a map, and align blocks as
//   those of the C library do.
// - The two words of intmap_clone differ. The array of intmap_copy_pairs has room for `room` pairs.
// - An address from intmap_place, intmap_at or intmap_at_or_insert isn't used after the next call
//   with the map, whatever that call does.
// - There is enough stack. A call takes less than 2,000 bytes of it if intmap.c is compiled with
//   -O1, -O2, -O3 or -Os, and less than 8,000 otherwise, besides what functions of the C library
//   take. `make check` measures this with -O2 and with -O0. On x86-64, calls took at most 1,440
//   bytes with the first four flags, by gcc 12 and by clang 14. With -O0 they took 2,968 bytes by
//   gcc 12 and 4,192 by clang 14. intmap_retain takes the most, since it has 64 pairs there. A
//   sanitizer makes them take more.
//
// THREADS. Any number of threads may make calls with `const intmap *` at once, as long as no other
// call has the map. A call with `intmap *` has the map alone: the calls before it have ended, and
// the next ones come after it, for example by a lock or a join. A call that gives an address lasts
// until the last use of that address. A map may be used in one thread and then in another.
// Different maps are independent.
//
// WHEN A CALL FAILS. Its status is negative, and the map is as it was. The map may keep memory that
// was granted before the refusal. A second try uses that memory.
//
// - INTMAP_NO_MEMORY: malloc or realloc returned NULL; or a block would need 2^63 bytes or more,
//   and no request was made for it; or there were some 2^48 nodes (see MEMORY), which take more
//   memory than any process has today.
// - INTMAP_TOO_LARGE: the map would have more than 2^63 slots or 2^64 - 1 pairs.
//
// THE FIRST CALL. INTMAP_INIT is a map of 4 slots without pairs, with a load factor of 909
// thousandths. It has no memory yet. The first call that inserts a key, makes room or sets the load
// factor requests that memory, and fails if it is refused. intmap_with_slots requests it in
// advance.
//
// KEYS AND VALUES. Each 64-bit number is a key, and each is a value. intmap_from_pointer makes a
// number of an address. No call follows the address, so the caller frees what it leads to. If keys
// are hashes of texts, two texts with equal hashes are one key: keep the text too, and compare it.
//
// COST. "Time in" a number is time proportional to that number. A call on one key takes time in the
// pairs of the key's slot, which has about one, unless many keys share their low bits. Then shift
// those bits away, or number the keys anew: in place of multiples of 4096 take key >> 12; in place
// of addresses that malloc returned take address >> 4; in place of row << 32 | column take
// row * columns + column. If strangers choose the keys, they can make each call linear. Then
// scramble each key by intmap_scramble. If keys share slots, intmap_filled_slots is far below
// intmap_len.
//
// A cursor says how many pairs of a slot it has passed. So each call with it goes past as many, and
// a walk by single steps takes time in the square of the pairs of a crowded slot.
//
// An insertion that adds slots moves all pairs. Spread over all insertions, this takes constant
// time for each pair, and for each slot that was made in advance. If a call that makes room or sets
// the load factor adds slots, it takes time in the pairs, slots and nodes. Otherwise it takes
// constant time, but intmap_reserve_insertions may copy all nodes.
//
// MEMORY. Only a call that may return INTMAP_NO_MEMORY requests memory, from malloc or realloc. A
// slot takes 24 bytes and a bit, and holds one pair. Each further pair of a slot is in a node of 24
// bytes. The nodes of all slots lie in one block. An insertion that adds no slots requests memory
// only if the slot holds a pair, no node is free and that block is full; it then makes the block
// larger. A removal from a slot of several pairs frees a node, and the next pair that needs a node
// takes it. A call that adds slots makes the block of slots larger, and requests memory for their
// bits and for the nodes of the pairs that share slots, before it moves a pair. It frees the old
// bits and nodes at the end, so both are held for that time. A clone has as many slots.
//
// A call that makes slots in advance writes each of them, which takes time in their number. Linux
// may grant more memory than there is, so too large a number of slots may end the process. Memory
// is given back by intmap_free, by intmap_shrink_to_fit, and by a call that replaces a map or adds
// slots.
//
// DEBUGGING. With intmap_debug.c in place of intmap.c, some calls that break the rules end the
// program, by a line on standard error and abort():
//
//     cc -g -DINTMAP_DEBUG program.c intmap_debug.c
//
// These are:
//
// - a call with a copy of a word whose map was freed or replaced, also if the memory has another
//   map by then;
// - a call with a word that no call wrote, unless its bits are by chance those of a word;
// - a call with a null address of a word;
// - intmap_clone with one map twice, if it has memory;
// - a call on a map while another call on it hasn't ended, if one of them changes it: in another
//   thread, in a signal handler, in malloc, or after a jump out of a call.
//
// It doesn't notice a copy as long as its map lives, calls that might meet but don't, two first
// calls on one word, a wrong address of a cursor or an array, a function handed to intmap_retain
// that changes the map, or an address of intmap_at that is used too late. AddressSanitizer notices
// such an address if its memory was freed meanwhile. A call on a word that intmap_free has left is
// no mistake: it is an empty map. Nor is a change between two calls of intmap_step, though the walk
// may then miss pairs.
//
// Compile each file that has maps with INTMAP_DEBUG, by gcc or clang. The calls of a file without
// it aren't checked, and crash on a map that a file with it made. No installed library notices
// anything, or has the names intmap_debug_.. that the calls then get. So compile intmap_debug.c,
// which includes intmap.c, beside your files. The message names the call. A debugger shows where
// the program made it. Each map takes 24 bytes more, in blocks of 1,536 bytes and more that are
// never given back. The call that makes a map may fail for want of them. Otherwise calls answer as
// they do without INTMAP_DEBUG. A tool that looks for leaks doesn't report a map that is lost.
#ifndef INTMAP_H
#define INTMAP_H

#include <stdbool.h>
#include <stddef.h>
#include <stdint.h>

// The version of this header. intmap_version() is that of the code.
#define INTMAP_VERSION 10100

#ifdef __cplusplus
#define INTMAP_CALL noexcept
extern "C" {
#else
#define INTMAP_CALL
#endif

#if defined(__GNUC__) || defined(__clang__)
#define INTMAP_NONNULL __attribute__((nonnull))
#define INTMAP_NONNULL_TWO __attribute__((nonnull(1, 2)))
#else
#define INTMAP_NONNULL
#define INTMAP_NONNULL_TWO
#endif

// A compiler warns of a status that isn't read, if the call may fail for want of memory, or writes
// a value only if the key is present. With gcc a cast to void doesn't help. To have no such
// warning, define INTMAP_NO_MUST_USE before this file is included.
#if (defined(__GNUC__) || defined(__clang__)) && !defined(INTMAP_NO_MUST_USE)
#define INTMAP_MUST_USE __attribute__((warn_unused_result))
#else
#define INTMAP_MUST_USE
#endif

// DEBUGGING, above, says what these names are for.
#ifdef INTMAP_DEBUG
#define intmap_with_slots intmap_debug_with_slots
#define intmap_clone intmap_debug_clone
#define intmap_free intmap_debug_free
#define intmap_get intmap_debug_get
#define intmap_contains_key intmap_debug_contains_key
#define intmap_insert intmap_debug_insert
#define intmap_find_or_insert intmap_debug_find_or_insert
#define intmap_replace intmap_debug_replace
#define intmap_add_present intmap_debug_add_present
#define intmap_add_or_insert intmap_debug_add_or_insert
#define intmap_place intmap_debug_place
#define intmap_remove intmap_debug_remove
#define intmap_clear intmap_debug_clear
#define intmap_len intmap_debug_len
#define intmap_capacity intmap_debug_capacity
#define intmap_load_factor intmap_debug_load_factor
#define intmap_filled_slots intmap_debug_filled_slots
#define intmap_reserve_slots intmap_debug_reserve_slots
#define intmap_reserve intmap_debug_reserve
#define intmap_reserve_insertions intmap_debug_reserve_insertions
#define intmap_set_load_factor intmap_debug_set_load_factor
#define intmap_step intmap_debug_step
#define intmap_copy_pairs intmap_debug_copy_pairs
#define intmap_cut intmap_debug_cut
#define intmap_keep_marked intmap_debug_keep_marked
#define intmap_equal intmap_debug_equal
#endif

// A map. `at` is null as long as it has no memory.
typedef struct intmap {
    void *at;
} intmap;

// An empty map without memory: INTMAP_INIT in a definition, INTMAP_NONE in an assignment.
#define INTMAP_INIT {NULL}
#ifdef __cplusplus
#define INTMAP_NONE (intmap{nullptr})
#else
#define INTMAP_NONE ((intmap)INTMAP_INIT)
#endif

// What a call did. If it didn't fail, the status is true if and only if the key, or a pair, was
// present before. The status of a failure is negative, and so it is true as well: ask intmap_failed
// first, or compare with INTMAP_PRESENT. A later version may add negative statuses for new
// failures.
typedef int32_t intmap_status;

enum {
    INTMAP_OK = 0,         // it did what it says
    INTMAP_ABSENT = 0,     // the key, or a pair, was absent before the call
    INTMAP_PRESENT = 1,    // it was present before the call
    INTMAP_NO_MEMORY = -1, // failed: an allocation failed
    INTMAP_TOO_LARGE = -2  // failed: the map would be too large
};

// Whether a call failed.
static inline bool intmap_failed(intmap_status status) INTMAP_CALL {
    return status < 0;
}

// A value if the status is INTMAP_PRESENT. With every other status the value is 0.
typedef struct intmap_found_value {
    uint64_t value;
    intmap_status status;
} intmap_found_value;

// A key with its value.
typedef struct intmap_pair {
    uint64_t key;
    uint64_t value;
} intmap_pair;

// How far a walk has come. It goes on at this place of this slot. If no pair is there, it goes on
// at the next slot that has one. Any two numbers will do.
typedef struct intmap_cursor {
    size_t slot;
    size_t place;
} intmap_cursor;

// The start of a walk, for a definition that needs a constant, as outside functions. A cursor whose
// bits are all zero is at the start too.
#define INTMAP_START {0, 0}

// Returns the start of a walk, in C as in C++.
static inline intmap_cursor intmap_start(void) INTMAP_CALL {
    intmap_cursor at = INTMAP_START;
    return at;
}

// A pair if the status is INTMAP_PRESENT. With every other status its key and value are 0.
typedef struct intmap_found_pair {
    intmap_pair pair;
    intmap_status status;
} intmap_found_pair;

// Returns the version of the code: 10000 times its first number, plus 100 times the second, plus
// the third.
uint32_t intmap_version(void) INTMAP_CALL;

// Makes an empty map, with a load factor of 909 thousandths, in a word that is INTMAP_INIT or has a
// map, which is freed. The number of slots is the least power of two that is at least `slots`, and
// at least 2. To make room for pairs, call intmap_with_room, below. The call returns INTMAP_OK;
// INTMAP_TOO_LARGE if and only if `slots` is above 2^63; or INTMAP_NO_MEMORY. If it fails, it
// leaves the word as it was.
INTMAP_NONNULL INTMAP_MUST_USE intmap_status intmap_with_slots(intmap *map, size_t slots)
    INTMAP_CALL;

// The same as intmap_with_slots, under its name of 1.0.0.
INTMAP_NONNULL INTMAP_MUST_USE static inline intmap_status intmap_with_capacity(intmap *map,
                                                                                size_t capacity)
    INTMAP_CALL {
    return intmap_with_slots(map, capacity);
}

// Copies the map into `to`, another word that is INTMAP_INIT or has a map, which is freed. The copy
// has the same pairs in the same order, as many slots and the same load factor. The copy of
// INTMAP_INIT is INTMAP_INIT. The call returns INTMAP_OK; or INTMAP_NO_MEMORY, and then leaves `to`
// as it was. It takes time in the pairs and slots.
INTMAP_NONNULL INTMAP_MUST_USE intmap_status intmap_clone(const intmap *map, intmap *to)
    INTMAP_CALL;

// Frees all memory of the map. The word is then INTMAP_INIT, and may be used again. The call takes
// at most time in the slots and nodes.
INTMAP_NONNULL void intmap_free(intmap *map) INTMAP_CALL;

// Returns INTMAP_PRESENT with the value of the key, or INTMAP_ABSENT.
INTMAP_NONNULL intmap_found_value intmap_get(const intmap *map, uint64_t key) INTMAP_CALL;

// Returns the value of the key, or `otherwise` if the key is absent.
INTMAP_NONNULL static inline uint64_t intmap_get_or(const intmap *map, uint64_t key,
                                                    uint64_t otherwise) INTMAP_CALL {
    intmap_found_value answer = intmap_get(map, key);
    return answer.status == INTMAP_PRESENT ? answer.value : otherwise;
}

// Returns whether the key is present.
INTMAP_NONNULL bool intmap_contains_key(const intmap *map, uint64_t key) INTMAP_CALL;

// Inserts the pair, or gives a present key this value. It returns INTMAP_PRESENT with the value
// before, or INTMAP_ABSENT if the key was absent. The pair is then the last of its slot. If the key
// was present, the pair that was the last takes its old place. If the key is new and the pairs, the
// new one counted, exceed the load factor, the slots are doubled until they don't. The load is
// checked only if the pairs, the new one counted, are 4 to 7, 12 to 15, 20 to 23, and so on, as in
// Rust's crate intmap, so that the same calls give the same capacities.
//
// For a present key it never fails, and requests no memory. For an absent key it returns
// INTMAP_TOO_LARGE if and only if there are 2^64 - 1 pairs or growth needs more than 2^63 slots,
// and otherwise INTMAP_NO_MEMORY if an allocation fails. The key is then absent. If the map has
// memory, no slots are added and the key's slot holds no pair, it requests no memory.
INTMAP_NONNULL INTMAP_MUST_USE intmap_found_value intmap_insert(intmap *map, uint64_t key,
                                                                uint64_t value) INTMAP_CALL;

// Inserts the pair as intmap_insert does, and returns the status alone.
INTMAP_NONNULL INTMAP_MUST_USE static inline intmap_status intmap_put(intmap *map, uint64_t key,
                                                                      uint64_t value) INTMAP_CALL {
    return intmap_insert(map, key, value).status;
}

// Finds the key, or inserts it with the value. It returns INTMAP_PRESENT if it found the key, which
// then keeps its value; or INTMAP_ABSENT, which is 0, if it inserted the key. For an absent key it
// fails as intmap_insert does.
INTMAP_NONNULL INTMAP_MUST_USE intmap_status intmap_find_or_insert(intmap *map, uint64_t key,
                                                                   uint64_t value) INTMAP_CALL;

// Replaces the value of a present key, whose pair keeps its place in the walk. It returns
// INTMAP_PRESENT with the value before; or INTMAP_ABSENT, and inserts nothing. It requests no
// memory.
INTMAP_NONNULL INTMAP_MUST_USE intmap_found_value intmap_replace(intmap *map, uint64_t key,
                                                                 uint64_t value) INTMAP_CALL;

// Adds to the value of a present key, modulo 2^64, by one lookup. It returns INTMAP_PRESENT with
// the value before; or INTMAP_ABSENT, and inserts nothing. It requests no memory.
INTMAP_NONNULL INTMAP_MUST_USE intmap_found_value intmap_add_present(intmap *map, uint64_t key,
                                                                     uint64_t more) INTMAP_CALL;

// Adds to the value of a present key, as intmap_add_present does, or inserts an absent key with
// `more`, by one lookup. It returns INTMAP_PRESENT with the value before, or INTMAP_ABSENT if the
// key was absent. For an absent key it fails as intmap_insert does.
INTMAP_NONNULL INTMAP_MUST_USE intmap_found_value intmap_add_or_insert(intmap *map, uint64_t key,
                                                                       uint64_t more) INTMAP_CALL;

// A number in a map begins with its low byte. A machine whose numbers begin with the high byte
// doesn't have the next three calls.
#if !defined(__BYTE_ORDER__) || __BYTE_ORDER__ != __ORDER_BIG_ENDIAN__
#define INTMAP_HAS_AT 1

// Writes the address that intmap_at returns to `*at`, which must be initialised, as by NULL. A
// library exports this call, and not intmap_at.
INTMAP_NONNULL void intmap_place(intmap *map, uint64_t key, uint64_t **at) INTMAP_CALL;

// Returns the address of the value of a present key, or NULL if the key is absent. The value may be
// read and written there until the next call with the map. The call requests no memory:
//
//     uint64_t *at = intmap_at(&map, 21);
//     if (at != NULL) {
//         *at ^= 1;
//     }
INTMAP_NONNULL static inline uint64_t *intmap_at(intmap *map, uint64_t key) INTMAP_CALL {
    uint64_t *at = NULL;
    intmap_place(map, key, &at);
    return at;
}

// Inserts the key with `value` if the key is absent, and then writes the address of its value to
// `*at`. It returns INTMAP_PRESENT or INTMAP_ABSENT, as the key was before. For an absent key it
// fails as intmap_insert does, and then writes NULL. It takes one lookup for a present key, and
// three for an absent one. This keeps the greatest number for each key:
//
//     uint64_t *most;
//     if (!intmap_failed(intmap_at_or_insert(&map, 21, number, &most)) && *most < number) {
//         *most = number;
//     }
INTMAP_NONNULL INTMAP_MUST_USE static inline intmap_status intmap_at_or_insert(
    intmap *map, uint64_t key, uint64_t value, uint64_t **at) INTMAP_CALL {
    *at = intmap_at(map, key);
    if (*at != NULL) {
        return INTMAP_PRESENT;
    }
    intmap_status status = intmap_find_or_insert(map, key, value);
    if (!intmap_failed(status)) {
        *at = intmap_at(map, key);
    }
    return status;
}
#endif

// Removes the pair of the key. It returns INTMAP_PRESENT with the value, or INTMAP_ABSENT if the
// key was absent. The last pair of the slot moves into the place of the removed one. The call
// requests no memory. The number of slots stays, and the map keeps its memory.
INTMAP_NONNULL intmap_found_value intmap_remove(intmap *map, uint64_t key) INTMAP_CALL;

// Removes all pairs. The number of slots and the load factor stay, and the map keeps its memory.
// The call requests no memory. It takes time in the pairs and a 64th of the slots.
INTMAP_NONNULL void intmap_clear(intmap *map) INTMAP_CALL;

// Returns the number of pairs. Like the next two calls it takes constant time.
INTMAP_NONNULL size_t intmap_len(const intmap *map) INTMAP_CALL;

// Returns the number of slots, a power of two from 2 to 2^63. It isn't how many pairs fit.
INTMAP_NONNULL size_t intmap_capacity(const intmap *map) INTMAP_CALL;

// Returns the load factor in thousandths: the limit that is set, not how full the map is.
INTMAP_NONNULL size_t intmap_load_factor(const intmap *map) INTMAP_CALL;

// Returns the number of slots that hold a pair. If it is far below the number of pairs, many keys
// share slots. The call takes time in a 64th of the slots.
INTMAP_NONNULL size_t intmap_filled_slots(const intmap *map) INTMAP_CALL;

// Makes slots; to make room for pairs, call intmap_reserve, below. If the slots are fewer than the
// pairs and `additional` together, their number becomes the least power of two that isn't below
// that sum. The load factor isn't considered, so the map may still grow before it has that many
// pairs. The call returns INTMAP_OK; INTMAP_TOO_LARGE if and only if the sum is above 2^63; or
// INTMAP_NO_MEMORY, but never if the map has memory and slots enough.
INTMAP_NONNULL INTMAP_MUST_USE intmap_status intmap_reserve_slots(intmap *map, size_t additional)
    INTMAP_CALL;

// Sets the load factor, in thousandths. A number of slots meets the load factor if 1000 * pairs /
// slots, rounded down, isn't above it. The slots are doubled until their number meets it: with a
// load factor of 0, until there are more than 1000 slots per pair. The call returns INTMAP_OK;
// INTMAP_TOO_LARGE if and only if that takes more than 2^63 slots; or INTMAP_NO_MEMORY, but never
// if the map has memory and its slots meet the load factor. If the call fails, the load factor
// stays.
INTMAP_NONNULL INTMAP_MUST_USE intmap_status intmap_set_load_factor(intmap *map, size_t thousandths)
    INTMAP_CALL;

// Makes room for `more` pairs more: the slots are doubled until their number meets the load factor
// with these pairs. Insertions of as many new keys then add no slots, as long as the load factor
// stays. But the insertion of a key whose slot holds a pair may request memory, and fail.
//
// Insertions of ids that follow one another can't fail then: as long as the greatest key minus the
// least, the new one counted, is below intmap_capacity, each key has a slot of its own.
//
// The call returns INTMAP_OK; INTMAP_TOO_LARGE if and only if that takes more than 2^63 slots, or
// there would be more than 2^64 - 1 pairs; or INTMAP_NO_MEMORY, but never if the map has memory and
// slots enough.
INTMAP_NONNULL INTMAP_MUST_USE intmap_status intmap_reserve(intmap *map, size_t more) INTMAP_CALL;

// Makes room for `more` insertions of any keys: does what intmap_reserve does, and requests memory
// for as many nodes. The next insertions of as many new keys then request no memory, so they can't
// fail: by intmap_insert, intmap_find_or_insert, intmap_add_or_insert or intmap_at_or_insert, and
// whatever is looked up, written or removed between them, also by intmap_retain, intmap_cut,
// intmap_keep_marked or intmap_clear. This holds until a call makes room, even for more pairs, or
// sets the load factor, shrinks or frees the map, or puts another map into the word. So call it
// last. A copy that intmap_clone makes doesn't have this room. It is proved that intmap_insert,
// intmap_find_or_insert and intmap_add_or_insert can't fail then, and that insertions, look-ups and
// removals by key leave the room for the next ones. The rest is tested: that writes to present keys
// and the calls for all pairs leave it too, and that insertions then request no memory. The status
// of an insertion must be read all the same:
//
//     if (intmap_failed(intmap_put(&map, 21, 7))) {
//         abort(); // there was room
//     }
//
// The nodes take 24 bytes for each of the `more` pairs. The call returns what intmap_reserve
// returns, and INTMAP_NO_MEMORY also if the nodes are refused.
INTMAP_NONNULL INTMAP_MUST_USE intmap_status intmap_reserve_insertions(intmap *map, size_t more)
    INTMAP_CALL;

// Makes an empty map with room for so many pairs, as intmap_reserve makes it, in a word that is
// INTMAP_INIT or has a map, which is freed. The load factor is 909 thousandths. The call returns
// what intmap_reserve returns. If it fails, it leaves the word as it was.
INTMAP_NONNULL INTMAP_MUST_USE static inline intmap_status intmap_with_room(intmap *map,
                                                                            size_t pairs)
    INTMAP_CALL {
    intmap made = INTMAP_INIT;
    intmap_status status = intmap_reserve(&made, pairs);
    if (intmap_failed(status)) {
        intmap_free(&made);
        return status;
    }
    intmap_free(map);
    *map = made;
    return INTMAP_OK;
}

// Returns INTMAP_PRESENT with the first pair of the walk from the cursor on, and moves the cursor
// behind that pair. If no pair is left, it returns INTMAP_ABSENT, and leaves the cursor. The call
// goes from the front of the cursor's slot to the cursor's place, and takes time in the pairs that
// it passes there, and in a 64th of the slots that it passes. A whole walk takes time in the pairs,
// in a 64th of the slots, and in the square of the pairs of each crowded slot: intmap_copy_pairs
// takes less.
//
// Any cursor will do, whatever has happened to the map since. But intmap_remove moves the last pair
// of a slot to another place of it, and so does intmap_insert with a present key. A growing map
// moves pairs to other slots. A walk that goes on after that may miss pairs, or show some again. To
// change values along a walk, call intmap_replace. To remove pairs along a walk and miss none, call
// intmap_retain, intmap_cut or intmap_keep_marked.
INTMAP_NONNULL intmap_found_pair intmap_step(const intmap *map, intmap_cursor *at) INTMAP_CALL;

// Copies pairs of the walk from the cursor on, at most `room`, and moves the cursor behind them. It
// returns how many it copied: fewer than `room` only if no pair is left. `pairs` is an array of at
// least `room` pairs, which may be uninitialised. What lies behind the copied pairs stays. The call
// requests no memory. It goes once from the front of the cursor's slot to the cursor's place, and
// then from pair to pair, so a whole walk by one call takes time in the pairs, however many of them
// share a slot, and in a 64th of the slots.
INTMAP_NONNULL size_t intmap_copy_pairs(const intmap *map, intmap_cursor *at, intmap_pair *pairs,
                                        size_t room) INTMAP_CALL;

// How far a loop has come, with the pairs that it copied last.
typedef struct intmap_walk {
    const intmap *map;
    intmap_cursor at;
    size_t count, next;
    intmap_pair pairs[64];
} intmap_walk;

// Starts a walk of the map, and returns the address of the walk, which may be uninitialised before.
INTMAP_NONNULL static inline intmap_walk *intmap_walk_begin(intmap_walk *walk,
                                                            const intmap *map) INTMAP_CALL {
    walk->map = map;
    walk->at = intmap_start();
    walk->count = walk->next = 0;
    return walk;
}

// Returns the address of the next pair, which the walk keeps until the next call with it, or NULL
// if no pair is left. It copies 64 pairs at a time by intmap_copy_pairs.
INTMAP_NONNULL static inline const intmap_pair *intmap_walk_next(intmap_walk *walk) INTMAP_CALL {
    if (walk->next == walk->count) {
        walk->next = 0;
        walk->count = intmap_copy_pairs(walk->map, &walk->at, walk->pairs,
                                        sizeof walk->pairs / sizeof walk->pairs[0]);
    }
    return walk->next < walk->count ? &walk->pairs[walk->next++] : NULL;
}

// Goes over all pairs, in the order of the walk. The loop declares `pair`, which is a
// const intmap_pair *. Loops may be nested, and left by break or return. No proof covers them:
//
//     INTMAP_FOR_EACH(&map, pair) {
//         printf("%" PRIu64 ": %" PRIu64 "\n", pair->key, pair->value);
//     }
//
// The loop copies 64 pairs at a time, to some 1,100 bytes of stack. So if the body changes the
// value of a later pair, the loop shows that value as it was or as it is. The loop shows each pair
// once if the body only looks keys up, or changes values of present keys by intmap_replace,
// intmap_add_present, intmap_add_or_insert or intmap_at. After any other call that takes
// `intmap *`, the loop may miss pairs, show some again, or show pairs that are gone. To remove
// pairs, call intmap_retain or intmap_cut. The word must stay where it is until the loop ends.
#define INTMAP_FOR_EACH(map, pair) INTMAP_FOR_EACH_OF(intmap, map, pair)

// The same over a map of a type that INTMAP_DECLARE of intmap_typed.h declared by this name. The
// names of a loop have the number of its line, so that none hides another's.
#define INTMAP_FOR_EACH_OF(name, map, pair)                                                        \
    INTMAP_FOR_EACH_BY(name, map, pair, INTMAP_JOINED(name##_walk_, __LINE__),                     \
                       INTMAP_JOINED(name##_on_, __LINE__))
#define INTMAP_FOR_EACH_BY(name, map, pair, walk, on)                                              \
    for (name##_walk walk, *on = name##_walk_begin(&walk, map); on != NULL; on = NULL)             \
        for (const name##_pair *pair; (pair = name##_walk_next(on)) != NULL;)
#define INTMAP_JOINED(one, other) INTMAP_JOINED_NOW(one, other)
#define INTMAP_JOINED_NOW(one, other) one##other

// Removes the first pair of the walk from the cursor on, and returns INTMAP_PRESENT with it. The
// cursor is then where the pair was: the pairs before it stay, and those behind it come next, in
// the same order. If no pair is left, the call returns INTMAP_ABSENT, and leaves the cursor. The
// number of slots stays. The call requests no memory. It takes the time of intmap_step.
INTMAP_NONNULL intmap_found_pair intmap_cut(intmap *map, intmap_cursor *at) INTMAP_CALL;

// Keeps or removes the next 64 pairs of the walk from the cursor on, or all that are left if they
// are fewer. The lowest bit of `marks` is that of the first of these pairs, the next bit that of
// the second, and so on. A pair whose bit is set stays, and the others are removed. The call
// returns how many it removed. The pairs that stay keep their order, and the cursor is then behind
// them. If no pair is left, the cursor stays. The number of slots stays. The call requests no
// memory. It takes time in the pairs of the cursor's slot that are before the cursor, in the pairs
// that it goes over, and in a 64th of the slots that it passes.
INTMAP_NONNULL size_t intmap_keep_marked(intmap *map, intmap_cursor *at, uint64_t marks)
    INTMAP_CALL;

// Calls `keep` with each pair, in the order of the walk, and removes the pairs for which it returns
// false. It returns how many it removed. The other pairs stay in the same order, and the number of
// slots stays. `keep` is handed `argument`, which may be null. `keep` may make calls that only read
// the map, and none that changes it. Such a call may still find pairs that `keep` refused, also if
// it freed what their values point to: pairs are removed after each 64 calls of `keep`, and after
// the last one. intmap_retain requests no memory. It takes the time of intmap_copy_pairs and
// intmap_keep_marked on 64 pairs at a time.
INTMAP_NONNULL_TWO static inline size_t intmap_retain(intmap *map,
                                                      bool (*keep)(intmap_pair pair,
                                                                   void *argument),
                                                      void *argument) INTMAP_CALL {
    intmap_cursor at = intmap_start(), next = at;
    intmap_pair pairs[64];
    size_t count, removed = 0;
    while ((count = intmap_copy_pairs(map, &next, pairs, 64)) > 0) {
        uint64_t refused = 0;
        for (size_t i = 0; i < count; i++) {
            refused |= (uint64_t)!keep(pairs[i], argument) << i;
        }
        if (refused != 0) {
            removed += intmap_keep_marked(map, &at, ~refused);
            next = at;
        }
        at = next;
    }
    return removed;
}

// Gives memory back. It makes another map with the same load factor, inserts the pairs in the order
// of the walk, and then frees the old map. The slots and the walk become those of a map that began
// with 4 slots. The call returns INTMAP_OK; or INTMAP_NO_MEMORY, and then leaves the map. If the
// map has no memory, the call does nothing. It takes the time of these insertions and of a walk,
// and time in the slots and nodes that the map had. With a high load factor a slot holds many
// pairs, and each insertion takes time in the pairs of its slot.
INTMAP_NONNULL INTMAP_MUST_USE static inline intmap_status intmap_shrink_to_fit(intmap *map)
    INTMAP_CALL {
    intmap made = INTMAP_INIT;
    intmap_cursor at = intmap_start();
    intmap_found_pair next;
    if (map->at == NULL) {
        return INTMAP_OK;
    }
    intmap_status status = intmap_set_load_factor(&made, intmap_load_factor(map));
    if (!intmap_failed(status)) {
        // No more slots than the pairs will need. Insertions add the others.
        status = intmap_reserve(&made, intmap_len(map) / 16 * 7);
    }
    while (!intmap_failed(status) && (next = intmap_step(map, &at)).status == INTMAP_PRESENT) {
        status = intmap_find_or_insert(&made, next.pair.key, next.pair.value);
    }
    if (intmap_failed(status)) {
        intmap_free(&made);
        return status;
    }
    intmap_free(map);
    *map = made;
    return INTMAP_OK;
}

// Returns whether the same keys have the same values in both maps, whatever their order, slots and
// load factors. It takes a lookup for each pair, and time in a 64th of the slots.
INTMAP_NONNULL bool intmap_equal(const intmap *map, const intmap *other) INTMAP_CALL;

// Returns an address, which may be null, as a value. As a key it has equal low bits: see COST.
static inline uint64_t intmap_from_pointer(const void *pointer) INTMAP_CALL {
    return (uint64_t)(uintptr_t)pointer;
}

// Returns the address of which intmap_from_pointer made this number.
static inline void *intmap_to_pointer(uint64_t number) INTMAP_CALL {
    return (void *)(uintptr_t)number;
}

// Scrambles a key by a secret. Strangers who don't know the secret then don't know the low bits, by
// which the key has its slot. Nobody has shown that such strangers can't choose many keys of one
// slot. Different keys stay different. It is no cipher: whoever sees walks, or times calls, may
// learn the secret.
static inline uint64_t intmap_scramble(uint64_t key, uint64_t secret) INTMAP_CALL {
    key ^= secret;
    key = (key ^ key >> 30) * 0xBF58476D1CE4E5B9u;
    key = (key ^ key >> 27) * 0x94D049BB133111EBu;
    return key ^ key >> 31;
}

// Returns the key of which intmap_scramble made this number with the same secret.
static inline uint64_t intmap_unscramble(uint64_t scrambled, uint64_t secret) INTMAP_CALL {
    uint64_t key = (scrambled ^ scrambled >> 31 ^ scrambled >> 62) * 0x319642B2D24D8EC3u;
    key = (key ^ key >> 27 ^ key >> 54) * 0x96DE1B173F119089u;
    return key ^ key >> 30 ^ key >> 60 ^ secret;
}

#ifdef __cplusplus
}
#endif

#endif

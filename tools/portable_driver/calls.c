// The calls of intmap.h, by value and by address as this compiler passes them.

// The module takes these places for granted.
typedef char intmap_word_is_as_printed[sizeof(intmap) == 8 ? 1 : -1];
typedef char intmap_pair_is_as_printed[sizeof(intmap_found_pair) == 24
                                               && offsetof(intmap_found_pair, status) == 16
                                           ? 1
                                           : -1];
typedef char intmap_cursor_is_as_printed[sizeof(intmap_cursor) == 16
                                                 && offsetof(intmap_cursor, place) == 8
                                             ? 1
                                             : -1];

#define BYTES(x) ((char *)(uintptr_t)(x))
#define STATUS(x) ((intmap_status)(uint32_t)(x))

static inline intmap_found_value found_value(struct word_word given) {
    intmap_found_value found;
    found.value = given.first;
    found.status = STATUS(given.second);
    return found;
}

uint32_t intmap_version(void) INTMAP_CALL {
    return do_intmap_version();
}

intmap_status intmap_with_slots(intmap *map, size_t slots) INTMAP_CALL {
    return STATUS(do_intmap_with_slots(BYTES(map), slots));
}

intmap_status intmap_clone(const intmap *map, intmap *to) INTMAP_CALL {
    return STATUS(do_intmap_clone(BYTES(map), BYTES(to)));
}

void intmap_free(intmap *map) INTMAP_CALL {
    do_intmap_free(BYTES(map));
}

ALIGNED intmap_found_value intmap_get(const intmap *map, uint64_t key) INTMAP_CALL {
    return found_value(do_intmap_get(BYTES(map), key));
}

ALIGNED bool intmap_contains_key(const intmap *map, uint64_t key) INTMAP_CALL {
    return do_intmap_contains_key(BYTES(map), key);
}

ALIGNED intmap_found_value intmap_insert(intmap *map, uint64_t key, uint64_t value) INTMAP_CALL {
    return found_value(do_intmap_insert(BYTES(map), key, value));
}

ALIGNED intmap_status intmap_find_or_insert(intmap *map, uint64_t key,
                                            uint64_t value) INTMAP_CALL {
    return STATUS(do_intmap_find_or_insert(BYTES(map), key, value));
}

ALIGNED intmap_found_value intmap_replace(intmap *map, uint64_t key, uint64_t value) INTMAP_CALL {
    return found_value(do_intmap_replace(BYTES(map), key, value));
}

ALIGNED intmap_found_value intmap_add_present(intmap *map, uint64_t key,
                                              uint64_t more) INTMAP_CALL {
    return found_value(do_intmap_add_present(BYTES(map), key, more));
}

ALIGNED intmap_found_value intmap_add_or_insert(intmap *map, uint64_t key,
                                                uint64_t more) INTMAP_CALL {
    return found_value(do_intmap_add_or_insert(BYTES(map), key, more));
}

#if !HIGH_BYTE_FIRST
ALIGNED void intmap_place(intmap *map, uint64_t key, uint64_t **at) INTMAP_CALL {
    do_intmap_place(BYTES(map), key, BYTES(at));
}
#endif

ALIGNED intmap_found_value intmap_remove(intmap *map, uint64_t key) INTMAP_CALL {
    return found_value(do_intmap_remove(BYTES(map), key));
}

void intmap_clear(intmap *map) INTMAP_CALL {
    do_intmap_clear(BYTES(map));
}

size_t intmap_len(const intmap *map) INTMAP_CALL {
    return do_intmap_len(BYTES(map));
}

size_t intmap_capacity(const intmap *map) INTMAP_CALL {
    return do_intmap_capacity(BYTES(map));
}

size_t intmap_load_factor(const intmap *map) INTMAP_CALL {
    return do_intmap_load_factor(BYTES(map));
}

size_t intmap_filled_slots(const intmap *map) INTMAP_CALL {
    return do_intmap_filled_slots(BYTES(map));
}

intmap_status intmap_reserve_slots(intmap *map, size_t additional) INTMAP_CALL {
    return STATUS(do_intmap_reserve_slots(BYTES(map), additional));
}

intmap_status intmap_reserve(intmap *map, size_t more) INTMAP_CALL {
    return STATUS(do_intmap_reserve(BYTES(map), more));
}

intmap_status intmap_reserve_insertions(intmap *map, size_t more) INTMAP_CALL {
    return STATUS(do_intmap_reserve_insertions(BYTES(map), more));
}

intmap_status intmap_set_load_factor(intmap *map, size_t thousandths) INTMAP_CALL {
    return STATUS(do_intmap_set_load_factor(BYTES(map), thousandths));
}

// The next four read and write structs of the caller by address, with the low byte first.

static inline void turn_cursor(intmap_cursor *at) {
    if (HIGH_BYTE_FIRST) {
        at->slot = LOW_FIRST_64(at->slot);
        at->place = LOW_FIRST_64(at->place);
    }
}

static inline intmap_found_pair turned(intmap_found_pair found) {
    if (HIGH_BYTE_FIRST) {
        found.pair.key = LOW_FIRST_64(found.pair.key);
        found.pair.value = LOW_FIRST_64(found.pair.value);
        found.status = STATUS(LOW_FIRST_32((uint32_t)found.status));
    }
    return found;
}

ALIGNED intmap_found_pair intmap_step(const intmap *map, intmap_cursor *at) INTMAP_CALL {
    intmap_found_pair found;
    turn_cursor(at);
    do_intmap_step(BYTES(&found), BYTES(map), BYTES(at));
    turn_cursor(at);
    return turned(found);
}

ALIGNED size_t intmap_copy_pairs(const intmap *map, intmap_cursor *at, intmap_pair *pairs,
                                 size_t room) INTMAP_CALL {
    size_t copied;
    turn_cursor(at);
    copied = do_intmap_copy_pairs(BYTES(map), BYTES(at), BYTES(pairs), room);
    turn_cursor(at);
    for (size_t i = 0; HIGH_BYTE_FIRST && i < copied; i++) {
        pairs[i].key = LOW_FIRST_64(pairs[i].key);
        pairs[i].value = LOW_FIRST_64(pairs[i].value);
    }
    return copied;
}

ALIGNED intmap_found_pair intmap_cut(intmap *map, intmap_cursor *at) INTMAP_CALL {
    intmap_found_pair found;
    turn_cursor(at);
    do_intmap_cut(BYTES(&found), BYTES(map), BYTES(at));
    turn_cursor(at);
    return turned(found);
}

ALIGNED size_t intmap_keep_marked(intmap *map, intmap_cursor *at, uint64_t marks) INTMAP_CALL {
    turn_cursor(at);
    size_t removed = (size_t)do_intmap_keep_marked(BYTES(map), BYTES(at), marks);
    turn_cursor(at);
    return removed;
}

bool intmap_equal(const intmap *map, const intmap *other) INTMAP_CALL {
    return do_intmap_equal(BYTES(map), BYTES(other));
}

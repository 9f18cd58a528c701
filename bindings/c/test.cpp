// SPDX-License-Identifier: MIT
// Makes every call once from C++, and ends with status 0 if each answered as intmap.h says.
#include "intmap.h"
#include <utility>

static_assert(noexcept(intmap_get(std::declval<const intmap *>(), 0)), "calls throw nothing");
static_assert(sizeof(intmap) == sizeof(void *), "a map is one word");

static bool is(intmap_found_value answer, intmap_status status, uint64_t value) {
    return answer.status == status && answer.value == value;
}

static bool makes_and_reads(intmap *map) {
    return intmap_version() == INTMAP_VERSION && intmap_len(map) == 0
           && intmap_with_room(map, 20) == INTMAP_OK
           && intmap_with_slots(map, 9) == INTMAP_OK && intmap_capacity(map) == 16
           && intmap_with_capacity(map, 20) == INTMAP_OK && intmap_capacity(map) == 32
           && is(intmap_insert(map, 21, 6), INTMAP_ABSENT, 0)
           && intmap_put(map, 21, 7) == INTMAP_PRESENT
           && intmap_find_or_insert(map, 21, 8) == INTMAP_PRESENT
           && is(intmap_get(map, 21), INTMAP_PRESENT, 7) && intmap_get_or(map, 22, 9) == 9
           && intmap_contains_key(map, 21) && intmap_len(map) == 1
           && intmap_load_factor(map) == 909 && intmap_filled_slots(map) == 1;
}

static bool changes(intmap *map) {
    return is(intmap_replace(map, 21, 1), INTMAP_PRESENT, 7)
           && is(intmap_add_present(map, 21, 2), INTMAP_PRESENT, 1)
           && is(intmap_add_or_insert(map, 5, 3), INTMAP_ABSENT, 0)
           && is(intmap_remove(map, 6), INTMAP_ABSENT, 0)
           && intmap_reserve_slots(map, 100) == INTMAP_OK
           && intmap_reserve(map, 100) == INTMAP_OK
           && intmap_reserve_insertions(map, 100) == INTMAP_OK
           && intmap_set_load_factor(map, 500) == INTMAP_OK;
}

static bool changes_in_place(intmap *map) {
#ifdef INTMAP_HAS_AT
    uint64_t *at = intmap_at(map, 22);
    if (at != nullptr || intmap_at_or_insert(map, 21, 9, &at) != INTMAP_PRESENT || *at != 3) {
        return false;
    }
    intmap_place(map, 21, &at);
    return at != nullptr && (*at += 5) == 8;
#else
    return intmap_add_present(map, 21, 5).value == 3;
#endif
}

static bool removes_some(intmap *map) {
    uint64_t least = 21;
    auto is_kept = [](intmap_pair pair, void *argument) {
        return pair.key >= *static_cast<uint64_t *>(argument);
    };
    intmap_found_value found = intmap_insert(map, 7, 7);
    return is(found, INTMAP_ABSENT, 0) && intmap_retain(map, is_kept, &least) == 2
           && is(intmap_insert(map, 5, 3), INTMAP_ABSENT, 0)
           && intmap_shrink_to_fit(map) == INTMAP_OK && intmap_capacity(map) == 4;
}

static bool clones_and_walks(intmap *map) {
    intmap other = INTMAP_INIT;
    intmap_cursor at = intmap_start();
    intmap_pair pairs[4];
    bool is_good = intmap_clone(map, &other) == INTMAP_OK && intmap_equal(map, &other)
                   && intmap_copy_pairs(map, &at, pairs, 4) == 2;
    at = intmap_start();
    intmap_found_pair first = intmap_step(map, &at);
    intmap_found_pair second = intmap_cut(map, &at);
    is_good = is_good && first.pair.key == pairs[0].key && second.pair.key == pairs[1].key;
    at = intmap_start();
    is_good = is_good && intmap_keep_marked(map, &at, 1) == 0 && intmap_len(map) == 1;
    intmap_clear(map);
    intmap_free(&other);
    return is_good && intmap_len(map) == 0 && intmap_equal(map, map);
}

static bool goes_over_pairs(intmap *map) {
    uint64_t sum = 0;
    intmap_walk walk;
    bool is_good = intmap_put(map, 3, 4) == INTMAP_ABSENT && intmap_put(map, 5, 6) == INTMAP_ABSENT;
    INTMAP_FOR_EACH(map, pair) {
        INTMAP_FOR_EACH(map, inner) {
            sum += pair->key * inner->value;
        }
    }
    const intmap_pair *first = intmap_walk_next(intmap_walk_begin(&walk, map));
    return is_good && sum == (3 + 5) * (4 + 6) && first != nullptr && first->key == 5;
}

static bool takes_other_numbers() {
    int place = 0;
    return intmap_to_pointer(intmap_from_pointer(&place)) == &place
           && intmap_unscramble(intmap_scramble(21, 7), 7) == 21;
}

int main() {
    intmap map = INTMAP_INIT;
    bool is_good = makes_and_reads(&map) && changes(&map) && changes_in_place(&map)
                   && removes_some(&map) && clones_and_walks(&map) && goes_over_pairs(&map)
                   && takes_other_numbers();
    intmap_free(&map);
    map = INTMAP_NONE;
    return is_good && !intmap_failed(INTMAP_OK) && intmap_failed(INTMAP_TOO_LARGE) ? 0 : 1;
}

// SPDX-License-Identifier: MIT
// Calls beside a plain model that knows the order, with requests for memory that are refused.
//
//     cc test.c intmap.c -Wl,--wrap=malloc,--wrap=realloc,--wrap=free -o test
//     ./test CALLS SEED
//
// It compares each answer, the figures and the walk with the model's. A failed call must change
// nothing. It counts requests and blocks, so it sees memory that isn't given back. It ends with one
// line of counts, and with status 0 if nothing was wrong. The line also has a digest of all
// requests, by which two forms of the library are compared that are to request the same. README.md
// shows the line of 200,000 calls.
#include "intmap.h"
#include <inttypes.h>
#include <stdio.h>
#include <stdlib.h>
#include <string.h>

// Memory. The library's requests come here, since the linker is told to wrap these three.

void *__real_malloc(size_t size);
void *__real_realloc(void *block, size_t size);
void __real_free(void *block);

// Requests until the refused one; with 0, none is refused. It may be refused with all that follow.
static uint64_t until_refused;
static bool are_all_refused, is_refusing;
static uint64_t requests, refused, granted_bytes, live_blocks, digest;

static void note(uint64_t what) {
    digest = (digest ^ what) * 0x9E3779B97F4A7C15u + 1;
}

// Larger requests are refused too, so that a map of 2^32 slots costs nothing.
enum { LARGEST_REQUEST = 1 << 28 };
static size_t largest_request = LARGEST_REQUEST;

static bool is_refused(size_t size) {
    bool is_due = until_refused > 0 && --until_refused == 0;
    bool is_now = size > largest_request || is_due || is_refusing;
    is_refusing = is_refusing || (is_due && are_all_refused);
    note(size);
    requests++;
    refused += is_now;
    granted_bytes += is_now ? 0 : size;
    return is_now;
}

void *__wrap_malloc(size_t size) {
    void *block = is_refused(size) ? NULL : __real_malloc(size);
    live_blocks += block != NULL;
    return block;
}

// The block always moves, also to fewer bytes, where the C library's own may leave it. So a call
// that goes on with the old address goes wrong.
void *__wrap_realloc(void *block, size_t size) {
    note(1);
    void *moved = is_refused(size) ? NULL : __real_malloc(size);
    void *left = moved != NULL ? __real_realloc(block, size) : NULL;
    if (left != NULL) {
        memcpy(moved, left, size);
        memset(left, 0x5A, size);
        live_blocks += block == NULL;
        __real_free(left);
        return moved;
    }
    __real_free(moved);
    return NULL;
}

void __wrap_free(void *block) {
    if (block != NULL) {
        note(2);
        live_blocks--;
    }
    __real_free(block);
}

// What isn't so is counted, and the first few are told.

static const char *running;
static uint64_t step, wrong;

static bool expect(bool is_so, const char *what, int line) {
    if (!is_so && wrong++ < 10) {
        printf("%s, call %" PRIu64 ", line %d: %s\n", running, step, line, what);
    }
    return is_so;
}

#define EXPECT(fact) expect(fact, #fact, __LINE__)

// Numbers without end, by Marsaglia's xorshift. The seed isn't 0.
static uint64_t seed = 88172645463325252u;

static uint64_t number(void) {
    seed ^= seed << 13;
    seed ^= seed >> 7;
    seed ^= seed << 17;
    return seed;
}

// The model: the pairs in the order of the walk, in an array that is sorted by slots.

enum { MOST = 4096 };

typedef struct model {
    intmap_pair pairs[MOST];
    size_t len, capacity, factor;
} model;

// A map, and what it has to be.
typedef struct side {
    intmap map;
    model plain;
} side;

static side sides[2];
static side *it = &sides[0], *other = &sides[1];

// An odd factor, so the low bits of a key decide.
static size_t slot_of(const model *plain, uint64_t key) {
    return key * 0x9E3779B97F4A7C55u & (plain->capacity - 1);
}

// The place of the first pair whose slot is this one or a later one.
static size_t start_of(const model *plain, size_t slot) {
    size_t low = 0, high = plain->len;
    while (low < high) {
        size_t middle = (low + high) / 2;
        if (slot_of(plain, plain->pairs[middle].key) < slot) {
            low = middle + 1;
        } else {
            high = middle;
        }
    }
    return low;
}

// The place behind the last pair of the key's slot.
static size_t end_of(const model *plain, uint64_t key) {
    return start_of(plain, slot_of(plain, key) + 1);
}

// Whether the key's slot holds a pair.
static bool shares(const model *plain, uint64_t key) {
    return start_of(plain, slot_of(plain, key)) < end_of(plain, key);
}

// The place of the key; the number of pairs if it is absent.
static size_t place_of(const model *plain, uint64_t key) {
    for (size_t at = start_of(plain, slot_of(plain, key)); at < end_of(plain, key); at++) {
        if (plain->pairs[at].key == key) {
            return at;
        }
    }
    return plain->len;
}

// The number of pairs before a cursor, whatever two numbers it has.
static size_t before(const model *plain, intmap_cursor at) {
    if (at.slot >= plain->capacity) {
        return plain->len;
    }
    size_t start = start_of(plain, at.slot), next = start_of(plain, at.slot + 1);
    return at.place < next - start ? start + at.place : next;
}

static void take_at(model *plain, size_t place) {
    plain->len--;
    memmove(&plain->pairs[place], &plain->pairs[place + 1],
            (plain->len - place) * sizeof plain->pairs[0]);
}

static void put_last_in_slot(model *plain, intmap_pair pair) {
    size_t place = end_of(plain, pair.key);
    memmove(&plain->pairs[place + 1], &plain->pairs[place],
            (plain->len - place) * sizeof plain->pairs[0]);
    plain->pairs[place] = pair;
    plain->len++;
}

// The last pair of the slot moves into the place.
static void swap_out(model *plain, size_t place) {
    size_t last = end_of(plain, plain->pairs[place].key) - 1;
    plain->pairs[place] = plain->pairs[last];
    take_at(plain, last);
}

static void set_slots(model *plain, size_t capacity) {
    static model before;
    if (capacity != plain->capacity) {
        before = *plain;
        plain->capacity = capacity;
        plain->len = 0;
        for (size_t at = 0; at < before.len; at++) {
            put_last_in_slot(plain, before.pairs[at]);
        }
    }
}

// The least number of slots, doubled from `capacity`, in which the pairs meet the load factor.
static size_t enough_slots(size_t len, size_t capacity, size_t factor) {
    while (len * 1000 / capacity > factor) {
        capacity *= 2;
    }
    return capacity;
}

static size_t least_power(size_t least, size_t power) {
    while (power < least) {
        power *= 2;
    }
    return power;
}

// The slots when one more key was inserted.
static size_t slots_with_one_more(const model *plain) {
    bool is_checked = (plain->len + 1) % 8 >= 4;
    return is_checked ? enough_slots(plain->len + 1, plain->capacity, plain->factor)
                      : plain->capacity;
}

static void make_plain(model *plain, size_t capacity) {
    plain->len = 0;
    plain->capacity = capacity;
    plain->factor = 909;
}

// A map is compared with its model.

static const intmap_pair NO_PAIR = {0, 0};

static bool same_pair(intmap_pair one, intmap_pair two) {
    return one.key == two.key && one.value == two.value;
}

static bool is(intmap_found_value answer, intmap_status status, uint64_t value) {
    return answer.status == status && answer.value == value;
}

static size_t filled_of(const model *plain) {
    size_t filled = 0;
    for (size_t at = 0; at < plain->len; at = end_of(plain, plain->pairs[at].key)) {
        filled++;
    }
    return filled;
}

enum { LARGEST_ROOM = 1000 };

// The whole walk, so many pairs at a time. The buffer has no values before.
static void check_walk(const side *one, size_t room) {
    intmap_pair pairs[LARGEST_ROOM];
    intmap_cursor at = intmap_start();
    const model *plain = &one->plain;
    size_t passed = 0, copied;
    do {
        size_t left = plain->len - passed;
        copied = intmap_copy_pairs(&one->map, &at, pairs, room);
        if (!EXPECT(copied == (left < room ? left : room))) {
            return;
        }
        EXPECT(memcmp(pairs, &plain->pairs[passed], copied * sizeof pairs[0]) == 0);
        passed += copied;
    } while (copied > 0);
    intmap_found_pair end = intmap_step(&one->map, &at);
    EXPECT(end.status == INTMAP_ABSENT && same_pair(end.pair, NO_PAIR));
    EXPECT(passed == plain->len);
}

static void check_figures(const side *one) {
    EXPECT(intmap_len(&one->map) == one->plain.len);
    EXPECT(intmap_capacity(&one->map) == one->plain.capacity);
    EXPECT(intmap_load_factor(&one->map) == one->plain.factor);
}

// The same by a loop.
static void check_loop(const side *one) {
    size_t passed = 0;
    INTMAP_FOR_EACH(&one->map, pair) {
        if (!EXPECT(passed < one->plain.len && same_pair(*pair, one->plain.pairs[passed]))) {
            return;
        }
        passed++;
    }
    EXPECT(passed == one->plain.len);
}

static void check(const side *one) {
    uint64_t before = requests;
    check_figures(one);
    EXPECT(intmap_filled_slots(&one->map) == filled_of(&one->plain));
    check_walk(one, 64);
    check_loop(one);
    EXPECT(requests == before);
}

// Calls on both, each behind begin().

static uint64_t requests_before, refused_before, granted_before, blocks_before;
static bool had_memory;

static void begin(void) {
    had_memory = it->map.at != NULL;
    blocks_before = live_blocks;
    requests_before = requests;
    refused_before = refused;
    granted_before = granted_bytes;
    is_refusing = false;
}

static bool was_refused(void) {
    return refused > refused_before;
}

static bool requested(void) {
    return requests > requests_before;
}

// The same, for a call that may be the first of its map.
static bool requested_more(void) {
    return requested() && had_memory;
}

// Whether a request was refused, and none granted before.
static bool was_refused_at_once(void) {
    return was_refused() && granted_bytes == granted_before;
}

// Whether a call failed, which it has to if and only if a request was refused. Then nothing
// changes, but the memory of a first call may stay.
static bool fails(intmap_status status, side *changed) {
    EXPECT(was_refused() == (status == INTMAP_NO_MEMORY));
    EXPECT(intmap_failed(status) == was_refused());
    if (was_refused()) {
        EXPECT(live_blocks == blocks_before || (!had_memory && changed->map.at != NULL));
        check(changed);
    }
    return was_refused();
}

enum { INSERT, PUT, FIND_OR_INSERT, ADD_OR_INSERT, AT_OR_INSERT, INSERTIONS };

// Writes a present key's value in its place.
static intmap_found_value at_or_insert(uint64_t key, uint64_t value) {
#ifdef INTMAP_HAS_AT
    uint64_t *at = &value;
    intmap_found_value answer = {0, intmap_at_or_insert(&it->map, key, value, &at)};
    if (EXPECT((at == NULL) == intmap_failed(answer.status)) && at != NULL) {
        EXPECT(answer.status == INTMAP_PRESENT || *at == value);
        answer.value = answer.status == INTMAP_PRESENT ? *at : 0;
        *at = value;
    }
    return answer;
#else
    intmap_found_value old = intmap_replace(&it->map, key, value);
    return old.status == INTMAP_PRESENT
               ? old
               : (intmap_found_value){0, intmap_find_or_insert(&it->map, key, value)};
#endif
}

static intmap_found_value insertion(unsigned kind, uint64_t key, uint64_t value) {
    if (kind == INSERT) {
        return intmap_insert(&it->map, key, value);
    }
    if (kind == PUT) {
        uint64_t old = intmap_get_or(&it->map, key, 0);
        return (intmap_found_value){old, intmap_put(&it->map, key, value)};
    }
    if (kind == ADD_OR_INSERT) {
        return intmap_add_or_insert(&it->map, key, value);
    }
    if (kind == AT_OR_INSERT) {
        return at_or_insert(key, value);
    }
    return (intmap_found_value){0, intmap_find_or_insert(&it->map, key, value)};
}

// What an insertion does to a present key.
static void insert_present(unsigned kind, size_t place, uint64_t value) {
    intmap_pair *pair = &it->plain.pairs[place];
    intmap_pair again = {pair->key, value};
    if (kind == INSERT || kind == PUT) {
        swap_out(&it->plain, place);
        put_last_in_slot(&it->plain, again);
    } else if (kind == ADD_OR_INSERT) {
        pair->value += value;
    } else if (kind == AT_OR_INSERT) {
        pair->value = value;
    }
}

static void call_insertion(unsigned kind, uint64_t key, uint64_t value) {
    model *plain = &it->plain;
    size_t place = place_of(plain, key), slots = slots_with_one_more(plain);
    bool is_new = place == plain->len;
    begin();
    intmap_found_value answer = insertion(kind, key, value);
    EXPECT(!requested_more() || (is_new && (slots > plain->capacity || shares(plain, key))));
    if (!is_new) {
        EXPECT(is(answer, INTMAP_PRESENT, kind == FIND_OR_INSERT ? 0 : plain->pairs[place].value));
        insert_present(kind, place, value);
    } else if (fails(answer.status, it)) {
        EXPECT(answer.value == 0);
    } else {
        EXPECT(is(answer, INTMAP_ABSENT, 0));
        set_slots(plain, slots);
        put_last_in_slot(plain, (intmap_pair){key, value});
    }
}

static void call_replace_or_add(bool adds, uint64_t key, uint64_t value) {
    size_t place = place_of(&it->plain, key);
    bool is_present = place < it->plain.len;
    uint64_t *old = &it->plain.pairs[is_present ? place : 0].value;
    begin();
    intmap_found_value answer =
        adds ? intmap_add_present(&it->map, key, value) : intmap_replace(&it->map, key, value);
    EXPECT(!requested());
    if (is_present) {
        EXPECT(is(answer, INTMAP_PRESENT, *old));
        *old = adds ? *old + value : value;
    } else {
        EXPECT(is(answer, INTMAP_ABSENT, 0));
    }
}

static void call_at(uint64_t key, uint64_t value) {
#ifdef INTMAP_HAS_AT
    size_t place = place_of(&it->plain, key);
    bool is_present = place < it->plain.len;
    begin();
    uint64_t *at = intmap_at(&it->map, key), *same = at;
    intmap_place(&it->map, key, &same);
    EXPECT((at != NULL) == is_present && same == at && !requested());
    if (at != NULL && is_present) {
        EXPECT(*at == it->plain.pairs[place].value);
        *at = value;
        it->plain.pairs[place].value = value;
    }
#else
    call_replace_or_add(false, key, value);
#endif
}

static void call_remove(uint64_t key) {
    size_t place = place_of(&it->plain, key);
    begin();
    intmap_found_value answer = intmap_remove(&it->map, key);
    EXPECT(!requested());
    if (place < it->plain.len) {
        EXPECT(is(answer, INTMAP_PRESENT, it->plain.pairs[place].value));
        swap_out(&it->plain, place);
    } else {
        EXPECT(is(answer, INTMAP_ABSENT, 0));
    }
}

static void call_get(uint64_t key, uint64_t otherwise) {
    size_t place = place_of(&it->plain, key);
    bool is_present = place < it->plain.len;
    uint64_t value = is_present ? it->plain.pairs[place].value : 0;
    begin();
    EXPECT(is(intmap_get(&it->map, key), is_present ? INTMAP_PRESENT : INTMAP_ABSENT, value));
    EXPECT(intmap_contains_key(&it->map, key) == is_present);
    EXPECT(intmap_get_or(&it->map, key, otherwise) == (is_present ? value : otherwise));
    EXPECT(!requested());
}

static void call_reserve_slots(size_t additional) {
    size_t slots = least_power(it->plain.len + additional, it->plain.capacity);
    begin();
    intmap_status status = intmap_reserve_slots(&it->map, additional);
    EXPECT(!requested_more() || slots > it->plain.capacity);
    if (!fails(status, it)) {
        EXPECT(status == INTMAP_OK);
        set_slots(&it->plain, slots);
    }
}

static void call_reserve(size_t more) {
    model *plain = &it->plain;
    size_t slots = enough_slots(plain->len + more, plain->capacity, plain->factor);
    begin();
    intmap_status status = intmap_reserve(&it->map, more);
    EXPECT(!requested_more() || slots > plain->capacity);
    if (!fails(status, it)) {
        EXPECT(status == INTMAP_OK);
        set_slots(plain, slots);
    }
}

static void call_reserve_insertions(size_t more) {
    model *plain = &it->plain;
    size_t slots = enough_slots(plain->len + more, plain->capacity, plain->factor);
    begin();
    intmap_status status = intmap_reserve_insertions(&it->map, more);
    if (!fails(status, it)) {
        EXPECT(status == INTMAP_OK);
        set_slots(plain, slots);
    }
}

static void call_set_load_factor(size_t thousandths) {
    size_t slots = enough_slots(it->plain.len, it->plain.capacity, thousandths);
    begin();
    intmap_status status = intmap_set_load_factor(&it->map, thousandths);
    EXPECT(!requested_more() || slots > it->plain.capacity);
    if (!fails(status, it)) {
        EXPECT(status == INTMAP_OK);
        it->plain.factor = thousandths;
        set_slots(&it->plain, slots);
    }
}

// Passes so many pairs, then cuts so many.
static void call_cut(size_t passed, size_t count) {
    intmap_pair pairs[LARGEST_ROOM];
    intmap_cursor at = intmap_start();
    model *plain = &it->plain;
    passed = intmap_copy_pairs(&it->map, &at, pairs, passed);
    begin();
    for (; count > 0; count--) {
        bool is_left = passed < plain->len;
        intmap_pair wanted = is_left ? plain->pairs[passed] : NO_PAIR;
        intmap_found_pair cut = intmap_cut(&it->map, &at);
        EXPECT(cut.status == (is_left ? INTMAP_PRESENT : INTMAP_ABSENT));
        EXPECT(same_pair(cut.pair, wanted));
        if (is_left) {
            take_at(plain, passed);
        }
    }
    intmap_found_pair next = intmap_step(&it->map, &at);
    EXPECT(next.status == (passed < plain->len ? INTMAP_PRESENT : INTMAP_ABSENT));
    EXPECT(passed == plain->len || same_pair(next.pair, plain->pairs[passed]));
    EXPECT(!requested());
}

// Of the next 64 pairs keeps those whose bit is set, and passes them. Returns how many it removed.
static size_t keep_marked(model *plain, size_t *passed, uint64_t marks) {
    size_t removed = 0;
    for (int bit = 0; bit < 64 && *passed < plain->len; bit++) {
        if (marks >> bit & 1) {
            ++*passed;
        } else {
            take_at(plain, *passed);
            removed++;
        }
    }
    return removed;
}

// Passes so many pairs, then keeps or removes the next 64.
static void call_keep_marked(size_t passed, uint64_t marks) {
    intmap_pair pairs[LARGEST_ROOM];
    intmap_cursor at = intmap_start();
    model *plain = &it->plain;
    passed = intmap_copy_pairs(&it->map, &at, pairs, passed);
    begin();
    EXPECT(intmap_keep_marked(&it->map, &at, marks) == keep_marked(plain, &passed, marks));
    intmap_found_pair next = intmap_step(&it->map, &at);
    EXPECT(next.status == (passed < plain->len ? INTMAP_PRESENT : INTMAP_ABSENT));
    EXPECT(passed == plain->len || same_pair(next.pair, plain->pairs[passed]));
    EXPECT(!requested());
}

// How far a call has come that keeps the pairs whose values have no bit of a mask.
typedef struct retained {
    uint64_t mask;
    size_t passed;
} retained;

static bool has_no_bit(intmap_pair pair, void *argument) {
    retained *so_far = (retained *)argument;
    if (!EXPECT(so_far->passed < it->plain.len
                && same_pair(pair, it->plain.pairs[so_far->passed]))) {
        return true;
    }
    if (pair.value & so_far->mask) {
        take_at(&it->plain, so_far->passed);
        return false;
    }
    so_far->passed++;
    return true;
}

static void call_retain(uint64_t mask) {
    size_t len = it->plain.len;
    retained so_far = {mask, 0};
    begin();
    EXPECT(intmap_retain(&it->map, has_no_bit, &so_far) == len - it->plain.len);
    EXPECT(so_far.passed == it->plain.len && !requested());
}

// The same pairs in a map that was made anew.
static void call_shrink_to_fit(void) {
    static model before;
    begin();
    if (fails(intmap_shrink_to_fit(&it->map), it) || !had_memory) {
        return;
    }
    before = it->plain;
    make_plain(&it->plain, 4);
    it->plain.factor = before.factor;
    for (size_t place = 0; place < before.len; place++) {
        set_slots(&it->plain, slots_with_one_more(&it->plain));
        put_last_in_slot(&it->plain, before.pairs[place]);
    }
}

static void call_clear(void) {
    begin();
    intmap_clear(&it->map);
    EXPECT(!requested());
    it->plain.len = 0;
}

// Another map in place of this one, which is freed.
static void call_make(size_t capacity) {
    begin();
    intmap_status status = intmap_with_slots(&it->map, capacity);
    if (!fails(status, it)) {
        EXPECT(status == INTMAP_OK);
        make_plain(&it->plain, least_power(capacity, 2));
    }
}

static void call_make_room(size_t pairs) {
    begin();
    intmap_status status = intmap_with_room(&it->map, pairs);
    if (!fails(status, it)) {
        EXPECT(status == INTMAP_OK);
        make_plain(&it->plain, enough_slots(pairs, 4, 909));
    }
}

static void call_clone(void) {
    begin();
    intmap_status status = intmap_clone(&it->map, &other->map);
    if (!fails(status, other)) {
        EXPECT(status == INTMAP_OK);
        EXPECT((other->map.at == NULL) == (it->map.at == NULL));
        other->plain = it->plain;
        check(other);
    }
    check(it);
}

static bool have_same_values(const model *one, const model *two) {
    for (size_t at = 0; at < one->len; at++) {
        size_t place = place_of(two, one->pairs[at].key);
        if (place == two->len || two->pairs[place].value != one->pairs[at].value) {
            return false;
        }
    }
    return one->len == two->len;
}

static void call_equal(void) {
    bool is_so = have_same_values(&it->plain, &other->plain);
    begin();
    EXPECT(intmap_equal(&it->map, &other->map) == is_so);
    EXPECT(intmap_equal(&other->map, &it->map) == is_so);
    EXPECT(intmap_equal(&it->map, &it->map));
    EXPECT(!requested());
}

// Tests of one thing each. Each begins and ends with two maps without memory, and without a block.

static void call_free(side *one) {
    intmap_free(&one->map);
    EXPECT(one->map.at == NULL);
    make_plain(&one->plain, 4);
}

static void end_test(void) {
    call_free(it);
    call_free(other);
    EXPECT(live_blocks == 0 && until_refused == 0);
}

// Arms the first request, then the second, and so on, until a call was done in spite of it: once
// that alone, and once with all that follow.
static bool refuse_in_turn(void) {
    static uint64_t in_turn;
    bool was_done = in_turn > 0 && until_refused > 0;
    are_all_refused = !are_all_refused && in_turn > 0 && !was_done;
    in_turn = was_done ? 0 : in_turn + !are_all_refused;
    until_refused = in_turn;
    return !was_done;
}

static void test_statuses(void) {
    EXPECT(!intmap_failed(INTMAP_OK) && !intmap_failed(INTMAP_PRESENT));
    EXPECT(!INTMAP_OK && !INTMAP_ABSENT && INTMAP_PRESENT);
    EXPECT(!intmap_failed(INTMAP_ABSENT) && intmap_failed(INTMAP_NO_MEMORY));
    EXPECT(intmap_failed(INTMAP_TOO_LARGE));
    EXPECT(intmap_version() == INTMAP_VERSION);
}

// These request nothing, so a map without memory stays one.
static void test_calls_without_memory(void) {
    check(it);
    call_get(3, 9);
    call_replace_or_add(false, 3, 4);
    call_replace_or_add(true, 3, 4);
    call_at(3, 4);
    call_remove(3);
    call_cut(1, 2);
    call_keep_marked(1, 2);
    call_retain(1);
    call_shrink_to_fit();
    call_clear();
    call_equal();
    call_clone();
    EXPECT(it->map.at == NULL && other->map.at == NULL);
    end_test();
}

static void insert_some(size_t count, uint64_t factor) {
    for (size_t at = 0; at < count; at++) {
        call_insertion(at % INSERTIONS, at * factor, number());
    }
}

// Each request of a call is refused that is the first of its map.
static void test_first(void (*call)(size_t number)) {
    while (refuse_in_turn()) {
        call_free(it);
        call(20);
    }
    EXPECT(it->map.at != NULL);
    check(it);
    end_test();
}

static void call_insert(size_t key) {
    call_insertion(INSERT, key, 7);
}

static void call_find_or_insert(size_t key) {
    call_insertion(FIND_OR_INSERT, key, 7);
}

static void call_add_or_insert(size_t key) {
    call_insertion(ADD_OR_INSERT, key, 7);
}

// A first call that asks for too much says so, whatever is refused, and leaves an empty map.
static void test_first_too_large(void) {
    while (refuse_in_turn()) {
        call_free(it);
        EXPECT(intmap_reserve_slots(&it->map, SIZE_MAX) == INTMAP_TOO_LARGE);
        check(it);
    }
    call_insertion(INSERT, 3, 4);
    check(it);
    end_test();
}

// A map beside one without memory.
static void test_one_without_memory(void) {
    call_make(16);
    call_equal();
    call_insertion(INSERT, 3, 0);
    call_equal();
    side *before = it;
    it = other;
    other = before;
    call_equal();
    call_clone();
    call_equal();
    end_test();
}

// Each request of a call that makes a map is refused, where the word has no memory and where it has
// a map. The map before is freed.
static void test_makers(size_t capacity) {
    while (refuse_in_turn()) {
        call_make(capacity);
    }
    uint64_t blocks = live_blocks;
    check(it);
    insert_some(100, 1 << 6);
    while (refuse_in_turn()) {
        call_make(capacity);
    }
    EXPECT(live_blocks == blocks);
    check(it);
    end_test();
}

// The same of a clone. It is then another map.
static void test_clone(size_t count, uint64_t factor) {
    call_make(64);
    call_set_load_factor(1500);
    insert_some(count, factor);
    while (refuse_in_turn()) {
        call_clone();
    }
    uint64_t blocks = live_blocks;
    while (refuse_in_turn()) {
        call_clone();
    }
    EXPECT(live_blocks == blocks);
    call_equal();
    call_insertion(INSERT, 5 * factor, 1);
    call_equal();
    call_remove(7 * factor);
    check(it);
    check(other);
    end_test();
}

// A number as a key: a multiple of the factor. With 0 the keys are random.
static uint64_t key_of(uint64_t number, uint64_t factor) {
    return factor > 0 ? number * factor : intmap_scramble(number, 1);
}

// Each request of an insertion is refused. Some keys share a slot, and some make the map grow.
static void test_insertions(unsigned kind, uint64_t factor) {
    call_make(4);
    for (uint64_t key = 0; key < 300; key++) {
        while (refuse_in_turn()) {
            call_insertion(kind, key_of(key, factor), key);
        }
        check_figures(it);
    }
    check(it);
    end_test();
}

// Small maps of random keys with several load factors grow often.
static void test_small_maps(unsigned kind) {
    for (uint64_t secret = 0; secret < 50; secret++) {
        call_make(4);
        call_set_load_factor(300 + secret * 10);
        for (uint64_t at = 0; at < 40; at++) {
            while (refuse_in_turn()) {
                call_insertion(kind, intmap_scramble(at, secret), at);
            }
        }
        check(it);
    }
    end_test();
}

// Each request is refused where a key comes to the slot of another one among keys that have a slot
// each, and where each key has a slot of its own again.
static void test_stray_keys(unsigned kind) {
    call_make(4);
    for (uint64_t key = 0; key < 300; key++) {
        while (refuse_in_turn()) {
            call_insertion(kind, key, key);
        }
        while (key % 16 == 12 && refuse_in_turn()) {
            call_insertion(kind, it->plain.capacity, key);
        }
        check_figures(it);
    }
    check(it);
    end_test();
}

// Slots are added to a map whose slots hold several pairs.
static void test_growth(void) {
    call_make(4);
    call_set_load_factor(5000);
    insert_some(200, 1);
    while (refuse_in_turn()) {
        call_reserve_slots(100);
    }
    check(it);
    while (refuse_in_turn()) {
        call_set_load_factor(70);
    }
    check(it);
    end_test();
}

// Ids fill the slots of a map without pairs, up to the one that adds slots. Of the model only the
// figures are used.
static void fill_to_growth(side *one) {
    size_t slots = one->plain.capacity;
    while (one->plain.capacity == slots) {
        one->plain.capacity = slots_with_one_more(&one->plain);
        EXPECT(!intmap_failed(intmap_insert(&one->map, one->plain.len++, 0).status));
        check_figures(one);
    }
    call_free(one);
}

// At which pair maps grow whose slots a call made, 2 to 2^15 of them, and clones of such maps.
static void test_thresholds(void (*call)(size_t number)) {
    for (size_t slots = 2; slots <= 1 << 14; slots *= 2) {
        call(slots);
        call_clone();
        fill_to_growth(it);
        fill_to_growth(other);
        for (size_t factor = 100; factor < 2000; factor += 600) {
            call(slots);
            call_set_load_factor(factor);
            fill_to_growth(it);
        }
    }
    end_test();
}

// Room for so many pairs behind the first keys. The next keys come into it, and add no slots.
static void test_room_for(size_t factor, size_t len, size_t more) {
    call_make(4);
    call_set_load_factor(factor);
    insert_some(len, 1);
    while (refuse_in_turn()) {
        call_reserve(more);
    }
    size_t slots = intmap_capacity(&it->map);
    for (size_t key = len; key < len + more; key++) {
        call_insertion(key % INSERTIONS, key, key);
        EXPECT(intmap_capacity(&it->map) == slots);
    }
    check(it);
    end_test();
}

// What may come behind intmap_reserve_insertions, before an insertion.

static void look_up(void) {
    call_get(it->plain.len, 3);
    call_equal();
    check(it);
}

static void retain_some(void) {
    call_retain(1);
}

static void cut_some(void) {
    call_cut(it->plain.len / 3, it->plain.len / 2);
}

// Room for so many insertions of keys that are `step` apart, and share slots if that is a great
// power of two. They request nothing, whatever is looked up, written or removed before and between
// them.
static void test_room_for_any(size_t factor, size_t len, size_t more, uint64_t step,
                              void (*change)(void)) {
    call_make(4);
    call_set_load_factor(factor);
    insert_some(len, step);
    while (refuse_in_turn()) {
        call_reserve_insertions(more);
    }
    size_t slots = intmap_capacity(&it->map), before = requests;
    for (size_t at = len; at < len + more; at++) {
        if ((at - len) % 40 == 0) {
            change();
        }
        call_insertion(at % INSERTIONS, at * step, at);
        call_replace_or_add(at % 2, at * step, 3 * at);
        call_at(at * step, at);
        if (at % 5 == 2) {
            call_remove(at * step);
            call_insertion(at % INSERTIONS, at * step, at);
        }
    }
    EXPECT(requests == before && intmap_capacity(&it->map) == slots);
    check(it);
    end_test();
}

// New maps with room. The keys come into it, and add no slots.
static void test_made_room(void) {
    for (size_t pairs = 0; pairs < 300; pairs += 1 + pairs / 9) {
        while (refuse_in_turn()) {
            call_make_room(pairs);
        }
        size_t slots = intmap_capacity(&it->map);
        insert_some(pairs, 1);
        EXPECT(intmap_capacity(&it->map) == slots);
        check(it);
    }
    end_test();
}

static void test_room(void) {
    const size_t factors[] = {0,    1,    100,  500,   909,        999,
                              1000, 1001, 2500, 40000, 4000000000, SIZE_MAX};
    const size_t lens[] = {0, 1, 2, 3, 4, 7, 8, 11, 29, 60, 130};
    const size_t mores[] = {0, 1, 2, 3, 4, 5, 8, 12, 27, 100};
    void (*const changes[])(void) = {look_up, retain_some, cut_some, call_clear};
    for (size_t at = 0; at < sizeof factors / sizeof factors[0]; at++) {
        for (size_t first = 0; first < sizeof lens / sizeof lens[0]; first++) {
            for (size_t next = 0; next < sizeof mores / sizeof mores[0]; next++) {
                test_room_for(factors[at], lens[first], mores[next]);
                test_room_for_any(factors[at], lens[first], mores[next], (uint64_t)1 << 4 * next,
                                  changes[(at + first + next) % 4]);
            }
        }
    }
    test_room_for(4000, 2047, 50);
    test_made_room();
}

// Room for more pairs than a machine can have.
static void test_limits_of_room(void) {
    const size_t half = (size_t)1 << 63, great = 10000000000000000u;
    const struct {
        size_t factor, pairs;
        intmap_status status;
    } rooms[] = {
        {0, 9223372036854775, INTMAP_NO_MEMORY},
        {0, 9223372036854776, INTMAP_TOO_LARGE},
        {0, half / 4, INTMAP_TOO_LARGE},
        {0, SIZE_MAX, INTMAP_TOO_LARGE},
        {2, SIZE_MAX / 1000 * 3 + 2, INTMAP_TOO_LARGE},
        {909, half / 100 * 90, INTMAP_NO_MEMORY},
        {909, half / 100 * 92, INTMAP_TOO_LARGE},
        {999, half - 1, INTMAP_NO_MEMORY},
        {999, half, INTMAP_TOO_LARGE},
        {1999, SIZE_MAX, INTMAP_NO_MEMORY},
        {1998, SIZE_MAX, INTMAP_TOO_LARGE},
        {SIZE_MAX, great, INTMAP_OK},
    };
    for (size_t at = 0; at < sizeof rooms / sizeof rooms[0]; at++) {
        call_make(4);
        call_set_load_factor(rooms[at].factor);
        insert_some(3, 1);
        EXPECT(intmap_reserve(&it->map, SIZE_MAX - 2) == INTMAP_TOO_LARGE);
        EXPECT(intmap_reserve(&it->map, SIZE_MAX) == INTMAP_TOO_LARGE);
        check(it);
        EXPECT(intmap_reserve(&it->map, rooms[at].pairs - 3) == rooms[at].status);
        EXPECT(intmap_reserve_insertions(&it->map, rooms[at].pairs - 3)
               == (intmap_failed(rooms[at].status) ? rooms[at].status : INTMAP_NO_MEMORY));
        check(it);
        end_test();
    }
    // the pairs that 2^63 slots hold where no map can be made
    const size_t most = 8393268553537845985u;
    largest_request = 0;
    call_free(it);
    EXPECT(intmap_reserve(&it->map, most) == INTMAP_NO_MEMORY);
    EXPECT(intmap_reserve(&it->map, most + 1) == INTMAP_TOO_LARGE);
    EXPECT(intmap_reserve_insertions(&it->map, most) == INTMAP_NO_MEMORY);
    EXPECT(intmap_reserve_insertions(&it->map, most + 1) == INTMAP_TOO_LARGE);
    largest_request = LARGEST_REQUEST;
    EXPECT(it->map.at == NULL && intmap_reserve(&it->map, most) == INTMAP_NO_MEMORY);
    EXPECT(intmap_reserve(&it->map, most + 1) == INTMAP_TOO_LARGE);
    call_make(4);
    check(it);
    end_test();
}

// The bytes of a slot.
enum { SLOT = 24 };

// A call asks for its slots first. So it gets them if larger requests are refused. If requests of
// their size are refused too, nothing is granted, and so nothing is written.
static void test_slots_first(size_t slots, void (*call)(void)) {
    const size_t all = SLOT * slots, bits = slots / 8 < 8 ? 8 : slots / 8;
    const size_t bounds[] = {0, bits, all / 2, all - 1};
    for (size_t at = 0; at < sizeof bounds / sizeof bounds[0]; at++) {
        largest_request = bounds[at];
        call();
        EXPECT(was_refused_at_once());
    }
    largest_request = all;
    call();
    EXPECT(!was_refused() && granted_bytes - granted_before >= all + bits);
    largest_request = LARGEST_REQUEST;
    check(it);
}

static void make_8_slots(void) {
    call_make(8);
}

static void make_4096_slots(void) {
    call_make(4096);
}

static void insert_new_key(void) {
    call_insertion(INSERT, it->plain.len, 5);
}

static void reserve_4096_slots(void) {
    call_reserve_slots(4096 - it->plain.len);
}

static void reserve_8192_slots(void) {
    call_reserve_slots(8192 - it->plain.len);
}

static void set_load_factor_10(void) {
    call_set_load_factor(10);
}

static void test_large_requests(void) {
    test_slots_first(8, make_8_slots);
    insert_some(14, 1);
    test_slots_first(32, insert_new_key);
    test_slots_first(32, call_clone);
    test_slots_first(2048, set_load_factor_10);
    test_slots_first(4096, reserve_4096_slots);
    test_slots_first(4096, call_clone);
    end_test();
}

// Two pairs of one slot stay together at each growth, so that each requests a node too.
static void test_large_requests_with_a_node(void) {
    test_slots_first(4096, make_4096_slots);
    insert_some(3, 1);
    test_slots_first(4096, call_clone);
    test_slots_first(8192, reserve_8192_slots);
    call_make(4);
    call_insertion(INSERT, 1 << 20, 0);
    insert_some(13, 1);
    test_slots_first(32, insert_new_key);
    test_slots_first(32, call_clone);
    test_slots_first(2048, set_load_factor_10);
    end_test();
}

// The bits of 2^32 slots are 512 MB. They aren't granted before the slots are refused.
static void test_too_many_slots(void) {
    const size_t slots = (size_t)1 << 32;
    call_make(4);
    largest_request = (size_t)1 << 30;
    begin();
    EXPECT(intmap_with_slots(&it->map, slots) == INTMAP_NO_MEMORY && was_refused_at_once());
    begin();
    EXPECT(intmap_reserve_slots(&it->map, slots) == INTMAP_NO_MEMORY && was_refused_at_once());
    largest_request = LARGEST_REQUEST;
    check(it);
    end_test();
}

// Numbers that don't fit into 32 bits, or lie at a limit.
static void test_limits(void) {
    const size_t half = (size_t)1 << 63, above_32_bits = (size_t)1 << 32;
    EXPECT(intmap_with_slots(&it->map, half + 1) == INTMAP_TOO_LARGE && it->map.at == NULL);
    for (size_t capacity = 0; capacity < 70; capacity++) {
        call_make(capacity);
        check_figures(it);
    }
    insert_some(3, UINT64_MAX);
    EXPECT(intmap_with_slots(&it->map, SIZE_MAX) == INTMAP_TOO_LARGE);
    EXPECT(intmap_with_capacity(&it->map, half) == INTMAP_NO_MEMORY);
    EXPECT(intmap_with_slots(&it->map, half) == INTMAP_NO_MEMORY);
    EXPECT(intmap_with_slots(&it->map, above_32_bits) == INTMAP_NO_MEMORY);
    EXPECT(intmap_reserve_slots(&it->map, SIZE_MAX) == INTMAP_TOO_LARGE);
    EXPECT(intmap_reserve_slots(&it->map, half - 2) == INTMAP_TOO_LARGE);
    EXPECT(intmap_reserve_slots(&it->map, half - 3) == INTMAP_NO_MEMORY);
    EXPECT(intmap_reserve_slots(&it->map, above_32_bits) == INTMAP_NO_MEMORY);
    check(it);
    call_set_load_factor(above_32_bits + 7);
    call_set_load_factor(SIZE_MAX);
    check(it);
    call_set_load_factor(0);
    check(it);
    end_test();
}

// Sums wrap, and the greatest key and value are as others.
static void test_great_numbers(void) {
    call_make(4);
    call_insertion(INSERT, UINT64_MAX, UINT64_MAX);
    call_insertion(ADD_OR_INSERT, UINT64_MAX, 2);
    call_replace_or_add(true, UINT64_MAX, UINT64_MAX);
    call_insertion(ADD_OR_INSERT, 0, UINT64_MAX);
    call_insertion(INSERT, (uint64_t)1 << 32, (uint64_t)1 << 63);
    call_get(UINT64_MAX, 5);
    call_get((uint64_t)1 << 63, (uint64_t)1 << 32);
    check(it);
    end_test();
}

// Maps with the same pairs in another order, other slots and another load factor.
static void test_equal(void) {
    call_make(4);
    insert_some(50, 64);
    call_clone();
    for (uint64_t key = 0; key < 20; key++) {
        call_insertion(INSERT, key * 64, it->plain.pairs[place_of(&it->plain, key * 64)].value);
    }
    call_equal();
    call_reserve_slots(400);
    call_set_load_factor(400);
    call_equal();
    call_replace_or_add(true, 64, 1);
    call_equal();
    call_replace_or_add(true, 64, UINT64_MAX);
    call_equal();
    call_remove(0);
    call_equal();
    call_insertion(INSERT, 1, 0);
    call_equal();
    end_test();
}

// Each pair of a map in turn has another value in its clone, and then another key.
static void test_equal_but_for_one(size_t len, size_t load_factor, uint64_t factor) {
    call_make(4);
    call_set_load_factor(load_factor);
    for (size_t at = 0; at < len; at++) {
        call_insertion(at % INSERTIONS, key_of(at, factor), at);
    }
    call_clone();
    for (size_t at = 0; at < len; at++) {
        intmap_pair pair = other->plain.pairs[at];
        call_replace_or_add(false, pair.key, ~pair.value);
        call_equal();
        call_remove(pair.key);
        call_insertion(INSERT, ~pair.key, pair.value);
        call_equal();
        call_remove(~pair.key);
        call_insertion(INSERT, pair.key, pair.value);
    }
    call_equal();
    end_test();
}

// A walk begins at the first pair, in a constant too.
static void test_start(void) {
    static intmap_cursor constant = INTMAP_START;
    intmap_cursor at = intmap_start(), zero;
    memset(&zero, 0, sizeof zero);
    EXPECT(memcmp(&at, &zero, sizeof at) == 0 && memcmp(&constant, &zero, sizeof zero) == 0);
    call_make(4);
    insert_some(3, 1);
    intmap_found_pair first = intmap_step(&it->map, &at);
    EXPECT(first.pair.key == 0 && at.slot == 0 && at.place == 1);
    at = intmap_start();
    EXPECT(same_pair(intmap_step(&it->map, &at).pair, first.pair));
    end_test();
}

// Steps, cuts and marks at any two numbers, and at cursors that the map changed behind.
static void test_cursors(void) {
    const size_t far[] = {SIZE_MAX, SIZE_MAX - 1, SIZE_MAX / 2, 1000};
    model *plain = &it->plain;
    call_make(4);
    insert_some(200, 3);
    intmap_cursor at = intmap_start();
    for (int round = 0; round < 20000; round++) {
        uint64_t value = number();
        switch (number() % 8) {
        case 0:
            at.slot = number() % 4 ? number() % (2 * plain->capacity) : far[number() % 4];
            break;
        case 1:
            at.place = number() % 4 ? number() % 4 : far[number() % 4];
            break;
        case 2:
            call_insertion(INSERT, number() % 600, value);
            break;
        case 3:
            call_remove(number() % 600);
            break;
        case 4:
            call_insertion(INSERT, number() % 40 * 1024, value);
            break;
        default:
            break;
        }
        size_t passed = before(plain, at);
        if (number() % 16 == 0) {
            uint64_t marks = number() | number();
            size_t removed = keep_marked(plain, &passed, marks);
            EXPECT(intmap_keep_marked(&it->map, &at, marks) == removed);
            EXPECT(before(plain, at) == passed);
        }
        bool is_left = passed < plain->len, is_cut = number() % 4 == 0;
        intmap_pair wanted = is_left ? plain->pairs[passed] : NO_PAIR;
        intmap_found_pair found = is_cut ? intmap_cut(&it->map, &at) : intmap_step(&it->map, &at);
        EXPECT(found.status == (is_left ? INTMAP_PRESENT : INTMAP_ABSENT));
        EXPECT(same_pair(found.pair, wanted));
        if (is_left && is_cut) {
            take_at(plain, passed);
        }
        EXPECT(before(plain, at) == passed + (is_left && !is_cut));
    }
    end_test();
}

// Walks by pieces of several sizes. What lies behind the copied pairs stays.
static void test_walks(void) {
    const size_t rooms[] = {1, 2, 3, 5, 7, 63, 64, 65, 333, LARGEST_ROOM};
    intmap_pair pairs[LARGEST_ROOM], before[LARGEST_ROOM];
    memset(pairs, 0x5A, sizeof pairs);
    memcpy(before, pairs, sizeof before);
    call_make(4);
    insert_some(700, 1 << 4);
    for (size_t at = 0; at < sizeof rooms / sizeof rooms[0]; at++) {
        check_walk(it, rooms[at]);
    }
    intmap_cursor at = intmap_start();
    EXPECT(intmap_copy_pairs(&it->map, &at, pairs, 0) == 0);
    EXPECT(intmap_copy_pairs(&it->map, &at, pairs + 1, 9) == 9);
    EXPECT(memcmp(pairs, before, sizeof pairs[0]) == 0);
    EXPECT(memcmp(pairs + 10, before + 10, 10 * sizeof pairs[0]) == 0);
    EXPECT(intmap_copy_pairs(&it->map, &at, pairs, LARGEST_ROOM) == 691);
    EXPECT(memcmp(pairs + 691, before + 691, 100 * sizeof pairs[0]) == 0);
    end_test();
}

// A loop in a loop, of which one goes on early and the other is left early.
static void test_loop_in_loop(void) {
    size_t passed = 0, passed_inside = 0;
    call_make(4);
    insert_some(200, 3);
    INTMAP_FOR_EACH(&it->map, pair) {
        if (passed++ % 2 > 0) {
            continue;
        }
        INTMAP_FOR_EACH(&it->map, inner) {
            passed_inside++;
            if (inner->key == pair->key) {
                break;
            }
        }
    }
    EXPECT(passed == 200 && passed_inside == 100 * 100);
    end_test();
}

// A loop whose body changes values, and one whose body frees the map.
static void test_changes_in_loop(void) {
    size_t passed = 0;
    intmap_walk walk;
    call_make(4);
    insert_some(200, 1 << 3);
    INTMAP_FOR_EACH(&it->map, pair) {
        EXPECT(same_pair(*pair, it->plain.pairs[passed]));
        call_replace_or_add(passed++ % 2, pair->key, number());
    }
    check(it);
    INTMAP_FOR_EACH(&it->map, pair) {
        EXPECT(passed > 200 || same_pair(*pair, it->plain.pairs[0]));
        call_free(it);
        passed++;
    }
    EXPECT(passed == 264);
    intmap_walk_begin(&walk, &it->map);
    EXPECT(intmap_walk_next(&walk) == NULL && intmap_walk_next(&walk) == NULL);
    end_test();
}

// Some thousand keys of one slot. Removals keep its memory.
static void test_one_slot(void) {
    const uint64_t factor = (uint64_t)1 << 40;
    call_make(4);
    insert_some(MOST - 1, factor);
    EXPECT(intmap_filled_slots(&it->map) == 1);
    call_clone();
    for (uint64_t key = 0; key < MOST; key += 97) {
        call_get(key * factor, key);
        call_remove(key * factor);
        call_replace_or_add(key % 2, key * factor + factor, key);
        call_insertion(INSERT, key * factor + 2 * factor, key);
    }
    call_cut(100, 50);
    call_cut(0, 50);
    const size_t places[] = {0, 1, 2, 63, 64, 65, LARGEST_ROOM};
    for (size_t at = 0; at < sizeof places / sizeof places[0]; at++) {
        call_keep_marked(places[at], number());
        call_keep_marked(places[at], UINT64_MAX << at);
    }
    check(it);
    call_equal();
    call_retain(3);
    check(it);
    call_cut(0, MOST);
    EXPECT(it->plain.len == 0);
    check(other);
    end_test();
}

// Retains, then drains, as a program does that frees what the values point to.
static void test_cuts(void) {
    call_make(4);
    insert_some(1000, 3);
    call_retain(1);
    check(it);
    call_cut(LARGEST_ROOM, 3);
    call_keep_marked(it->plain.len - 40, 0x0F0F0F0F0F0F0F0F);
    call_keep_marked(it->plain.len - 64, 0);
    call_keep_marked(it->plain.len, 0);
    check(it);
    call_cut(0, 1000);
    EXPECT(it->plain.len == 0);
    check(it);
    insert_some(10, 1);
    check(it);
    call_clear();
    check(it);
    end_test();
}

// Slots that lost their pairs keep their memory, so the same pairs come back without a request.
static void test_kept_memory(void) {
    call_make(4);
    insert_some(300, 1 << 5);
    call_clear();
    until_refused = 1;
    insert_some(300, 1 << 5);
    for (uint64_t key = 0; key < 300; key++) {
        call_remove(key << 5);
    }
    EXPECT(it->plain.len == 0);
    insert_some(300, 1 << 5);
    EXPECT(until_refused == 1);
    until_refused = 0;
    check(it);
    end_test();
}

// Memory comes back, whichever request is refused.
static void test_shrinking(void) {
    call_make(4);
    insert_some(1000, 1 << 5);
    for (uint64_t key = 20; key < 1000; key++) {
        call_remove(key << 5);
    }
    while (refuse_in_turn()) {
        call_shrink_to_fit();
        check(it);
    }
    EXPECT(it->plain.capacity == 32);
    end_test();
}

// The slots are those that insertions into 4 slots come to, at any load factor.
static void test_shrunk_slots(void) {
    const size_t factors[] = {0, 1, 100, 500, 909, 999, 1000, 2500, 40000, 4000000000, SIZE_MAX};
    for (size_t at = 0; at < sizeof factors / sizeof factors[0]; at++) {
        for (size_t len = 0; len < 30; len++) {
            call_make(2);
            call_set_load_factor(factors[at]);
            insert_some(len, len % 2 ? 1 : 1 << 5);
            call_reserve_slots(500);
            call_shrink_to_fit();
            check(it);
        }
        insert_some(300, 1);
        call_shrink_to_fit();
        check(it);
        end_test();
    }
}

// Where ids have a slot each, it requests nothing larger than their slots.
static void test_shrunk_ids(void) {
    call_reserve(1865);
    insert_some(1865, 1);
    largest_request = SLOT * 2048;
    call_shrink_to_fit();
    EXPECT(!was_refused() && it->plain.capacity == 2048);
    largest_request = LARGEST_REQUEST;
    check(it);
    end_test();
}

// Values change along a walk, and no pair's place does.
static void test_writes_in_walk(void) {
    call_make(4);
    insert_some(200, 1 << 3);
    intmap_cursor at = intmap_start();
    for (size_t passed = 0; passed < it->plain.len; passed++) {
        intmap_found_pair seen = intmap_step(&it->map, &at);
        EXPECT(seen.status == INTMAP_PRESENT && same_pair(seen.pair, it->plain.pairs[passed]));
        call_replace_or_add(passed % 2, seen.pair.key, number());
    }
    check(it);
    end_test();
}

// Values that are addresses of blocks, as README.md frees them.

// Keeps a pair with an even key, and frees what the value of another one points to.
static bool is_even(intmap_pair pair, void *argument) {
    (void)argument;
    if (pair.key % 2 > 0) {
        free(intmap_to_pointer(pair.value));
    }
    return pair.key % 2 == 0;
}

static void test_addresses(void) {
    intmap map = INTMAP_INIT;
    EXPECT(intmap_with_slots(&map, 4) == INTMAP_OK);
    uint64_t blocks = live_blocks;
    for (uint64_t key = 0; key < 100; key++) {
        EXPECT(!intmap_failed(intmap_insert(&map, key, intmap_from_pointer(malloc(1))).status));
    }
    EXPECT(live_blocks >= blocks + 100);
    blocks = live_blocks;
    EXPECT(intmap_retain(&map, is_even, NULL) == 50);
    EXPECT(intmap_len(&map) == 50 && live_blocks == blocks - 50);
    EXPECT(intmap_contains_key(&map, 98) && !intmap_contains_key(&map, 99));
    intmap_cursor at = intmap_start();
    intmap_found_pair cut;
    while ((cut = intmap_cut(&map, &at)).status == INTMAP_PRESENT) {
        free(intmap_to_pointer(cut.pair.value));
    }
    intmap_free(&map);
    EXPECT(map.at == NULL && live_blocks == 0);
}

// Keys that share a slot, until they are scrambled by a secret.

static void test_scrambled_keys(void) {
    uint64_t secret = number();
    call_make(4);
    for (uint64_t key = 0; key < 1000; key++) {
        call_insertion(INSERT, intmap_scramble(key << 40, secret), key);
    }
    EXPECT(intmap_filled_slots(&it->map) > 500);
    check(it);
    end_test();
}

// One key is scrambled to each number. The first four are what SplitMix64 returns from the seed 0.
static void test_scrambling(void) {
    static const uint64_t known[] = {0xE220A8397B1DCDAFu, 0x6E789E6AA1B965F4u,
                                     0x06C45D188009454Fu, 0xF88BB8A8724C81ECu};
    for (uint64_t i = 0; i < 4; i++) {
        EXPECT(intmap_scramble((i + 1) * 0x9E3779B97F4A7C15u, 0) == known[i]);
    }
    for (int i = 0; i < 10000; i++) {
        uint64_t secret = number(), key = i < 64 ? (uint64_t)1 << i : number();
        EXPECT(intmap_unscramble(intmap_scramble(key, secret), secret) == key);
        EXPECT(intmap_scramble(intmap_unscramble(key, secret), secret) == key);
        EXPECT(intmap_scramble(key, secret) == intmap_scramble(key ^ secret, 0));
    }
}

static void test_pointers(void) {
    int place = 0;
    EXPECT(intmap_to_pointer(intmap_from_pointer(&place)) == &place);
    EXPECT(intmap_from_pointer(NULL) == (uintptr_t)NULL && intmap_to_pointer(0) == NULL);
}

// A word is moved.
static void test_move(void) {
    call_make(4);
    insert_some(10, 1);
    other->map = it->map;
    other->plain = it->plain;
    it->map = INTMAP_NONE;
    make_plain(&it->plain, 4);
    check(it);
    check(other);
    end_test();
}

#define RUN(test) (running = #test, test)

static void test_each(void) {
    RUN(test_statuses());
    RUN(test_calls_without_memory());
    RUN(test_first(call_insert));
    RUN(test_first(call_find_or_insert));
    RUN(test_first(call_add_or_insert));
    RUN(test_first(call_reserve_slots));
    RUN(test_first(call_reserve));
    RUN(test_first(call_reserve_insertions));
    RUN(test_first(call_set_load_factor));
    RUN(test_first_too_large());
    RUN(test_one_without_memory());
    RUN(test_makers(4));
    RUN(test_makers(20));
    RUN(test_clone(40, 1));
    RUN(test_clone(200, 16));
    for (unsigned kind = 0; kind < INSERTIONS; kind++) {
        RUN(test_insertions(kind, 0));
        RUN(test_insertions(kind, 1));
        RUN(test_insertions(kind, 1 << 6));
        RUN(test_small_maps(kind));
        RUN(test_stray_keys(kind));
    }
    RUN(test_growth());
    RUN(test_thresholds(call_make));
    RUN(test_thresholds(call_make_room));
    RUN(test_thresholds(call_reserve_slots));
    RUN(test_thresholds(call_reserve));
    RUN(test_thresholds(call_reserve_insertions));
    RUN(test_room());
    RUN(test_limits_of_room());
    RUN(test_large_requests());
    RUN(test_large_requests_with_a_node());
    RUN(test_too_many_slots());
    RUN(test_limits());
    RUN(test_great_numbers());
    RUN(test_equal());
    RUN(test_equal_but_for_one(300, 909, 0));
    RUN(test_equal_but_for_one(300, 909, 1));
    RUN(test_equal_but_for_one(300, 300, 3));
    RUN(test_equal_but_for_one(300, 20000, 7));
    RUN(test_equal_but_for_one(300, 909, 1 << 5));
    RUN(test_equal_but_for_one(200, 909, (uint64_t)1 << 40));
    RUN(test_start());
    RUN(test_cursors());
    RUN(test_walks());
    RUN(test_loop_in_loop());
    RUN(test_changes_in_loop());
    RUN(test_one_slot());
    RUN(test_cuts());
    RUN(test_kept_memory());
    RUN(test_shrinking());
    RUN(test_shrunk_slots());
    RUN(test_shrunk_ids());
    RUN(test_writes_in_walk());
    RUN(test_addresses());
    RUN(test_scrambled_keys());
    RUN(test_scrambling());
    RUN(test_pointers());
    RUN(test_move());
}

// Random calls, on keys of one kind at a time: multiples of a factor, or random ones.

static const struct {
    uint64_t factor;
    size_t count;
} kinds[] = {
    {0, 900}, {1, 40}, {1, 700}, {0x9E3779B97F4A7C15u, 3000}, {UINT64_MAX, 900}, {1 << 12, 600},
    {(uint64_t)1 << 32, 300}, {(uint64_t)1 << 60, 16},
};

static void call_on_key(uint64_t key, uint64_t value, unsigned which) {
    if (which < 40) {
        call_insertion(which % INSERTIONS, key, value);
    } else if (which < 60) {
        call_remove(key);
    } else if (which < 75) {
        call_replace_or_add(which % 2, key, value);
    } else if (which < 80) {
        call_at(key, value);
    } else {
        call_get(key, value);
    }
}

static void call_on_all(uint64_t value, unsigned which) {
    if (which < 40) {
        call_cut(value % 60, value % 5);
    } else if (which < 46) {
        call_keep_marked(value % 60, value | value >> 32);
    } else if (which < 50) {
        check_walk(it, 1 + value % LARGEST_ROOM);
    } else if (which < 55) {
        call_reserve_slots(value % 100);
    } else if (which < 58) {
        call_reserve(value % 300);
    } else if (which < 60) {
        call_reserve_insertions(value % 60);
    } else if (which < 70) {
        call_set_load_factor(200 + value % 3000);
    } else if (which < 80) {
        call_equal();
    } else if (which < 85) {
        call_clone();
    } else if (which < 96) {
        side *before = it;
        it = other;
        other = before;
    } else if (which < 97) {
        call_retain(15);
    } else if (which < 98) {
        call_shrink_to_fit();
    } else if (which < 99) {
        call_clear();
    } else {
        call_make(value % 64);
    }
}

static void call_some(size_t kind) {
    uint64_t key = key_of(number() % kinds[kind].count, kinds[kind].factor), value = number();
    // Small values too, of which 0 is one.
    value = number() % 4 > 0 ? value : value % 3;
    if (number() % 20 > 0) {
        call_on_key(key, value, (unsigned)(number() % 100));
    } else {
        call_on_all(value, (unsigned)(number() % 100));
    }
    check_figures(it);
}

// Other keys, and other maps.
static size_t begin_kind(void) {
    size_t kind = number() % (sizeof kinds / sizeof kinds[0]), capacity = number() % 64;
    call_free(it);
    call_free(other);
    if (capacity % 2) {
        call_make(capacity);
    }
    return kind;
}

static void call_at_random(uint64_t calls) {
    size_t kind = 0;
    for (step = 1; step <= calls; step++) {
        if (step % 4000 == 0) {
            check(it);
            check(other);
            kind = begin_kind();
        }
        // In half of the calls one of the next requests is refused, or all from one on.
        until_refused = step % 1000 < 500 ? 1 + number() % 4 : 0;
        are_all_refused = step % 100 < 50;
        call_some(kind);
        until_refused = 0;
        is_refusing = false;
    }
    are_all_refused = false;
    check(it);
    check(other);
    end_test();
}

int main(int count, char **words) {
    uint64_t calls = count > 1 ? strtoull(words[1], NULL, 10) : 200000;
    seed = count > 2 ? strtoull(words[2], NULL, 10) | 1 : seed;
    end_test();
    test_each();
    RUN(call_at_random(calls));
    printf("%" PRIu64 " calls, %" PRIu64 " requests refused, ", calls, refused);
    printf("%" PRIu64 " blocks left, %" PRIu64 " wrong, ", live_blocks, wrong);
    printf("digest %" PRIx64 "\n", digest);
    return wrong == 0 ? 0 : 1;
}

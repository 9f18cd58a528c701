// SPDX-License-Identifier: MIT
// Makes every call of intmap.hpp, and ends with status 0 if each answered as it says. A tool that
// looks for lost memory finds none.
#include "intmap.hpp"
#include <algorithm>
#include <cstdio>
#include <type_traits>
#include <utility>
#include <vector>

static_assert(!std::is_copy_constructible<IntMap>::value, "a map isn't copied");
static_assert(!std::is_copy_assignable<IntMap>::value, "a map isn't copied");
static_assert(std::is_nothrow_move_constructible<IntMap>::value, "so vectors move maps");
static_assert(std::is_nothrow_move_assignable<IntMap>::value, "so vectors move maps");
static_assert(sizeof(IntMap) == sizeof(intmap), "a map is one word");

static unsigned checks, wrong;

static void expect(bool is_so, int line) {
    checks++;
    wrong += !is_so;
    if (!is_so) {
        std::printf("line %d is wrong\n", line);
    }
}

#define EXPECT(fact) expect(fact, __LINE__)

static bool is(intmap_found_value answer, intmap_status status, uint64_t value) {
    return answer.status == status && answer.value == value;
}

static IntMap squares(uint64_t count) {
    IntMap map;
    for (uint64_t key = 0; key < count; key++) {
        EXPECT(map.put(key, key * key) == INTMAP_ABSENT);
    }
    return map;
}

static void try_example() {
    uint64_t sum = 0;
    IntMap map;
    if (intmap_failed(map.put(21, 7))) {
        std::fputs("out of memory\n", stderr);
    }
    for (const intmap_pair &pair : map) {
        sum += pair.value;
    }
    EXPECT(sum == 7);
}

static void try_calls() {
    IntMap map;
    EXPECT(map.len() == 0 && map.reserve(9) == INTMAP_OK && map.reserve_insertions(9) == INTMAP_OK);
    EXPECT(is(map.insert(21, 7), INTMAP_ABSENT, 0) && map.put(21, 8) == INTMAP_PRESENT);
    EXPECT(map.find_or_insert(21, 9) == INTMAP_PRESENT);
    EXPECT(map.find_or_insert(5, 6) == INTMAP_ABSENT);
    EXPECT(is(map.add_or_insert(5, 4), INTMAP_PRESENT, 6));
    EXPECT(is(map.replace(5, 1), INTMAP_PRESENT, 10));
    EXPECT(is(map.get(21), INTMAP_PRESENT, 8) && map.get_or(22, 3) == 3 && map.contains_key(5));
    EXPECT(is(map.remove(5), INTMAP_PRESENT, 1) && map.len() == 1);
    EXPECT(intmap_capacity(map.word()) == 16);
    map.clear();
    EXPECT(map == IntMap() && !map.contains_key(21));
}

// A range of each number of pairs at which the copied pairs may end.
static void try_ranges() {
    for (uint64_t count : std::vector<uint64_t>{0, 1, 63, 64, 65, 128, 129, 1000}) {
        const IntMap map = squares(count);
        uint64_t passed = 0;
        for (const intmap_pair &pair : map) {
            EXPECT(pair.value == pair.key * pair.key);
            passed++;
        }
        EXPECT(passed == count && std::distance(map.begin(), map.end()) == (std::ptrdiff_t)count);
    }
    const IntMap map = squares(500);
    auto found = std::find_if(map.begin(), map.end(), [](intmap_pair it) { return it.key == 400; });
    EXPECT(found != map.end() && found->value == 160000);
    IntMap::iterator copied = found++;
    EXPECT(copied->key == 400 && found->key != 400 && (++copied)->key == found->key);
}

static void try_moves() {
    IntMap map = squares(100), other = std::move(map);
    EXPECT(map.len() == 0 && other.len() == 100 && map.put(1, 2) == INTMAP_ABSENT);
    map = std::move(other);
    EXPECT(map.len() == 100 && other.len() == 0);
    IntMap &same = map;
    map = std::move(same);
    EXPECT(map == squares(100));
    std::vector<IntMap> maps;
    for (uint64_t count = 0; count < 20; count++) {
        maps.push_back(squares(count));
    }
    EXPECT(maps[7] == squares(7) && maps[7] != maps[8]);
}

static void try_clones() {
    IntMap map = squares(100), copy = squares(3);
    EXPECT(map.clone(copy) == INTMAP_OK && map.clone(map) == INTMAP_OK && map == copy);
    EXPECT(copy.put(5, 0) == INTMAP_PRESENT && map != copy && map.get_or(5, 0) == 25);
}

int main() {
    try_example();
    try_calls();
    try_ranges();
    try_moves();
    try_clones();
    std::printf("%u checks, %u wrong\n", checks, wrong);
    return wrong == 0 ? 0 : 1;
}

// SPDX-License-Identifier: MIT
// Times the calls of one of several maps of C and C++ from 64 bits to 64 bits, one phase after
// another. It takes the arguments of tools/measure_driver/src/main.rt.txt, has its keys, and prints
// the same lines, but fewer. Without arguments it prints the maps' names and versions. khash,
// GLib's GHashTable, uthash and boost's flat map are there if their headers are.
#include "intmap.h"
#include <algorithm>
#include <cinttypes>
#include <cstdio>
#include <cstdlib>
#include <ctime>
#include <string>
#include <unordered_map>
#include <utility>
#include <vector>

#if __has_include(<glib.h>)
#include <glib.h>
#endif
#if __has_include(<khash.h>)
#include <khash.h>
#elif __has_include(<htslib/khash.h>)
#include <htslib/khash.h>
#endif
#if __has_include(<uthash.h>)
#include <uthash.h>
#endif
#if __has_include(<boost/unordered/unordered_flat_map.hpp>)
#include <boost/unordered/unordered_flat_map.hpp>
#include <boost/version.hpp>
#endif

typedef std::vector<uint64_t> numbers;

static void require(bool is_so) {
    if (!is_so) {
        fputs("out of memory\n", stderr);
        exit(1);
    }
}

// The maps under measurement. `put` and `add` return the value before, `find` and `take` the value,
// or 0 if there is none. A map that `makes_room` is made with room for so many pairs.

struct of_intmap {
    enum { makes_room = true };
    intmap map = INTMAP_INIT;
    // room at the load factor of 909 thousandths
    explicit of_intmap(size_t room) {
        require(room == 0 || !intmap_failed(intmap_with_slots(&map, room + room / 10 + 1)));
    }
    ~of_intmap() { intmap_free(&map); }
    uint64_t put(uint64_t key, uint64_t value) {
        intmap_found_value was = intmap_insert(&map, key, value);
        require(!intmap_failed(was.status));
        return was.value;
    }
    uint64_t find(uint64_t key) const { return intmap_get(&map, key).value; }
    uint64_t add(uint64_t key) { return intmap_add_present(&map, key, 1).value; }
    uint64_t take(uint64_t key) { return intmap_remove(&map, key).value; }
    uint64_t walk() const {
        intmap_pair pairs[64];
        intmap_cursor from = intmap_start();
        uint64_t sum = 0;
        while (size_t copied = intmap_copy_pairs(&map, &from, pairs, 64)) {
            for (size_t at = 0; at < copied; at++) {
                sum += pairs[at].key ^ pairs[at].value;
            }
        }
        return sum;
    }
};

#ifdef KHASH_MAP_INIT_INT64
KHASH_MAP_INIT_INT64(numbers, uint64_t)

struct of_khash {
    enum { makes_room = true };
    khash_t(numbers) *map = kh_init(numbers);
    // room at khash's load factor of 0.77
    explicit of_khash(size_t room) {
        require(room == 0 || kh_resize(numbers, map, (khint_t)(room + room / 3 + 1)) >= 0);
    }
    ~of_khash() { kh_destroy(numbers, map); }
    uint64_t put(uint64_t key, uint64_t value) {
        int added;
        khint_t bucket = kh_put(numbers, map, key, &added);
        require(added >= 0);
        uint64_t was = added ? 0 : kh_val(map, bucket);
        kh_val(map, bucket) = value;
        return was;
    }
    uint64_t find(uint64_t key) const {
        khint_t bucket = kh_get(numbers, map, key);
        return bucket == kh_end(map) ? 0 : kh_val(map, bucket);
    }
    uint64_t add(uint64_t key) { return kh_val(map, kh_get(numbers, map, key))++; }
    uint64_t take(uint64_t key) {
        khint_t bucket = kh_get(numbers, map, key);
        uint64_t value = kh_val(map, bucket);
        kh_del(numbers, map, bucket);
        return value;
    }
    uint64_t walk() const {
        uint64_t sum = 0;
        for (khint_t bucket = kh_begin(map); bucket != kh_end(map); bucket++) {
            sum += kh_exist(map, bucket) ? kh_key(map, bucket) ^ kh_val(map, bucket) : 0;
        }
        return sum;
    }
};
#endif

#ifdef __G_LIB_H__
// It has keys and values in its pointers.
struct of_glib {
    enum { makes_room = false };
    GHashTable *map = g_hash_table_new(g_direct_hash, NULL);
    explicit of_glib(size_t) {}
    ~of_glib() { g_hash_table_destroy(map); }
    uint64_t put(uint64_t key, uint64_t value) {
        uint64_t was = find(key);
        set(key, value);
        return was;
    }
    void set(uint64_t key, uint64_t value) {
        g_hash_table_insert(map, GSIZE_TO_POINTER(key), GSIZE_TO_POINTER(value));
    }
    uint64_t find(uint64_t key) const {
        return GPOINTER_TO_SIZE(g_hash_table_lookup(map, GSIZE_TO_POINTER(key)));
    }
    uint64_t add(uint64_t key) {
        uint64_t value = find(key);
        set(key, value + 1);
        return value;
    }
    uint64_t take(uint64_t key) {
        gpointer value = NULL;
        g_hash_table_steal_extended(map, GSIZE_TO_POINTER(key), NULL, &value);
        return GPOINTER_TO_SIZE(value);
    }
    uint64_t walk() const {
        GHashTableIter from;
        gpointer key, value;
        uint64_t sum = 0;
        g_hash_table_iter_init(&from, map);
        while (g_hash_table_iter_next(&from, &key, &value)) {
            sum += GPOINTER_TO_SIZE(key) ^ GPOINTER_TO_SIZE(value);
        }
        return sum;
    }
};
#endif

#ifdef HASH_FIND
struct item {
    uint64_t key, value;
    UT_hash_handle hh;
};

// It has a block for each pair.
struct of_uthash {
    enum { makes_room = false };
    item *map = NULL;
    explicit of_uthash(size_t) {}
    ~of_uthash() {
        item *one, *next;
        HASH_ITER(hh, map, one, next) {
            HASH_DEL(map, one);
            free(one);
        }
    }
    item *at(uint64_t key) const {
        item *found;
        HASH_FIND(hh, map, &key, sizeof key, found);
        return found;
    }
    uint64_t put(uint64_t key, uint64_t value) {
        item *one = at(key);
        if (one != NULL) {
            return std::exchange(one->value, value);
        }
        one = (item *)malloc(sizeof *one);
        require(one != NULL);
        one->key = key;
        one->value = value;
        HASH_ADD(hh, map, key, sizeof one->key, one);
        return 0;
    }
    uint64_t find(uint64_t key) const {
        item *one = at(key);
        return one == NULL ? 0 : one->value;
    }
    uint64_t add(uint64_t key) { return at(key)->value++; }
    uint64_t take(uint64_t key) {
        item *one = at(key);
        uint64_t value = one->value;
        HASH_DEL(map, one);
        free(one);
        return value;
    }
    uint64_t walk() const {
        uint64_t sum = 0;
        for (item *one = map; one != NULL; one = (item *)one->hh.next) {
            sum += one->key ^ one->value;
        }
        return sum;
    }
};
#endif

// A map with the calls of std::unordered_map.
template <typename Map> struct of_std {
    enum { makes_room = true };
    Map map;
    explicit of_std(size_t room) { map.reserve(room); }
    uint64_t put(uint64_t key, uint64_t value) { return std::exchange(map[key], value); }
    uint64_t find(uint64_t key) const {
        auto found = map.find(key);
        return found == map.end() ? 0 : found->second;
    }
    uint64_t add(uint64_t key) { return map.find(key)->second++; }
    uint64_t take(uint64_t key) {
        auto found = map.find(key);
        uint64_t value = found->second;
        map.erase(found);
        return value;
    }
    uint64_t walk() const {
        uint64_t sum = 0;
        for (const auto &pair : map) {
            sum += pair.first ^ pair.second;
        }
        return sum;
    }
};

static uint64_t mixed(uint64_t number) {
    number = (number ^ number >> 30) * 13787848793156543929u;
    number = (number ^ number >> 27) * 10723151780598845931u;
    return number ^ number >> 31;
}

static uint64_t key_at(const std::string &kind, uint64_t place, uint64_t count) {
    uint64_t ten = place / 9, at = place % 9;
    return kind == "random"     ? mixed(place * 11400714819323198485u)
           : kind == "90%"      ? ten * 10 + at + (at >= mixed(ten) % 10)
           : kind == "50%"      ? place * 2 + mixed(place) % 2
           : kind == "even"     ? place * 2
           : kind == "runs"     ? mixed(place / 16) << 4 | place % 16
           : kind == "one-slot" ? place << 20
           : kind == "stray" && place + 1 == count ? (uint64_t)1 << 40
                                                   : place;
}

static numbers keys_of(const std::string &kind, uint64_t from, uint64_t count) {
    numbers keys(count);
    for (uint64_t at = 0; at < count; at++) {
        keys[at] = key_at(kind, from + at, count);
    }
    return keys;
}

static numbers shuffled(const numbers &keys) {
    std::vector<std::pair<uint64_t, uint64_t>> sorted;
    for (size_t at = 0; at < keys.size(); at++) {
        sorted.push_back({mixed(at + 1), keys[at]});
    }
    std::sort(sorted.begin(), sorted.end());
    numbers found;
    for (const auto &pair : sorted) {
        found.push_back(pair.second);
    }
    return found;
}

struct work {
    numbers keys, mixed, absent;
};

static uint64_t nanos(void) {
    struct timespec now;
    clock_gettime(CLOCK_MONOTONIC, &now);
    return (uint64_t)now.tv_sec * 1000000000u + (uint64_t)now.tv_nsec;
}

template <typename Phase>
static __attribute__((noinline)) void phase(const char *name, Phase made) {
    uint64_t start = nanos(), sum = made();
    printf("%s %" PRIu64 " %" PRIu64 "\n", name, nanos() - start, sum);
}

// The sum of what a call returns at each key.
template <typename Call> static inline uint64_t each(const numbers &keys, Call call) {
    uint64_t sum = 0;
    for (uint64_t key : keys) {
        sum += call(key);
    }
    return sum;
}

template <typename Map>
static __attribute__((noinline)) uint64_t put(Map &map, const numbers &keys) {
    return each(keys, [&](uint64_t key) { return map.put(key, key + 1); });
}

template <typename Map>
static __attribute__((noinline)) uint64_t find(const Map &map, const numbers &keys) {
    return each(keys, [&](uint64_t key) { return map.find(key); });
}

template <typename Map>
static __attribute__((noinline)) uint64_t take(Map &map, const numbers &keys) {
    return each(keys, [&](uint64_t key) { return map.take(key); });
}

template <typename Map> static void go(const work &on, bool only_fills) {
    Map &map = *new Map(0);
    if (only_fills) {
        put(map, on.keys);
        return;
    }
    phase("insert", [&] { return put(map, on.keys); });
    phase("get", [&] { return find(map, on.keys); });
    phase("get_shuffled", [&] { return find(map, on.mixed); });
    phase("get_absent", [&] { return find(map, on.absent); });
    phase("iterate", [&] { return map.walk(); });
    phase("add", [&] { return each(on.keys, [&](uint64_t key) { return map.add(key); }); });
    phase("insert_present", [&] { return put(map, on.keys); });
    phase("remove", [&] { return take(map, on.keys); });
    delete &map;
    // a new one, since khash is slow where it removed keys
    Map other(0), *sized = NULL;
    put(other, on.keys);
    phase("remove_shuffled", [&] { return take(other, on.mixed); });
    if (Map::makes_room) {
        phase("insert_with_room", [&] { return put(*(sized = new Map(on.keys.size())), on.keys); });
        delete sized;
    }
}

#define TEXT(it) #it
#define TEXT_OF(it) TEXT(it)

static const struct {
    const char *name, *version;
    void (*go)(const work &, bool);
} maps[] = {
    {"intmap", "", go<of_intmap>},
#ifdef KHASH_MAP_INIT_INT64
    {"khash", AC_VERSION_KHASH_H, go<of_khash>},
#endif
#ifdef __G_LIB_H__
    {"glib", TEXT_OF(GLIB_MAJOR_VERSION.GLIB_MINOR_VERSION), go<of_glib>},
#endif
#ifdef HASH_FIND
    {"uthash", TEXT_OF(UTHASH_VERSION), go<of_uthash>},
#endif
    {"std", "", go<of_std<std::unordered_map<uint64_t, uint64_t>>>},
#ifdef BOOST_LIB_VERSION
    {"boost", BOOST_LIB_VERSION, go<of_std<boost::unordered_flat_map<uint64_t, uint64_t>>>},
#endif
};

int main(int words, char **word) {
    if (words < 5) {
        for (const auto &map : maps) {
            printf("%s%s%s\n", map.name, *map.version ? " " : "", map.version);
        }
        return 0;
    }
    std::string kind = word[2];
    uint64_t count = strtoull(word[3], NULL, 10), times = strtoull(word[4], NULL, 10);
    work on = {keys_of(kind, 0, count), {}, {}};
    // the bytes of more keys would hide the most that a map takes
    if (words < 6) {
        on.mixed = shuffled(on.keys);
        on.keys = kind == "shuffled" ? shuffled(on.mixed) : on.keys;
        on.absent = shuffled(keys_of(kind, count, count));
    }
    for (const auto &map : maps) {
        for (uint64_t at = 0; word[1] == std::string(map.name) && at < times; at++) {
            map.go(on, words > 5);
        }
    }
    return 0;
}

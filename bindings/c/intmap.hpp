// SPDX-License-Identifier: MIT
// Copyright (c) 2026 the Dovaszing maintainers
//
// A map for C++11 that frees its memory at the end of its life, over intmap.h. What this adds isn't
// proved. class.cpp tests it.
//
//     IntMap map;
//     if (intmap_failed(map.put(21, 7))) {
//         std::cerr << "out of memory\n";
//     }
//     for (const intmap_pair &pair : map) {
//         std::cout << pair.key << ": " << pair.value << '\n';
//     }
//
// A member function does what the call of intmap.h does that has its name, and throws nothing. The
// other calls take the address that word() returns: intmap_reserve_slots(map.word(), 100). A map
// that was moved from is empty, and may be used again. A loop goes past the pairs that
// INTMAP_FOR_EACH goes past.
#ifndef INTMAP_HPP
#define INTMAP_HPP

#include "intmap.h"
#include <cstddef>
#include <iterator>

class IntMap {
public:
    // Holds copies of 64 pairs, in some 1,100 bytes.
    class iterator {
    public:
        typedef std::input_iterator_tag iterator_category;
        typedef intmap_pair value_type;
        typedef std::ptrdiff_t difference_type;
        typedef const intmap_pair *pointer;
        typedef const intmap_pair &reference;

        iterator() noexcept : walk(), is_over(true) {}
        explicit iterator(const IntMap &map) noexcept : walk(), is_over(false) {
            intmap_walk_begin(&walk, map.word());
            ++*this;
        }
        reference operator*() const noexcept { return walk.pairs[walk.next - 1]; }
        pointer operator->() const noexcept { return &**this; }
        iterator &operator++() noexcept {
            is_over = intmap_walk_next(&walk) == nullptr;
            return *this;
        }
        iterator operator++(int) noexcept {
            iterator before = *this;
            ++*this;
            return before;
        }
        // Whether both or none have passed all pairs.
        bool operator==(const iterator &other) const noexcept { return is_over == other.is_over; }
        bool operator!=(const iterator &other) const noexcept { return !(*this == other); }

    private:
        intmap_walk walk;
        bool is_over;
    };

    IntMap() noexcept : held() {}
    IntMap(IntMap &&other) noexcept : held(other.held) { other.held = INTMAP_NONE; }
    IntMap &operator=(IntMap &&other) noexcept {
        intmap moved = other.held;
        other.held = INTMAP_NONE;
        intmap_free(&held);
        held = moved;
        return *this;
    }
    ~IntMap() { intmap_free(&held); }

    intmap *word() noexcept { return &held; }
    const intmap *word() const noexcept { return &held; }

    // Makes `to` a copy, also if it is this map.
    INTMAP_MUST_USE intmap_status clone(IntMap &to) const noexcept {
        return this == &to ? INTMAP_OK : intmap_clone(&held, &to.held);
    }
    INTMAP_MUST_USE intmap_status reserve(size_t more) noexcept {
        return intmap_reserve(&held, more);
    }
    INTMAP_MUST_USE intmap_status reserve_insertions(size_t more) noexcept {
        return intmap_reserve_insertions(&held, more);
    }
    INTMAP_MUST_USE intmap_status put(uint64_t key, uint64_t value) noexcept {
        return intmap_put(&held, key, value);
    }
    INTMAP_MUST_USE intmap_found_value insert(uint64_t key, uint64_t value) noexcept {
        return intmap_insert(&held, key, value);
    }
    INTMAP_MUST_USE intmap_status find_or_insert(uint64_t key, uint64_t value) noexcept {
        return intmap_find_or_insert(&held, key, value);
    }
    INTMAP_MUST_USE intmap_found_value add_or_insert(uint64_t key, uint64_t more) noexcept {
        return intmap_add_or_insert(&held, key, more);
    }
    INTMAP_MUST_USE intmap_found_value replace(uint64_t key, uint64_t value) noexcept {
        return intmap_replace(&held, key, value);
    }
    intmap_found_value remove(uint64_t key) noexcept { return intmap_remove(&held, key); }
    void clear() noexcept { intmap_clear(&held); }

    intmap_found_value get(uint64_t key) const noexcept { return intmap_get(&held, key); }
    uint64_t get_or(uint64_t key, uint64_t otherwise) const noexcept {
        return intmap_get_or(&held, key, otherwise);
    }
    bool contains_key(uint64_t key) const noexcept { return intmap_contains_key(&held, key); }
    size_t len() const noexcept { return intmap_len(&held); }
    bool operator==(const IntMap &other) const noexcept { return intmap_equal(&held, &other.held); }
    bool operator!=(const IntMap &other) const noexcept { return !(*this == other); }
    iterator begin() const noexcept { return iterator(*this); }
    iterator end() const noexcept { return iterator(); }

private:
    intmap held;
};

#endif

// Functions that have nothing to do with maps, to try what prints C: the kit's clang makes a module of
// them, tools/portable.py makes C of that, and both are called with the same numbers. They have what
// the printer knows and the library needn't have: a circle of assignments, a `switch`, a loop that
// goes on early, and ways that meet where a struct is returned.
//
// With PRINTED this is the program, behind the printed functions. Without it, it is the functions.
#ifdef PRINTED
#include <stdio.h>
#else
// The kit's clang has no headers.
typedef __UINT8_TYPE__ uint8_t;
typedef __UINT64_TYPE__ uint64_t;
#endif

// The printed requests for memory return such a pair.
typedef struct two {
    uint64_t first, second;
} two;

#ifndef PRINTED
// By bytes, as a module has addresses.
static inline uint64_t get(const char *from, uint64_t index) {
    uint64_t x;
    __builtin_memcpy(&x, from + (index << 3), 8);
    return x;
}

uint64_t fibonacci(uint64_t count) {
    uint64_t a = 0, b = 1;
    while (count-- > 0) {
        uint64_t sum = a + b;
        a = b;
        b = sum;
    }
    return a;
}

two pair_of(uint64_t a, uint64_t b) {
    return (two){a > b ? a : b, a ^ b};
}

two stored(char *bytes, uint64_t a, uint64_t b) {
    if (a > b) {
        __builtin_memcpy(bytes + 8, &a, 8);
    } else {
        bytes[6] = (char)b;
    }
    return (two){a, b};
}

uint64_t cases(char *bytes, uint64_t which) {
    switch (which) {
    case 1: bytes[0] = 3; return 5;
    case 2: bytes[1]++; // and on
    case 3: bytes[2] = bytes[1]; break;
    case 9: return 8;
    case 12: bytes[5] = bytes[4]; break;
    default: bytes[4] = (char)which;
    }
    return (uint8_t)bytes[3] + which + (uint8_t)bytes[2];
}

uint64_t nested(const char *words, uint64_t count) {
    uint64_t sum = 0;
    for (uint64_t x = 0; x < count; x++) {
        for (uint64_t y = x; y < count; y++) {
            if (get(words, y) == 3) {
                return sum + 77;
            }
            if (get(words, x) & 1) {
                sum += get(words, y);
                continue;
            }
            if (get(words, y) > 200) {
                break;
            }
            sum ^= get(words, x) << (y & 7);
        }
    }
    return sum;
}
#else
uint64_t fibonacci(uint64_t), cases(char *, uint64_t), nested(const char *, uint64_t);
two pair_of(uint64_t, uint64_t), stored(char *, uint64_t, uint64_t);

enum { ROUNDS = 100000, WORDS = 64 };

static uint64_t seed = 88172645463325252u;

static uint64_t number(void) {
    seed ^= seed << 13;
    seed ^= seed >> 7;
    seed ^= seed << 17;
    return seed;
}

// How many functions differ on some words and numbers.
static int differing(void) {
    static uint64_t words[WORDS], same[WORDS];
    for (size_t at = 0; at < WORDS; at++) {
        same[at] = words[at] = number() % 260;
    }
    uint64_t count = number() % 50, which = number() % 14;
    char *one = (char *)words, *other = (char *)same;
    int found = fibonacci(count) != do_fibonacci(count);
    found += pair_of(count, which).first != do_pair_of(count, which).first;
    found += nested(one, count) != do_nested(one, count);
    found += cases(one, which) != do_cases(other, which);
    found += stored(one, count, which).second != do_stored(other, count, which).second;
    return found + (memcmp(words, same, sizeof words) != 0);
}

int main(void) {
    unsigned long long wrong = 0;
    for (int round = 0; round < ROUNDS; round++) {
        wrong += differing();
    }
    printf("%d rounds, %llu differ\n", ROUNDS, wrong);
    return wrong != 0;
}
#endif

#include "intmap.h"
#include <stdlib.h>
#include <string.h>

#if UINTPTR_MAX != UINT64_MAX
#error "intmap.c is for processors with addresses of 64 bits"
#endif
#ifdef INTMAP_DEBUG
#error "compile intmap_debug.c, which includes intmap.c, in its place"
#endif

// What gcc and clang add to C. INTMAP_PLAIN_C leaves it out, as it is for other compilers.
#if (defined(__GNUC__) || defined(__clang__)) && !defined(INTMAP_PLAIN_C)
#define HAS_ADDITIONS 1
#else
#define HAS_ADDITIONS 0
#endif

// What the optimiser knew of a function is told to the compiler. Some loops take a tenth longer if
// their function starts in the middle of a line of the cache.
#if HAS_ADDITIONS
#define ALWAYS_INLINE inline __attribute__((always_inline))
#define NOINLINE __attribute__((noinline))
#define COLD __attribute__((noinline, cold))
#define ALIGNED __attribute__((aligned(64)))
#elif defined(_MSC_VER)
#define ALWAYS_INLINE __forceinline
#define NOINLINE __declspec(noinline)
#define COLD __declspec(noinline)
#define ALIGNED
#else
#define ALWAYS_INLINE inline
#define NOINLINE
#define COLD
#define ALIGNED
#endif

// A map's bytes are the same on every machine: the low byte of a number comes first.
#if defined(__BYTE_ORDER__) && __BYTE_ORDER__ == __ORDER_BIG_ENDIAN__
#define HIGH_BYTE_FIRST 1
#define LOW_FIRST_16(x) __builtin_bswap16(x)
#define LOW_FIRST_32(x) __builtin_bswap32(x)
#define LOW_FIRST_64(x) __builtin_bswap64(x)
#else
#define HIGH_BYTE_FIRST 0
#define LOW_FIRST_16(x) (x)
#define LOW_FIRST_32(x) (x)
#define LOW_FIRST_64(x) (x)
#endif

static inline uint8_t load8(const char *at) {
    return (uint8_t)*at;
}

static inline uint16_t load16(const char *at) {
    uint16_t x;
    memcpy(&x, at, 2);
    return LOW_FIRST_16(x);
}

static inline uint32_t load32(const char *at) {
    uint32_t x;
    memcpy(&x, at, 4);
    return LOW_FIRST_32(x);
}

static inline uint64_t load64(const char *at) {
    uint64_t x;
    memcpy(&x, at, 8);
    return LOW_FIRST_64(x);
}

static inline void store8(char *at, uint8_t x) {
    *at = (char)x;
}

static inline void store16(char *at, uint16_t x) {
    x = LOW_FIRST_16(x);
    memcpy(at, &x, 2);
}

static inline void store32(char *at, uint32_t x) {
    x = LOW_FIRST_32(x);
    memcpy(at, &x, 4);
}

static inline void store64(char *at, uint64_t x) {
    x = LOW_FIRST_64(x);
    memcpy(at, &x, 8);
}

#if HIGH_BYTE_FIRST
static inline char *load_address(const char *at) {
    return (char *)(uintptr_t)load64(at);
}

static inline void store_address(char *at, char *x) {
    store64(at, (uint64_t)(uintptr_t)x);
}
#else
static inline char *load_address(const char *at) {
    char *x;
    memcpy(&x, at, 8);
    return x;
}

static inline void store_address(char *at, char *x) {
    memcpy(at, &x, 8);
}
#endif

// Loads the low bytes of a number, at most 8.
static inline uint64_t load_bytes(const char *at, size_t count) {
    uint64_t x = 0;
    memcpy(&x, at, count);
    return LOW_FIRST_64(x);
}

// Stores the low bytes of a number, at most 8.
static inline void store_bytes(char *at, uint64_t x, size_t count) {
    x = LOW_FIRST_64(x);
    memcpy(at, &x, count);
}

// Bits.

#if HAS_ADDITIONS
// The number has a bit that is 1.
static inline uint64_t place_of_lowest_1(uint64_t x) {
    return (uint64_t)__builtin_ctzll(x);
}

static inline uint64_t high_zeros(uint64_t x) {
    return x != 0 ? (uint64_t)__builtin_clzll(x) : 64;
}

static inline uint64_t ones_in(uint64_t x) {
    return (uint64_t)__builtin_popcountll(x);
}
#else
static inline uint64_t ones_in(uint64_t x) {
    x -= x >> 1 & 0x5555555555555555u;
    x = (x & 0x3333333333333333u) + (x >> 2 & 0x3333333333333333u);
    return ((x + (x >> 4)) & 0x0F0F0F0F0F0F0F0Fu) * 0x0101010101010101u >> 56;
}

static inline uint64_t place_of_lowest_1(uint64_t x) {
    return ones_in(~x & (x - 1));
}

static inline uint64_t high_zeros(uint64_t x) {
    x |= x >> 1;
    x |= x >> 2;
    x |= x >> 4;
    x |= x >> 8;
    x |= x >> 16;
    x |= x >> 32;
    return ones_in(~x);
}
#endif

static inline uint64_t greater(uint64_t one, uint64_t other) {
    return one > other ? one : other;
}

static inline uint64_t lesser(uint64_t one, uint64_t other) {
    return one < other ? one : other;
}

static inline uint64_t sum_or_most(uint64_t one, uint64_t other) {
    return one > ~other ? UINT64_MAX : one + other;
}

// The link that two parts make.
static inline uint64_t link_of(uint64_t high, uint64_t low) {
    return high << 32 | low;
}

// The least number of things of a size that take 2^63 bytes or more. No block of memory is so long.
#define TOO_MANY(size) ((uint64_t)INT64_MAX / (size) + 1)

// Numbers of 128 bits, which only the load factor needs.

#if HAS_ADDITIONS && defined(__SIZEOF_INT128__)
__extension__ typedef unsigned __int128 u128;

static inline u128 u128_of(uint64_t x) {
    return x;
}

static inline u128 u128_two(uint64_t high, uint64_t low) {
    return (u128)high << 64 | low;
}

static inline uint64_t u128_low(u128 x) {
    return (uint64_t)x;
}

static inline bool u128_above(u128 one, u128 other) {
    return one > other;
}

static inline u128 u128_add(u128 one, u128 other) {
    return one + other;
}

static inline u128 u128_less_one(u128 x) {
    return x - 1;
}

static inline u128 u128_mul(u128 one, u128 other) {
    return one * other;
}

static inline u128 u128_div(u128 x, u128 by) {
    return x / by;
}
#else
typedef struct u128 {
    uint64_t high, low;
} u128;

static inline u128 u128_two(uint64_t high, uint64_t low) {
    u128 x;
    x.high = high;
    x.low = low;
    return x;
}

static inline u128 u128_of(uint64_t x) {
    return u128_two(0, x);
}

static inline uint64_t u128_low(u128 x) {
    return x.low;
}

static inline bool u128_above(u128 one, u128 other) {
    return one.high > other.high || (one.high == other.high && one.low > other.low);
}

static inline u128 u128_add(u128 one, u128 other) {
    uint64_t low = one.low + other.low;
    return u128_two(one.high + other.high + (low < one.low), low);
}

static inline u128 u128_less_one(u128 x) {
    return u128_two(x.high - (x.low == 0), x.low - 1);
}

static inline u128 u128_mul(u128 one, u128 other) {
    uint64_t half = 0xFFFFFFFFu;
    uint64_t a = one.low & half, b = one.low >> 32, c = other.low & half, d = other.low >> 32;
    uint64_t first = a * c, second = b * c + (first >> 32), third = a * d + (second & half);
    uint64_t high = b * d + (second >> 32) + (third >> 32);
    return u128_two(high + one.high * other.low + one.low * other.high,
                    third << 32 | (first & half));
}

// The divisor is from 1 to 2^63 - 1.
static inline u128 u128_div(u128 x, u128 by) {
    u128 found = u128_of(0);
    uint64_t left = 0;
    for (int at = 127; at >= 0; at--) {
        found = u128_add(found, found);
        left = left << 1 | ((at >= 64 ? x.high >> (at - 64) : x.low >> at) & 1);
        if (left >= by.low) {
            left -= by.low;
            found.low |= 1;
        }
    }
    return found;
}
#endif

// Where things without bytes lie. It has the bytes of a slot, since branches that are never taken store
// one there.
static uint64_t no_bytes[3];

// What functions return. The fields have no names in the module.

// SPDX-License-Identifier: MIT
// A walk, a cut of each second pair and a drain take linear time: per pair at most twelve times as
// long on 1,000,000 pairs as on a thirty-second of them. With a call that began at the first pair
// they would take thirty-two times as long.
#include "intmap.h"
#include <inttypes.h>
#include <stdio.h>
#include <stdlib.h>
#include <time.h>

enum { PAIRS = 1000000, SCALE = 32, ALLOWED = 12 };

static void require(bool is_so, const char *fault) {
    if (!is_so) {
        fprintf(stderr, "%s\n", fault);
        exit(1);
    }
}

// Ids have a slot each, random keys share some.
enum { DENSE, SHUFFLED, RANDOM, KINDS };

static uint64_t key_at(size_t kind, uint64_t place, uint64_t pairs) {
    uint64_t number = place * 11400714819323198485u;
    return kind == DENSE ? place : kind == RANDOM ? number ^ number >> 32 : place * 7919 % pairs;
}

static void walk(intmap *map) {
    intmap_pair pairs[64];
    intmap_cursor from = intmap_start();
    size_t left = intmap_len(map), copied;
    while ((copied = intmap_copy_pairs(map, &from, pairs, 64)) > 0) {
        left -= copied;
    }
    require(left == 0, "a walk left out a pair");
}

// As a program does that keeps some pairs.
static void cut_half(intmap *map) {
    intmap_cursor at = intmap_start();
    size_t count = intmap_len(map);
    for (size_t seen = 0; seen < count; seen++) {
        if (seen % 2) {
            require(intmap_cut(map, &at).status == INTMAP_PRESENT, "a cut found no pair");
        } else {
            intmap_step(map, &at);
        }
    }
    require(intmap_len(map) == count - count / 2, "a cut left a pair");
}

static void drain(intmap *map) {
    intmap_cursor at = intmap_start();
    while (intmap_cut(map, &at).status == INTMAP_PRESENT) {
    }
    require(intmap_len(map) == 0, "a drain left a pair");
}

static const struct {
    const char *name;
    void (*on)(intmap *map);
} passes[] = {{"walk", walk}, {"cut", cut_half}, {"drain", drain}};

// The seconds of the processor that a pass takes, the least of some runs. Other work on the machine
// can make one run take several times as long.
static double seconds(size_t kind, size_t pass, size_t pairs, size_t runs) {
    double least = 0;
    for (size_t run = 0; run < runs; run++) {
        intmap map = INTMAP_NONE;
        for (size_t at = 0; at < pairs; at++) {
            uint64_t key = key_at(kind, at, pairs);
            require(!intmap_failed(intmap_insert(&map, key, 1).status), "out of memory");
        }
        clock_t from = clock();
        passes[pass].on(&map);
        double took = (double)(clock() - from) / CLOCKS_PER_SEC;
        least = run == 0 || took < least ? took : least;
        intmap_free(&map);
    }
    return least;
}

int main(void) {
    for (size_t kind = 0; kind < KINDS; kind++) {
        for (size_t pass = 0; pass < sizeof passes / sizeof passes[0]; pass++) {
            double few = seconds(kind, pass, PAIRS / SCALE, 9);
            double many = seconds(kind, pass, PAIRS, 3);
            printf("%s: %.6f s, of %d times the pairs %.3f s\n", passes[pass].name, few, SCALE,
                   many);
            require(many < ALLOWED * SCALE * few, "it takes more than linear time");
        }
    }
    return 0;
}

// SPDX-License-Identifier: MIT
// Counts the numbers that it reads, and prints each with its count in the order of the walk.
#include "intmap.h"
#include <inttypes.h>
#include <stdio.h>

int main(void) {
    intmap counts = INTMAP_INIT;
    intmap_status status = INTMAP_OK;
    uint64_t number;
    while (!intmap_failed(status) && scanf("%" SCNu64, &number) == 1) {
        status = intmap_add_or_insert(&counts, number, 1).status;
    }
    INTMAP_FOR_EACH(&counts, pair) {
        printf("%" PRIu64 ": %" PRIu64 "\n", pair->key, pair->value);
    }
    printf("%zu numbers in %zu slots\n", intmap_len(&counts), intmap_capacity(&counts));
    intmap_free(&counts);
    if (intmap_failed(status)) {
        fputs("out of memory\n", stderr);
        return 1;
    }
    return 0;
}

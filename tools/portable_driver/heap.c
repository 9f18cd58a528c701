
// Requests for memory. A success has 1 and the block. `same` keeps compilers from making one call of calloc
// of a request and the memset behind it: a program may have a malloc of its own.
static inline struct word_word granted(void *block) {
    void *volatile same = block;
    block = same;
    char *at = block != NULL ? (char *)block : (char *)no_bytes;
    return made_word_word(block != NULL, (uint64_t)(uintptr_t)at);
}

static inline struct word_word rattle_alloc(uint64_t size, uint64_t align) {
    return granted(malloc((size_t)(size != 0 ? size : align)));
}

static inline struct word_word rattle_realloc(char *block, uint64_t before, uint64_t size,
                                              uint64_t align) {
    (void)before;
    return granted(realloc(block, (size_t)(size != 0 ? size : align)));
}

static inline void rattle_dealloc(char *block) {
    free(block);
}

// The functions of the module.

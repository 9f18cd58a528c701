// Refuses one request for memory of the program that it is loaded into by LD_PRELOAD: the one whose
// number the environment names as REFUSED, the first being 1, and none at 0. It then makes the file that
// REFUSED_FILE names, by which the caller knows that the program came to that request. All others are
// granted as ever. Into the file that LIVE_FILE names it writes the number of blocks that the program
// asked for and hasn't freed, at each request and each block that is freed: so the file tells it however
// the program ends. A run that does nothing ends with none, so nothing of the runtime has to be left out.
// Nothing is counted or refused that the C library or the loader asks for themselves.
#define _GNU_SOURCE
#include <dlfcn.h>
#include <errno.h>
#include <fcntl.h>
#include <stddef.h>
#include <stdlib.h>
#include <sys/auxv.h>
#include <sys/mman.h>
#include <unistd.h>

// The C library's own, under the names that it keeps for those who stand before it. A search for the
// next `malloc` by `dlsym` may itself ask for memory.
void *__libc_malloc(size_t size);
void *__libc_calloc(size_t count, size_t size);
void *__libc_realloc(void *block, size_t size);
void *__libc_memalign(size_t alignment, size_t size);
void __libc_free(void *block);

// The blocks that are alive, in the file where there is one.
static long own_count = 0;
static long *live = &own_count;

__attribute__((constructor)) static void open_live_file(void) {
    const char *file = getenv("LIVE_FILE");
    int at = file ? open(file, O_CREAT | O_RDWR, 0600) : -1;
    if (at < 0) {
        return;
    }
    if (!ftruncate(at, sizeof *live)) {
        void *shared = mmap(NULL, sizeof *live, PROT_READ | PROT_WRITE, MAP_SHARED, at, 0);
        live = shared == MAP_FAILED ? live : shared;
    }
    close(at);
}

// Whether code at this place is the program's own: it lies in the file that the program begins in.
static int is_of_program(const void *place) {
    static void *base = NULL;
    Dl_info caller, program;
    if (!base && dladdr((void *)getauxval(AT_ENTRY), &program)) {
        base = program.dli_fbase;
    }
    return base && dladdr(place, &caller) && caller.dli_fbase == base;
}

// Whether the request of a caller is the one to be refused.
static int is_refused(const void *caller) {
    static long requests = 0;
    if (!is_of_program(caller)) {
        return 0;
    }
    const char *refused = getenv("REFUSED");
    const char *file = getenv("REFUSED_FILE");
    requests += 1;
    if (!refused || !file || requests != atol(refused)) {
        return 0;
    }
    close(open(file, O_CREAT | O_WRONLY, 0600));
    errno = ENOMEM;
    return 1;
}

// Counts the block that a caller has, where it has one.
static void *granted(void *block, const void *caller) {
    if (block && is_of_program(caller)) {
        *live += 1;
    }
    return block;
}

// Counts the block that a caller gives up, where it has one.
static void given_up(void *block, const void *caller) {
    if (block && is_of_program(caller)) {
        *live -= 1;
    }
}

#define CALLER __builtin_return_address(0)
#define REFUSED is_refused(CALLER)

void *malloc(size_t size) {
    return REFUSED ? NULL : granted(__libc_malloc(size), CALLER);
}

void *calloc(size_t count, size_t size) {
    return REFUSED ? NULL : granted(__libc_calloc(count, size), CALLER);
}

void *realloc(void *block, size_t size) {
    void *moved = REFUSED ? NULL : granted(__libc_realloc(block, size), CALLER);
    if (moved) {
        given_up(block, CALLER);
    }
    return moved;
}

void *memalign(size_t alignment, size_t size) {
    return REFUSED ? NULL : granted(__libc_memalign(alignment, size), CALLER);
}

void *aligned_alloc(size_t alignment, size_t size) {
    return REFUSED ? NULL : granted(__libc_memalign(alignment, size), CALLER);
}

int posix_memalign(void **block, size_t alignment, size_t size) {
    void *made = REFUSED ? NULL : granted(__libc_memalign(alignment, size), CALLER);
    if (made) {
        *block = made;
    }
    return made ? 0 : ENOMEM;
}

void free(void *block) {
    given_up(block, CALLER);
    __libc_free(block);
}

// SPDX-License-Identifier: MIT
// What INTMAP_DEBUG notices: each mistake has to end the program by abort(), with its line.
//
//     cc -DINTMAP_DEBUG mistakes.c intmap_debug.c -Wl,--wrap=malloc -pthread -o mistakes
//
// Each is made in a child of its own, whose standard error is read. It ends with one line of
// counts, and with status 0 if each was noticed.
#define _GNU_SOURCE
#include "intmap.h"
#include <pthread.h>
#include <setjmp.h>
#include <signal.h>
#include <stdio.h>
#include <stdlib.h>
#include <string.h>
#include <sys/wait.h>
#include <unistd.h>

static intmap map = INTMAP_INIT, copy = INTMAP_INIT, other = INTMAP_INIT;

// What is done within the next request for memory, so in the midst of a call.
static void (*within)(void);

void *__real_malloc(size_t size);

void *__wrap_malloc(size_t size) {
    void (*now)(void) = within;
    within = NULL;
    if (now != NULL) {
        now();
    }
    return __real_malloc(size);
}

// If a status isn't what it should be, a mistake isn't noticed as it should be either.
static void need(bool is_so) {
    if (!is_so) {
        fputs("a call failed before the mistake\n", stderr);
        exit(2);
    }
}

static void make(intmap *word) {
    need(intmap_with_slots(word, 4) == INTMAP_OK);
    need(intmap_insert(word, 1, 2).status == INTMAP_ABSENT);
}

// A copy, whose map was freed.

static void free_map(void) {
    make(&map);
    copy = map;
    intmap_free(&map);
    need(map.at == NULL && intmap_get(&map, 1).status == INTMAP_ABSENT);
}

static void get_of_copy(void) {
    free_map();
    intmap_get(&copy, 1);
}

static void copy_pairs_of_copy(void) {
    intmap_pair pair;
    intmap_cursor at = intmap_start();
    free_map();
    intmap_copy_pairs(&copy, &at, &pair, 1);
}

static void at_of_copy(void) {
    free_map();
    intmap_at(&copy, 1);
}

static void insert_into_copy(void) {
    free_map();
    need(intmap_insert(&copy, 1, 2).status == INTMAP_PRESENT);
}

static void clear_copy(void) {
    free_map();
    intmap_clear(&copy);
}

static void free_copy(void) {
    free_map();
    intmap_free(&copy);
}

static void replace_copy(void) {
    free_map();
    need(intmap_with_slots(&copy, 4) == INTMAP_OK);
}

static void clone_copy(void) {
    free_map();
    need(intmap_clone(&copy, &other) == INTMAP_OK);
}

static void clone_to_copy(void) {
    free_map();
    make(&other);
    need(intmap_clone(&other, &copy) == INTMAP_OK);
}

static void compare_copy(void) {
    free_map();
    make(&other);
    need(intmap_equal(&other, &copy));
}

// The next map may have the place in memory of the one before.
static void get_of_copy_beside_next_map(void) {
    free_map();
    make(&map);
    intmap_get(&copy, 1);
}

// A copy, whose map was replaced.

static void get_behind_next_map(void) {
    make(&map);
    copy = map;
    make(&map);
    intmap_get(&copy, 1);
}

static void len_behind_with_slots(void) {
    make(&map);
    copy = map;
    need(intmap_with_slots(&map, 9) == INTMAP_OK);
    intmap_len(&copy);
}

static void remove_behind_clone(void) {
    make(&map);
    make(&other);
    copy = map;
    need(intmap_clone(&other, &map) == INTMAP_OK);
    intmap_remove(&copy, 1);
}

// Words that no call wrote, and no word.

static void insert_into_any_word(void) {
    memset(&map, 0x5A, sizeof map);
    need(intmap_insert(&map, 1, 2).status == INTMAP_ABSENT);
}

static void len_of_address(void) {
    map.at = &other;
    intmap_len(&map);
}

static void len_of_next_handle(void) {
    make(&map);
    map.at = (void *)((uintptr_t)map.at + 1);
    intmap_len(&map);
}

static void len_of_nothing(void) {
    // through a pointer, since a sanitizer says something of its own of a null in a direct call
    size_t (*volatile len)(const intmap *) = intmap_len;
    len(NULL);
}

static void clone_to_itself(void) {
    make(&map);
    need(intmap_clone(&map, &map) == INTMAP_OK);
}

static void clone_to_own_copy(void) {
    make(&map);
    copy = map;
    need(intmap_clone(&map, &copy) == INTMAP_OK);
}

// A call within another one, which requests memory.

static void get_now(void) {
    intmap_get(&map, 1);
}

static void replace_now(void) {
    need(intmap_replace(&map, 1, 2).status == INTMAP_PRESENT);
}

static void clear_now(void) {
    intmap_clear(&map);
}

static void free_now(void) {
    intmap_free(&map);
}

static void *run(void *what) {
    (*(void (**)(void))what)();
    return NULL;
}

static void in_thread(void (*what)(void)) {
    pthread_t thread;
    need(pthread_create(&thread, NULL, run, &what) == 0 && pthread_join(thread, NULL) == 0);
}

static void get_in_thread(void) {
    in_thread(get_now);
}

static void replace_in_thread(void) {
    in_thread(replace_now);
}

// A second pair of the slot needs a block.
static void insert_with(void (*what)(void)) {
    make(&map);
    within = what;
    need(intmap_insert(&map, ((uint64_t)1 << 40) + 1, 2).status == INTMAP_ABSENT);
}

static void clone_with(void (*what)(void)) {
    make(&map);
    within = what;
    need(intmap_clone(&map, &other) == INTMAP_OK);
}

static void get_within_insert(void) {
    insert_with(get_now);
}

static void replace_within_insert(void) {
    insert_with(replace_now);
}

static void get_in_thread_within_insert(void) {
    insert_with(get_in_thread);
}

static void replace_in_thread_within_insert(void) {
    insert_with(replace_in_thread);
}

static void replace_within_clone(void) {
    clone_with(replace_now);
}

static void replace_in_thread_within_clone(void) {
    clone_with(replace_in_thread);
}

static void clear_within_clone(void) {
    clone_with(clear_now);
}

static void free_within_clone(void) {
    clone_with(free_now);
}

// A jump out of a call, and a handler of a signal that comes in the midst of one.

static jmp_buf behind;

static void jump_now(void) {
    longjmp(behind, 1);
}

static void get_behind_jump(void) {
    if (setjmp(behind) == 0) {
        insert_with(jump_now);
    }
    intmap_get(&map, 1);
}

static void handle(int number) {
    (void)number;
    replace_now();
}

static void signal_now(void) {
    need(signal(SIGUSR1, handle) != SIG_ERR && raise(SIGUSR1) == 0);
}

static void replace_in_handler(void) {
    clone_with(signal_now);
}

static void get_within_with_slots(void) {
    make(&map);
    within = get_now;
    need(intmap_with_slots(&map, 4) == INTMAP_OK);
}

// What is no mistake.

static void move_and_read(void) {
    make(&map);
    other = map;
    map = INTMAP_NONE;
    need(intmap_get_or(&other, 1, 0) == 2 && intmap_equal(&other, &other));
    intmap_free(&other);
    intmap_free(&other);
    need(intmap_clone(&map, &other) == INTMAP_OK && intmap_equal(&map, &other));
    clone_with(get_in_thread);
    need(intmap_equal(&map, &other));
}

// The records go through several blocks, and the first maps stay.
static void make_many(void) {
    static intmap maps[1000];
    for (uint64_t at = 0; at < 1000; at++) {
        need(intmap_insert(&maps[at], at, at + 1).status == INTMAP_ABSENT);
    }
    for (uint64_t at = 0; at < 1000; at++) {
        need(intmap_len(&maps[at]) == 1 && intmap_get_or(&maps[at], at, 0) == at + 1);
        intmap_free(&maps[at]);
    }
}

static const char COPY[] = "the word is a copy, and its map was freed or replaced";
static const char UNKNOWN[] = "no call wrote the word, and it isn't INTMAP_INIT; "
                              "or a file was compiled without INTMAP_DEBUG";
static const char NOWHERE[] = "the address of the word is null";
static const char SAME[] = "both words have one map";
static const char CHANGING[] = "another call is changing the map";
static const char READING[] = "another call is reading the map";

// `call` is the one that notices, if there is one.
static const struct {
    void (*make)(void);
    const char *name, *call, *what;
} mistakes[] = {
#define MISTAKE(make, call, what) {make, #make, call, what}
    MISTAKE(get_of_copy, "intmap_get", COPY),
    MISTAKE(copy_pairs_of_copy, "intmap_copy_pairs", COPY),
    MISTAKE(at_of_copy, "intmap_place", COPY),
    MISTAKE(insert_into_copy, "intmap_insert", COPY),
    MISTAKE(clear_copy, "intmap_clear", COPY),
    MISTAKE(free_copy, "intmap_free", COPY),
    MISTAKE(replace_copy, "intmap_with_slots", COPY),
    MISTAKE(clone_copy, "intmap_clone", COPY),
    MISTAKE(clone_to_copy, "intmap_clone", COPY),
    MISTAKE(compare_copy, "intmap_equal", COPY),
    MISTAKE(get_of_copy_beside_next_map, "intmap_get", COPY),
    MISTAKE(get_behind_next_map, "intmap_get", COPY),
    MISTAKE(len_behind_with_slots, "intmap_len", COPY),
    MISTAKE(remove_behind_clone, "intmap_remove", COPY),
    MISTAKE(insert_into_any_word, "intmap_insert", UNKNOWN),
    MISTAKE(len_of_address, "intmap_len", UNKNOWN),
    MISTAKE(len_of_next_handle, "intmap_len", UNKNOWN),
    MISTAKE(len_of_nothing, "intmap_len", NOWHERE),
    MISTAKE(clone_to_itself, "intmap_clone", SAME),
    MISTAKE(clone_to_own_copy, "intmap_clone", SAME),
    MISTAKE(get_within_insert, "intmap_get", CHANGING),
    MISTAKE(replace_within_insert, "intmap_replace", CHANGING),
    MISTAKE(get_in_thread_within_insert, "intmap_get", CHANGING),
    MISTAKE(replace_in_thread_within_insert, "intmap_replace", CHANGING),
    MISTAKE(replace_within_clone, "intmap_replace", READING),
    MISTAKE(replace_in_thread_within_clone, "intmap_replace", READING),
    MISTAKE(clear_within_clone, "intmap_clear", READING),
    MISTAKE(free_within_clone, "intmap_free", READING),
    MISTAKE(get_behind_jump, "intmap_get", CHANGING),
    MISTAKE(replace_in_handler, "intmap_replace", READING),
    MISTAKE(get_within_with_slots, "intmap_get", CHANGING),
    MISTAKE(move_and_read, NULL, NULL),
    MISTAKE(make_many, NULL, NULL),
};

enum { MISTAKES = sizeof mistakes / sizeof mistakes[0], LONGEST = 200 };

// Runs a child, and reads what it says. Returns how it ended.
static int run_child(void (*make)(void), char *said) {
    int ends[2], how = 0;
    need(pipe(ends) == 0);
    pid_t child = fork();
    if (child == 0) {
        dup2(ends[1], STDERR_FILENO);
        close(ends[0]);
        make();
        _exit(0);
    }
    close(ends[1]);
    ssize_t length = 0, more;
    while ((more = read(ends[0], said + length, (size_t)(LONGEST - length))) > 0) {
        length += more;
    }
    said[length] = '\0';
    close(ends[0]);
    need(child > 0 && waitpid(child, &how, 0) == child);
    return how;
}

static bool is_noticed(size_t at) {
    char said[LONGEST + 1], wanted[LONGEST + 1] = "";
    int how = run_child(mistakes[at].make, said);
    bool is_mistake = mistakes[at].call != NULL;
    if (is_mistake) {
        snprintf(wanted, sizeof wanted, "%s: %s\n", mistakes[at].call, mistakes[at].what);
    }
    bool is_ended = is_mistake ? WIFSIGNALED(how) && WTERMSIG(how) == SIGABRT : how == 0;
    bool is_so = is_ended && strcmp(said, wanted) == 0;
    if (!is_so) {
        printf("%s ended with %d, and said: %s\n", mistakes[at].name, how, said);
    }
    return is_so;
}

int main(void) {
    size_t wrong = 0;
    for (size_t at = 0; at < MISTAKES; at++) {
        wrong += !is_noticed(at);
    }
    printf("%d cases, %zu wrong\n", MISTAKES, wrong);
    return wrong == 0 ? 0 : 1;
}

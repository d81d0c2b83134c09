/* Random numbers, texts and failing allocations for tests that compare the library with a plain text (model.h). Link programs
 * that include this with --wrap=malloc and --wrap=realloc. */
#ifndef RANDOM_H
#define RANDOM_H

#include "model.h"
#include <stdio.h>

static uint64_t state = 88172645463325252u;
static const char *now = "";

static inline uint64_t draw(void) {
    state ^= state << 13;
    state ^= state >> 7;
    state ^= state << 17;
    return state;
}

static inline size_t below(size_t n) { return (size_t)(draw() % n); }

/* Reads a program's arguments: the number of rounds, `usual` by default, and then a seed of the random numbers. */
static inline long rounds_of(int argc, char **argv, long usual) {
    state += argc > 2 ? (uint64_t)atoll(argv[2]) * 0x9E3779B97F4A7C15u : 0;
    return argc > 1 ? atol(argv[1]) : usual;
}

static inline void fail(int line, const char *what) {
    fprintf(stderr, "%s, line %d: %s\n", now, line, what);
    abort();
}

#define CHECK(fact) ((fact) ? (void)0 : fail(__LINE__, #fact))

/* Allocations, one of which can be refused. */
static long refuse_at = -1;
static bool refused = false;

void *__real_malloc(size_t size);
void *__real_realloc(void *block, size_t size);

static inline bool is_refused(void) {
    if (refuse_at < 0 || refuse_at-- != 0) {
        return false;
    }
    refused = true;
    return true;
}

void *__wrap_malloc(size_t size) { return is_refused() ? NULL : __real_malloc(size); }

void *__wrap_realloc(void *block, size_t size) { return is_refused() ? NULL : __real_realloc(block, size); }

/* Decides before a call whether one of its allocations fails; `disarm` lets the later ones succeed. */
static inline void arm(void) {
    refused = false;
    refuse_at = below(8) == 0 ? (long)below(6) : -1;
}

static inline ropey_status disarm(ropey_status status) {
    refuse_at = -1;
    CHECK(status != ROPEY_OUT_OF_MEMORY || refused);
    return status;
}

#define CALL(call) (arm(), disarm(call))

static const uint32_t letters[] = {'a', 'b', ' ', '\n', '\n', '\r', '\r', 0x0B, 0x85, 0xE9, 0x2028, 0x2029, 0x4E2D, 0xFEFF, 0x1F600, 0x10FFFF};

static inline model drawn_text(size_t longest) {
    size_t len = below(longest + 1);
    model m = model_of(letters, 0, ROPEY_LF);
    free(m.chars);
    m.chars = malloc((len + 1) * sizeof *m.chars);
    m.len = len;
    for (size_t i = 0; i < len; i++) {
        m.chars[i] = letters[below(sizeof letters / sizeof *letters)];
    }
    return m;
}

#endif

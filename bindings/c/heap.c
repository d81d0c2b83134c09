/* The heap's three functions over malloc, realloc and free, for processors for which the kit has no archive. Rattle's libc
 * declares them, with contracts: `ok` tells whether there is a block. The library needs an alignment of at most 16, which
 * malloc guarantees. A block of 0 bytes has the size of its alignment. */
#include <stdbool.h>
#include <stddef.h>
#include <stdlib.h>

typedef struct {
    bool ok;
    void *p;
} tried;

tried rattle_alloc(size_t n, size_t a);
tried rattle_realloc(void *p, size_t kept, size_t n, size_t a);
void rattle_dealloc(void *p);

/* Returns a pointer to a dummy, not null, if there is no block. */
static tried of(void *block) {
    static char nothing;
    return block == NULL ? (tried){false, &nothing} : (tried){true, block};
}

tried rattle_alloc(size_t n, size_t a) { return of(malloc(n == 0 ? a : n)); }

tried rattle_realloc(void *p, size_t kept, size_t n, size_t a) {
    (void)kept;
    return of(realloc(p, n == 0 ? a : n));
}

void rattle_dealloc(void *p) { free(p); }

/* The library's memory over malloc, which refuses what failing.h says: linked before the library, in place
 * of heap.c. */
#include "failing.h"
#include "zirmegat_memory.h"
#include <stdlib.h>

static const char nowhere[16];
static unsigned long asked, every, once;
static long held;

void fail_every(unsigned long n) { asked = 0; every = n; once = 0; }
void fail_once(unsigned long n) { asked = 0; once = n; every = 0; }
long blocks_held(void) { return held; }

static int is_refused(void) {
    asked++;
    return (every && asked % every == 0) || (once && asked == once);
}

static struct zmg_block block(void *at) {
    struct zmg_block b;
    b.given = at != NULL;
    b.at = at != NULL ? at : (void *)nowhere;
    return b;
}

struct zmg_block zmg_alloc(size_t size, size_t align) {
    struct zmg_block b = block(is_refused() ? NULL : malloc(size ? size : align));
    held += b.given;
    return b;
}

struct zmg_block zmg_realloc(void *at, size_t kept, size_t size, size_t align) {
    (void)kept;
    return block(is_refused() ? NULL : realloc(at, size ? size : align));
}

void zmg_dealloc(void *at) {
    held--;
    free(at);
}

/* The three functions through which the library asks for memory, over malloc, realloc and free. */
#include "zirmegat_memory.h"
#include <stdlib.h>

static const char nowhere[16] = { 0 };

static struct zmg_block block(void *at) {
    struct zmg_block b;
    b.given = at != NULL;
    b.at = at != NULL ? at : (void *)nowhere;
    return b;
}

struct zmg_block zmg_alloc(size_t size, size_t align) { return block(malloc(size ? size : align)); }

struct zmg_block zmg_realloc(void *at, size_t kept, size_t size, size_t align) {
    (void)kept;
    return block(realloc(at, size ? size : align));
}

void zmg_dealloc(void *at) { free(at); }

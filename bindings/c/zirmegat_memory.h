/* zirmegat_memory.h: the functions through which the archive asks for memory. C99 and C++11.
 *
 * The archive defines them over malloc, realloc and free (heap.c). An engine that defines all three itself,
 * in front of the archive, replaces them by its own. Nothing warns if the types differ from these, since a
 * linker compares names alone: include this header where you define them. The shared library always uses the
 * C library's functions. */
#ifndef ZIRMEGAT_MEMORY_H
#define ZIRMEGAT_MEMORY_H

#include <stddef.h>
#include <stdint.h>

#ifdef __cplusplus
extern "C" {
#endif

/* What zmg_alloc and zmg_realloc return. given: 1, or 0 if there is no memory. at: the block; if there is
 * none, any pointer but NULL. */
struct zmg_block {
    uint8_t given;
    void *at;
};

/* Returns a block of size bytes, aligned as zirmegat.h requires of malloc. If size is 0, returns any pointer
 * that the other two take. The three are called on each thread that uses a handle, also for blocks that
 * another thread allocated. */
struct zmg_block zmg_alloc(size_t size, size_t align);

/* Returns the block at `at`, resized from kept bytes to size bytes, which may have moved. The first bytes, as
 * many as fit into both sizes, stay as they are. If there is no memory, the block stays as it was. */
struct zmg_block zmg_realloc(void *at, size_t kept, size_t size, size_t align);

/* Frees a block that one of the two returned. */
void zmg_dealloc(void *at);

#ifdef __cplusplus
}
#endif

#endif

/* Ends the program where something does not hold. */
#ifndef MUST_H
#define MUST_H

#include <stddef.h>

/* `what` says what should be so, and `where` where it is not. */
void must(int holds, const char *what);
/* tells which game is played, for the message */
void must_tell(const char *where);
/* The memory, which must be some. */
void *must_have(void *memory);
/* So many bytes of zero. */
void *must_get(size_t bytes);

#endif

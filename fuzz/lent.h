/* The lent buffers of the fuzz target, each with memory around it that nobody may touch. */
#ifndef LENT_H
#define LENT_H

#include <stddef.h>
#include <stdint.h>

#include "../include/ouinet_reader.h"

/* The longest piece that is fed. */
#define MOST_PIECE 65536
/* The longest URI that is asked for: any that a head can have, and as much again. */
#define MOST_URI (2 * OUINET_READER_HEAD_SIZE)

struct lent {
    uint8_t *state, *head, *block, *question, *result, *piece, *ring, *uri;
};

/* The buffers, made at the first call. Each ends where a page begins that cannot be read or written; head, block and question,
   which fill whole pages, begin so too. A step beyond them stops the program, whoever takes it. */
const struct lent *lent(void);

/* Stops the program where something is not as it must be. */
void must(int is_so, const char *what);

#endif

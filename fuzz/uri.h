/* The URI that the fuzz target asks for: the head's, or one made of it. */
#ifndef URI_H
#define URI_H

#include <stddef.h>
#include <stdint.h>

/* Asks for the URI in the head at the front of a stream, changed as the number says; 0: unchanged. Whether it is the head's. */
int ask_for(uint8_t change, const uint8_t *stream, size_t length);

/* Asks for some other URI, as a number says. */
void ask_otherwise(uint64_t number);

/* What is asked for. It ends where a page begins that cannot be read. */
const uint8_t *asked_uri(void);
size_t asked_length(void);

#endif

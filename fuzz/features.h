/* What the fuzzer is told that it reached, beside the branches of the target itself. */
#ifndef FEATURES_H
#define FEATURES_H

#include <stdint.h>

/* A word was said, and with it this number. */
void feature_of_word(uint8_t word, uint64_t first);

#endif

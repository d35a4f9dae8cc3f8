/* Words by the checks that they break, for tests and benchmarks. */
#ifndef BREAKS_H
#define BREAKS_H

#include <stdint.h>

/* Flips parity bits of the word so that the check is flipped, and no other: but for codes 4 and 5, where an even number
 * of checks of a block row is broken whatever the word, the last check of its block row too; and for that last one no bit is
 * flipped. The code is 1 to 5 and the word has its length. */
void break_check(uint8_t code, uint32_t check, uint8_t *word);

#endif

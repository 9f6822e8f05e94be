/* What is missing in a story's book, in words: how many messages were refused or could not be read, which they are, and why. */
#ifndef REFUSALS_H
#define REFUSALS_H

#include "story.h"

/* How much is missing in the book: one line, for those that look no further. Of a complete story there is nothing to say. */
void tell_missing(const story *told, char line[MOST_LINE]);

/* Which they are: the line of the next messages in a row that were refused for the same reason, from message `at` (from 0) on, which moves behind them.
 * Messages refused by 10 or 11 have the same reason only where the same was wrong with the same entry. False where no more are refused. */
bool next_refusal(const story *told, size_t *at, char line[MOST_LINE]);

/* The documents' words for an answer number. */
const char *words_of(uint8_t answer);

#endif

/*
 * Packing setups and messages into bytes, for examples and stories only.
 *
 * Nothing is refused here: stories pack wrong setups and messages on purpose.
 * A field is cut to its width.  Codes, rows and entries past the most that a
 * structure holds are left out, whatever the count says.
 */
#ifndef PACKING_H
#define PACKING_H

#include "reference.h"

/* 34 bits, 8 codes and 64 rows; 92 bits and 50 entries. */
enum { MOST_SETUP_BYTES = 631, MOST_MESSAGE_BYTES = 224 };

/* Both give the number of bytes written; zero bits fill the last. */
size_t pack_setup(const struct setup *setup, uint8_t bytes[MOST_SETUP_BYTES]);
size_t pack_message(const struct message *message, uint8_t bytes[MOST_MESSAGE_BYTES]);

/* How many bits of the last byte of these are padding. */
unsigned padding_of_setup(const struct setup *setup);
unsigned padding_of_message(const struct message *message);

#endif

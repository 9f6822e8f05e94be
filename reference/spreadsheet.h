/*
 * Volumes from a spreadsheet: change request A5, written a second time and
 * independently.
 *
 * Everything here follows A5's own sentences and RFC 4180's grammar, which A5
 * names.  A comment in quotes is a sentence of A5, or a rule of the RFC where
 * it says so; "(decided)" marks a reading that was settled because A5 leaves
 * it open (README.md lists them).
 *
 * There are four languages, each within the one before: well-formed CSV (29);
 * of these the files with the header and two fields a record (30); of these
 * the files whose fields are such numbers (31); of these the files of at most
 * 50 entries (32), which are the valid ones.
 */
#ifndef SPREADSHEET_H
#define SPREADSHEET_H

#include "reference.h"

/* "Period is one or two digits." */
enum { HIGHEST_PERIOD_IN_A_FILE = 99 };

/* As it is written: the header's line, and 50 lines of 14 bytes. */
enum { MOST_SPREADSHEET_BYTES = 711 };

/* Places past the count are no part of it; read, they are zero.  The count may
 * say more than 50 entries; only 50 are held. */
struct spreadsheet {
    unsigned count;
    struct entry entry[MOST_ENTRIES];
};

/* 0, or 29 to 32.  The place is that of the byte at which it was decided,
 * counted from 0; "the end counts as one", so with 0, and with a refusal at the
 * end, it is the length.  With a refusal the spreadsheet is all zero. */
enum answer read_spreadsheet(const uint8_t *bytes, size_t length,
                             struct spreadsheet *spreadsheet, size_t *place);

/* 23, then 24.  Bytes past what is written stay; a refusal changes none and
 * has written none. */
enum answer write_spreadsheet(const struct spreadsheet *spreadsheet, uint8_t *bytes,
                              size_t room, size_t *written);

/* ---- The same reading, a byte at a time ----
 *
 * Of each of the first three languages the positions in its grammar that the
 * bytes may have come to, as a set of bits; and, for the fourth, how many
 * records have begun.
 *
 * The first question builds the grammars.  Where several threads ask, one has
 * to have asked before the others. */
enum { GRAMMARS = 3 };

struct read_so_far {
    uint64_t positions[GRAMMARS];
    unsigned records;
};

struct read_so_far nothing_read(void);
void read_on(struct read_so_far *so_far, uint8_t byte);

/* 0 where a valid file can begin so; else the lowest of 29 to 32 whose
 * language has no file that begins so. */
enum answer refusal_so_far(const struct read_so_far *so_far);

/* 0 where this is a valid file; else the lowest of 29 to 32 whose language it
 * is not in. */
enum answer refusal_at_the_end(const struct read_so_far *so_far);

#endif

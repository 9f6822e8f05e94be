/* A book with its three tables in ordinary memory: what is going to be lent, or what was. Lengths are as said, sound or not. */
#ifndef TABLES_H
#define TABLES_H

#include "ghendufika.h"

enum {
    MOST_LENT_SLOTS = 300, /* more than the 256 that a book may have */
    MOST_LENT_PLACES = MOST_LENT_SLOTS * GHENDUFIKA_MOST_DAYS * GHENDUFIKA_PLACES_A_DAY,
    MOST_ROWS = 64
};

struct tables {
    ghendufika_book book;
    size_t slots, lent1, lent2;
    uint32_t held[MOST_LENT_SLOTS];
    int32_t side1[MOST_LENT_PLACES], side2[MOST_LENT_PLACES];
};

void copy_tables(struct tables *to, const struct tables *from);

/* Another number of slots, or other lengths: places and slots that are new hold nothing. */
void resize_tables(struct tables *tables, size_t slots, size_t lent1, size_t lent2);

/* Field by field, since the bytes between fields are nobody's. Rows and codes past the counts are compared too. */
bool same_setup(const ghendufika_setup *one, const ghendufika_setup *other);
bool same_book(const ghendufika_book *one, const ghendufika_book *other);

/* Of a book whose setup is right. */
unsigned periods_on(const ghendufika_setup *setup, unsigned day_place);
unsigned periods_before_day(const ghendufika_setup *setup, unsigned day_place);

#endif

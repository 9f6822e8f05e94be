/* The second program's word (reference/, written from document 01 apart from the proved code) on the same book. */
#ifndef SECOND_H
#define SECOND_H

#include "reference.h"
#include "tables.h"

extern struct book second;

/* Tells it the book and the tables. Its own tables have one size, so lent lengths that do not fit are told as a book with no slot: not sound
 * either. Gives whether they fit. */
bool tell(const struct tables *tables);

/* Whether lent tables of the lengths told hold what its book holds now. */
bool holds_as_second(const uint32_t *held, const int32_t *side1, const int32_t *side2);

struct setup told_setup(const ghendufika_setup *setup);
struct notification told_notification(const ghendufika_notification *notification);
struct nullification told_nullification(const ghendufika_nullification *nullification);
ghendufika_setup setup_of_second(const struct setup *setup);

/* A packed setup, and the lengths of the tables that are lent for it. */
struct handed {
    const uint8_t *bytes;
    size_t length, slots, lent1, lent2;
};

/* How it reads a packed setup: read_setup, or read_checked_setup, which asks the calendar. */
typedef enum answer setup_reader(const uint8_t *bytes, size_t length, struct setup *setup, size_t *used);

/* What this reader should answer where lent lengths count too; 0 bytes used with a refusal. */
enum answer setup_expected(setup_reader *reader, const struct handed *handed, struct setup *setup, size_t *used);

bool lengths_fit(size_t slots, size_t days, size_t lent1, size_t lent2);

#endif

/* A story, which is a packed setup and then packed messages as the sheet program reads them, taken into a book. What every program on
 * ghendufika.h does first: lend tables, read the setup, open the book, apply the messages. What was refused or could not be read is kept beside
 * the book, since a book that lacks a message looks like any other. */
#ifndef STORY_H
#define STORY_H

#include "ghendufika.h"

/* As many slots as a book may have, so that no identifier is refused that a book could hold. */
enum { SLOTS = GHENDUFIKA_MOST_SLOTS, MOST_PLACES = SLOTS * GHENDUFIKA_MOST_DAYS * GHENDUFIKA_PLACES_A_DAY, MOST_LINE = 320 };

/* How a program leaves. NOT_ALL_SHOWN: what it shows lacks a message that was refused or could not be read, and says so. */
enum { ALL_SHOWN = 0, NOT_ALL_SHOWN = 1, NOTHING_SHOWN = 2 };

typedef struct {
    uint8_t *bytes; /* to be freed */
    size_t length;
} input;

typedef struct {
    char trouble[MOST_LINE]; /* why there is no book; empty where there is one */
    ghendufika_book book;
    uint32_t held[SLOTS];
    int32_t side1[MOST_PLACES], side2[MOST_PLACES];
    size_t lent;               /* places of each side that the book takes of them */
    input packed;              /* the setup and the messages */
    uint8_t *answers;          /* one a message */
    uint8_t *entries_at_fault; /* one a message: the place, from 0, of the entry for which 10 or 11 refused it; else 0 */
    size_t *starts;            /* one a message: where it begins in `packed` */
    size_t messages, refused;  /* `refused` are those that the book refused; an unreadable last one is none of them */
    size_t unread;             /* bytes of the message that could not be read and of all behind it */
} story;

/* The lent tables, as the functions of the header take them. */
#define LENT(told) (told)->held, SLOTS, (told)->side1, (told)->lent, (told)->side2, (told)->lent

/* All bytes of a file, or of standard input for "-". False, with errno, where they cannot be read; where they are more than `most`, that is EFBIG. */
bool read_file(const char *path, input *all);
bool read_file_up_to(const char *path, size_t most, input *all);

/* How many places of each side a book of so many days takes. Of more days than a book may have there is nothing to lend; they are refused in any case. */
size_t places_of_days(size_t days);

/* The same for a packed setup, before it is read. */
size_t places_for(const input *all);

/* Reads a file, or standard input for "-". False, with the trouble, where there is no book: the file cannot be read or its setup is refused. */
bool read_story(const char *path, story *told);

/* Frees what the story holds, whether it was read or not. */
void forget_story(story *told);

/* Every message was read and done. */
bool is_complete(const story *told);

/* The last message could not be read, so nothing behind it was seen. */
bool is_cut_short(const story *told);

/* The identifier that a slot holds. `held` has 0 for none, else one more than originator * 65536 + reference (docs/DECISIONS.md, 23). */
unsigned originator_of(const story *told, unsigned slot);
unsigned reference_of(const story *told, unsigned slot);

/* Periods of a day of the book, and how many of them are closed. Nothing can be agreed any more in a period whose gate is closed. */
unsigned periods_on(const story *told, unsigned day);
unsigned gates_closed_on(const story *told, unsigned day);

/* Where a period of an identifier's day stands in both side tables. */
size_t place_of(const story *told, unsigned slot, unsigned day, unsigned period);

/* A whole number and nothing else, not above `most`. */
bool is_number(const char *text, unsigned long most, unsigned *number);

/* The last call of a program: the status, or NOTHING_SHOWN with a word on standard error where standard output could not be written. */
int leave(const char *program, int status);

#endif

/* What is asked just now, so that a failure can say it in words; how often each answer number came; and how a check fails. */
#ifndef CHECK_H
#define CHECK_H

#include "guarded.h"
#include "tables.h"

#include <stdio.h>

enum said {
    SAY_BYTES = 1, SAY_FIELD = 2, SAY_TABLES = 4, SAY_NOTIFICATION = 8, SAY_NULLIFICATION = 16, SAY_ACCOUNT = 32,
    SAY_DAY = 64, SAY_PERIOD = 128, SAY_IDENTIFIER = 256, SAY_SIDE = 512, SAY_ROOM = 1024, SAY_LENGTHS = 2048, SAY_SETUP = 4096, SAY_KIND = 8192,
    SAY_DATE = 16384, SAY_DAYS = 32768, SAY_SPREADSHEET = 65536
};

/* The arguments of the call; `parts` says which of them it has. Its tables are `before`. Numbers that are asked about may be any of 32 bits. */
struct asked {
    const char *name;
    unsigned parts;
    const uint8_t *bytes;
    size_t length;
    uint32_t field;
    ghendufika_setup setup;
    ghendufika_notification notification;
    struct { uint32_t account, other, first; } nullification;
    uint8_t kind;
    uint32_t account, day, period, originator, reference, side;
    struct { uint32_t year, month, day; } date;
    uint32_t days; /* so many, from `day` on */
    ghendufika_spreadsheet spreadsheet;
    size_t room[3];
    size_t slots, lent1, lent2;
};
extern struct asked asked;

/* The tables as they are lent, before the call. */
extern struct tables before;

/* Where a run is: printed with a failure, and enough to see it again. */
extern uint64_t seed, episode, calls;
extern bool in_words; /* every call is said, not only one that fails */

/* Begins a call: its name, and which arguments `asked` has. */
void ask(const char *name, unsigned parts);

void say_call(FILE *out);
_Noreturn void fail(const char *promise);
void must(bool holds, const char *promise);

/* Faults of the machine and calls that do not come back fail too. */
void watch_for_faults(void);

/* A row of the table at the end: which numbers can come, and how often each came. */
enum { MOST_NUMBERS = 33 };
struct seen {
    const char *name;
    const char *can_come; /* "0 1 2" */
    const char *cannot;   /* numbers that document 01 lists and that never come, with the reason; or NULL */
    uint64_t times[MOST_NUMBERS];
    bool possible[MOST_NUMBERS];
};

void expect(struct seen *seen);                /* enters the row */
void note(struct seen *seen, unsigned number); /* counts it, and fails where the number cannot come */
bool print_seen(void);                         /* false where a number that can come was not seen */

#endif

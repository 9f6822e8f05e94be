/* What an account is shown of a day of a story: a bar for each identifier that it is a party of, and each period. Every figure is the proved code's,
 * seen from the account. */
#ifndef VIEW_H
#define VIEW_H

#include "story.h"

enum standing { AGREED, DISAGREED, OWN_ONLY, OTHER_ONLY, NOTHING, STANDINGS };

/* What an identifier says of a period: this account's side and the other's, in MWh with plus for sold. A side that says nothing has 0. */
typedef struct {
    enum standing standing;
    double own, other;
} bar;

typedef struct {
    unsigned originator, reference, other; /* `other` is the account it is with */
    bar bars[GHENDUFIKA_PLACES_A_DAY];
} identifier;

typedef struct {
    const story *told;
    unsigned account, day, periods, closed;
    ghendufika_day_figures figures;
    unsigned count;
    identifier seen[SLOTS];
    unsigned volumes[STANDINGS][2], zeros[STANDINGS]; /* bars by standing; volumes[..][1] are those whose gate is closed */
} view;

/* Words for the first four standings. */
extern const char *const standing_words[];

/* Fills the view of its story, account and day. The number that refuses the question, or 0: never a view that lacks a bar. */
uint8_t look(view *seen);

/* Stated and no volume, which is not nothing. */
bool is_zero(const bar *shown);

bool is_closed(const view *seen, unsigned period);

/* Not even a zero. */
bool stands_nothing(const view *seen);

/* A day number as a date; the text holds until the next call. */
const char *date_of(unsigned day);

#endif

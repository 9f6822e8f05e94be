/* Our book held against the central agent's feedback, place by place; see against.h. Where nothing stands is not zero: a place that only one of the
 * two states differs, whatever its volume. */
#include "against.h"

#include <inttypes.h>
#include <stdio.h>
#include <stdlib.h>

/* Our book's places as the feedback has its own. */
static int by_place(const void *one, const void *other) { return in_order(one, other); }

static bool gather(const story *told, feedback *ours) {
    size_t count = 0;
    ours->places = malloc(2 * told->lent * sizeof ours->places[0]);
    if (ours->places == NULL) return false;
    for (unsigned slot = 0; slot < SLOTS; slot++)
        for (unsigned k = 0; k < told->book.setup.days && told->held[slot] != 0; k++)
            for (unsigned period = 1; period <= periods_on(told, told->book.setup.first + k); period++)
                for (unsigned side = 1; side <= 2; side++) {
                    unsigned day = told->book.setup.first + k;
                    int32_t kwh = (side == 1 ? told->side1 : told->side2)[place_of(told, slot, day, period)];
                    if (kwh != GHENDUFIKA_MARK) ours->places[count++] = (stated){originator_of(told, slot), reference_of(told, slot), side, day, period, kwh, 0};
                }
    ours->count = count;
    qsort(ours->places, count, sizeof ours->places[0], by_place);
    return true;
}

enum standing { ALIKE, DIFFERENT, OURS_ONLY, THEIRS_ONLY, STANDINGS };

/* Periods in a row of an identifier's side and day that differ by the same. A volume that is not the same in all of them is shown as various. */
typedef struct {
    stated first;
    unsigned last_period;
    enum standing standing;
    int32_t ours, theirs;
    bool ours_vary, theirs_vary;
} range;

static range range_of(const stated *place, int32_t ours, int32_t theirs) {
    enum standing standing = theirs == GHENDUFIKA_MARK ? OURS_ONLY : ours == GHENDUFIKA_MARK ? THEIRS_ONLY : ours == theirs ? ALIKE : DIFFERENT;
    return (range){*place, place->period, standing, ours, theirs, false, false};
}

static bool goes_on(const range *open, const range *next) {
    stated follows = open->first;
    follows.period = open->last_period + 1;
    return in_order(&follows, &next->first) == 0 && open->standing == next->standing
        && (int64_t)open->ours - open->theirs == (int64_t)next->ours - next->theirs;
}

static void take_in(range *open, const range *next) {
    open->last_period = next->first.period;
    open->ours_vary = open->ours_vary || open->ours != next->ours;
    open->theirs_vary = open->theirs_vary || open->theirs != next->theirs;
}

static void print_volume(int32_t kwh, bool varies) {
    if (varies) printf("  %11s", "various");
    else if (kwh == GHENDUFIKA_MARK) printf("  %11s", "nothing");
    else printf("  %11" PRId32, kwh);
}

static void print_range(const range *open) {
    char name[16], periods[16];
    int32_t more = open->standing == DIFFERENT ? open->ours - open->theirs : 0;
    if (open->standing == ALIKE) return;
    snprintf(name, sizeof name, "%u/%u", open->first.originator, open->first.reference);
    if (open->first.period == open->last_period) snprintf(periods, sizeof periods, "%u", open->last_period);
    else snprintf(periods, sizeof periods, "%u to %u", open->first.period, open->last_period);
    printf("%10s  %4u  %5u  %8s", name, open->first.side, open->first.day, periods);
    print_volume(open->ours, open->ours_vary);
    print_volume(open->theirs, open->theirs_vary);
    if (open->standing == DIFFERENT) printf("  DIFFERENT, our book has %" PRId32 " %s\n", more < 0 ? -more : more, more < 0 ? "less" : "more");
    else printf("  %s\n", open->standing == OURS_ONLY ? "OUR BOOK ONLY" : "FEEDBACK ONLY");
}

/* The authorisation of a pair, as its number; that behind the last stands for all that our book does not have. */
static bool is_of(const story *told, unsigned originator, unsigned row) {
    const ghendufika_setup *setup = &told->book.setup;
    if (row == setup->authorisations || originator >= setup->authorisations) return row == setup->authorisations && originator >= setup->authorisations;
    return setup->rows[originator].account1 == setup->rows[row].account1 && setup->rows[originator].account2 == setup->rows[row].account2;
}

static void print_head(const story *told, unsigned row) {
    const ghendufika_setup *setup = &told->book.setup;
    if (row == setup->authorisations) printf("\nOf no authorisation that our book has\n");
    else printf("\nFirst party (side 1): account %u; second party (side 2): account %u; kWh, plus where account %u sells\n", setup->rows[row].account1,
                setup->rows[row].account2, setup->rows[row].account1);
    printf("identifier  side    day   periods     our book     feedback  what differs\n");
}

static void print_counts(const char *whose, const unsigned counts[STANDINGS]) {
    printf("%s: places alike %u, different %u, our book only %u, feedback only %u\n", whose, counts[ALIKE], counts[DIFFERENT], counts[OURS_ONLY],
           counts[THEIRS_ONLY]);
}

/* Both in their order, beside each other. */
static void hold_pair(const story *told, const feedback *ours, const feedback *theirs, unsigned row, unsigned counts[STANDINGS]) {
    range open = {.standing = ALIKE};
    size_t i = 0, k = 0;
    while (i < ours->count || k < theirs->count) {
        int order = i == ours->count ? 1 : k == theirs->count ? -1 : in_order(&ours->places[i], &theirs->places[k]);
        const stated *place = order <= 0 ? &ours->places[i] : &theirs->places[k];
        range next = range_of(place, order <= 0 ? ours->places[i].kwh : GHENDUFIKA_MARK, order >= 0 ? theirs->places[k].kwh : GHENDUFIKA_MARK);
        i += order <= 0;
        k += order >= 0;
        if (!is_of(told, place->originator, row)) continue;
        if (counts[ALIKE] + counts[DIFFERENT] + counts[OURS_ONLY] + counts[THEIRS_ONLY] == 0) print_head(told, row);
        counts[next.standing]++;
        if (goes_on(&open, &next)) take_in(&open, &next);
        else {
            print_range(&open);
            open = next;
        }
    }
    print_range(&open);
}

/* Of the authorisations of one pair the first is asked, so that each pair comes once, in the order of its accounts. */
static bool is_first_of_pair(const story *told, unsigned row) {
    for (unsigned earlier = 0; earlier < row; earlier++)
        if (is_of(told, earlier, row)) return false;
    return true;
}

static void hold_row(const story *told, const feedback *ours, const feedback *theirs, unsigned row, unsigned sums[STANDINGS]) {
    unsigned counts[STANDINGS] = {0}, places = 0;
    char whose[48];
    hold_pair(told, ours, theirs, row, counts);
    for (int standing = 0; standing < STANDINGS; standing++) {
        sums[standing] += counts[standing];
        places += counts[standing];
    }
    const ghendufika_setup *setup = &told->book.setup;
    if (row == setup->authorisations) snprintf(whose, sizeof whose, "no authorisation");
    else snprintf(whose, sizeof whose, "accounts %u and %u", setup->rows[row].account1, setup->rows[row].account2);
    if (places > 0) print_counts(whose, counts);
}

int hold_against(const story *told, const feedback *said) {
    feedback ours = {NULL, 0};
    const ghendufika_setup *setup = &told->book.setup;
    unsigned sums[STANDINGS] = {0};
    if (!gather(told, &ours)) {
        fprintf(stderr, "check_feedback: no memory for our book's places\n");
        return NOTHING_SHOWN;
    }
    for (unsigned account1 = 0; account1 < setup->accounts; account1++)
        for (unsigned account2 = 0; account2 < setup->accounts; account2++)
            for (unsigned row = 0; row < setup->authorisations; row++)
                if (setup->rows[row].account1 == account1 && setup->rows[row].account2 == account2 && is_first_of_pair(told, row))
                    hold_row(told, &ours, said, row, sums);
    hold_row(told, &ours, said, setup->authorisations, sums);
    free(ours.places);
    printf("\n");
    print_counts("in all", sums);
    bool same = sums[DIFFERENT] + sums[OURS_ONLY] + sums[THEIRS_ONLY] == 0;
    printf(same ? "Our book has what the feedback has.\n" : "To be cleared with the central agent.\n");
    return same && is_complete(told) ? ALL_SHOWN : NOT_ALL_SHOWN;
}

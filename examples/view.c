/* What an account is shown of a day; see view.h. */
#include "view.h"

#include <stdio.h>
#include <time.h>

const char *const standing_words[] = {"agreed", "disagreed", "this account only", "the other only"};

bool is_zero(const bar *shown) { return shown->own == 0 && shown->other == 0; }

bool is_closed(const view *seen, unsigned period) { return period <= seen->closed; }

static bar bar_of(uint8_t case_number, double first, double second, bool on_side_one, bool own_stands) {
    if (case_number == GHENDUFIKA_AGREED) return (bar){AGREED, first, first};
    /* Side 1's figure comes first, and this account may be on either side. */
    if (case_number == GHENDUFIKA_DISAGREED) return on_side_one ? (bar){DISAGREED, first, second} : (bar){DISAGREED, second, first};
    if (case_number == GHENDUFIKA_ONE_SIDE) return own_stands ? (bar){OWN_ONLY, first, 0} : (bar){OTHER_ONLY, 0, first};
    return (bar){NOTHING, 0, 0};
}

/* The number that refuses the question, or 0; an identifier of other accounts is passed over. */
static uint8_t look_at(view *seen, unsigned slot) {
    const story *told = seen->told;
    unsigned originator = originator_of(told, slot), reference = reference_of(told, slot);
    uint8_t cases[GHENDUFIKA_PLACES_A_DAY];
    double firsts[GHENDUFIKA_PLACES_A_DAY], seconds[GHENDUFIKA_PLACES_A_DAY];
    uint8_t answer = ghendufika_day_marks(told->book, LENT(told), originator, reference, seen->account, seen->day, cases, GHENDUFIKA_PLACES_A_DAY, firsts,
                                          GHENDUFIKA_PLACES_A_DAY, seconds, GHENDUFIKA_PLACES_A_DAY);
    if (answer != GHENDUFIKA_DONE) return answer == GHENDUFIKA_NO_SUCH_ACCOUNT ? GHENDUFIKA_DONE : answer;

    const ghendufika_authorisation *pair = &told->book.setup.rows[originator];
    bool on_side_one = pair->account1 == seen->account;
    const int32_t *own_side = on_side_one ? told->side1 : told->side2;
    identifier *one = &seen->seen[seen->count++];
    one->originator = originator;
    one->reference = reference;
    one->other = on_side_one ? pair->account2 : pair->account1;
    for (unsigned p = 0; p < seen->periods; p++) {
        /* A mark of one side does not say which; the side's own table does. */
        bool own_stands = own_side[place_of(told, slot, seen->day, p + 1)] != GHENDUFIKA_MARK;
        one->bars[p] = bar_of(cases[p], firsts[p], seconds[p], on_side_one, own_stands);
        if (is_zero(&one->bars[p])) seen->zeros[one->bars[p].standing]++;
        else seen->volumes[one->bars[p].standing][is_closed(seen, p + 1)]++;
    }
    return GHENDUFIKA_DONE;
}

uint8_t look(view *seen) {
    const story *told = seen->told;
    ghendufika_figured figured = ghendufika_figures(told->book, LENT(told), seen->account, seen->day);
    if (figured.answer != GHENDUFIKA_DONE) return figured.answer;
    seen->figures = figured.day;
    seen->periods = periods_on(told, seen->day);
    seen->closed = gates_closed_on(told, seen->day);
    uint8_t answer = GHENDUFIKA_DONE;
    for (unsigned slot = 0; slot < SLOTS && answer == GHENDUFIKA_DONE; slot++)
        if (told->held[slot] != 0) answer = look_at(seen, slot);
    return answer; /* never a picture that lacks a bar */
}

bool stands_nothing(const view *seen) {
    unsigned count = 0;
    for (int standing = AGREED; standing < NOTHING; standing++) count += seen->volumes[standing][0] + seen->volumes[standing][1] + seen->zeros[standing];
    return count == 0;
}

/* Day 0 is 1 January 2000. */
const char *date_of(unsigned day) {
    static char text[64];
    time_t seconds = (time_t)946684800 + (time_t)day * 86400;
    const struct tm *date = gmtime(&seconds);
    char weekday[16], month_and_year[32];
    strftime(weekday, sizeof weekday, "%A", date);
    strftime(month_and_year, sizeof month_and_year, "%B %Y", date);
    snprintf(text, sizeof text, "%s %d %s", weekday, date->tm_mday, month_and_year);
    return text;
}

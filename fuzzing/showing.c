/* What a book shows: totals, day figures, rows and marks. All tables are lent read-only. Floats are compared by their bits. */
#include "exports.h"

#include "called.h"
#include "chance.h"
#include "lending.h"
#include "numbers.h"
#include "second.h"

#include <string.h>

static bool same_bits(double one, double other) { return memcmp(&one, &other, sizeof one) == 0; }

static unsigned length_of_asked_day(void) { return day_length(&second.setup, asked.day - second.setup.first_day); }

static void ask_about_account(void) {
    lend_model();
    asked.account = widened(some_account(&model));
    asked.day = widened(some_day(&model));
    asked.period = widened(some_period(&model, asked.day));
}

static void ask_about_identifier(void) {
    ask_about_account();
    some_identifier(&before, &asked.originator, &asked.reference);
    asked.side = widened((uint32_t)(one_in(8) ? ONE_OF(0, 3, 255) : between(1, 2)));
}

/* ---- totals */

/* "Totals count matched volumes only, plus for account 1, minus for account 2", from the lent tables themselves. */
static int64_t sum_of_matched(void) {
    const uint32_t *held = lent_held();
    const int32_t *side1 = lent_side1(), *side2 = lent_side2();
    int64_t sum = 0;
    for (size_t slot = 0; slot < before.slots; slot++) {
        size_t day = (size_t)asked.day - before.book.setup.first;
        size_t place = (slot * before.book.setup.days + day) * GHENDUFIKA_PLACES_A_DAY + asked.period - 1u;
        if (held[slot] == 0 || side1[place] == GHENDUFIKA_MARK || side1[place] != side2[place]) continue;
        const ghendufika_authorisation *pair = &before.book.setup.rows[(held[slot] - 1) / 65536];
        if (pair->account1 == asked.account) sum += side1[place];
        if (pair->account2 == asked.account) sum -= side1[place];
    }
    return sum;
}

void try_total(void) {
    int64_t kwh;
    ask_about_account();
    enum answer expected = account_total(&second, asked.account, asked.day, asked.period, &kwh);
    ask("ghendufika_total", SAY_TABLES | SAY_ACCOUNT | SAY_DAY | SAY_PERIOD);
    ghendufika_totalled totalled = ghendufika_total(before.book, TABLES_TO_READ, asked.account, asked.day, asked.period);
    note(&seen_total, totalled.answer);
    must(totalled.answer == expected, "the answer to a total is the second program's");
    must(totalled.kwh == kwh, "a total is the second program's, and 0 with a refusal");
    must(expected != DONE || totalled.kwh == sum_of_matched(), "a total is the sum over the slots of matched volumes, signed for the account");
}

static void check_day_totals(const uint8_t *filled, unsigned periods) {
    for (unsigned period = 1; period <= periods; period++) {
        int64_t kwh, expected;
        memcpy(&kwh, filled + (period - 1) * sizeof kwh, sizeof kwh);
        account_total(&second, asked.account, asked.day, period, &expected);
        must(kwh == expected, "each total of a day is the second program's");
        if (before.slots > 16 && period > 3) return; /* the second program tests a large book for each period */
    }
}

void try_day_totals(void) {
    int64_t kwh;
    ask_about_account();
    asked.room[0] = one_in(4) ? below(51) : (size_t)between(45, 60);
    enum answer expected = account_total(&second, asked.account, asked.day, 1, &kwh);
    unsigned periods = expected == DONE ? length_of_asked_day() : 0;
    unsigned answer_expected = expected == DONE && asked.room[0] < periods ? 24 : expected;
    void *buffer = lend_buffer(0, asked.room[0] * sizeof kwh);
    ask("ghendufika_day_totals", SAY_TABLES | SAY_ACCOUNT | SAY_DAY | SAY_ROOM);
    uint8_t answer = ghendufika_day_totals(before.book, TABLES_TO_READ, asked.account, asked.day, buffer, asked.room[0]);
    note(&seen_day_totals, answer);
    must(answer == answer_expected, "the answer to a day of totals is the second program's, and then 24 where there is no room");
    check_buffer(0, answer == DONE ? periods * sizeof kwh : 0);
    if (answer == DONE) check_day_totals(buffers[0].part.to_read, periods);
}

/* ---- day figures */

void try_figures(void) {
    struct day_figures figures;
    ask_about_account();
    enum answer expected = ask_day_figures(&second, asked.account, asked.day, &figures);
    ask("ghendufika_figures", SAY_TABLES | SAY_ACCOUNT | SAY_DAY);
    ghendufika_figured figured = ghendufika_figures(before.book, TABLES_TO_READ, asked.account, asked.day);
    note(&seen_figures, figured.answer);
    must(figured.answer == expected, "the answer to day figures is the second program's");
    must(same_bits(figured.day.sold, figures.sold) && same_bits(figured.day.bought, figures.bought) && same_bits(figured.day.net, figures.net),
         "the day figures are the second program's, bit by bit, and positive zero with a refusal");
}

/* ---- rows and marks */

void try_row_refusal(void) {
    struct row row;
    ask_about_identifier();
    enum answer expected = ask_row(&second, asked.originator, asked.reference, asked.side, asked.day, &row);
    ask("ghendufika_row_refusal", SAY_TABLES | SAY_IDENTIFIER | SAY_DAY | SAY_SIDE);
    uint8_t answer = ghendufika_row_refusal(before.book, TABLES_TO_READ, asked.originator, asked.reference, asked.day, asked.side);
    note(&seen_row_refusal, answer);
    must(answer == expected, "the answer to a row is the second program's");
}

static void check_day_marks(unsigned periods) {
    const uint8_t *cases = buffers[0].part.to_read;
    for (unsigned period = 1; period <= periods; period++) {
        struct mark mark;
        double first, second_figure;
        memcpy(&first, buffers[1].part.to_read + (period - 1) * sizeof first, sizeof first);
        memcpy(&second_figure, buffers[2].part.to_read + (period - 1) * sizeof first, sizeof first);
        ask_mark(&second, asked.originator, asked.reference, asked.account, asked.day, period, &mark);
        note(&seen_case, cases[period - 1]);
        must(cases[period - 1] == mark.mark_case, "each mark of a day is Blank, OneSide, Agreed or Disagreed as the second program's");
        must(same_bits(first, mark.first) && same_bits(second_figure, mark.second), "the figures of a mark are the second program's, bit by bit");
        if (before.slots > 16 && period > 3) return;
    }
}

/* Room for a day of marks: mostly enough, else one of the three too short by a little. */
static void some_rooms(void) {
    for (unsigned which = 0; which < 3; which++) asked.room[which] = (size_t)(one_in(12) ? ONE_OF(0, 1, 45, 46, 47, 48, 49, 49) : between(50, 60));
}

void try_day_marks(void) {
    struct mark mark;
    ask_about_identifier();
    some_rooms();
    enum answer expected = ask_mark(&second, asked.originator, asked.reference, asked.account, asked.day, 1, &mark);
    unsigned periods = expected == DONE ? length_of_asked_day() : 0;
    bool short_of_room = asked.room[0] < periods || asked.room[1] < periods || asked.room[2] < periods;
    uint8_t *cases = lend_buffer(0, asked.room[0]);
    double *firsts = lend_buffer(1, asked.room[1] * sizeof(double)), *seconds = lend_buffer(2, asked.room[2] * sizeof(double));
    ask("ghendufika_day_marks", SAY_TABLES | SAY_IDENTIFIER | SAY_ACCOUNT | SAY_DAY | SAY_ROOM);
    uint8_t answer = ghendufika_day_marks(before.book, TABLES_TO_READ, asked.originator, asked.reference, asked.account, asked.day, cases, asked.room[0],
                                          firsts, asked.room[1], seconds, asked.room[2]);
    note(&seen_day_marks, answer);
    must(answer == (expected == DONE && short_of_room ? 24 : (unsigned)expected),
         "the answer to a day of marks is the second program's, and then 24 where there is no room");
    check_buffer(0, answer == DONE ? periods : 0);
    check_buffer(1, answer == DONE ? periods * sizeof(double) : 0);
    check_buffer(2, answer == DONE ? periods * sizeof(double) : 0);
    if (answer == DONE) check_day_marks(periods);
}


void try_mark(void) {
    struct mark mark;
    ask_about_identifier();
    enum answer expected = ask_mark(&second, asked.originator, asked.reference, asked.account, asked.day, asked.period, &mark);
    ask("ghendufika_mark", SAY_TABLES | SAY_IDENTIFIER | SAY_ACCOUNT | SAY_DAY | SAY_PERIOD);
    ghendufika_marked marked = ghendufika_mark(before.book, TABLES_TO_READ, asked.originator, asked.reference, asked.account, asked.day, asked.period);
    note(&seen_mark, marked.answer);
    note(&seen_case, marked.bar);
    must(marked.answer == expected, "the answer to a mark is the second program's");
    must(marked.bar == mark.mark_case, "a mark is Blank, OneSide, Agreed or Disagreed as the second program's, and Blank with a refusal");
    must(same_bits(marked.first, mark.first) && same_bits(marked.second, mark.second),
         "the figures of a mark are the second program's, bit by bit, and positive zero with a refusal");
}

/* The row is a part of the side's own table: the slot's and the day's. The second program's row lies in its own table of another size. */
static void check_row_place(const ghendufika_row_place *place, const struct row *row) {
    const int32_t *side = asked.side == 1 ? lent_side1() : lent_side2();
    size_t slot = 0, day = (size_t)asked.day - before.book.setup.first;
    while (lent_held()[slot] != 1u + asked.originator * 65536u + asked.reference) slot++;
    must(place->start == (slot * before.book.setup.days + day) * GHENDUFIKA_PLACES_A_DAY, "a row starts at its slot's day");
    must(place->length == row->length, "a row is as long as its day");
    must(memcmp(side + place->start, row->volume, row->length * sizeof side[0]) == 0, "a row holds what the second program's holds");
}

void try_row(void) {
    struct row row;
    ask_about_identifier();
    enum answer expected = ask_row(&second, asked.originator, asked.reference, asked.side, asked.day, &row);
    ask("ghendufika_row", SAY_TABLES | SAY_IDENTIFIER | SAY_DAY | SAY_SIDE);
    ghendufika_row_place place = ghendufika_row(before.book, TABLES_TO_READ, asked.originator, asked.reference, asked.day, asked.side);
    note(&seen_row, place.answer);
    must(place.answer == expected, "the answer to a row is the second program's");
    if (expected == DONE) check_row_place(&place, &row);
    else must(place.start == 0 && place.length == 0, "a refused row is empty");
}


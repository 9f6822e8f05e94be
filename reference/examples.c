/*
 * Examples from the paper's table P1 to P13, from change requests A1, A2 and
 * A3 and from "Packed messages".
 *
 *   examples      checks them; exits non-zero if one fails
 *   examples p1   writes the packed P1 story of "The sheet program"
 *   examples a3   writes a packed story of entries at fault
 */
#include "packing.h"
#include "reference.h"

#include <math.h>
#include <stdio.h>
#include <string.h>

static struct book book;
static struct acceptance accepted;
static unsigned checks;
static unsigned failures;

static void check(bool holds, const char *words, int line)
{
    checks++;
    if (holds)
        return;
    failures++;
    fprintf(stderr, "examples: line %d: %s\n", line, words);
}

#define CHECK(holds) check(holds, #holds, __LINE__)

/* ---- The table's book ---- */

static const struct setup table_setup = {
    .first_day = 100,
    .days = 3,
    .accounts = 3,
    .authorisations = 3,
    .day_code = {1, 0, 2},
    .authorisation = {
        {{7, 9}, {0, 1}, 500, 0, EVERGREEN, TYPE_BOTH},
        {{7, 7}, {1, 2}, 600, 0, EVERGREEN, TYPE_REPLACEMENT},
        {{7, 9}, {0, 1}, 700, 0, 99, TYPE_BOTH},
    },
};

static void open_table(void)
{
    CHECK(open_book(&book, &table_setup, 16) == DONE);
    CHECK(sound_book(&book));
}

/* Sends a notification, packed and read again on the way. */
static enum answer send_packed(const struct notification *n, size_t bytes_expected)
{
    struct message message = {.kind = NOTIFICATION, .notification = *n};
    struct message read;
    uint8_t bytes[MOST_MESSAGE_BYTES];
    size_t used;
    size_t length = pack_message(&message, bytes);

    CHECK(length == bytes_expected);
    CHECK(read_message(bytes, length, &read, &used) == DONE);
    CHECK(used == length);
    accepted.place = 99;

    enum answer answer = notify(&book, &read.notification, &accepted);

    CHECK(sound_book(&book));
    /* A3: only 10 and 11 carry a place; one entry's is 0 with these too. */
    CHECK(accepted.place == 0
          || (n->count > 1 && (answer == PERIODS_WRONG || answer == VOLUME_OUT_OF_RANGE)));
    return answer;
}

/* Sends a notification of one entry (none where the period is 0). */
static enum answer send(unsigned authorisation, unsigned agent, unsigned originator,
                        unsigned reference, unsigned first, unsigned last, unsigned period,
                        int32_t volume)
{
    struct notification n = {
        .authorisation = authorisation,
        .agent = agent,
        .key = table_setup.authorisation[authorisation].key,
        .originator = originator,
        .reference = reference,
        .first_day = first,
        .last_day = last,
        .count = period == 0 ? 0 : 1,
        .entry = {{period, volume}},
    };

    return send_packed(&n, period == 0 ? 12 : 16);
}

static int64_t total(unsigned account, unsigned day, unsigned period)
{
    int64_t kwh;

    CHECK(account_total(&book, account, day, period, &kwh) == DONE);
    return kwh;
}

static int32_t place(unsigned originator, unsigned reference, unsigned side, unsigned day,
                     unsigned period)
{
    struct row row;

    CHECK(ask_row(&book, originator, reference, side, day, &row) == DONE);
    CHECK(period <= row.length);
    return row.volume[period - 1];
}

static struct mark mark(unsigned account, unsigned day, unsigned period)
{
    struct mark seen;

    CHECK(ask_mark(&book, 0, 1, account, day, period, &seen) == DONE);
    return seen;
}

static bool nothing_stands_on_side(unsigned originator, unsigned reference, unsigned side,
                                   unsigned day)
{
    struct row row;

    CHECK(ask_row(&book, originator, reference, side, day, &row) == DONE);
    for (unsigned p = 0; p < row.length; p++)
        if (row.volume[p] != NOTHING_STANDS)
            return false;
    return true;
}

static bool nothing_stands_on(unsigned originator, unsigned reference, unsigned day)
{
    return nothing_stands_on_side(originator, reference, 1, day)
        && nothing_stands_on_side(originator, reference, 2, day);
}

/* ---- P1 to P13 ---- */

static void p1(void)
{
    open_table();
    CHECK(send(0, 7, 0, 1, 100, 100, 1, 5000) == DONE);
    CHECK(accepted.kind == INITIAL && accepted.slot == 0);
    CHECK(total(0, 100, 1) == 0);
    CHECK(mark(0, 100, 1).mark_case == ONE_SIDE && mark(0, 100, 1).first == 5.0);
    CHECK(mark(1, 100, 1).first == -5.0);
    /* An omitted period is zero, and positive zero from either account. */
    CHECK(mark(1, 100, 2).mark_case == ONE_SIDE && mark(1, 100, 2).first == 0.0);
    CHECK(!signbit(mark(1, 100, 2).first));
    CHECK(mark(0, 101, 1).mark_case == BLANK);
}

static void p2(void)
{
    p1();
    CHECK(send(0, 9, 0, 1, 100, 100, 1, 5000) == DONE);
    CHECK(accepted.kind == INITIAL && accepted.slot == 0);
    CHECK(total(0, 100, 1) == 5000 && total(1, 100, 1) == -5000);
    CHECK(mark(1, 100, 1).mark_case == AGREED && mark(1, 100, 1).first == -5.0);

    struct day_figures figures;

    CHECK(ask_day_figures(&book, 1, 100, &figures) == DONE);
    CHECK(figures.sold == 0.0 && figures.bought == 5.0 && figures.net == -5.0);
}

static void p3(void)
{
    p1();
    CHECK(send(0, 9, 0, 1, 100, 100, 1, 4999) == DONE);
    CHECK(total(0, 100, 1) == 0 && total(1, 100, 1) == 0);
    CHECK(mark(1, 100, 1).mark_case == DISAGREED);
    CHECK(mark(1, 100, 1).first == -5.0 && mark(1, 100, 1).second == -4.999);
}

static void p4(void)
{
    open_table();
    CHECK(send(0, 7, 0, 1, 100, 100, 1, 99999999) == DONE);
    CHECK(send(0, 9, 0, 1, 100, 100, 1, -99999999) == DONE);
    CHECK(place(0, 1, 1, 100, 1) == 99999999 && place(0, 1, 2, 100, 1) == -99999999);
    CHECK(send(0, 7, 0, 1, 100, 100, 1, 100000000) == VOLUME_OUT_OF_RANGE);
    CHECK(send(0, 7, 0, 1, 100, 100, 1, -100000000) == VOLUME_OUT_OF_RANGE);
    CHECK(send(0, 7, 0, 1, 100, 100, 1, 134217727) == VOLUME_OUT_OF_RANGE);
    CHECK(send(0, 7, 0, 1, 100, 100, 1, -134217728) == VOLUME_OUT_OF_RANGE);
    CHECK(place(0, 1, 1, 100, 1) == 99999999);
}

static void p5(void)
{
    open_table();
    CHECK(send(1, 7, 1, 1, 100, EVERGREEN, 1, -20) == DONE);
    CHECK(accepted.kind == INITIAL && accepted.slot == 0);
    for (unsigned day = 100; day <= 102; day++)
        CHECK(total(1, day, 1) == -20 && total(2, day, 1) == 20);
    CHECK(place(1, 1, 1, 102, 50) == 0);
}

static void p6(void)
{
    p5();
    CHECK(send(1, 7, 1, 1, 101, 101, 1, 30) == DONE);
    CHECK(accepted.kind == REPLACEMENT && accepted.slot == 0);
    CHECK(total(1, 100, 1) == -20 && total(1, 101, 1) == 30 && total(1, 102, 1) == 0);
    CHECK(nothing_stands_on(1, 1, 102));
}

static void p7(void)
{
    p5();
    CHECK(send(1, 7, 1, 2, 101, 101, 1, 30) == ADDITIONAL_REFUSED);
    CHECK(!book.slot[1].held);
}

static void p8(void)
{
    open_table();
    CHECK(send(0, 7, 2, 5, 100, 100, 1, 10) == DONE);
    CHECK(book.slot[0].originator == 2 && book.slot[0].reference == 5);
    CHECK(send(1, 7, 2, 5, 100, 100, 1, 10) == ORIGINATOR_WRONG);
    CHECK(send(2, 7, 2, 5, 100, 100, 1, 10) == NOT_IN_FORCE);
}

static void p9(void)
{
    p2();
    CHECK(close_gate(&book) == DONE);
    CHECK(send(0, 9, 0, 1, 100, 100, 1, 6000) == DONE);
    CHECK(accepted.kind == REPLACEMENT);
    CHECK(total(0, 100, 1) == 5000 && total(1, 100, 1) == -5000);
}

static void p10(void)
{
    open_table();
    CHECK(send(0, 7, 0, 1, 101, 101, 47, 1) == PERIODS_WRONG);
    CHECK(send(0, 7, 0, 1, 101, 102, 48, 1) == DONE);
    /* A1: "5 to 48 become 3 to 46" and "5 to 48 become 7 to 50". */
    CHECK(place(0, 1, 1, 101, 46) == 1 && place(0, 1, 1, 101, 45) == 0);
    CHECK(place(0, 1, 1, 102, 50) == 1 && place(0, 1, 1, 102, 48) == 0);
    CHECK(send(0, 7, 0, 1, 101, 102, 49, 1) == PERIODS_WRONG);
    CHECK(send(0, 7, 0, 1, 102, 102, 50, 1) == DONE);
    CHECK(place(0, 1, 1, 102, 50) == 1 && place(0, 1, 1, 101, 1) == 0);
}

static void p11(void)
{
    open_table();
    CHECK(send(0, 7, 0, 1, 100, 99, 1, 1) == LAST_BEFORE_FIRST);
    CHECK(send(0, 7, 0, 1, 99, 99, 1, 1) == LAST_BEFORE_CURRENT);
    CHECK(send(0, 7, 0, 1, 103, 103, 1, 1) == FIRST_AFTER_BOOK);
    CHECK(send(0, 7, 0, 1, EVERGREEN, EVERGREEN, 1, 1) == FIRST_AFTER_BOOK);
    CHECK(send(0, 7, 0, 1, 0, 100, 1, 1) == DONE);
}

static void p12(void)
{
    p2();

    struct nullification both = {{1, 0}, 100};
    struct nullification equal = {{0, 0}, 100};
    struct nullification late = {{0, 1}, 103};

    CHECK(nullify(&book, &equal) == ACCOUNT_WRONG);
    CHECK(nullify(&book, &late) == FIRST_AFTER_BOOK);
    CHECK(total(0, 100, 1) == 5000);
    CHECK(nullify(&book, &both) == DONE);
    CHECK(nothing_stands_on(0, 1, 100) && total(0, 100, 1) == 0);
    CHECK(mark(0, 100, 1).mark_case == BLANK);
    CHECK(nullify(&book, &both) == DONE);
}

static void p13(void)
{
    static const uint8_t packed[4] = {0x80, 0x04, 0x01, 0x90};
    struct message message = {.kind = NULLIFICATION, .nullification = {{0, 1}, 100}};
    struct message read;
    uint8_t bytes[MOST_MESSAGE_BYTES];
    size_t used;

    CHECK(pack_message(&message, bytes) == 4 && memcmp(bytes, packed, 4) == 0);
    CHECK(read_message(packed, 4, &read, &used) == DONE && used == 4);
    CHECK(read.kind == NULLIFICATION && read.nullification.account[0] == 0);
    CHECK(read.nullification.account[1] == 1 && read.nullification.first_day == 100);
}

/* ---- A1: "Clock-change days follow the local hour" ----
 *
 * The table's day 100 has 48 periods, 101 is the short day of 46 and 102 the
 * long day of 50.  A notification says 100 and its period's number, so 103
 * for period 3; its replacement says 200 and the number.  The days below are
 * written out from A1's words. */

static const int32_t usual_day[48] = {
    101, 102, 103, 104, 105, 106, 107, 108, 109, 110, 111, 112, 113, 114, 115, 116,
    117, 118, 119, 120, 121, 122, 123, 124, 125, 126, 127, 128, 129, 130, 131, 132,
    133, 134, 135, 136, 137, 138, 139, 140, 141, 142, 143, 144, 145, 146, 147, 148,
};

/* "drop its periods 3 and 4, and its 5 to 48 become 3 to 46". */
static const int32_t short_day[46] = {
    101, 102, 105, 106, 107, 108, 109, 110, 111, 112, 113, 114, 115, 116, 117, 118,
    119, 120, 121, 122, 123, 124, 125, 126, 127, 128, 129, 130, 131, 132, 133, 134,
    135, 136, 137, 138, 139, 140, 141, 142, 143, 144, 145, 146, 147, 148,
};

/* "1 to 4 stay, 3 and 4 are given again as 5 and 6, and 5 to 48 become 7 to
 * 50". */
static const int32_t long_day[50] = {
    101, 102, 103, 104, 103, 104, 105, 106, 107, 108, 109, 110, 111, 112, 113, 114,
    115, 116, 117, 118, 119, 120, 121, 122, 123, 124, 125, 126, 127, 128, 129, 130,
    131, 132, 133, 134, 135, 136, 137, 138, 139, 140, 141, 142, 143, 144, 145, 146,
    147, 148,
};

/* A single day says its own periods, up to 46 and up to 50. */
static const int32_t single_short_day[46] = {
    101, 102, 103, 104, 105, 106, 107, 108, 109, 110, 111, 112, 113, 114, 115, 116,
    117, 118, 119, 120, 121, 122, 123, 124, 125, 126, 127, 128, 129, 130, 131, 132,
    133, 134, 135, 136, 137, 138, 139, 140, 141, 142, 143, 144, 145, 146,
};

static const int32_t single_long_day[50] = {
    101, 102, 103, 104, 105, 106, 107, 108, 109, 110, 111, 112, 113, 114, 115, 116,
    117, 118, 119, 120, 121, 122, 123, 124, 125, 126, 127, 128, 129, 130, 131, 132,
    133, 134, 135, 136, 137, 138, 139, 140, 141, 142, 143, 144, 145, 146, 147, 148,
    149, 150,
};

/* Agent 7 gives 3 and 4 only: nothing of them is left on the short day. */
static const int32_t short_day_of_3_and_4[46] = {0};

static const int32_t long_day_of_3_and_4[50] = {0, 0, 103, 104, 103, 104};

/* Period 3 is omitted, then 4, then 5. */
static const int32_t long_day_without_3[50] = {
    101, 102, 0,   104, 0,   104, 105, 106, 107, 108, 109, 110, 111, 112, 113, 114,
    115, 116, 117, 118, 119, 120, 121, 122, 123, 124, 125, 126, 127, 128, 129, 130,
    131, 132, 133, 134, 135, 136, 137, 138, 139, 140, 141, 142, 143, 144, 145, 146,
    147, 148,
};

static const int32_t long_day_without_4[50] = {
    101, 102, 103, 0,   103, 0,   105, 106, 107, 108, 109, 110, 111, 112, 113, 114,
    115, 116, 117, 118, 119, 120, 121, 122, 123, 124, 125, 126, 127, 128, 129, 130,
    131, 132, 133, 134, 135, 136, 137, 138, 139, 140, 141, 142, 143, 144, 145, 146,
    147, 148,
};

static const int32_t short_day_without_5[46] = {
    101, 102, 0,   106, 107, 108, 109, 110, 111, 112, 113, 114, 115, 116, 117, 118,
    119, 120, 121, 122, 123, 124, 125, 126, 127, 128, 129, 130, 131, 132, 133, 134,
    135, 136, 137, 138, 139, 140, 141, 142, 143, 144, 145, 146, 147, 148,
};

static const int32_t long_day_without_5[50] = {
    101, 102, 103, 104, 103, 104, 0,   106, 107, 108, 109, 110, 111, 112, 113, 114,
    115, 116, 117, 118, 119, 120, 121, 122, 123, 124, 125, 126, 127, 128, 129, 130,
    131, 132, 133, 134, 135, 136, 137, 138, 139, 140, 141, 142, 143, 144, 145, 146,
    147, 148,
};

/* Replaced when three gates of the short day were closed: 3 is kept, though
 * the notification's period 5 is placed on it. */
static const int32_t short_day_replaced[46] = {
    101, 102, 105, 206, 207, 208, 209, 210, 211, 212, 213, 214, 215, 216, 217, 218,
    219, 220, 221, 222, 223, 224, 225, 226, 227, 228, 229, 230, 231, 232, 233, 234,
    235, 236, 237, 238, 239, 240, 241, 242, 243, 244, 245, 246, 247, 248,
};

/* Replaced when five gates of the long day were closed: of the repeated hour
 * 5 is kept and 6 is new. */
static const int32_t long_day_replaced[50] = {
    101, 102, 103, 104, 103, 204, 205, 206, 207, 208, 209, 210, 211, 212, 213, 214,
    215, 216, 217, 218, 219, 220, 221, 222, 223, 224, 225, 226, 227, 228, 229, 230,
    231, 232, 233, 234, 235, 236, 237, 238, 239, 240, 241, 242, 243, 244, 245, 246,
    247, 248,
};

/* The same by a notification of that day only. */
static const int32_t long_day_replaced_by_single[50] = {
    101, 102, 103, 104, 103, 206, 207, 208, 209, 210, 211, 212, 213, 214, 215, 216,
    217, 218, 219, 220, 221, 222, 223, 224, 225, 226, 227, 228, 229, 230, 231, 232,
    233, 234, 235, 236, 237, 238, 239, 240, 241, 242, 243, 244, 245, 246, 247, 248,
    249, 250,
};

/* Sends 0/1 with periods low to high except one (0 for no exception), each
 * with the base and its number as volume. */
static enum answer send_periods(unsigned agent, unsigned first, unsigned last, unsigned low,
                                unsigned high, unsigned except, int32_t base)
{
    struct notification n = {
        .agent = agent,
        .key = 500,
        .reference = 1,
        .first_day = first,
        .last_day = last,
    };

    for (unsigned period = low; period <= high; period++)
        if (period != except)
            n.entry[n.count++] = (struct entry){period, base + (int32_t)period};
    return send_packed(&n, (92 + 34 * n.count + 7) / 8);
}

/* Whether this side of 0/1 states exactly these volumes on the day. */
static bool day_states(unsigned side, unsigned day, unsigned length, const int32_t *volume)
{
    struct row row;

    CHECK(ask_row(&book, 0, 1, side, day, &row) == DONE);
    return row.length == length && memcmp(row.volume, volume, length * sizeof *volume) == 0;
}

static void close_gates(unsigned gates)
{
    for (unsigned gate = 0; gate < gates; gate++)
        CHECK(close_gate(&book) == DONE);
}

/* A book of this one day of the table. */
static void open_day(unsigned day, unsigned code)
{
    struct setup setup = table_setup;

    setup.first_day = day;
    setup.days = 1;
    setup.day_code[0] = code;
    CHECK(open_book(&book, &setup, 16) == DONE);
}

static void every_day_of_a_book(unsigned first, unsigned last)
{
    struct day_figures figures;

    open_table();
    CHECK(send_periods(7, first, last, 1, 48, 0, 100) == DONE);
    CHECK(day_states(1, 100, 48, usual_day));
    CHECK(day_states(1, 101, 46, short_day));
    CHECK(day_states(1, 102, 50, long_day));
    CHECK(nothing_stands_on_side(0, 1, 2, 101) && nothing_stands_on_side(0, 1, 2, 102));

    CHECK(send_periods(9, first, last, 1, 48, 0, 100) == DONE);
    CHECK(day_states(2, 100, 48, usual_day));
    CHECK(day_states(2, 101, 46, short_day));
    CHECK(day_states(2, 102, 50, long_day));
    CHECK(total(0, 101, 2) == 102 && total(0, 101, 3) == 105 && total(1, 101, 46) == -148);
    CHECK(total(0, 102, 4) == 104 && total(0, 102, 5) == 103 && total(0, 102, 6) == 104);
    CHECK(total(0, 102, 7) == 105 && total(1, 102, 50) == -148);

    /* 101 to 148 sum to 5976; 103 and 104, together 207, are dropped in
     * spring and come twice in autumn. */
    CHECK(ask_day_figures(&book, 0, 100, &figures) == DONE && figures.sold == 5.976);
    CHECK(ask_day_figures(&book, 0, 101, &figures) == DONE && figures.sold == 5.769);
    CHECK(ask_day_figures(&book, 0, 102, &figures) == DONE && figures.sold == 6.183);
}

static void clock_change_days(void)
{
    every_day_of_a_book(100, 102);
    every_day_of_a_book(100, EVERGREEN);
    every_day_of_a_book(99, 103);
}

/* The other agent says another volume for period 4: no disagreement in
 * spring, two in autumn. */
static void disagreement_on_clock_change_days(void)
{
    open_table();
    CHECK(send_periods(7, 101, 102, 3, 4, 0, 100) == DONE);
    CHECK(send_periods(9, 101, 102, 3, 3, 0, 100) == DONE);
    for (unsigned period = 1; period <= 46; period++)
        CHECK(mark(0, 101, period).mark_case == AGREED && mark(0, 101, period).first == 0.0);
    for (unsigned period = 1; period <= 50; period++)
        CHECK(mark(0, 102, period).mark_case
              == (period == 4 || period == 6 ? DISAGREED : AGREED));
    CHECK(mark(1, 102, 6).first == -0.104 && mark(1, 102, 6).second == 0.0);
    CHECK(mark(1, 102, 5).first == -0.103);
}

/* "a period of the day is omitted when the notification omits the period
 * placed on it". */
static void omitted_periods(void)
{
    open_table();
    CHECK(send_periods(7, 101, 102, 3, 4, 0, 100) == DONE);
    CHECK(day_states(1, 101, 46, short_day_of_3_and_4));
    CHECK(day_states(1, 102, 50, long_day_of_3_and_4));
    /* The short day is stated, though all its volumes are zero. */
    CHECK(send(0, 7, 0, 2, 101, 101, 1, 5) == DONE && accepted.kind == ADDITIONAL);

    open_table();
    CHECK(send_periods(7, 101, EVERGREEN, 1, 48, 3, 100) == DONE);
    CHECK(day_states(1, 101, 46, short_day));
    CHECK(day_states(1, 102, 50, long_day_without_3));

    open_table();
    CHECK(send_periods(7, 101, 102, 1, 48, 4, 100) == DONE);
    CHECK(day_states(1, 101, 46, short_day));
    CHECK(day_states(1, 102, 50, long_day_without_4));

    open_table();
    CHECK(send_periods(7, 101, 102, 1, 48, 5, 100) == DONE);
    CHECK(day_states(1, 101, 46, short_day_without_5));
    CHECK(day_states(1, 102, 50, long_day_without_5));
}

static void single_clock_change_days(void)
{
    open_table();
    CHECK(send_periods(7, 101, 101, 1, 46, 0, 100) == DONE);
    CHECK(day_states(1, 101, 46, single_short_day));
    CHECK(send_periods(7, 101, 101, 1, 47, 0, 100) == PERIODS_WRONG);
    CHECK(send_periods(7, 102, 102, 1, 50, 0, 100) == DONE);
    CHECK(day_states(1, 102, 50, single_long_day));
    CHECK(day_states(1, 101, 46, single_short_day));
}

/* "periods 1 to 48" stays the limit over several days. */
static void limit_over_several_days(void)
{
    open_table();
    CHECK(send_periods(7, 101, 102, 1, 49, 0, 100) == PERIODS_WRONG);
    CHECK(send_periods(7, 101, EVERGREEN, 1, 49, 0, 100) == PERIODS_WRONG);
    CHECK(send_periods(7, 102, EVERGREEN, 49, 49, 0, 100) == PERIODS_WRONG);
    CHECK(send_periods(7, 102, 103, 50, 50, 0, 100) == PERIODS_WRONG);
    CHECK(!book.slot[0].held);
    CHECK(send_periods(7, 102, EVERGREEN, 48, 48, 0, 100) == DONE);
    CHECK(place(0, 1, 1, 102, 50) == 148 && place(0, 1, 1, 102, 49) == 0);
    CHECK(place(0, 1, 1, 102, 48) == 0);
}

/* Two days, or no end, of which the book has the clock-change day only. */
static void one_day_in_the_book(void)
{
    static const unsigned first_and_last[3][2] = {{100, 101}, {101, 102}, {101, EVERGREEN}};

    for (unsigned i = 0; i < 3; i++) {
        unsigned first = first_and_last[i][0];
        unsigned last = first_and_last[i][1];

        open_day(101, 0);
        CHECK(send_periods(7, first, last, 1, 49, 0, 100) == PERIODS_WRONG);
        CHECK(send_periods(7, first, last, 1, 48, 0, 100) == DONE);
        CHECK(day_states(1, 101, 46, short_day));
        open_day(101, 2);
        CHECK(send_periods(7, first, last, 1, 49, 0, 100) == PERIODS_WRONG);
        CHECK(send_periods(7, first, last, 1, 48, 0, 100) == DONE);
        CHECK(day_states(1, 101, 50, long_day));
    }
}

/* "the mark after its last day", in all 46 and all 50 places. */
static void mark_after_the_last_day(void)
{
    open_table();
    CHECK(send_periods(7, 100, 101, 1, 48, 0, 100) == DONE);
    CHECK(day_states(1, 101, 46, short_day));
    CHECK(nothing_stands_on(0, 1, 102));
    CHECK(send_periods(7, 100, EVERGREEN, 1, 48, 0, 100) == DONE);
    CHECK(day_states(1, 102, 50, long_day));
    CHECK(send_periods(7, 99, 100, 1, 48, 0, 200) == DONE && accepted.kind == REPLACEMENT);
    CHECK(nothing_stands_on(0, 1, 101) && nothing_stands_on(0, 1, 102));
    CHECK(place(0, 1, 1, 100, 48) == 248);
}

/* "Closed places never change", in the hours that the clock change moves. */
static void gates_within_clock_change_days(void)
{
    open_table();
    CHECK(send_periods(7, 100, 102, 1, 48, 0, 100) == DONE);
    close_gates(48 + 3);
    CHECK(send_periods(7, 100, 101, 1, 48, 0, 200) == DONE && accepted.kind == REPLACEMENT);
    CHECK(day_states(1, 100, 48, usual_day));
    CHECK(day_states(1, 101, 46, short_day_replaced));
    CHECK(nothing_stands_on(0, 1, 102));

    open_table();
    CHECK(send_periods(7, 100, 102, 1, 48, 0, 100) == DONE);
    close_gates(48 + 46 + 5);
    CHECK(send_periods(7, 101, EVERGREEN, 1, 48, 0, 200) == DONE && accepted.kind == REPLACEMENT);
    CHECK(day_states(1, 101, 46, short_day));
    CHECK(day_states(1, 102, 50, long_day_replaced));

    open_table();
    CHECK(send_periods(7, 100, EVERGREEN, 1, 48, 0, 100) == DONE);
    close_gates(48 + 46 + 5);
    CHECK(send_periods(7, 102, 102, 1, 50, 0, 200) == DONE && accepted.kind == REPLACEMENT);
    CHECK(day_states(1, 102, 50, long_day_replaced_by_single));
}

/* ---- Types, slots, the last gate, questions, unsound books ---- */

/* A book of one authorisation of this type, between 0 and 1, equal agents. */
static void open_single(unsigned type, unsigned slots)
{
    struct setup setup = table_setup;

    setup.authorisations = 1;
    setup.authorisation[0] = (struct authorisation){{7, 7}, {0, 1}, 500, 0, EVERGREEN, type};
    CHECK(open_book(&book, &setup, slots) == DONE);
}

static void types(void)
{
    open_single(TYPE_ADDITIONAL, 16);
    CHECK(send(0, 7, 0, 1, 100, 101, 1, 5) == DONE && accepted.kind == INITIAL);
    CHECK(send(0, 7, 0, 1, 101, 102, 1, 5) == REPLACEMENT_REFUSED);
    CHECK(send(0, 7, 0, 1, 102, 102, 1, 5) == DONE && accepted.kind == INITIAL);
    CHECK(send(0, 7, 0, 2, 101, 101, 1, 5) == DONE && accepted.kind == ADDITIONAL);
    CHECK(accepted.slot == 1);

    open_single(TYPE_REPLACEMENT, 16);
    CHECK(send(0, 7, 0, 1, 100, 100, 1, 5) == DONE && accepted.kind == INITIAL);
    CHECK(send(0, 7, 0, 2, 101, 101, 1, 5) == DONE && accepted.kind == INITIAL);
    CHECK(send(0, 7, 0, 3, 101, 101, 1, 5) == ADDITIONAL_REFUSED);
    /* Held, but stating nothing from day 101 on: judged by the others. */
    CHECK(send(0, 7, 0, 1, 101, 101, 1, 5) == ADDITIONAL_REFUSED);
    CHECK(send(0, 7, 0, 1, 102, 102, 1, 5) == DONE && accepted.kind == INITIAL);
}

static void slots(void)
{
    open_single(TYPE_BOTH, 2);
    CHECK(send(0, 7, 0, 1, 100, 100, 1, 5) == DONE && accepted.slot == 0);
    CHECK(send(0, 7, 0, 2, 100, 100, 1, 5) == DONE && accepted.slot == 1);
    CHECK(send(0, 7, 0, 3, 100, 100, 1, 5) == EVERY_SLOT_HELD);
    CHECK(send(0, 7, 0, 2, 100, 100, 1, 6) == DONE && accepted.slot == 1);
    CHECK(open_book(&book, &table_setup, 0) == SETUP_WRONG);
    CHECK(open_book(&book, &table_setup, 257) == SETUP_WRONG);
    CHECK(book.slots == 2 && book.slot[1].held);
}

static void last_gate(void)
{
    struct nullification equal = {{0, 0}, 100};

    open_table();
    for (unsigned gate = 0; gate < 48 + 46 + 50; gate++) {
        CHECK(current_day_place(&book) == (gate < 48 ? 0u : gate < 94 ? 1u : 2u));
        CHECK(close_gate(&book) == DONE);
    }
    CHECK(close_gate(&book) == EVERY_GATE_CLOSED);
    CHECK(send(2, 8, 0, 1, 100, 99, 1, 5) == EVERY_GATE_CLOSED);
    CHECK(nullify(&book, &equal) == EVERY_GATE_CLOSED);
}

static void questions(void)
{
    struct mark seen;
    struct row row;
    struct day_figures figures;
    int64_t kwh;

    p2();
    CHECK(account_total(&book, 3, 99, 1, &kwh) == ACCOUNT_WRONG && kwh == 0);
    CHECK(account_total(&book, 0, 99, 1, &kwh) == NO_SUCH_PLACE);
    CHECK(account_total(&book, 0, 103, 1, &kwh) == NO_SUCH_PLACE);
    CHECK(account_total(&book, 0, 100, 0, &kwh) == NO_SUCH_PLACE);
    CHECK(account_total(&book, 0, 101, 47, &kwh) == NO_SUCH_PLACE);
    CHECK(account_total(&book, 0, 102, 50, &kwh) == DONE && kwh == 0);
    CHECK(ask_mark(&book, 0, 2, 2, 99, 1, &seen) == IDENTIFIER_NOT_HELD);
    CHECK(ask_mark(&book, 0, 1, 2, 99, 1, &seen) == ACCOUNT_WRONG);
    CHECK(ask_mark(&book, 0, 1, 1, 100, 49, &seen) == NO_SUCH_PLACE && seen.mark_case == BLANK);
    CHECK(ask_row(&book, 1, 1, 3, 100, &row) == IDENTIFIER_NOT_HELD && row.length == 0);
    CHECK(ask_row(&book, 0, 1, 3, 100, &row) == NO_SUCH_PLACE && row.length == 0);
    CHECK(ask_row(&book, 0, 1, 0, 100, &row) == NO_SUCH_PLACE);
    CHECK(ask_row(&book, 0, 1, 2, 101, &row) == DONE && row.length == 46);
    CHECK(ask_day_figures(&book, 3, 99, &figures) == ACCOUNT_WRONG);
    CHECK(ask_day_figures(&book, 2, 99, &figures) == NO_SUCH_PLACE);
}

/* Numbers that would be right ones if they were cut to 8 or 16 bits. */
static void wide_numbers(void)
{
    struct nullification accounts = {{256, 1}, 100};
    struct nullification first_day = {{0, 1}, 65536 + 100};
    struct mark seen;
    struct row row;
    struct day_figures figures;
    int64_t kwh;

    p2();
    CHECK(account_total(&book, 257, 100, 1, &kwh) == ACCOUNT_WRONG && kwh == 0);
    CHECK(account_total(&book, 65536, 100, 1, &kwh) == ACCOUNT_WRONG);
    CHECK(account_total(&book, 0, 65636, 1, &kwh) == NO_SUCH_PLACE);
    CHECK(account_total(&book, 0, UINT32_MAX, 1, &kwh) == NO_SUCH_PLACE);
    CHECK(account_total(&book, 0, 100, 257, &kwh) == NO_SUCH_PLACE && kwh == 0);
    CHECK(account_total(&book, 0, 100, UINT32_MAX, &kwh) == NO_SUCH_PLACE);
    CHECK(ask_mark(&book, 0, 65537, 0, 100, 1, &seen) == IDENTIFIER_NOT_HELD);
    CHECK(ask_mark(&book, 256, 1, 0, 100, 1, &seen) == IDENTIFIER_NOT_HELD);
    CHECK(ask_mark(&book, 65536, 1, 0, 100, 1, &seen) == IDENTIFIER_NOT_HELD);
    CHECK(ask_mark(&book, UINT32_MAX, 65537, 0, 100, 1, &seen) == IDENTIFIER_NOT_HELD);
    CHECK(ask_mark(&book, 0, 1, 256, 100, 1, &seen) == ACCOUNT_WRONG);
    CHECK(ask_mark(&book, 0, 1, 0, 65636, 1, &seen) == NO_SUCH_PLACE);
    CHECK(ask_mark(&book, 0, 1, 0, 100, 257, &seen) == NO_SUCH_PLACE && seen.mark_case == BLANK);
    CHECK(ask_row(&book, 0, 65537, 1, 100, &row) == IDENTIFIER_NOT_HELD && row.length == 0);
    CHECK(ask_row(&book, 0, 1, 257, 100, &row) == NO_SUCH_PLACE && row.length == 0);
    CHECK(ask_row(&book, 0, 1, 1, 65636, &row) == NO_SUCH_PLACE && row.length == 0);
    CHECK(ask_day_figures(&book, 256, 100, &figures) == ACCOUNT_WRONG);
    CHECK(ask_day_figures(&book, 0, 65636, &figures) == NO_SUCH_PLACE);
    CHECK(nullify(&book, &accounts) == ACCOUNT_WRONG);
    CHECK(nullify(&book, &first_day) == FIRST_AFTER_BOOK);
    CHECK(total(0, 100, 1) == 5000);
}

static bool is_zero(const struct application *application)
{
    return application->kind == 0 && application->slot == 0 && application->place == 0
        && application->length == 0;
}

static void all_give_1(void)
{
    static const uint8_t kind_3 = 0xc0;
    struct nullification both = {{0, 1}, 100};
    struct application applied;
    struct notification n = {0};
    struct mark seen;
    struct row row;
    struct day_figures figures;
    int64_t kwh;

    CHECK(close_gate(&book) == NOT_A_SOUND_BOOK);
    CHECK(notify(&book, &n, &accepted) == NOT_A_SOUND_BOOK);
    CHECK(nullify(&book, &both) == NOT_A_SOUND_BOOK);
    CHECK(apply_message(&book, &kind_3, 1, &applied) == NOT_A_SOUND_BOOK && is_zero(&applied));
    CHECK(account_total(&book, 9, 0, 0, &kwh) == NOT_A_SOUND_BOOK);
    CHECK(ask_mark(&book, 9, 9, 9, 0, 0, &seen) == NOT_A_SOUND_BOOK);
    CHECK(ask_row(&book, 9, 9, 9, 0, &row) == NOT_A_SOUND_BOOK);
    CHECK(ask_day_figures(&book, 9, 0, &figures) == NOT_A_SOUND_BOOK);
}

static void unsound_books(void)
{
    p2();
    book.side[0][0][0][0] = 100000000; /* out of range */
    all_give_1();
    p2();
    book.side[1][0][1][46] = 0; /* past the day's length */
    all_give_1();
    p2();
    book.side[1][15][0][0] = 0; /* a slot not held */
    all_give_1();
    p2();
    book.slot[3] = book.slot[0]; /* held twice */
    all_give_1();
    p2();
    book.slot[0].originator = 3; /* an unknown originator */
    all_give_1();
    p2();
    book.gates_closed = 48 + 46 + 50 + 1;
    all_give_1();
}

/* ---- One packed message ---- */

/* Agent 7 says 5000 for period 1 of day 100 under this key. */
static size_t packed_word(unsigned key, unsigned reference, uint8_t bytes[MOST_MESSAGE_BYTES])
{
    struct message message = {.kind = NOTIFICATION};

    message.notification = (struct notification){
        .agent = 7,
        .key = key,
        .reference = reference,
        .first_day = 100,
        .last_day = 100,
        .count = 1,
        .entry = {{1, 5000}},
    };
    return pack_message(&message, bytes);
}

static void packed_messages(void)
{
    static const uint8_t gate[2] = {0x00, 0xff}; /* what follows is the next's */
    static const uint8_t nullification[4] = {0x80, 0x04, 0x01, 0x90};
    static const uint8_t equal[4] = {0x80, 0x00, 0x01, 0x90};
    static const uint8_t padding = 0x01;
    struct application applied;
    uint8_t bytes[MOST_MESSAGE_BYTES];

    open_table();
    packed_word(500, 1, bytes);
    CHECK(apply_message(&book, bytes, sizeof bytes, &applied) == DONE);
    CHECK(applied.kind == 1 && applied.slot == 0 && applied.length == 16);
    CHECK(apply_message(&book, bytes, 16, &applied) == DONE);
    CHECK(applied.kind == 2 && applied.slot == 0 && applied.length == 16);
    packed_word(500, 2, bytes);
    CHECK(apply_message(&book, bytes, 16, &applied) == DONE);
    CHECK(applied.kind == 3 && applied.slot == 1 && applied.length == 16);
    CHECK(apply_message(&book, bytes, 15, &applied) == BYTES_END_TOO_SOON && is_zero(&applied));
    packed_word(501, 2, bytes);
    CHECK(apply_message(&book, bytes, 16, &applied) == KEY_OR_AGENT_WRONG && is_zero(&applied));
    CHECK(apply_message(&book, equal, 4, &applied) == ACCOUNT_WRONG && is_zero(&applied));
    CHECK(apply_message(&book, &padding, 1, &applied) == PADDING_BIT_SET && is_zero(&applied));
    CHECK(apply_message(&book, gate, 2, &applied) == DONE);
    CHECK(applied.kind == 0 && applied.slot == 0 && applied.length == 1 && book.gates_closed == 1);
    CHECK(apply_message(&book, nullification, 4, &applied) == DONE);
    CHECK(applied.kind == 0 && applied.slot == 0 && applied.length == 4);
}

/* ---- "Packed messages": lengths and the order of reading ---- */

static enum answer reading(const uint8_t *bytes, size_t length)
{
    struct message message;
    size_t used;

    return read_message(bytes, length, &message, &used);
}

static void lengths(void)
{
    struct message message = {.kind = NOTIFICATION};
    uint8_t bytes[MOST_MESSAGE_BYTES];

    message.notification.count = 0;
    CHECK(pack_message(&message, bytes) == 12);
    message.notification.count = 1;
    CHECK(pack_message(&message, bytes) == 16);
    message.notification.count = 48;
    CHECK(pack_message(&message, bytes) == 216);
    message.notification.count = 50;
    CHECK(pack_message(&message, bytes) == 224);
    message.kind = GATE;
    CHECK(pack_message(&message, bytes) == 1 && bytes[0] == 0);
}

static void order_of_reading_messages(void)
{
    struct message message = {.kind = NOTIFICATION};
    uint8_t bytes[MOST_MESSAGE_BYTES] = {0};

    CHECK(reading(bytes, 0) == BYTES_END_TOO_SOON);
    bytes[0] = 0xff;
    CHECK(reading(bytes, 1) == KIND_3);
    bytes[0] = 0x01;
    CHECK(reading(bytes, 1) == PADDING_BIT_SET);
    message.notification.count = 51;
    pack_message(&message, bytes);
    CHECK(reading(bytes, 11) == BYTES_END_TOO_SOON);
    CHECK(reading(bytes, 12) == MORE_THAN_50_ENTRIES);
    message.notification.count = 1;
    pack_message(&message, bytes);
    bytes[15] |= 1;
    CHECK(reading(bytes, 15) == BYTES_END_TOO_SOON);
    CHECK(reading(bytes, 16) == PADDING_BIT_SET);
}

static enum answer reading_setup(const struct setup *setup, size_t less, unsigned padding)
{
    uint8_t bytes[MOST_SETUP_BYTES];
    struct setup read;
    size_t used;
    size_t length = pack_setup(setup, bytes);

    bytes[length - 1] = (uint8_t)(bytes[length - 1] | padding);
    return read_setup(bytes, length - less, &read, &used);
}

static void order_of_reading_setups(void)
{
    struct setup setup = table_setup;

    CHECK(padding_of_setup(&setup) == 6);
    CHECK(reading_setup(&setup, 0, 0) == DONE);
    CHECK(reading_setup(&setup, 0, 32) == PADDING_BIT_SET);
    CHECK(reading_setup(&setup, 1, 0) == BYTES_END_TOO_SOON);
    setup.authorisation[2].account[1] = 0;
    CHECK(reading_setup(&setup, 0, 1) == ROW_WRONG);
    setup.day_code[1] = 3;
    CHECK(reading_setup(&setup, 0, 1) == SETUP_WRONG);
    CHECK(reading_setup(&setup, 1, 0) == BYTES_END_TOO_SOON);
    setup.first_day = 65533;
    CHECK(reading_setup(&setup, 1, 0) == SETUP_WRONG);
    setup = table_setup;
    setup.first_day = 65532;
    CHECK(reading_setup(&setup, 0, 0) == DONE);
    setup.accounts = 65;
    CHECK(reading_setup(&setup, 1, 0) == SETUP_WRONG);
}

/* ---- A2: "A settlement calendar" ----
 *
 * The numbers below were counted by hand: 1 January of 2000, 2024, 2025, 2026
 * and 2099 are days 0, 8,766, 9,132, 9,497 and 36,160, and a day is a Sunday
 * when its number leaves 1 after division by 7, day 0 being a Saturday. */

struct known_day {
    unsigned day;
    struct date date;
    unsigned code;
};

static const struct known_day known_days[] = {
    {0, {2000, 1, 1}, 1}, /* a Saturday */
    {1, {2000, 1, 2}, 1}, /* a Sunday, not the last */
    {29, {2000, 1, 30}, 1}, /* the last Sunday of January */
    {30, {2000, 1, 31}, 1},
    {31, {2000, 2, 1}, 1},
    {57, {2000, 2, 27}, 1}, /* the last Sunday of February */
    {59, {2000, 2, 29}, 1},
    {60, {2000, 3, 1}, 1},
    {78, {2000, 3, 19}, 1}, /* a Sunday of March, not the last */
    {84, {2000, 3, 25}, 1},
    {85, {2000, 3, 26}, 0}, /* "day 85 is the first short day" */
    {86, {2000, 3, 27}, 1},
    {90, {2000, 3, 31}, 1},
    {91, {2000, 4, 1}, 1},
    {92, {2000, 4, 2}, 1}, /* the Sunday after */
    {100, {2000, 4, 10}, 1},
    {267, {2000, 9, 24}, 1}, /* the last Sunday of September */
    {295, {2000, 10, 22}, 1}, /* a Sunday of October, not the last */
    {301, {2000, 10, 28}, 1},
    {302, {2000, 10, 29}, 2}, /* "day 302 the first long one" */
    {303, {2000, 10, 30}, 1},
    {309, {2000, 11, 5}, 1},
    {365, {2000, 12, 31}, 1}, /* a leap year, and its last Sunday */
    {366, {2001, 1, 1}, 1},
    {424, {2001, 2, 28}, 1},
    {425, {2001, 3, 1}, 1},
    {449, {2001, 3, 25}, 0}, /* as early as it can be */
    {666, {2001, 10, 28}, 2},
    {8825, {2024, 2, 29}, 1},
    {8826, {2024, 3, 1}, 1},
    {8855, {2024, 3, 30}, 1},
    {8856, {2024, 3, 31}, 0}, /* as late as it can be */
    {8857, {2024, 4, 1}, 1},
    {9065, {2024, 10, 26}, 1},
    {9066, {2024, 10, 27}, 2},
    {9067, {2024, 10, 28}, 1},
    {9131, {2024, 12, 31}, 1},
    {9132, {2025, 1, 1}, 1},
    {9220, {2025, 3, 30}, 0},
    {9221, {2025, 3, 31}, 1},
    {9430, {2025, 10, 26}, 2},
    {9584, {2026, 3, 29}, 0},
    {9794, {2026, 10, 25}, 2},
    {9800, {2026, 10, 31}, 1},
    {36247, {2099, 3, 29}, 0}, /* the last short day */
    {36457, {2099, 10, 25}, 2}, /* the last long one */
    {36523, {2099, 12, 30}, 1},
    {36524, {2099, 12, 31}, 1}, /* the last day */
};

static bool same_date(struct date one, struct date other)
{
    return one.year == other.year && one.month == other.month && one.day == other.day;
}

static void days_of_the_calendar(void)
{
    static const unsigned length_of[3] = {46, 48, 50};

    for (size_t i = 0; i < sizeof known_days / sizeof *known_days; i++) {
        const struct known_day *known = &known_days[i];
        struct date date = {9, 9, 9};
        unsigned code = 9;
        unsigned periods = 9;
        unsigned day = 9;

        CHECK(date_of_day(known->day, &date) == DONE && same_date(date, known->date));
        CHECK(calendar_code(known->day, &code) == DONE && code == known->code);
        CHECK(calendar_length(known->day, &periods) == DONE);
        CHECK(periods == length_of[known->code]);
        CHECK(day_of_date(known->date.year, known->date.month, known->date.day, &day) == DONE);
        CHECK(day == known->day);
    }
}

/* The rule said another way: of the days 25 to 31 of March and of October
 * just one is a Sunday, and it is the last. */
static unsigned length_by_rule(unsigned day, struct date date)
{
    bool last_sunday = day % 7 == 1 && date.day >= 25;

    if (last_sunday && date.month == 3)
        return 46;
    if (last_sunday && date.month == 10)
        return 50;
    return 48;
}

/* "the 200 clock-change days from 2000 to 2099", a short and a long one each
 * year. */
static void rule_over_the_whole_calendar(void)
{
    unsigned short_days[100] = {0};
    unsigned long_days[100] = {0};
    unsigned wrong = 0;

    for (unsigned day = 0; day <= 36524; day++) {
        struct date date;
        unsigned periods;

        if (date_of_day(day, &date) != DONE || calendar_length(day, &periods) != DONE
            || periods != length_by_rule(day, date)) {
            wrong++;
            continue;
        }
        if (periods == 46)
            short_days[date.year - 2000]++;
        if (periods == 50)
            long_days[date.year - 2000]++;
    }
    CHECK(wrong == 0);
    for (unsigned year = 0; year < 100; year++)
        CHECK(short_days[year] == 1 && long_days[year] == 1);
}

/* "day number from date and back": in the order of dates the days that are
 * answered rise one by one from 0 to 36,524, and each has that date. */
static void dates_and_back(void)
{
    unsigned next = 0;
    unsigned wrong = 0;

    for (unsigned year = 1998; year <= 2101; year++)
        for (unsigned month = 0; month <= 14; month++)
            for (unsigned day = 0; day <= 33; day++) {
                struct date date;
                unsigned number;

                if (day_of_date(year, month, day, &number) != DONE)
                    continue;
                if (number != next || date_of_day(number, &date) != DONE
                    || !same_date(date, (struct date){year, month, day}))
                    wrong++;
                next++;
            }
    CHECK(wrong == 0 && next == 36525);
}

static bool is_no_day(uint32_t day)
{
    struct date date = {9, 9, 9};
    unsigned code = 9;
    unsigned periods = 9;

    return calendar_length(day, &periods) == NOT_IN_THE_CALENDAR && periods == 0
        && calendar_code(day, &code) == NOT_IN_THE_CALENDAR && code == 0
        && date_of_day(day, &date) == NOT_IN_THE_CALENDAR
        && same_date(date, (struct date){0, 0, 0});
}

static bool is_no_date(uint32_t year, uint32_t month, uint32_t day)
{
    unsigned number = 9;

    return day_of_date(year, month, day, &number) == NOT_IN_THE_CALENDAR && number == 0;
}

/* "27 day or date not in 2000 to 2099". */
static void not_in_the_calendar(void)
{
    CHECK(is_no_day(36525)); /* 1 January 2100 */
    CHECK(is_no_day(LATEST_DAY) && is_no_day(EVERGREEN));
    CHECK(is_no_date(1999, 12, 31) && is_no_date(2100, 1, 1));
    CHECK(is_no_date(2100, 2, 28) && is_no_date(2100, 2, 29));
    CHECK(is_no_date(2001, 2, 29) && is_no_date(2099, 2, 29));
    CHECK(is_no_date(2000, 2, 30) && is_no_date(2000, 2, 31) && is_no_date(2024, 2, 30));
    CHECK(is_no_date(2000, 4, 31) && is_no_date(2000, 6, 31) && is_no_date(2000, 9, 31));
    CHECK(is_no_date(2000, 11, 31) && is_no_date(2000, 1, 32) && is_no_date(2099, 12, 32));
    CHECK(is_no_date(2000, 1, 0) && is_no_date(2000, 0, 1) && is_no_date(2000, 13, 1));
    CHECK(is_no_date(2000, 0, 0) && is_no_date(0, 0, 0) && is_no_date(0, 1, 1));
    /* A year is written in full. */
    CHECK(is_no_date(24, 3, 31));
}

/* Numbers that would be right ones if they were cut to 8 or 16 bits. */
static void wide_numbers_in_the_calendar(void)
{
    CHECK(is_no_day(65536) && is_no_day(65636) && is_no_day(65536 + 85));
    CHECK(is_no_day(UINT32_MAX) && is_no_day(UINT32_C(1) << 31));
    CHECK(is_no_date(67536, 1, 1) && is_no_date(2000, 257, 1) && is_no_date(2000, 1, 257));
    CHECK(is_no_date(2000, 65537, 1) && is_no_date(2000, 1, 65537));
    CHECK(is_no_date(UINT32_MAX, 1, 1) && is_no_date(2000, UINT32_MAX, 1));
    CHECK(is_no_date(2000, 1, UINT32_MAX));
    CHECK(is_no_date(UINT32_MAX, UINT32_MAX, UINT32_MAX));
}

/* Whether these codes are proposed for these days, on a refusal all zero. */
static bool proposed(uint32_t first_day, uint32_t days, enum answer answer,
                     const unsigned expected[MOST_DAYS])
{
    unsigned code[MOST_DAYS] = {9, 9, 9, 9, 9, 9, 9, 9};

    return propose_codes(first_day, days, code) == answer
        && memcmp(code, expected, sizeof code) == 0;
}

static void proposed_codes(void)
{
    static const unsigned none[MOST_DAYS] = {0};
    static const unsigned plain[MOST_DAYS] = {1, 1, 1, 1, 1, 1, 1, 1};
    static const unsigned one[MOST_DAYS] = {1};
    static const unsigned two[MOST_DAYS] = {1, 1};
    static const unsigned seven[MOST_DAYS] = {1, 1, 1, 1, 1, 1, 1};
    static const unsigned spring[MOST_DAYS] = {1, 0, 1};
    static const unsigned autumn[MOST_DAYS] = {1, 2, 1};
    static const unsigned long_one[MOST_DAYS] = {2};
    static const unsigned ends_short[MOST_DAYS] = {1, 1, 1, 1, 1, 1, 1, 0};
    static const unsigned begins_long[MOST_DAYS] = {2, 1, 1, 1, 1, 1, 1, 1};

    CHECK(proposed(0, 1, DONE, one));
    CHECK(proposed(0, 8, DONE, plain));
    CHECK(proposed(84, 3, DONE, spring));
    CHECK(proposed(301, 3, DONE, autumn));
    CHECK(proposed(302, 1, DONE, long_one));
    CHECK(proposed(78, 8, DONE, ends_short));
    CHECK(proposed(9066, 8, DONE, begins_long));
    CHECK(proposed(36524, 1, DONE, one));
    CHECK(proposed(36523, 2, DONE, two));
    CHECK(proposed(36518, 7, DONE, seven));
    CHECK(proposed(36517, 8, DONE, plain));

    /* 17 where a setup of these days would have it. */
    CHECK(proposed(84, 0, SETUP_WRONG, none) && proposed(84, 9, SETUP_WRONG, none));
    CHECK(proposed(65534, 2, SETUP_WRONG, none) && proposed(65528, 8, SETUP_WRONG, none));
    CHECK(proposed(65535, 1, SETUP_WRONG, none));

    /* Then 27 if any of the days is not in the calendar. */
    CHECK(proposed(36518, 8, NOT_IN_THE_CALENDAR, none));
    CHECK(proposed(36524, 2, NOT_IN_THE_CALENDAR, none));
    CHECK(proposed(36525, 1, NOT_IN_THE_CALENDAR, none));
    CHECK(proposed(65534, 1, NOT_IN_THE_CALENDAR, none));
    CHECK(proposed(65527, 8, NOT_IN_THE_CALENDAR, none));
    CHECK(proposed(36525, 0, SETUP_WRONG, none) && proposed(36525, 9, SETUP_WRONG, none));

    /* Nothing is cut. */
    CHECK(proposed(65636, 1, SETUP_WRONG, none) && proposed(65536, 1, SETUP_WRONG, none));
    CHECK(proposed(84, 257, SETUP_WRONG, none) && proposed(84, 65537, SETUP_WRONG, none));
    CHECK(proposed(84, UINT32_MAX, SETUP_WRONG, none));
    CHECK(proposed(UINT32_MAX, 1, SETUP_WRONG, none) && proposed(UINT32_MAX, 2, SETUP_WRONG, none));
    CHECK(proposed(UINT32_MAX - 6, 8, SETUP_WRONG, none));
    CHECK(proposed(UINT32_MAX, UINT32_MAX, SETUP_WRONG, none));
}

/* The table's accounts and authorisations, two of them evergreen, on these
 * three days. */
static struct setup setup_of(unsigned first_day, unsigned code_1, unsigned code_2, unsigned code_3)
{
    struct setup setup = table_setup;

    setup.first_day = first_day;
    setup.day_code[0] = code_1;
    setup.day_code[1] = code_2;
    setup.day_code[2] = code_3;
    return setup;
}

/* What reading a checked setup answers.  Done, it reads what is read without
 * the check; refused, everything is zero. */
static enum answer reading_checked(const struct setup *setup, size_t less, unsigned padding)
{
    static const struct setup zero;
    uint8_t bytes[MOST_SETUP_BYTES];
    struct setup unchecked;
    struct setup read;
    size_t unchecked_used;
    size_t used = 9;
    size_t length = pack_setup(setup, bytes);

    memset(&read, 0xff, sizeof read);
    bytes[length - 1] = (uint8_t)(bytes[length - 1] | padding);

    enum answer answer = read_checked_setup(bytes, length - less, &read, &used);

    if (answer != DONE) {
        CHECK(used == 0 && memcmp(&read, &zero, sizeof read) == 0);
        return answer;
    }
    CHECK(read_setup(bytes, length - less, &unchecked, &unchecked_used) == DONE);
    CHECK(used == unchecked_used && memcmp(&read, &unchecked, sizeof read) == 0);
    return answer;
}

/* What opening a checked setup answers.  Done, it opens what is opened
 * without the check; refused, the book stays as it was. */
static enum answer opening_checked(const struct setup *setup, unsigned slots)
{
    static struct book before;
    static struct book unchecked;

    p2();
    memcpy(&before, &book, sizeof book);

    enum answer answer = open_checked_book(&book, setup, slots);

    if (answer != DONE) {
        CHECK(memcmp(&book, &before, sizeof book) == 0);
        return answer;
    }
    CHECK(open_book(&unchecked, setup, slots) == DONE && sound_book(&book));
    CHECK(memcmp(&book, &unchecked, sizeof book) == 0);
    return answer;
}

/* Whether both answer this. */
static bool both_answer(const struct setup *setup, enum answer answer)
{
    return reading_checked(setup, 0, 0) == answer && opening_checked(setup, 16) == answer;
}

static bool checked(unsigned first_day, unsigned code_1, unsigned code_2, unsigned code_3,
                    enum answer answer)
{
    struct setup setup = setup_of(first_day, code_1, code_2, code_3);

    return both_answer(&setup, answer);
}

/* "check a setup against it on request". */
static void checked_setups(void)
{
    CHECK(checked(0, 1, 1, 1, DONE));
    CHECK(checked(84, 1, 0, 1, DONE));
    CHECK(checked(301, 1, 2, 1, DONE));
    CHECK(checked(8856, 0, 1, 1, DONE));
    CHECK(checked(9064, 1, 1, 2, DONE));
    CHECK(checked(36522, 1, 1, 1, DONE));

    /* "28 code disagrees with the calendar": "once typed a plain day for
     * October", and the other ways. */
    CHECK(checked(301, 1, 1, 1, CODE_DISAGREES) && checked(301, 1, 0, 1, CODE_DISAGREES));
    CHECK(checked(84, 1, 1, 1, CODE_DISAGREES) && checked(84, 1, 2, 1, CODE_DISAGREES));
    CHECK(checked(0, 0, 1, 1, CODE_DISAGREES) && checked(0, 2, 1, 1, CODE_DISAGREES));
    CHECK(checked(0, 1, 1, 0, CODE_DISAGREES) && checked(0, 1, 1, 2, CODE_DISAGREES));
    CHECK(checked(84, 0, 1, 1, CODE_DISAGREES) && checked(85, 1, 0, 1, CODE_DISAGREES));
    CHECK(checked(100, 1, 0, 2, CODE_DISAGREES)); /* the table's own book */

    /* "27 day or date not in 2000 to 2099". */
    CHECK(checked(36523, 1, 1, 1, NOT_IN_THE_CALENDAR));
    CHECK(checked(36524, 1, 1, 1, NOT_IN_THE_CALENDAR));
    CHECK(checked(36525, 1, 1, 1, NOT_IN_THE_CALENDAR));
    CHECK(checked(65532, 1, 1, 1, NOT_IN_THE_CALENDAR));
}

/* Books of 1 and of 8 days. */
static void checked_setups_of_other_sizes(void)
{
    struct setup setup = setup_of(36524, 1, 2, 2); /* codes past the days are not looked at */

    setup.days = 1;
    CHECK(both_answer(&setup, DONE));
    setup.day_code[0] = 2;
    CHECK(both_answer(&setup, CODE_DISAGREES));
    setup.first_day = 36525;
    CHECK(both_answer(&setup, NOT_IN_THE_CALENDAR));

    setup = table_setup;
    setup.days = 8;
    for (unsigned d = 0; d < 8; d++)
        setup.day_code[d] = 1;
    setup.first_day = 36517;
    CHECK(both_answer(&setup, DONE));
    setup.first_day = 36518;
    CHECK(both_answer(&setup, NOT_IN_THE_CALENDAR));
    setup.first_day = 78;
    CHECK(both_answer(&setup, CODE_DISAGREES));
    setup.day_code[7] = 0;
    CHECK(both_answer(&setup, DONE));
}

/* Only the days of the book are looked at. */
static void authorisations_after_2099(void)
{
    struct setup setup = setup_of(84, 1, 0, 1);

    setup.authorisation[0].last_day = 36525;
    setup.authorisation[1].first_day = 40000;
    setup.authorisation[1].last_day = 65534;
    CHECK(both_answer(&setup, DONE));
}

/* "In a checked setup 27, then 28, come after 18 and before 22": reading 19,
 * 17, 19, 17, 18, 27, 28, 22; opening 17, 18, 27, 28.  The setup below has 35
 * bytes and 6 bits of padding. */
static void order_of_checked_setups(void)
{
    /* 22 alone; 28 and 22; 27 over a later day, 28 on an earlier one, 22. */
    struct setup setup = setup_of(84, 1, 0, 1);

    CHECK(reading_checked(&setup, 0, 1) == PADDING_BIT_SET);
    CHECK(reading_checked(&setup, 0, 32) == PADDING_BIT_SET);
    setup = setup_of(84, 1, 1, 1);
    CHECK(reading_checked(&setup, 0, 1) == CODE_DISAGREES);
    CHECK(reading_checked(&setup, 0, 32) == CODE_DISAGREES);
    setup = setup_of(36523, 0, 1, 1);
    CHECK(both_answer(&setup, NOT_IN_THE_CALENDAR));
    CHECK(reading_checked(&setup, 0, 1) == NOT_IN_THE_CALENDAR);
    setup = setup_of(36523, 1, 1, 1);
    CHECK(reading_checked(&setup, 0, 1) == NOT_IN_THE_CALENDAR);

    /* 18 and 22; 18 and 28; 18, 27 and 28. */
    setup = setup_of(84, 1, 0, 1);
    setup.authorisation[2].account[1] = 0;
    CHECK(both_answer(&setup, ROW_WRONG) && reading_checked(&setup, 0, 1) == ROW_WRONG);
    setup.day_code[1] = 1;
    CHECK(both_answer(&setup, ROW_WRONG) && reading_checked(&setup, 0, 1) == ROW_WRONG);
    setup.first_day = 36523;
    CHECK(both_answer(&setup, ROW_WRONG) && reading_checked(&setup, 0, 1) == ROW_WRONG);

    /* A code 3, with 18 and 27; with 27; with 28 on an earlier day. */
    setup.day_code[2] = 3;
    CHECK(both_answer(&setup, SETUP_WRONG) && reading_checked(&setup, 0, 1) == SETUP_WRONG);
    CHECK(reading_checked(&setup, 1, 0) == BYTES_END_TOO_SOON);
    CHECK(checked(36525, 3, 1, 1, SETUP_WRONG));
    CHECK(checked(36523, 1, 1, 3, SETUP_WRONG));
    CHECK(checked(84, 0, 3, 1, SETUP_WRONG));

    /* Short, with 27; with 28. */
    setup = setup_of(36525, 1, 1, 1);
    CHECK(reading_checked(&setup, 1, 0) == BYTES_END_TOO_SOON);
    CHECK(reading_checked(&setup, 30, 0) == BYTES_END_TOO_SOON);
    setup = setup_of(84, 1, 1, 1);
    CHECK(reading_checked(&setup, 1, 0) == BYTES_END_TOO_SOON);

    /* Wrong counts and a last day above 65,534, with 27 and short; under 5
     * bytes. */
    CHECK(checked(65533, 1, 1, 1, SETUP_WRONG));
    setup = setup_of(65533, 1, 1, 1);
    CHECK(reading_checked(&setup, 30, 0) == SETUP_WRONG);
    CHECK(reading_checked(&setup, 31, 0) == BYTES_END_TOO_SOON);
    CHECK(reading_checked(&setup, 35, 0) == BYTES_END_TOO_SOON);
    setup = setup_of(36525, 1, 1, 1);
    setup.accounts = 65;
    CHECK(both_answer(&setup, SETUP_WRONG) && reading_checked(&setup, 1, 0) == SETUP_WRONG);
    setup = setup_of(36525, 1, 1, 1);
    setup.days = 9;
    CHECK(both_answer(&setup, SETUP_WRONG));
    setup.days = 0;
    CHECK(both_answer(&setup, SETUP_WRONG));
}

static void opening_checked_books(void)
{
    struct setup setup = setup_of(84, 1, 0, 1);

    CHECK(opening_checked(&setup, 1) == DONE && opening_checked(&setup, 256) == DONE);
    CHECK(opening_checked(&setup, 0) == SETUP_WRONG && opening_checked(&setup, 257) == SETUP_WRONG);
    setup.day_code[1] = 1;
    CHECK(opening_checked(&setup, 0) == SETUP_WRONG);
    setup.first_day = 36525;
    CHECK(opening_checked(&setup, 257) == SETUP_WRONG);

    /* No first day is cut. */
    setup = setup_of(65536 + 84, 1, 0, 1);
    CHECK(opening_checked(&setup, 16) == SETUP_WRONG);
    setup.first_day = UINT32_MAX;
    CHECK(opening_checked(&setup, 16) == SETUP_WRONG);
}

/* "on request": without it nothing is held against the calendar. */
static void unchecked_setups(void)
{
    static const unsigned first_day[4] = {84, 301, 36523, 65532};

    for (unsigned i = 0; i < 4; i++) {
        struct setup setup = setup_of(first_day[i], 2, 1, 0);

        CHECK(reading_setup(&setup, 0, 0) == DONE);
        CHECK(reading_setup(&setup, 0, 1) == PADDING_BIT_SET);
        CHECK(open_book(&book, &setup, 16) == DONE);
    }
}

/* ---- A3: "Say which entry was at fault" ----
 *
 * The table's day 100 has 48 periods, 101 has 46 and 102 has 50.  The
 * notifications below give periods 1, 2, 3 and so on, so that place 7 has
 * period 8; then some of their entries are changed. */

/* 0/1 from agent 7 for these days; entries past the 50th are not held. */
static struct notification rising(unsigned first, unsigned last, unsigned count)
{
    struct notification n = {
        .agent = 7,
        .key = 500,
        .reference = 1,
        .first_day = first,
        .last_day = last,
        .count = count,
    };

    for (unsigned e = 0; e < count && e < MOST_ENTRIES; e++)
        n.entry[e] = (struct entry){e + 1, 10};
    return n;
}

static struct notification with_period(struct notification n, unsigned at, unsigned period)
{
    n.entry[at].period = period;
    return n;
}

static struct notification with_volume(struct notification n, unsigned at, int32_t volume)
{
    n.entry[at].volume = volume;
    return n;
}

/* Only the count is changed. */
static struct notification with_count(struct notification n, unsigned count)
{
    n.count = count;
    return n;
}

/* Two entries of these periods for day 100. */
static struct notification two_periods(unsigned one, unsigned other)
{
    return with_period(with_period(rising(100, 100, 2), 0, one), 1, other);
}

static bool fits_a_packed_message(const struct notification *n)
{
    if (n->count > MOST_ENTRIES)
        return false;
    for (unsigned e = 0; e < n->count; e++)
        if (n->entry[e].period > 63 || n->entry[e].volume < -134217728
            || n->entry[e].volume > 134217727)
            return false;
    return true;
}

static struct book book_before;

static bool book_is_unchanged(void)
{
    return memcmp(&book, &book_before, sizeof book) == 0;
}

static bool told_by_struct(const struct notification *n, enum answer answer, unsigned place)
{
    struct acceptance told = {ADDITIONAL, 99, 99};

    if (notify(&book, n, &told) != answer || told.place != place)
        return false;
    return answer == DONE || (told.kind == INITIAL && told.slot == 0 && book_is_unchanged());
}

static bool told_by_bytes(const struct notification *n, enum answer answer, unsigned place)
{
    struct message message = {.kind = NOTIFICATION, .notification = *n};
    struct application told = {99, 99, 99, 99};
    uint8_t bytes[MOST_MESSAGE_BYTES];
    size_t length = pack_message(&message, bytes);

    if (apply_message(&book, bytes, length, &told) != answer || told.place != place)
        return false;
    if (answer == DONE)
        return told.kind >= 1 && told.kind <= 3 && told.length == length;
    return told.kind == 0 && told.slot == 0 && told.length == 0 && book_is_unchanged();
}

/* Whether the answer carries this place, given the struct and, where it can
 * be packed, the bytes; a refusal gives nothing else and changes nothing.
 * Afterwards the book is as it was. */
static bool told(struct notification n, enum answer answer, unsigned place)
{
    memcpy(&book_before, &book, sizeof book);

    bool right = told_by_struct(&n, answer, place);

    memcpy(&book, &book_before, sizeof book);
    if (fits_a_packed_message(&n))
        right = told_by_bytes(&n, answer, place) && right;
    memcpy(&book, &book_before, sizeof book);
    return right;
}

/* Entries without a fault, as many as there can be, and none at all. */
static void no_entry_at_fault(void)
{
    open_table();
    CHECK(told(rising(101, 101, 46), DONE, 0));
    CHECK(told(rising(100, 100, 48), DONE, 0));
    CHECK(told(rising(102, 102, 50), DONE, 0));
    CHECK(told(rising(101, 102, 48), DONE, 0) && told(rising(102, EVERGREEN, 48), DONE, 0));
    CHECK(told(rising(100, 100, 0), DONE, 0) && told(rising(100, EVERGREEN, 0), DONE, 0));
    CHECK(told(with_volume(rising(102, 102, 50), 49, 99999999), DONE, 0));
    CHECK(told(with_volume(rising(102, 102, 50), 0, -99999999), DONE, 0));

    /* "Entry places past the count ... are no part of a message". */
    CHECK(told(with_count(with_period(rising(100, 100, 4), 3, 0), 3), DONE, 0));
    CHECK(told(with_count(with_volume(rising(100, 100, 4), 3, 100000000), 3), DONE, 0));
    CHECK(told(with_count(with_period(rising(100, 100, 1), 0, 49), 0), DONE, 0));
}

/* "10: a period is 0". */
static void periods_0(void)
{
    open_table();
    CHECK(told(with_period(rising(102, 102, 50), 0, 0), PERIODS_WRONG, 0));
    CHECK(told(with_period(rising(102, 102, 50), 1, 0), PERIODS_WRONG, 1));
    CHECK(told(with_period(rising(102, 102, 50), 7, 0), PERIODS_WRONG, 7));
    CHECK(told(with_period(rising(102, 102, 50), 24, 0), PERIODS_WRONG, 24));
    CHECK(told(with_period(rising(102, 102, 50), 48, 0), PERIODS_WRONG, 48));
    CHECK(told(with_period(rising(102, 102, 50), 49, 0), PERIODS_WRONG, 49));
    CHECK(told(with_period(rising(101, 101, 46), 45, 0), PERIODS_WRONG, 45));
    CHECK(told(with_period(rising(100, 100, 48), 47, 0), PERIODS_WRONG, 47));
    CHECK(told(with_period(rising(100, 102, 48), 0, 0), PERIODS_WRONG, 0));
    CHECK(told(with_period(rising(100, 102, 48), 23, 0), PERIODS_WRONG, 23));
    CHECK(told(with_period(rising(100, EVERGREEN, 48), 47, 0), PERIODS_WRONG, 47));
    CHECK(told(with_period(rising(100, 100, 1), 0, 0), PERIODS_WRONG, 0));
}

/* "or too high", on this day only, with this highest period. */
static void too_high_on_a_day(unsigned day, unsigned highest)
{
    unsigned last = highest - 1; /* the last entry's place */
    struct notification n = rising(day, day, highest);

    CHECK(told(with_period(n, 0, highest + 1), PERIODS_WRONG, 0));
    CHECK(told(with_period(n, 1, highest + 1), PERIODS_WRONG, 1));
    CHECK(told(with_period(n, 20, highest + 1), PERIODS_WRONG, 20));
    CHECK(told(with_period(n, last, highest), DONE, 0));
    CHECK(told(with_period(n, last, highest + 1), PERIODS_WRONG, last));
    CHECK(told(with_period(n, last, 63), PERIODS_WRONG, last));
    CHECK(told(with_period(rising(day, day, 1), 0, highest), DONE, 0));
    CHECK(told(with_period(rising(day, day, 1), 0, highest + 1), PERIODS_WRONG, 0));
    CHECK(told(with_period(rising(day, day, 3), 2, highest + 1), PERIODS_WRONG, 2));
}

static void too_high_on_single_days(void)
{
    open_table();
    too_high_on_a_day(101, 46);
    too_high_on_a_day(100, 48);
    too_high_on_a_day(102, 50);

    /* All rise, but there are more than the day has. */
    CHECK(told(rising(101, 101, 47), PERIODS_WRONG, 46));
    CHECK(told(rising(101, 101, 50), PERIODS_WRONG, 46));
    CHECK(told(rising(100, 100, 49), PERIODS_WRONG, 48));
    CHECK(told(rising(100, 100, 50), PERIODS_WRONG, 48));

    /* Not cut to 6, 8 or 16 bits. */
    CHECK(told(with_period(rising(100, 100, 9), 4, 64 + 5), PERIODS_WRONG, 4));
    CHECK(told(with_period(rising(100, 100, 9), 4, 256 + 5), PERIODS_WRONG, 4));
    CHECK(told(with_period(rising(100, 100, 9), 8, 65536 + 9), PERIODS_WRONG, 8));
    CHECK(told(with_period(rising(100, 100, 9), 8, UINT32_MAX), PERIODS_WRONG, 8));
}

/* "Otherwise, evergreen included: periods 1 to 48", over short and long days
 * too. */
static void too_high_over_several_days(void)
{
    static const unsigned first_and_last[5][2] = {
        {100, 101}, {101, 102}, {102, 103}, {99, 100}, {102, EVERGREEN},
    };

    open_table();
    for (unsigned i = 0; i < 5; i++) {
        struct notification n = rising(first_and_last[i][0], first_and_last[i][1], 48);

        CHECK(told(n, DONE, 0));
        CHECK(told(with_period(n, 0, 49), PERIODS_WRONG, 0));
        CHECK(told(with_period(n, 23, 49), PERIODS_WRONG, 23));
        CHECK(told(with_period(n, 46, 50), PERIODS_WRONG, 46));
        CHECK(told(with_period(n, 47, 49), PERIODS_WRONG, 47));
        CHECK(told(with_period(n, 47, 50), PERIODS_WRONG, 47));
    }
    CHECK(told(rising(101, 102, 49), PERIODS_WRONG, 48));
    CHECK(told(rising(102, EVERGREEN, 50), PERIODS_WRONG, 48));
}

/* "or periods do not strictly rise": equal to the one before.  The later
 * entry offends, so never the first. */
static void periods_equal(void)
{
    open_table();
    CHECK(told(two_periods(1, 1), PERIODS_WRONG, 1));
    CHECK(told(two_periods(48, 48), PERIODS_WRONG, 1));
    CHECK(told(with_period(rising(102, 102, 50), 1, 1), PERIODS_WRONG, 1));
    CHECK(told(with_period(rising(102, 102, 50), 7, 7), PERIODS_WRONG, 7));
    CHECK(told(with_period(rising(102, 102, 50), 24, 24), PERIODS_WRONG, 24));
    CHECK(told(with_period(rising(102, 102, 50), 49, 49), PERIODS_WRONG, 49));
    CHECK(told(with_period(rising(101, 101, 46), 45, 45), PERIODS_WRONG, 45));
    CHECK(told(with_period(rising(100, 100, 48), 47, 47), PERIODS_WRONG, 47));
    CHECK(told(with_period(rising(101, EVERGREEN, 48), 47, 47), PERIODS_WRONG, 47));

    /* An entry made equal to the one after it: that one offends. */
    CHECK(told(with_period(rising(102, 102, 50), 0, 2), PERIODS_WRONG, 1));
    CHECK(told(with_period(rising(102, 102, 50), 24, 26), PERIODS_WRONG, 25));
    CHECK(told(with_period(rising(102, 102, 50), 48, 50), PERIODS_WRONG, 49));
}

/* The same: below the one before. */
static void periods_below(void)
{
    open_table();
    CHECK(told(two_periods(2, 1), PERIODS_WRONG, 1));
    CHECK(told(two_periods(48, 1), PERIODS_WRONG, 1));
    CHECK(told(two_periods(48, 47), PERIODS_WRONG, 1));
    CHECK(told(with_period(rising(102, 102, 50), 2, 1), PERIODS_WRONG, 2));
    CHECK(told(with_period(rising(102, 102, 50), 7, 6), PERIODS_WRONG, 7));
    CHECK(told(with_period(rising(102, 102, 50), 24, 1), PERIODS_WRONG, 24));
    CHECK(told(with_period(rising(102, 102, 50), 49, 48), PERIODS_WRONG, 49));
    CHECK(told(with_period(rising(102, 102, 50), 49, 1), PERIODS_WRONG, 49));
    CHECK(told(with_period(rising(101, 101, 46), 45, 44), PERIODS_WRONG, 45));
    CHECK(told(with_period(rising(100, 100, 48), 47, 1), PERIODS_WRONG, 47));
    CHECK(told(with_period(rising(101, EVERGREEN, 48), 47, 46), PERIODS_WRONG, 47));

    /* An entry put above those after it: the next one offends. */
    CHECK(told(with_period(rising(102, 102, 49), 0, 50), PERIODS_WRONG, 1));
    CHECK(told(with_period(rising(102, 102, 49), 24, 50), PERIODS_WRONG, 25));
    CHECK(told(with_period(rising(102, 102, 49), 47, 50), PERIODS_WRONG, 48));

    /* 1, 3, 2, 4: 4 rises again, 2 offends. */
    CHECK(told(with_period(with_period(rising(100, 100, 4), 1, 3), 2, 2), PERIODS_WRONG, 2));
}

/* "an entry past the 50th counts as too high": the place is 50 where none of
 * the first fifty offends under 10, however many there are. */
static void entries_past_the_50th(void)
{
    static const unsigned counts[8] = {51, 52, 63, 64, 100, 128, 254, 255};

    open_table();
    for (unsigned i = 0; i < 8; i++) {
        struct notification n = rising(102, 102, counts[i]);

        CHECK(told(n, PERIODS_WRONG, 50));
        CHECK(told(with_period(n, 0, 0), PERIODS_WRONG, 0));
        CHECK(told(with_period(n, 0, 51), PERIODS_WRONG, 0));
        CHECK(told(with_period(n, 1, 1), PERIODS_WRONG, 1));
        CHECK(told(with_period(n, 24, 3), PERIODS_WRONG, 24));
        CHECK(told(with_period(n, 49, 0), PERIODS_WRONG, 49));
        CHECK(told(with_period(n, 49, 51), PERIODS_WRONG, 49));
        CHECK(told(with_period(n, 49, 49), PERIODS_WRONG, 49));
        CHECK(told(with_period(n, 49, 48), PERIODS_WRONG, 49));
        CHECK(told(rising(101, 101, counts[i]), PERIODS_WRONG, 46));
        CHECK(told(rising(100, 100, counts[i]), PERIODS_WRONG, 48));
        CHECK(told(rising(101, EVERGREEN, counts[i]), PERIODS_WRONG, 48));

        /* An 11 earlier makes no difference. */
        CHECK(told(with_volume(n, 0, 100000000), PERIODS_WRONG, 50));
        CHECK(told(with_volume(n, 3, -100000000), PERIODS_WRONG, 50));
        CHECK(told(with_volume(n, 49, 100000000), PERIODS_WRONG, 50));
        CHECK(told(with_volume(with_period(n, 30, 0), 3, 100000000), PERIODS_WRONG, 30));
    }
}

/* "11: a volume out of range". */
static void volumes_out_of_range(void)
{
    static const int32_t wrong[6]
        = {100000000, -100000000, 134217727, -134217728, INT32_MAX, NOTHING_STANDS};

    open_table();
    for (unsigned i = 0; i < 6; i++) {
        CHECK(told(with_volume(rising(102, 102, 50), 0, wrong[i]), VOLUME_OUT_OF_RANGE, 0));
        CHECK(told(with_volume(rising(102, 102, 50), 1, wrong[i]), VOLUME_OUT_OF_RANGE, 1));
        CHECK(told(with_volume(rising(102, 102, 50), 24, wrong[i]), VOLUME_OUT_OF_RANGE, 24));
        CHECK(told(with_volume(rising(102, 102, 50), 49, wrong[i]), VOLUME_OUT_OF_RANGE, 49));
        CHECK(told(with_volume(rising(101, 101, 46), 45, wrong[i]), VOLUME_OUT_OF_RANGE, 45));
        CHECK(told(with_volume(rising(100, 100, 48), 47, wrong[i]), VOLUME_OUT_OF_RANGE, 47));
        CHECK(told(with_volume(rising(99, EVERGREEN, 48), 9, wrong[i]), VOLUME_OUT_OF_RANGE, 9));
        CHECK(told(with_volume(rising(100, 100, 1), 0, wrong[i]), VOLUME_OUT_OF_RANGE, 0));
    }
}

/* The least place is told, whatever is wrong there. */
static void several_entries_at_fault(void)
{
    struct notification n;

    open_table();
    n = with_period(rising(102, 102, 50), 40, 40); /* equal */
    CHECK(told(n, PERIODS_WRONG, 40));
    n = with_period(n, 30, 0);
    CHECK(told(n, PERIODS_WRONG, 30));
    n = with_period(n, 45, 51);
    CHECK(told(n, PERIODS_WRONG, 30));
    n = with_period(n, 12, 51);
    CHECK(told(n, PERIODS_WRONG, 12));
    n = with_period(n, 11, 3); /* below */
    CHECK(told(n, PERIODS_WRONG, 11));
    n = with_period(n, 0, 0);
    CHECK(told(n, PERIODS_WRONG, 0));

    n = with_volume(rising(102, 102, 50), 49, 100000000);
    n = with_volume(n, 9, -100000000);
    CHECK(told(n, VOLUME_OUT_OF_RANGE, 9));
    n = with_volume(n, 3, 100000000);
    CHECK(told(n, VOLUME_OUT_OF_RANGE, 3));
    n = with_volume(n, 0, -134217728);
    CHECK(told(n, VOLUME_OUT_OF_RANGE, 0));

    /* Every entry. */
    n = rising(102, 102, 50);
    for (unsigned e = 0; e < 50; e++)
        n = with_volume(n, e, 100000000);
    CHECK(told(n, VOLUME_OUT_OF_RANGE, 0));
    for (unsigned e = 0; e < 50; e++)
        n = with_period(n, e, 5);
    CHECK(told(n, PERIODS_WRONG, 1));
}

/* "10 is still decided over all entries before 11", and carries its own
 * place. */
static void both_10_and_11(void)
{
    struct notification late = with_period(rising(102, 102, 50), 49, 0);
    struct notification middle = with_period(rising(102, 102, 50), 24, 51);
    struct notification early = with_period(rising(102, 102, 50), 0, 0);
    struct notification equal = with_period(rising(101, 102, 48), 20, 20);

    open_table();
    CHECK(told(with_volume(late, 0, 100000000), PERIODS_WRONG, 49));
    CHECK(told(with_volume(late, 24, -100000000), PERIODS_WRONG, 49));
    CHECK(told(with_volume(late, 48, 100000000), PERIODS_WRONG, 49));
    CHECK(told(with_volume(late, 49, 100000000), PERIODS_WRONG, 49));
    CHECK(told(with_volume(middle, 0, 100000000), PERIODS_WRONG, 24));
    CHECK(told(with_volume(middle, 24, 100000000), PERIODS_WRONG, 24));
    CHECK(told(with_volume(middle, 25, 100000000), PERIODS_WRONG, 24));
    CHECK(told(with_volume(middle, 49, 100000000), PERIODS_WRONG, 24));
    CHECK(told(with_volume(early, 0, 100000000), PERIODS_WRONG, 0));
    CHECK(told(with_volume(early, 1, 100000000), PERIODS_WRONG, 0));
    CHECK(told(with_volume(early, 49, 100000000), PERIODS_WRONG, 0));
    CHECK(told(with_volume(equal, 19, 100000000), PERIODS_WRONG, 20));
    CHECK(told(with_volume(equal, 21, 100000000), PERIODS_WRONG, 20));
    CHECK(told(with_volume(with_volume(equal, 2, 100000000), 40, 100000000), PERIODS_WRONG, 20));
}

/* Period 0 at place 7 and a volume out of range at place 3. */
static struct notification at_fault(void)
{
    return with_volume(with_period(rising(100, 100, 48), 7, 0), 3, 100000000);
}

/* The answers that come before 10 carry place 0. */
static void answers_before_10(void)
{
    struct notification n;

    open_table();
    CHECK(told(at_fault(), PERIODS_WRONG, 7));
    n = at_fault();
    n.first_day = 103;
    n.last_day = 103;
    CHECK(told(n, FIRST_AFTER_BOOK, 0));
    n.first_day = 99;
    n.last_day = 99;
    CHECK(told(n, LAST_BEFORE_CURRENT, 0));
    n.first_day = 100;
    CHECK(told(n, LAST_BEFORE_FIRST, 0));
    n = at_fault();
    n.originator = 1;
    CHECK(told(n, ORIGINATOR_WRONG, 0));
    n = at_fault();
    n.authorisation = 2;
    n.key = 700;
    CHECK(told(n, NOT_IN_FORCE, 0));
    n.key = 701;
    CHECK(told(n, KEY_OR_AGENT_WRONG, 0));
    n.authorisation = 3;
    CHECK(told(n, AUTHORISATION_UNKNOWN, 0));
    CHECK(told(with_count(n, 5), AUTHORISATION_UNKNOWN, 0)); /* 11 only */
    CHECK(told(with_count(n, 51), AUTHORISATION_UNKNOWN, 0));
    close_gates(48 + 46 + 50);
    CHECK(told(at_fault(), EVERY_GATE_CLOSED, 0));
    book.gates_closed++;
    CHECK(told(at_fault(), NOT_A_SOUND_BOOK, 0));
    CHECK(told(with_count(at_fault(), 255), NOT_A_SOUND_BOOK, 0));
}

/* Where this answer is due, 10 and 11 come before it with their places;
 * without them it carries place 0. */
static void place_before(enum answer answer, unsigned reference)
{
    struct notification right = rising(100, 100, 48);
    struct notification period_and_volume = at_fault();
    struct notification volume = with_volume(right, 3, 100000000);

    right.reference = reference;
    period_and_volume.reference = reference;
    volume.reference = reference;
    CHECK(told(period_and_volume, PERIODS_WRONG, 7));
    CHECK(told(volume, VOLUME_OUT_OF_RANGE, 3));
    CHECK(told(right, answer, 0));
}

static void answers_after_11(void)
{
    open_single(TYPE_ADDITIONAL, 16);
    CHECK(send(0, 7, 0, 1, 100, 100, 1, 5) == DONE);
    place_before(REPLACEMENT_REFUSED, 1);
    open_single(TYPE_REPLACEMENT, 16);
    CHECK(send(0, 7, 0, 1, 100, 100, 1, 5) == DONE);
    place_before(ADDITIONAL_REFUSED, 2);
    open_single(TYPE_BOTH, 1);
    CHECK(send(0, 7, 0, 1, 100, 100, 1, 5) == DONE);
    place_before(EVERY_SLOT_HELD, 2);
    place_before(DONE, 1);
}

/* Whether these bytes give this answer and nothing else, no place either. */
static bool bytes_refused(const uint8_t *bytes, size_t length, enum answer answer)
{
    struct application told = {99, 99, 99, 99};

    return apply_message(&book, bytes, length, &told) == answer && is_zero(&told);
}

/* A notification at fault that cannot be read, more than 50 entries among
 * them; messages of other kinds. */
static void packed_messages_without_place(void)
{
    static const uint8_t gate = 0x00;
    static const uint8_t kind_3 = 0xc0;
    static const uint8_t nullification[4] = {0x80, 0x04, 0x01, 0x90};
    static const uint8_t equal[4] = {0x80, 0x00, 0x01, 0x90};
    struct message message = {.kind = NOTIFICATION, .notification = at_fault()};
    struct application told = {99, 99, 99, 99};
    uint8_t bytes[MOST_MESSAGE_BYTES];

    open_table();
    message.notification.count = 47; /* six bits of padding */
    CHECK(pack_message(&message, bytes) == 212 && padding_of_message(&message) == 6);
    CHECK(bytes_refused(bytes, 211, BYTES_END_TOO_SOON));
    CHECK(bytes_refused(bytes, 0, BYTES_END_TOO_SOON));
    bytes[211] |= 1;
    CHECK(bytes_refused(bytes, 212, PADDING_BIT_SET));
    message.notification.count = 51;
    CHECK(pack_message(&message, bytes) == MOST_MESSAGE_BYTES);
    CHECK(bytes_refused(bytes, MOST_MESSAGE_BYTES, MORE_THAN_50_ENTRIES));
    CHECK(bytes_refused(&kind_3, 1, KIND_3));
    CHECK(bytes_refused(equal, 4, ACCOUNT_WRONG));
    CHECK(apply_message(&book, &gate, 1, &told) == DONE && told.place == 0);
    told.place = 99;
    CHECK(apply_message(&book, nullification, 4, &told) == DONE && told.place == 0);
}

static void which_entry_was_at_fault(void)
{
    no_entry_at_fault();
    periods_0();
    too_high_on_single_days();
    too_high_over_several_days();
    periods_equal();
    periods_below();
    entries_past_the_50th();
    volumes_out_of_range();
    several_entries_at_fault();
    both_10_and_11();
    answers_before_10();
    answers_after_11();
    packed_messages_without_place();
}

/* ---- The P1 story of "The sheet program", and A3's ---- */

static void write_bytes(const uint8_t *bytes, size_t length)
{
    fwrite(bytes, 1, length, stdout);
}

static void write_message(const struct message *message)
{
    uint8_t bytes[MOST_MESSAGE_BYTES];

    write_bytes(bytes, pack_message(message, bytes));
}

static void write_notification(unsigned agent, unsigned key, unsigned count, int32_t volume_1,
                               int32_t volume_2)
{
    struct message message = {.kind = NOTIFICATION};

    message.notification = (struct notification){
        .agent = agent,
        .key = key,
        .reference = 1,
        .first_day = 100,
        .last_day = 100,
        .count = count,
        .entry = {{1, volume_1}, {2, volume_2}},
    };
    write_message(&message);
}

/* "one day 100 of 48, accounts 0 and 1, one authorisation". */
static void write_p1_setup(void)
{
    static const struct setup setup = {
        .first_day = 100,
        .days = 1,
        .accounts = 2,
        .authorisations = 1,
        .day_code = {1},
        .authorisation = {{{7, 9}, {0, 1}, 500, 0, EVERGREEN, TYPE_BOTH}},
    };
    uint8_t bytes[MOST_SETUP_BYTES];

    write_bytes(bytes, pack_setup(&setup, bytes));
}

/* "agent 7 gives 5000 for period 1; agent 9 the same; agent 7 with key 501; a
 * gate; agent 9 replaces with 6000 for period 1 and 10 for 2". */
static void write_p1_story(void)
{
    struct message gate = {.kind = GATE};

    write_p1_setup();
    write_notification(7, 500, 1, 5000, 0);
    write_notification(9, 500, 1, 5000, 0);
    write_notification(7, 501, 1, 5000, 0);
    write_message(&gate);
    write_notification(9, 500, 2, 6000, 10);
}

static void write_at_fault(struct notification n)
{
    struct message message = {.kind = NOTIFICATION, .notification = n};

    write_message(&message);
}

/* P1's first two messages, and then entries at fault: period 0 at place 7;
 * one entry of period 49; 10 at place 1 after an 11 at place 0; 11 at place
 * 47; one entry with 11; an agent's wrong key with period 0; and fifty
 * entries, two more than the day has. */
static void write_a3_story(void)
{
    struct notification wrong_key = with_period(rising(100, 100, 3), 1, 0);

    wrong_key.key = 501;
    write_p1_setup();
    write_notification(7, 500, 1, 5000, 0);
    write_notification(9, 500, 1, 5000, 0);
    write_at_fault(with_period(rising(100, 100, 48), 7, 0));
    write_at_fault(with_period(rising(100, 100, 1), 0, 49));
    write_at_fault(with_volume(two_periods(1, 1), 0, 100000000));
    write_at_fault(with_volume(rising(100, 100, 48), 47, -100000000));
    write_at_fault(with_volume(rising(100, 100, 1), 0, 100000000));
    write_at_fault(wrong_key);
    write_at_fault(rising(100, 100, 50));
}

/* Writes the story of this name; false where there is none. */
static bool write_story(const char *name)
{
    bool is_a3 = strcmp(name, "a3") == 0;

    if (!is_a3 && strcmp(name, "p1") != 0)
        return false;
    if (is_a3)
        write_a3_story();
    else
        write_p1_story();
    return true;
}

int main(int argc, char **argv)
{
    if (argc == 2 && write_story(argv[1]))
        return 0;
    p1();
    p2();
    p3();
    p4();
    p5();
    p6();
    p7();
    p8();
    p9();
    p10();
    p11();
    p12();
    p13();
    clock_change_days();
    disagreement_on_clock_change_days();
    omitted_periods();
    single_clock_change_days();
    limit_over_several_days();
    one_day_in_the_book();
    mark_after_the_last_day();
    gates_within_clock_change_days();
    types();
    slots();
    last_gate();
    questions();
    wide_numbers();
    unsound_books();
    packed_messages();
    lengths();
    order_of_reading_messages();
    order_of_reading_setups();
    days_of_the_calendar();
    rule_over_the_whole_calendar();
    dates_and_back();
    not_in_the_calendar();
    wide_numbers_in_the_calendar();
    proposed_codes();
    checked_setups();
    checked_setups_of_other_sizes();
    authorisations_after_2099();
    order_of_checked_setups();
    opening_checked_books();
    unchecked_setups();
    which_entry_was_at_fault();
    printf("examples: %u checks, %u failed\n", checks, failures);
    return failures == 0 ? 0 : 1;
}

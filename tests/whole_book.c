/* Document 01's table P1 to P13, and document 02's A1 and A3, by the whole book from C: a setup written, opened packed, messages written, read and sent
 * as structs, and what is then shown as marks, rows and totals. Every expected number is the documents', or follows from them by hand. */
#include "ghendufika.h"

#include <stdio.h>
#include <stdlib.h>
#include <string.h>

enum { SLOTS = 4, DAYS = 3, PLACES = SLOTS * DAYS * GHENDUFIKA_PLACES_A_DAY };

static ghendufika_book book;
static uint32_t held[SLOTS];
static int32_t side1[PLACES], side2[PLACES];
static unsigned long checks;

#define LENT held, SLOTS, side1, PLACES, side2, PLACES
#define EXPECT(what, found, expected) expect(__LINE__, what, (double)(found), (double)(expected))

static void expect(int line, const char *what, double found, double expected) {
    checks++;
    if (memcmp(&found, &expected, sizeof found) == 0) return; /* so that minus zero is not zero */
    fprintf(stderr, "whole_book.c:%d: %s is %.17g, and the document has %.17g\n", line, what, found, expected);
    exit(1);
}

/* ---- the table's book: "Days 100 (48), 101 (46), 102 (50), accounts 0 to 2", and its three authorisations */

static ghendufika_setup the_setup(void) {
    ghendufika_setup s = {.first = 100, .days = 3, .accounts = 3, .authorisations = 3, .codes = {GHENDUFIKA_DAY_OF_48, GHENDUFIKA_DAY_OF_46, GHENDUFIKA_DAY_OF_50}};
    s.rows[0] = (ghendufika_authorisation){.agent1 = 7, .agent2 = 9, .account1 = 0, .account2 = 1, .key = 500, .last = GHENDUFIKA_EVERGREEN, .amendment = GHENDUFIKA_TYPE_BOTH};
    s.rows[1] = (ghendufika_authorisation){.agent1 = 7, .agent2 = 7, .account1 = 1, .account2 = 2, .key = 600, .last = GHENDUFIKA_EVERGREEN, .amendment = GHENDUFIKA_TYPE_REPLACEMENT};
    s.rows[2] = (ghendufika_authorisation){.agent1 = 7, .agent2 = 9, .account1 = 0, .account2 = 1, .key = 700, .last = 99, .amendment = GHENDUFIKA_TYPE_BOTH};
    return s;
}

/* The same by hand, "most significant bit first": first day 16, days 4, accounts 7, authorisations 7, a code of 2 each, rows of 78 bits. */
static size_t bit;

static void put(uint8_t *bytes, unsigned width, unsigned value) {
    for (unsigned k = width; k-- > 0; bit++) bytes[bit / 8] = (uint8_t)(bytes[bit / 8] | (value >> k & 1u) << (7 - bit % 8));
}

static size_t pack_by_hand(uint8_t *bytes) {
    static const unsigned head[] = {16, 100, 4, 3, 7, 3, 7, 3, 2, 1, 2, 0, 2, 2};
    static const unsigned widths[8] = {8, 8, 6, 6, 16, 16, 16, 2};
    static const unsigned rows[3][8] = {{7, 9, 0, 1, 500, 0, 65535, 0}, {7, 7, 1, 2, 600, 0, 65535, 1}, {7, 9, 0, 1, 700, 0, 99, 0}};
    bit = 0;
    for (size_t k = 0; k < sizeof head / sizeof *head; k += 2) put(bytes, head[k], head[k + 1]);
    for (int r = 0; r < 3; r++)
        for (int k = 0; k < 8; k++) put(bytes, widths[k], rows[r][k]);
    return (bit + 7) / 8;
}

static void open_the_book(void) {
    uint8_t bytes[GHENDUFIKA_MOST_SETUP_BYTES];
    ghendufika_setup_written w = ghendufika_write_setup(the_setup(), bytes, sizeof bytes);
    EXPECT("writing the setup", w.answer, 0);
    memset(side1, 1, sizeof side1), memset(side2, 2, sizeof side2), memset(held, 3, sizeof held);
    ghendufika_opened_packed o = ghendufika_open_packed(bytes, w.length, LENT);
    EXPECT("opening", o.answer, 0);
    EXPECT("bytes of the setup", o.length, 35); /* 34 + 3 * 2 + 3 * 78 bits */
    book = o.book;
}

/* ---- messages: written, read back, and sent as read */

static ghendufika_message passed_on(ghendufika_message m, size_t length) {
    uint8_t bytes[GHENDUFIKA_MOST_MESSAGE_BYTES + 1];
    memset(bytes, 0xEE, sizeof bytes);
    ghendufika_message_written w = ghendufika_write_message(m, bytes, sizeof bytes);
    EXPECT("writing", w.answer, 0);
    EXPECT("bytes written", w.length, length);
    EXPECT("the byte behind", bytes[length], 0xEE);
    ghendufika_message_read r = ghendufika_read_message(bytes, sizeof bytes);
    EXPECT("reading", r.answer, 0);
    EXPECT("bytes read", r.length, length);
    EXPECT("the kind", r.message.kind, m.kind);
    return r.message;
}

/* under an authorisation with its key, by an agent, of an identifier, for days, one period and its volume */
static ghendufika_notified said(unsigned under, unsigned agent, unsigned originator, unsigned reference, unsigned first, unsigned last, unsigned period, int32_t volume) {
    static const uint16_t keys[] = {500, 600, 700};
    ghendufika_message m = {.kind = GHENDUFIKA_NOTIFICATION};
    m.notification = (ghendufika_notification){.authorisation = (uint8_t)under, .agent = (uint8_t)agent, .key = keys[under], .originator = (uint8_t)originator, .reference = (uint16_t)reference, .first = (uint16_t)first, .last = (uint16_t)last, .count = 1};
    m.notification.entries[0] = (ghendufika_entry){.period = (uint8_t)period, .volume = volume};
    return ghendufika_notify(book, passed_on(m, 16).notification, LENT); /* "16 for one" */
}

static uint8_t nullified(unsigned account, unsigned other, unsigned first) {
    ghendufika_message m = {.kind = GHENDUFIKA_NULLIFICATION, .nullification = {.account = (uint8_t)account, .other = (uint8_t)other, .first = (uint16_t)first}};
    ghendufika_nullification x = passed_on(m, 4).nullification;
    return ghendufika_nullify(book, x.account, x.other, x.first, LENT);
}

/* ---- what is shown */

static void expect_total(int line, unsigned account, unsigned day, int64_t kwh) { /* in period 1 */
    ghendufika_totalled t = ghendufika_total(book, LENT, account, day, 1);
    expect(line, "the total's answer", t.answer, 0);
    expect(line, "the total", (double)t.kwh, (double)kwh);
}

static void expect_mark(int line, unsigned originator, unsigned reference, unsigned account, unsigned day, unsigned bar, double first, double second) { /* of period 1 */
    ghendufika_marked m = ghendufika_mark(book, LENT, originator, reference, account, day, 1);
    expect(line, "the mark's answer", m.answer, 0);
    expect(line, "the bar", m.bar, bar);
    expect(line, "the first figure", m.first, first);
    expect(line, "the second figure", m.second, second);
}

/* a row of the day's length: period 1 holds `one`, every later period `later` */
static void expect_row(int line, unsigned originator, unsigned reference, unsigned day, unsigned side, size_t length, int32_t one, int32_t later) {
    ghendufika_row_place r = ghendufika_row(book, LENT, originator, reference, day, side);
    expect(line, "the row's answer", r.answer, 0);
    expect(line, "the row's length", (double)r.length, (double)length);
    expect(line, "the row inside its table", r.start + r.length <= PLACES, 1);
    const int32_t *row = (side == 1 ? side1 : side2) + r.start;
    expect(line, "period 1", row[0], one);
    for (size_t p = 1; p < length; p++) expect(line, "a later period", row[p], later);
}

#define TOTAL(account, day, kwh) expect_total(__LINE__, account, day, kwh)
#define SHOWN(originator, reference, account, day, bar, first, second) expect_mark(__LINE__, originator, reference, account, day, bar, first, second)
#define ROW(originator, reference, day, side, length, one, later) expect_row(__LINE__, originator, reference, day, side, length, one, later)

/* ---- the table */

static void p1_agent_7_says_5000(void) {
    open_the_book();
    ghendufika_notified n = said(0, 7, 0, 1, 100, 100, 1, 5000);
    EXPECT("P1", n.answer, 0);
    EXPECT("initial", n.kind, GHENDUFIKA_INITIAL);
    EXPECT("the lowest slot", n.slot, 0);
    TOTAL(0, 100, 0);
    SHOWN(0, 1, 0, 100, GHENDUFIKA_ONE_SIDE, 5.0, 0.0);
    SHOWN(0, 1, 1, 100, GHENDUFIKA_ONE_SIDE, -5.0, 0.0);
    ROW(0, 1, 100, 1, 48, 5000, 0);
    ROW(0, 1, 100, 2, 48, GHENDUFIKA_MARK, GHENDUFIKA_MARK);
    ROW(0, 1, 101, 1, 46, GHENDUFIKA_MARK, GHENDUFIKA_MARK);
}

static void p2_agent_9_says_alike(void) {
    p1_agent_7_says_5000();
    EXPECT("P2", said(0, 9, 0, 1, 100, 100, 1, 5000).answer, 0);
    TOTAL(0, 100, 5000);
    TOTAL(1, 100, -5000);
    SHOWN(0, 1, 0, 100, GHENDUFIKA_AGREED, 5.0, 0.0);
    SHOWN(0, 1, 1, 100, GHENDUFIKA_AGREED, -5.0, 0.0);
    ROW(0, 1, 100, 2, 48, 5000, 0);
}

static void p3_or_says_4999(void) {
    p1_agent_7_says_5000();
    EXPECT("P3", said(0, 9, 0, 1, 100, 100, 1, 4999).answer, 0);
    TOTAL(0, 100, 0);
    SHOWN(0, 1, 1, 100, GHENDUFIKA_DISAGREED, -5.0, -4.999);
    SHOWN(0, 1, 0, 100, GHENDUFIKA_DISAGREED, 5.0, 4.999);
}

static void p4_the_largest_volumes(void) {
    open_the_book();
    EXPECT("99,999,999", said(0, 7, 0, 1, 100, 100, 1, 99999999).answer, 0);
    EXPECT("-99,999,999", said(0, 7, 0, 1, 100, 100, 1, -99999999).answer, 0);
    EXPECT("100,000,000", said(0, 7, 0, 1, 100, 100, 1, 100000000).answer, 11);
}

static void p5_evergreen_by_one_agent(void) {
    open_the_book();
    EXPECT("P5", said(1, 7, 1, 1, 100, GHENDUFIKA_EVERGREEN, 1, -20).answer, 0);
    for (unsigned day = 100; day <= 102; day++) {
        TOTAL(1, day, -20);
        TOTAL(2, day, 20);
        SHOWN(1, 1, 2, day, GHENDUFIKA_AGREED, 0.02, 0.0);
    }
    ROW(1, 1, 102, 2, 50, -20, 0);
}

static void p6_then_101_only(void) {
    p5_evergreen_by_one_agent();
    EXPECT("P6", said(1, 7, 1, 1, 101, 101, 1, -20).answer, 0);
    ROW(1, 1, 102, 1, 50, GHENDUFIKA_MARK, GHENDUFIKA_MARK);
    ROW(1, 1, 102, 2, 50, GHENDUFIKA_MARK, GHENDUFIKA_MARK);
    SHOWN(1, 1, 1, 102, GHENDUFIKA_BLANK, 0.0, 0.0);
    TOTAL(1, 100, -20);
    ROW(1, 1, 100, 1, 48, -20, 0);
}

static void p7_to_p8_who_may_say(void) {
    p5_evergreen_by_one_agent();
    EXPECT("P7", said(1, 7, 1, 2, 101, 101, 1, 5).answer, 13);
    open_the_book();
    EXPECT("P8 under 0", said(0, 7, 2, 5, 100, 100, 1, 5).answer, 0);
    EXPECT("P8 under 1", said(1, 7, 2, 5, 100, 100, 1, 5).answer, 6);
    EXPECT("P8 under 2", said(2, 7, 2, 5, 100, 100, 1, 5).answer, 5);
    SHOWN(2, 5, 0, 100, GHENDUFIKA_ONE_SIDE, 0.005, 0.0);
}

static void p9_a_closed_period_stays(void) {
    p2_agent_9_says_alike();
    ghendufika_gated g = ghendufika_close_gate(book, LENT);
    EXPECT("one gate", g.answer, 0);
    book = g.book;
    EXPECT("P9", said(0, 9, 0, 1, 100, 100, 1, 6000).answer, 0);
    TOTAL(0, 100, 5000);
    SHOWN(0, 1, 1, 100, GHENDUFIKA_AGREED, -5.0, 0.0);
    ROW(0, 1, 100, 2, 48, 5000, 0);
}

static void p10_to_p11_periods_and_days(void) {
    open_the_book();
    EXPECT("101 only, 47", said(0, 7, 0, 1, 101, 101, 47, 5).answer, 10);
    EXPECT("101 to 102, 48", said(0, 7, 0, 1, 101, 102, 48, 5).answer, 0);
    EXPECT("101 to 102, 49", said(0, 7, 0, 2, 101, 102, 49, 5).answer, 10);
    EXPECT("102 only, 50", said(0, 7, 0, 3, 102, 102, 50, 5).answer, 0);
    EXPECT("100 to 99", said(0, 7, 0, 4, 100, 99, 1, 5).answer, 7);
    EXPECT("99 to 99", said(0, 7, 0, 4, 99, 99, 1, 5).answer, 8);
    EXPECT("103 to 103", said(0, 7, 0, 4, 103, 103, 1, 5).answer, 9);
}

/* ---- document 02, A1: an evergreen notification gives each of its 48 periods its own number */

static ghendufika_notified numbered(unsigned first, unsigned last, unsigned count) {
    ghendufika_message m = {.kind = GHENDUFIKA_NOTIFICATION};
    m.notification = (ghendufika_notification){.agent = 7, .key = 500, .reference = 1, .first = (uint16_t)first, .last = (uint16_t)last, .count = (uint8_t)count};
    for (unsigned k = 0; k < count; k++) m.notification.entries[k] = (ghendufika_entry){.period = (uint8_t)(k + 1), .volume = (int32_t)(k + 1)};
    return ghendufika_notify(book, passed_on(m, (92 + 34 * count + 7) / 8).notification, LENT);
}

static void expect_periods(int line, unsigned day, size_t length, const int32_t *volumes) { /* of 0/1 on side 1 */
    ghendufika_row_place r = ghendufika_row(book, LENT, 0, 1, day, 1);
    expect(line, "the row's answer", r.answer, 0);
    expect(line, "the row's length", (double)r.length, (double)length);
    for (size_t p = 0; p < length; p++) expect(line, "a period", side1[r.start + p], volumes[p]);
}

static const int32_t as_numbered[50] = {1, 2, 3, 4, 5, 6, 7, 8, 9, 10, 11, 12, 13, 14, 15, 16, 17, 18, 19, 20, 21, 22, 23, 24, 25,
                                        26, 27, 28, 29, 30, 31, 32, 33, 34, 35, 36, 37, 38, 39, 40, 41, 42, 43, 44, 45, 46, 47, 48, 49, 50};

static void a1_a_spring_day(void) {
    static const int32_t spring[46] = {1, 2, 5, 6, 7, 8, 9, 10, 11, 12, 13, 14, 15, 16, 17, 18, 19, 20, 21, 22, 23, 24, 25, 26, 27,
                                       28, 29, 30, 31, 32, 33, 34, 35, 36, 37, 38, 39, 40, 41, 42, 43, 44, 45, 46, 47, 48};
    open_the_book();
    EXPECT("100 to evergreen, 48 periods", numbered(100, GHENDUFIKA_EVERGREEN, 48).answer, 0);
    expect_periods(__LINE__, 100, 48, as_numbered);
    expect_periods(__LINE__, 101, 46, spring);
}

static void a1_an_autumn_day(void) {
    static const int32_t autumn[50] = {1, 2, 3, 4, 3, 4, 5, 6, 7, 8, 9, 10, 11, 12, 13, 14, 15, 16, 17, 18, 19, 20, 21, 22, 23,
                                       24, 25, 26, 27, 28, 29, 30, 31, 32, 33, 34, 35, 36, 37, 38, 39, 40, 41, 42, 43, 44, 45, 46, 47, 48};
    open_the_book();
    EXPECT("100 to evergreen, 48 periods", numbered(100, GHENDUFIKA_EVERGREEN, 48).answer, 0);
    expect_periods(__LINE__, 102, 50, autumn);
}

static void a1_a_single_day_is_not_placed(void) {
    open_the_book();
    EXPECT("101 only, 46 periods", numbered(101, 101, 46).answer, 0);
    expect_periods(__LINE__, 101, 46, as_numbered);
    EXPECT("102 only, 50 periods", numbered(102, 102, 50).answer, 0);
    expect_periods(__LINE__, 102, 50, as_numbered);
}

/* ---- document 02, A3: the first entry at fault, its place counted from 0 */

enum { MOST_ENTRIES = GHENDUFIKA_MOST_ENTRIES, FIRST = 0, MIDDLE = 24, LAST = MOST_ENTRIES - 1, FIFTY_FIRST = MOST_ENTRIES };

/* Periods 1, 2, 3, .. of agent 7 under authorisation 0, 5 kWh each. What is past the 50th entry has no place in the struct. */
static ghendufika_notification in_order(unsigned first, unsigned last, unsigned count) {
    ghendufika_notification n = {.agent = 7, .key = 500, .reference = 1, .first = (uint16_t)first, .last = (uint16_t)last, .count = (uint8_t)count};
    for (unsigned k = 0; k < count && k < MOST_ENTRIES; k++) n.entries[k] = (ghendufika_entry){.period = (uint8_t)(k + 1), .volume = 5};
    return n;
}

static ghendufika_notification fifty(void) { return in_order(102, 102, MOST_ENTRIES); } /* day 102 has 50 periods, so nothing is wrong with it */

static ghendufika_notification with_period(ghendufika_notification n, unsigned place, unsigned period) {
    n.entries[place].period = (uint8_t)period;
    return n;
}

static ghendufika_notification with_volume(ghendufika_notification n, unsigned place, int32_t volume) {
    n.entries[place].volume = volume;
    return n;
}

/* The same packed: applied by itself, and in a run behind a gate, whose book is not kept. */
static void expect_packed_fault(int line, ghendufika_notification n, unsigned answer, unsigned place) {
    uint8_t bytes[1 + GHENDUFIKA_MOST_MESSAGE_BYTES] = {0x00}, answers[3] = {77, 77, 77}, places[3] = {77, 77, 77};
    ghendufika_message m = {.kind = GHENDUFIKA_NOTIFICATION, .notification = n};
    ghendufika_message_written w = ghendufika_write_message(m, bytes + 1, GHENDUFIKA_MOST_MESSAGE_BYTES);
    expect(line, "writing", w.answer, 0);
    ghendufika_applied a = ghendufika_apply(book, bytes + 1, w.length, LENT);
    expect(line, "the packed message's answer", a.answer, answer);
    expect(line, "the place of its entry at fault", a.place, place);
    expect(line, "no kind, slot or length", a.kind + a.slot + (double)a.length, 0);
    ghendufika_applied_all run = ghendufika_apply_all(book, bytes, 1 + w.length, LENT, answers, 3, places, 3);
    expect(line, "the run's answer", run.answer, 0);
    expect(line, "its messages", (double)run.done, 2);
    expect(line, "the gate's answer and place", answers[0] * 256 + places[0], 0);
    expect(line, "the message's answer in a run", answers[1], answer);
    expect(line, "the place in a run", places[1], place);
    expect(line, "both buffers past the run", answers[2] * 256 + places[2], 77 * 256 + 77);
}

static void expect_fault(int line, ghendufika_notification n, unsigned answer, unsigned place) {
    ghendufika_notified by_struct = ghendufika_notify(book, n, LENT);
    expect(line, "the answer", by_struct.answer, answer);
    expect(line, "the place of the entry at fault", by_struct.place, place);
    expect(line, "no kind and no slot", by_struct.kind + by_struct.slot, 0);
    if (n.count <= MOST_ENTRIES) expect_packed_fault(line, n, answer, place);
    for (int k = 0; k < PLACES; k++) expect(line, "nothing stands", side1[k] == GHENDUFIKA_MARK && side2[k] == GHENDUFIKA_MARK, 1);
}

#define FAULT(notification, answer, place) expect_fault(__LINE__, notification, answer, place)

static void a3_each_fault_at_each_place(void) {
    static const unsigned where[] = {FIRST, MIDDLE, LAST};
    open_the_book();
    for (int k = 0; k < 3; k++) {
        unsigned place = where[k];
        FAULT(with_period(fifty(), place, 0), 10, place);
        FAULT(with_period(fifty(), place, 51), 10, place);
        FAULT(with_period(fifty(), place, 63), 10, place); /* the highest of 6 bits */
        FAULT(with_volume(fifty(), place, 100000000), 11, place);
        FAULT(with_volume(fifty(), place, -100000000), 11, place);
        if (place == FIRST) continue; /* nothing is before it */
        FAULT(with_period(fifty(), place, place), 10, place); /* that of the entry before */
        FAULT(with_period(fifty(), place, 1), 10, place);
    }
}

static void a3_of_two_that_do_not_rise_the_later(void) {
    open_the_book();
    FAULT(with_period(fifty(), 11, 13), 10, 12); /* .. 10, 11, 13, 13, 14: the 13 that was there before is the later one */
    FAULT(with_period(fifty(), 11, 50), 10, 12); /* .. 10, 11, 50, 13 */
    FAULT(with_period(fifty(), 0, 50), 10, 1);
    FAULT(with_period(with_period(in_order(100, 100, 5), 1, 14), 2, 12), 10, 2); /* 1, 14, 12, 4, 5: the 4 and the 5 are no first */
}

static void a3_an_entry_past_the_50th(void) {
    open_the_book();
    FAULT(in_order(102, 102, 51), 10, FIFTY_FIRST);
    FAULT(in_order(102, 102, 255), 10, FIFTY_FIRST);
    FAULT(with_volume(in_order(102, 102, 51), 3, 100000000), 10, FIFTY_FIRST); /* 10 over all entries before 11 */
    FAULT(with_period(in_order(102, 102, 51), LAST, 0), 10, LAST);
    FAULT(in_order(100, 100, 51), 10, 48); /* 49 on a day of 48 is before it */
}

static void a3_the_highest_period(void) {
    open_the_book();
    FAULT(in_order(101, 101, 47), 10, 46);
    FAULT(in_order(100, 100, 50), 10, 48);
    FAULT(in_order(101, 102, 49), 10, 48);
    FAULT(in_order(100, GHENDUFIKA_EVERGREEN, 50), 10, 48);
}

static void a3_several_at_once(void) {
    open_the_book();
    FAULT(with_period(with_period(fifty(), 9, 0), 5, 0), 10, 5);
    FAULT(with_period(with_period(fifty(), 9, 0), 5, 51), 10, 5);
    FAULT(with_volume(with_volume(fifty(), 30, 100000000), 4, -100000000), 11, 4);
    FAULT(with_period(with_volume(fifty(), 2, 100000000), 40, 0), 10, 40); /* 10 over all entries before 11 */
    FAULT(with_period(with_volume(fifty(), FIRST, 100000000), LAST, 51), 10, LAST);
    FAULT(with_period(with_volume(fifty(), 40, 100000000), 2, 0), 10, 2);
    FAULT(with_period(with_volume(fifty(), 7, 100000000), 7, 0), 10, 7);
}

static void a3_no_other_answer_has_a_place(void) {
    open_the_book();
    ghendufika_notification wrong = with_volume(with_period(fifty(), 40, 0), 2, 100000000), n = wrong;
    n.authorisation = 3;
    FAULT(n, 3, 0);
    n = wrong, n.key = 501;
    FAULT(n, 4, 0);
    n = wrong, n.last = 101;
    FAULT(n, 7, 0);
    n = wrong, n.first = n.last = 103;
    FAULT(n, 9, 0);
    ghendufika_book no_book = book;
    no_book.closed = 145; /* one more than 48 + 46 + 50 */
    EXPECT("no sound book", ghendufika_notify(no_book, wrong, LENT).answer, 1);
    EXPECT("its place", ghendufika_notify(no_book, wrong, LENT).place, 0);
    ghendufika_notified done = ghendufika_notify(book, fifty(), LENT);
    EXPECT("accepted", done.answer, 0);
    EXPECT("initial", done.kind, GHENDUFIKA_INITIAL);
    EXPECT("no place", done.place, 0);
}

/* A message with an entry at fault, a gate, another such message: with room in both buffers for so many, as many are done. */
static void expect_run(int line, size_t room, size_t places_room, size_t done) {
    static const uint8_t expected[2][3] = {{10, 0, 11}, {MIDDLE, 0, LAST}};
    uint8_t bytes[2 * GHENDUFIKA_MOST_MESSAGE_BYTES + 1] = {0}, answers[4] = {77, 77, 77, 77}, places[4] = {77, 77, 77, 77};
    ghendufika_message m = {.kind = GHENDUFIKA_NOTIFICATION, .notification = with_period(fifty(), MIDDLE, 0)};
    size_t one = ghendufika_write_message(m, bytes, GHENDUFIKA_MOST_MESSAGE_BYTES).length;
    m.notification = with_volume(fifty(), LAST, -100000000);
    ghendufika_write_message(m, bytes + one + 1, GHENDUFIKA_MOST_MESSAGE_BYTES);
    ghendufika_applied_all run = ghendufika_apply_all(book, bytes, sizeof bytes, LENT, answers, room, places, places_room);
    expect(line, "the run's answer", run.answer, 0);
    expect(line, "its messages", (double)run.done, (double)done);
    expect(line, "its bytes", (double)run.used, (double)(done < 2 ? done * one : 1 + (done - 1) * one));
    for (size_t k = 0; k < 4; k++) {
        expect(line, "an answer, or what was there", answers[k], k < done ? expected[0][k] : 77);
        expect(line, "a place, or what was there", places[k], k < done ? expected[1][k] : 77);
    }
}

static void a3_the_lesser_room_ends_a_run(void) {
    open_the_book();
    for (size_t room = 0; room <= 4; room++)
        for (size_t places_room = 0; places_room <= 4; places_room++) {
            size_t lesser = room < places_room ? room : places_room;
            expect_run(__LINE__, room, places_room, lesser < 3 ? lesser : 3);
        }
}

static void a3_a_refused_run_leaves_both_buffers(void) {
    uint8_t gate = 0x00, answers[1] = {77}, places[1] = {77};
    open_the_book();
    book.closed = 145; /* one more than there are */
    ghendufika_applied_all run = ghendufika_apply_all(book, &gate, 1, LENT, answers, 1, places, 1);
    EXPECT("the run", run.answer, 1);
    EXPECT("nothing done", run.done + run.used, 0);
    EXPECT("both buffers", answers[0] * 256 + places[0], 77 * 256 + 77);
}

static void p12_to_p13_nullified(void) {
    const uint8_t p13[4] = {0x80, 0x04, 0x01, 0x90};
    uint8_t bytes[4];
    p2_agent_9_says_alike();
    EXPECT("0, 0", nullified(0, 0, 100), 15);
    TOTAL(0, 100, 5000);
    EXPECT("1, 0", nullified(1, 0, 100), 0);
    for (int k = 0; k < PLACES; k++) EXPECT("nothing stands", side1[k] == GHENDUFIKA_MARK && side2[k] == GHENDUFIKA_MARK, 1);
    SHOWN(0, 1, 0, 100, GHENDUFIKA_BLANK, 0.0, 0.0);
    ghendufika_message m = {.kind = GHENDUFIKA_NULLIFICATION, .nullification = {.account = 0, .other = 1, .first = 100}};
    EXPECT("P13", ghendufika_write_message(m, bytes, sizeof bytes).answer, 0);
    EXPECT("80 04 01 90", memcmp(bytes, p13, sizeof p13), 0);
}

/* ---- beside the table: the packed sizes, every field of a setup and of a message, and what a refusal leaves */

static void sizes_and_fields(void) {
    ghendufika_message m = {.kind = GHENDUFIKA_GATE};
    passed_on(m, 1);
    m.kind = GHENDUFIKA_NOTIFICATION;
    passed_on(m, 12);
    m.notification.count = 48;
    passed_on(m, 216);
    m.notification = (ghendufika_notification){.authorisation = 61, .agent = 250, .key = 40001, .originator = 62, .reference = 50002, .first = 30003, .last = 60004, .count = 50};
    for (int k = 0; k < 50; k++) m.notification.entries[k] = (ghendufika_entry){.period = (uint8_t)(k + 1), .volume = k % 2 ? k * 1000003 : -k * 1000003};
    ghendufika_notification n = passed_on(m, 224).notification;
    EXPECT("authorisation", n.authorisation, 61);
    EXPECT("agent", n.agent, 250);
    EXPECT("key", n.key, 40001);
    EXPECT("originator", n.originator, 62);
    EXPECT("reference", n.reference, 50002);
    EXPECT("first", n.first, 30003);
    EXPECT("last", n.last, 60004);
    EXPECT("count", n.count, 50);
    for (int k = 0; k < 50; k++) {
        EXPECT("a period", n.entries[k].period, k + 1);
        EXPECT("a volume", n.entries[k].volume, k % 2 ? k * 1000003 : -k * 1000003);
    }
}

static void a_setup_by_hand(void) {
    uint8_t by_hand[64] = {0}, bytes[64] = {0};
    size_t length = pack_by_hand(by_hand);
    EXPECT("writing", ghendufika_write_setup(the_setup(), bytes, sizeof bytes).length, length);
    EXPECT("its bytes", memcmp(bytes, by_hand, sizeof bytes), 0);
    ghendufika_opened_packed o = ghendufika_open_packed(by_hand, sizeof by_hand, LENT);
    ghendufika_setup s = the_setup();
    EXPECT("opening", o.answer, 0);
    EXPECT("no gate closed", o.book.closed, 0);
    EXPECT("first day", o.book.setup.first, s.first);
    EXPECT("days", o.book.setup.days, s.days);
    EXPECT("accounts", o.book.setup.accounts, s.accounts);
    EXPECT("authorisations", o.book.setup.authorisations, s.authorisations);
    for (int d = 0; d < 8; d++) EXPECT("a code", o.book.setup.codes[d], s.codes[d]);
    for (int k = 0; k < 64; k++) {
        const ghendufika_authorisation *a = &o.book.setup.rows[k], *e = &s.rows[k];
        EXPECT("agents", a->agent1 * 256 + a->agent2, e->agent1 * 256 + e->agent2);
        EXPECT("accounts", a->account1 * 256 + a->account2, e->account1 * 256 + e->account2);
        EXPECT("key", a->key, e->key);
        EXPECT("days", a->first * 65536.0 + a->last, e->first * 65536.0 + e->last);
        EXPECT("type", a->amendment, e->amendment);
    }
}

static void refused_openings_leave_the_tables(void) {
    uint8_t bytes[64] = {0};
    size_t length = pack_by_hand(bytes);
    int32_t before = side1[0] = 12345;
    held[0] = 77;
    EXPECT("no bytes", ghendufika_open_packed(bytes, 0, LENT).answer, 19);
    EXPECT("a byte short", ghendufika_open_packed(bytes, length - 1, LENT).answer, 19);
    EXPECT("side 1 a slot too short", ghendufika_open_packed(bytes, length, held, SLOTS, side1, PLACES - 150, side2, PLACES).answer, 17);
    EXPECT("side 2 too short", ghendufika_open_packed(bytes, length, held, SLOTS, side1, PLACES, side2, PLACES - 1).answer, 17);
    bytes[34] |= 1;
    ghendufika_opened_packed o = ghendufika_open_packed(bytes, length, LENT);
    EXPECT("a padding bit", o.answer, 22);
    EXPECT("length", o.length, 0);
    EXPECT("days", o.book.setup.days, 0);
    EXPECT("side 1 as it was", side1[0], before);
    EXPECT("held as it was", held[0], 77);
}

static void refused_writing_leaves_the_buffer(void) {
    uint8_t bytes[32];
    memset(bytes, 0xEE, sizeof bytes);
    ghendufika_message m = {.kind = 3};
    EXPECT("kind 3", ghendufika_write_message(m, bytes, sizeof bytes).answer, 20);
    m.kind = GHENDUFIKA_NULLIFICATION;
    m.nullification.account = 64;
    EXPECT("account 64", ghendufika_write_message(m, bytes, sizeof bytes).answer, 23);
    m.nullification.account = 1;
    EXPECT("3 bytes of room for 4", ghendufika_write_message(m, bytes, 3).answer, 24);
    ghendufika_setup s = the_setup();
    EXPECT("32 bytes of room for 35", ghendufika_write_setup(s, bytes, 32).answer, 24);
    s.rows[2].account2 = 0;
    EXPECT("equal accounts", ghendufika_write_setup(s, bytes, sizeof bytes).answer, 18);
    s.days = 9;
    EXPECT("nine days", ghendufika_write_setup(s, bytes, sizeof bytes).answer, 17);
    for (size_t k = 0; k < sizeof bytes; k++) EXPECT("the buffer", bytes[k], 0xEE);
}

static void refused_questions(void) {
    p2_agent_9_says_alike();
    ghendufika_book wrong = book;
    wrong.closed = 145; /* one more than 48 + 46 + 50 */
    EXPECT("no sound book", ghendufika_mark(wrong, LENT, 0, 1, 0, 100, 1).answer, 1);
    EXPECT("not held", ghendufika_mark(book, LENT, 0, 2, 0, 100, 1).answer, 25);
    EXPECT("account 2 is not in the pair", ghendufika_mark(book, LENT, 0, 1, 2, 100, 1).answer, 15);
    ghendufika_marked m = ghendufika_mark(book, LENT, 0, 1, 0, 100, 49);
    EXPECT("period 49 of 48", m.answer, 16);
    EXPECT("blank", m.bar, GHENDUFIKA_BLANK);
    EXPECT("no figure", m.first, 0.0);
    EXPECT("no sound book", ghendufika_row(wrong, LENT, 0, 1, 100, 1).answer, 1);
    EXPECT("not held", ghendufika_row(book, LENT, 0, 2, 100, 1).answer, 25);
    EXPECT("day 103", ghendufika_row(book, LENT, 0, 1, 103, 1).answer, 16);
    ghendufika_row_place r = ghendufika_row(book, LENT, 0, 1, 100, 3);
    EXPECT("side 3", r.answer, 16);
    EXPECT("empty", r.length, 0);
    EXPECT("no start", r.start, 0);
    EXPECT("bytes that end", ghendufika_read_message((const uint8_t[]){0x80}, 1).answer, 19);
}

/* ---- packed messages: answer, kind, slot and length; a refusal's other results are zero, and 1 comes before reading's numbers */

static size_t pack_word(unsigned agent, unsigned key, unsigned reference, uint8_t bytes[GHENDUFIKA_MOST_MESSAGE_BYTES]) { /* 5000 kWh in period 1 of day 100 */
    ghendufika_message m = {.kind = GHENDUFIKA_NOTIFICATION};
    m.notification = (ghendufika_notification){.agent = (uint8_t)agent, .key = (uint16_t)key, .reference = (uint16_t)reference, .first = 100, .last = 100, .count = 1};
    m.notification.entries[0] = (ghendufika_entry){.period = 1, .volume = 5000};
    return ghendufika_write_message(m, bytes, GHENDUFIKA_MOST_MESSAGE_BYTES).length;
}

static void expect_applied(int line, ghendufika_book to, const uint8_t *bytes, size_t given, unsigned answer, unsigned kind, unsigned slot, size_t length, unsigned closed) {
    ghendufika_applied a = ghendufika_apply(to, bytes, given, LENT);
    expect(line, "the answer to a packed message", a.answer, answer);
    expect(line, "its kind", a.kind, kind);
    expect(line, "its slot", a.slot, slot);
    expect(line, "no place", a.place, 0); /* none of these is refused by 10 or 11 */
    expect(line, "its length", (double)a.length, (double)length);
    expect(line, "gates closed", a.book.closed, closed);
    expect(line, "the setup stays", a.book.setup.first == to.setup.first && a.book.setup.days == to.setup.days, 1);
}

#define APPLIED(to, bytes, given, answer, kind, slot, length, closed) expect_applied(__LINE__, to, bytes, given, answer, kind, slot, length, closed)

static void packed_messages(void) {
    uint8_t word[GHENDUFIKA_MOST_MESSAGE_BYTES] = {0};
    const uint8_t gate[2] = {0x00, 0xFF}, nullification[4] = {0x80, 0x04, 0x01, 0x90}, equal[4] = {0x80, 0x00, 0x01, 0x90}, kind_3 = 0xC0, padding = 0x01;
    open_the_book();
    EXPECT("16 bytes", pack_word(7, 500, 1, word), 16);
    APPLIED(book, word, sizeof word, 0, GHENDUFIKA_INITIAL, 0, 16, 0);
    APPLIED(book, word, 16, 0, GHENDUFIKA_REPLACEMENT, 0, 16, 0);
    APPLIED(book, word, 15, 19, 0, 0, 0, 0);
    pack_word(9, 500, 1, word);
    APPLIED(book, word, 16, 0, GHENDUFIKA_INITIAL, 0, 16, 0); /* on its own side nothing stands yet */
    TOTAL(0, 100, 5000);
    pack_word(7, 500, 2, word);
    APPLIED(book, word, 16, 0, GHENDUFIKA_ADDITIONAL, 1, 16, 0);
    pack_word(7, 501, 1, word);
    APPLIED(book, word, 16, 4, 0, 0, 0, 0);
    APPLIED(book, &kind_3, 1, 20, 0, 0, 0, 0);
    APPLIED(book, &padding, 1, 22, 0, 0, 0, 0);
    APPLIED(book, equal, 4, 15, 0, 0, 0, 0);
    APPLIED(book, gate, 2, 0, 0, 0, 1, 1);
    ghendufika_book all_closed = book, wrong = book;
    all_closed.closed = 144; /* 48 + 46 + 50 */
    wrong.closed = 145;
    APPLIED(all_closed, gate, 1, 2, 0, 0, 0, 144);
    APPLIED(wrong, gate, 1, 1, 0, 0, 0, 145);
    APPLIED(wrong, &kind_3, 1, 1, 0, 0, 0, 145); /* 1 comes first */
    APPLIED(wrong, gate, 0, 1, 0, 0, 0, 145);
    TOTAL(0, 100, 5000);
    APPLIED(book, nullification, 4, 0, 0, 0, 4, 0);
    TOTAL(0, 100, 0);
}

/* ---- numbers of more than 8 or 16 bits: each is 256 or 65,536 above one that is answered, and none is taken for that one */

static void wide_numbers_of_totals(void) {
    int64_t kwh[50] = {77};
    EXPECT("account 257", ghendufika_total(book, LENT, 257, 100, 1).answer, 15);
    EXPECT("day 65,636", ghendufika_total(book, LENT, 0, 65636, 1).answer, 16);
    EXPECT("period 257", ghendufika_total(book, LENT, 0, 100, 257).answer, 16);
    EXPECT("account 257", ghendufika_figures(book, LENT, 257, 100).answer, 15);
    EXPECT("day 65,636", ghendufika_figures(book, LENT, 0, 65636).answer, 16);
    EXPECT("account 257", ghendufika_day_totals(book, LENT, 257, 100, kwh, 50), 15);
    EXPECT("day 65,636", ghendufika_day_totals(book, LENT, 0, 65636, kwh, 50), 16);
    EXPECT("the buffer", kwh[0], 77);
}

static void wide_numbers_of_marks(void) {
    uint8_t cases[50] = {77};
    double firsts[50] = {77.0}, seconds[50] = {77.0};
    EXPECT("originator 256", ghendufika_mark(book, LENT, 256, 1, 0, 100, 1).answer, 25);
    EXPECT("originator 65,536", ghendufika_mark(book, LENT, 65536, 1, 0, 100, 1).answer, 25);
    EXPECT("reference 65,537", ghendufika_mark(book, LENT, 0, 65537, 0, 100, 1).answer, 25);
    EXPECT("folded to the same entry", ghendufika_mark(book, LENT, UINT32_MAX, 65537, 0, 100, 1).answer, 25);
    EXPECT("account 256", ghendufika_mark(book, LENT, 0, 1, 256, 100, 1).answer, 15);
    EXPECT("day 65,636", ghendufika_mark(book, LENT, 0, 1, 0, 65636, 1).answer, 16);
    EXPECT("period 257", ghendufika_mark(book, LENT, 0, 1, 0, 100, 257).answer, 16);
    EXPECT("reference 65,537", ghendufika_day_marks(book, LENT, 0, 65537, 0, 100, cases, 50, firsts, 50, seconds, 50), 25);
    EXPECT("account 257", ghendufika_day_marks(book, LENT, 0, 1, 257, 100, cases, 50, firsts, 50, seconds, 50), 15);
    EXPECT("day 65,636", ghendufika_day_marks(book, LENT, 0, 1, 0, 65636, cases, 50, firsts, 50, seconds, 50), 16);
    EXPECT("the buffers", cases[0] + firsts[0] + seconds[0], 231);
}

static void wide_numbers_of_rows(void) {
    EXPECT("reference 65,537", ghendufika_row(book, LENT, 0, 65537, 100, 1).answer, 25);
    EXPECT("day 65,636", ghendufika_row(book, LENT, 0, 1, 65636, 1).answer, 16);
    EXPECT("side 257", ghendufika_row(book, LENT, 0, 1, 100, 257).answer, 16);
    EXPECT("reference 65,537", ghendufika_row_refusal(book, LENT, 0, 65537, 100, 1), 25);
    EXPECT("day 65,636", ghendufika_row_refusal(book, LENT, 0, 1, 65636, 1), 16);
    EXPECT("side 257", ghendufika_row_refusal(book, LENT, 0, 1, 100, 257), 16);
}

static void wide_numbers(void) {
    p2_agent_9_says_alike();
    EXPECT("under 1", said(1, 7, 1, 1, 100, 100, 1, 5).answer, 0); /* so that 1/1, which 0/65,537 is not, is held */
    wide_numbers_of_totals();
    wide_numbers_of_marks();
    wide_numbers_of_rows();
    EXPECT("account 257", ghendufika_nullify(book, 257, 0, 100, LENT), 15);
    EXPECT("accounts 256 and 257", ghendufika_nullify(book, 256, 257, 100, LENT), 15);
    EXPECT("first day 65,636", ghendufika_nullify(book, 0, 1, 65636, LENT), 9);
    TOTAL(0, 100, 5000);
}

int main(void) {
    p1_agent_7_says_5000();
    p2_agent_9_says_alike();
    p3_or_says_4999();
    p4_the_largest_volumes();
    p5_evergreen_by_one_agent();
    p6_then_101_only();
    p7_to_p8_who_may_say();
    p9_a_closed_period_stays();
    p10_to_p11_periods_and_days();
    p12_to_p13_nullified();
    a1_a_spring_day();
    a1_an_autumn_day();
    a1_a_single_day_is_not_placed();
    a3_each_fault_at_each_place();
    a3_of_two_that_do_not_rise_the_later();
    a3_an_entry_past_the_50th();
    a3_the_highest_period();
    a3_several_at_once();
    a3_no_other_answer_has_a_place();
    a3_the_lesser_room_ends_a_run();
    a3_a_refused_run_leaves_both_buffers();
    sizes_and_fields();
    a_setup_by_hand();
    refused_openings_leave_the_tables();
    refused_writing_leaves_the_buffer();
    refused_questions();
    packed_messages();
    wide_numbers();
    printf("whole book: %lu answers as the documents have them\n", checks);
    return 0;
}

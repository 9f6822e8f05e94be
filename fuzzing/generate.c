/* Books, messages and bytes by chance; see generate.h. Small numbers are taken from short lists, so that things meet: two agents, three references,
 * six volumes. */
#include "generate.h"

#include "chance.h"
#include "second.h"
#include "packing.h"

#include <string.h>

struct tables model;
ghendufika_notification accepted;

enum { MOST_VOLUME = 99999999 };

/* ---- setups */

static ghendufika_authorisation right_row(const ghendufika_setup *setup) {
    ghendufika_authorisation row;
    fill_with_chance(&row, sizeof row);
    unsigned last_of_book = setup->first + setup->days - 1u;
    row.agent1 = (uint8_t)ONE_OF(7, 7, 9, 255, 0);
    row.agent2 = (uint8_t)ONE_OF(7, 9, 9, 9, 254);
    row.account1 = (uint8_t)below(one_in(2) ? 2 : setup->accounts);
    row.account2 = (uint8_t)below(one_in(2) ? 2 : setup->accounts);
    if (row.account1 == row.account2) row.account2 = (uint8_t)((row.account1 + 1u) % setup->accounts);
    row.key = (uint16_t)ONE_OF(500, 600, 65535);
    row.first = one_in(6) ? (uint16_t)between(setup->first, last_of_book) : 0;
    row.last = one_in(4) ? (uint16_t)between(row.first, last_of_book) : EVERGREEN;
    if (one_in(6) && setup->first > row.first) row.last = (uint16_t)(setup->first - 1u); /* expired when the book opens */
    row.amendment = (uint8_t)ONE_OF(0, 0, 1, 2);
    return row;
}

static void give_rows(ghendufika_setup *setup) {
    for (unsigned row = 0; row < setup->authorisations; row++) setup->rows[row] = right_row(setup);
}

/* Nothing in the bytes between fields, and nothing past the counts, may matter: chance fills them. */
ghendufika_setup right_setup(void) {
    ghendufika_setup setup;
    fill_with_chance(&setup, sizeof setup);
    bool large = one_in(400);
    setup.days = (uint8_t)(large || one_in(12) ? between(1, MOST_DAYS) : between(1, 3));
    setup.accounts = (uint8_t)(large || one_in(20) ? between(2, MOST_ACCOUNTS) : between(2, 4));
    setup.authorisations = (uint8_t)(large || one_in(20) ? between(1, MOST_AUTHORISATIONS) : between(1, 5));
    setup.first = (uint16_t)ONE_OF(100, 100, 100, 0, 1, LATEST_DAY + 1 - setup.days, 30000 + below(1000));
    for (unsigned day = 0; day < setup.days; day++) setup.codes[day] = (uint8_t)below(3);
    give_rows(&setup);
    return setup;
}

static void spoil_row(const ghendufika_setup *setup, ghendufika_authorisation *row) {
    switch (below(6)) {
    case 0: row->account1 = (uint8_t)ONE_OF(setup->accounts, 64, 255); break;
    case 1: row->account2 = (uint8_t)ONE_OF(setup->accounts, 64, 255); break;
    case 2: row->account2 = row->account1; break;
    case 3: row->first = EVERGREEN; break;
    case 4: row->last = (uint16_t)(row->first - 1u); break; /* 65535 where the first is 0: then it is right */
    default: row->amendment = (uint8_t)ONE_OF(3, 4, 255); break;
    }
}

/* The counts may be spoilt already. */
void spoil_setup(ghendufika_setup *setup) {
    switch (below(7)) {
    case 0: setup->days = (uint8_t)ONE_OF(0, 9, 15, 200, 255, setup->days + 1); break;
    case 1: setup->accounts = (uint8_t)ONE_OF(0, 1, 65, 127, 255, 2); break;
    case 2: setup->authorisations = (uint8_t)ONE_OF(0, 65, 127, 255); break;
    case 3: setup->codes[below(setup->days) % MOST_DAYS] = (uint8_t)ONE_OF(3, 4, 255); break;
    case 4: setup->first = (uint16_t)ONE_OF(LATEST_DAY + 2 - setup->days, LATEST_DAY + 1 - setup->days, 65535, 65534); break;
    default: spoil_row(setup, &setup->rows[below(setup->authorisations) % MOST_ROWS]); break;
    }
}

/* ---- the calendar's days, dates and setups */

enum { FIRST_SHORT_DAY = 85, FIRST_LONG_DAY = 302 };

/* Of any year; the day after the calendar's last where none follows. */
static uint32_t some_clock_change(void) {
    unsigned periods;
    uint32_t day = below(GHENDUFIKA_LAST_CALENDAR_DAY + 1);
    while (calendar_length(day, &periods) == DONE && periods == 48) day++;
    return day;
}

uint32_t some_calendar_day(void) {
    switch (below(8)) {
    case 0: return below(MOST_DAYS + 1);
    case 1: return FIRST_SHORT_DAY - MOST_DAYS + below(MOST_DAYS + 2);
    case 2: return FIRST_LONG_DAY - MOST_DAYS + below(MOST_DAYS + 2);
    case 3: return GHENDUFIKA_LAST_CALENDAR_DAY - MOST_DAYS + below(2 * MOST_DAYS);
    case 4: return GHENDUFIKA_LAST_CALENDAR_DAY - below(3); /* a book of two or three days goes past the end */
    case 5: return below(65536);
    default: return some_clock_change() - below(MOST_DAYS);
    }
}

void some_date(uint32_t *year, uint32_t *month, uint32_t *day) {
    struct date date = {0, 0, 0};
    date_of_day(some_calendar_day() % (GHENDUFIKA_LAST_CALENDAR_DAY + 1), &date);
    if (one_in(8)) date.year = (unsigned)ONE_OF(1999, 2000, 2001, 2004, 2096, 2099, 2100, 0);
    if (one_in(8)) date.month = (unsigned)ONE_OF(0, 1, 2, 2, 2, 12, 13, 255);
    if (one_in(4)) date.day = (unsigned)ONE_OF(0, 1, 28, 29, 30, 31, 32, 255);
    *year = widened(date.year);
    *month = widened(date.month);
    *day = widened(date.day);
}

/* The calendar's codes; a day that it does not have gets any. */
static void give_codes(ghendufika_setup *setup) {
    for (unsigned day = 0; day < setup->days; day++) {
        unsigned code = 0;
        bool known = calendar_code(setup->first + day, &code) == DONE;
        setup->codes[day] = (uint8_t)(known ? code : below(3));
    }
}

ghendufika_setup calendar_setup(void) {
    ghendufika_setup setup = right_setup();
    setup.first = (uint16_t)some_calendar_day();
    if (setup.first + setup.days - 1 > LATEST_DAY) setup.first = (uint16_t)(LATEST_DAY + 1 - setup.days);
    give_codes(&setup);
    if (one_in(3)) setup.codes[below(setup.days)] = (uint8_t)below(3);
    give_rows(&setup); /* again: they are the first day's */
    return setup;
}

size_t slots_for_a_book(unsigned days) {
    if (days == MOST_DAYS && one_in(20)) return MOST_SLOTS;
    if (one_in(2000)) return (size_t)between(200, MOST_SLOTS);
    return (size_t)(one_in(12) ? between(5, 16) : between(1, 4));
}

/* ---- tables */

static uint32_t identifier_entry(unsigned originator, unsigned reference) { return 1u + originator * 65536u + reference; }

static int32_t some_volume(void) {
    if (one_in(16)) return (int32_t)between(-MOST_VOLUME, MOST_VOLUME);
    return (int32_t)ONE_OF(0, 0, 5, 5, 5000, -20, -20, MOST_VOLUME, -MOST_VOLUME);
}

static int32_t wrong_volume(void) { return (int32_t)ONE_OF(MOST_VOLUME + 1, -MOST_VOLUME - 1, INT32_MAX, INT32_MIN + 1, 134217727, -134217728); }

static size_t some_slot(const struct tables *tables) { return below((uint32_t)tables->slots); }

/* The place of a slot's day and period; 0 where the tables are too short for it. */
static size_t place_of(const struct tables *tables, size_t slot, unsigned day, unsigned period) {
    size_t place = (slot * tables->book.setup.days + day) * GHENDUFIKA_PLACES_A_DAY + period - 1;
    return place < tables->lent1 && place < tables->lent2 ? place : 0;
}

static int32_t *some_side(struct tables *tables) { return one_in(2) ? tables->side1 : tables->side2; }

static void spoil_held(struct tables *tables) {
    size_t slot = some_slot(tables), other = some_slot(tables);
    switch (below(5)) {
    case 0: tables->held[slot] = tables->held[other]; break; /* held twice, or a slot emptied */
    case 1: tables->held[slot] = identifier_entry(tables->book.setup.authorisations + below(3), below(4)); break;
    case 2: tables->held[slot] = (uint32_t)chance(); break;
    case 3: tables->held[slot] = 0; break; /* its volumes may still stand */
    default: tables->held[slot] = identifier_entry(below(tables->book.setup.authorisations), below(4)); break;
    }
}

static void spoil_places(struct tables *tables) {
    size_t slot = some_slot(tables);
    unsigned day = below(tables->book.setup.days);
    unsigned periods = periods_on(&tables->book.setup, day);
    int32_t *side = some_side(tables);
    switch (below(4)) {
    case 0: side[place_of(tables, slot, day, (unsigned)between(1, GHENDUFIKA_PLACES_A_DAY))] = wrong_volume(); break;
    case 1: side[place_of(tables, slot, day, (unsigned)between(1, periods))] = some_volume(); break; /* wrong in an unheld slot only */
    case 2: side[place_of(tables, slot, day, GHENDUFIKA_PLACES_A_DAY)] = some_volume(); break;
    default: side[place_of(tables, slot, day, periods + 1 > 50 ? 50 : periods + 1)] = some_volume(); break;
    }
}

static size_t wrong_length(size_t length) {
    int64_t near = (int64_t)length + ONE_OF(1, -1, GHENDUFIKA_PLACES_A_DAY, -GHENDUFIKA_PLACES_A_DAY, length);
    return (size_t)ONE_OF(0, 1, below(300), near < 0 ? 0 : near, near < 0 ? 0 : near);
}

static void spoil_lengths(struct tables *tables) {
    size_t days = tables->book.setup.days, slots;
    switch (below(5)) {
    case 0: resize_tables(tables, tables->slots, wrong_length(tables->lent1), tables->lent2); break;
    case 1: resize_tables(tables, tables->slots, tables->lent1, wrong_length(tables->lent2)); break;
    case 2: slots = wrong_length(tables->lent1); resize_tables(tables, tables->slots, slots, slots); break;
    case 3: resize_tables(tables, (size_t)ONE_OF(0, 0, (int64_t)tables->slots + 1, (int64_t)tables->slots - 1, 257), tables->lent1, tables->lent2); break;
    default: /* all three lengths agree with each other, and may still be no book's */
        slots = (size_t)(one_in(40) ? ONE_OF(257, MOST_LENT_SLOTS, 256) : ONE_OF(0, 0, (int64_t)tables->slots + 1, (int64_t)tables->slots - 1));
        resize_tables(tables, slots, slots * days * GHENDUFIKA_PLACES_A_DAY, slots * days * GHENDUFIKA_PLACES_A_DAY);
    }
}

/* Sometimes the tables are made as long as the spoilt setup says. */
static void spoil_setup_of_tables(struct tables *tables) {
    spoil_setup(&tables->book.setup);
    size_t places = tables->slots * tables->book.setup.days * GHENDUFIKA_PLACES_A_DAY;
    if (one_in(2) && places < MOST_LENT_PLACES) resize_tables(tables, tables->slots, places, places);
}

void spoil_tables(struct tables *tables) {
    unsigned periods = periods_before_day(&tables->book.setup, tables->book.setup.days);
    switch (below(8)) {
    case 0: tables->book.closed = (uint16_t)ONE_OF(periods, periods + 1, periods + 2, 65535, 401); break;
    case 1: case 2: spoil_held(tables); break;
    case 3: case 4: spoil_places(tables); break;
    case 5: spoil_lengths(tables); break;
    case 6: spoil_setup_of_tables(tables); break;
    default: stir(tables); break;
    }
}

static void stir_clock(struct tables *tables) {
    unsigned day = below(tables->book.setup.days + 1u), periods = periods_before_day(&tables->book.setup, tables->book.setup.days);
    int64_t closed = (int64_t)periods_before_day(&tables->book.setup, day) + ONE_OF(0, 0, -1, 1, 2, below(50));
    if (closed < 0) closed = 0;
    if (closed >= periods && !one_in(8)) closed = below(periods); /* with every gate closed little can happen */
    tables->book.closed = (uint16_t)(closed > periods ? periods : closed);
}

/* Volumes on a day of a held slot, on both sides alike or not. */
static void stir_day(struct tables *tables, size_t slot) {
    unsigned day = below(tables->book.setup.days);
    for (unsigned period = 1; period <= periods_on(&tables->book.setup, day); period++) {
        size_t place = place_of(tables, slot, day, period);
        tables->side1[place] = one_in(6) ? GHENDUFIKA_MARK : some_volume();
        tables->side2[place] = one_in(4) ? GHENDUFIKA_MARK : one_in(3) ? some_volume() : tables->side1[place];
    }
}

static void empty_slot(struct tables *tables, size_t slot) {
    size_t length = (size_t)tables->book.setup.days * GHENDUFIKA_PLACES_A_DAY;
    tables->held[slot] = 0;
    for (size_t place = slot * length; place < (slot + 1) * length; place++) tables->side1[place] = tables->side2[place] = GHENDUFIKA_MARK;
}

void stir(struct tables *tables) {
    size_t slot = some_slot(tables);
    if (one_in(2)) stir_clock(tables);
    else if (one_in(3)) empty_slot(tables, slot);
    else if (tables->held[slot] != 0) stir_day(tables, slot);
}

/* ---- arguments */

uint8_t some_account(const struct tables *tables) {
    return (uint8_t)(one_in(10) ? ONE_OF(tables->book.setup.accounts, 64, 255) : (int64_t)below(tables->book.setup.accounts));
}

uint16_t some_day(const struct tables *tables) {
    const ghendufika_setup *setup = &tables->book.setup;
    if (one_in(10)) return (uint16_t)ONE_OF(setup->first - 1, setup->first + setup->days, 65535, 0);
    return (uint16_t)(setup->first + below(setup->days));
}

uint8_t some_period(const struct tables *tables, unsigned day) {
    const ghendufika_setup *setup = &tables->book.setup;
    unsigned place = (day - setup->first) & 0xffff;
    unsigned periods = place < setup->days && place < MOST_DAYS ? periods_on(setup, place) : 48;
    return (uint8_t)(one_in(8) ? ONE_OF(0, periods, periods + 1, 50, 51, 255) : one_in(3) ? between(1, 4) : between(1, periods == 0 ? 1 : periods));
}

uint32_t widened(uint32_t number) {
    if (!one_in(20)) return number;
    switch (below(6)) {
    case 0: case 1: return number + 256;
    case 2: case 3: return number + 65536;
    case 4: return number + ((uint32_t)chance() << (one_in(2) ? 8 : 16));
    default: return (uint32_t)ONE_OF(UINT32_C(1) << 31, UINT32_MAX, (UINT32_C(1) << 31) + number, chance());
    }
}

/* Held ones mostly; also two numbers that fold to a held entry, 1 + originator * 65,536 + reference, with a reference above 65,535. */
void some_identifier(const struct tables *tables, uint32_t *originator, uint32_t *reference) {
    uint32_t entry = tables->slots == 0 ? 0 : tables->held[some_slot(tables)];
    *originator = entry == 0 ? below(4) : (entry - 1) / 65536;
    *reference = entry == 0 ? below(4) : (entry - 1) % 65536;
    if (one_in(12)) *originator = (uint8_t)chance();
    if (one_in(12)) *reference = (uint32_t)ONE_OF(0, 1, 2, 3, 65535);
    if (one_in(16)) {
        uint32_t folded = *originator == 0 || one_in(4) ? (uint32_t)ONE_OF(1, 65535) : 1 + below(*originator);
        *originator -= folded;
        *reference += folded * 65536;
    }
    *originator = widened(*originator);
    *reference = widened(*reference);
}

/* ---- notifications */

static unsigned some_originator(const ghendufika_setup *setup, unsigned authorisation) {
    const ghendufika_authorisation *own = &setup->rows[authorisation];
    if (one_in(3))
        for (unsigned row = 0; row < setup->authorisations && row < MOST_ROWS; row++)
            if (row != authorisation && setup->rows[row].account1 == own->account1 && setup->rows[row].account2 == own->account2) return row;
    return authorisation;
}

static unsigned highest_period(const ghendufika_setup *setup, const ghendufika_notification *n) {
    unsigned place = (unsigned)(n->first - setup->first) & 0xffff;
    return n->first == n->last && place < setup->days && place < MOST_DAYS ? periods_on(setup, place) : 48;
}

/* As many entries as the days have periods; the struct is filled, and what is past them rises too. */
static void give_every_period(const ghendufika_setup *setup, ghendufika_notification *n) {
    for (unsigned entry = 0; entry < GHENDUFIKA_MOST_ENTRIES; entry++) n->entries[entry] = (ghendufika_entry){(uint8_t)(entry + 1), some_volume()};
    n->count = (uint8_t)highest_period(setup, n);
}

static void give_entries(const ghendufika_setup *setup, ghendufika_notification *n) {
    unsigned highest = highest_period(setup, n);
    unsigned period = 0, step = one_in(16) ? 1 : (unsigned)between(1, 12);
    unsigned wanted = step == 1 ? 50 : (unsigned)ONE_OF(0, 1, 1, 2, 3);
    n->count = 0;
    while (n->count < wanted && n->count < 50) {
        period += n->count == 0 && one_in(2) ? 1 : (unsigned)between(1, step);
        if (period > highest) return;
        n->entries[n->count++] = (ghendufika_entry){(uint8_t)period, some_volume()};
    }
}

static ghendufika_notification right_notification(const struct tables *tables) {
    const ghendufika_setup *setup = &tables->book.setup;
    ghendufika_notification n;
    fill_with_chance(&n, sizeof n);
    n.authorisation = (uint8_t)below(setup->authorisations < MOST_ROWS ? setup->authorisations : MOST_ROWS);
    const ghendufika_authorisation *row = &setup->rows[n.authorisation];
    n.agent = one_in(2) ? row->agent1 : row->agent2;
    n.key = row->key;
    n.originator = (uint8_t)some_originator(setup, n.authorisation);
    n.reference = (uint16_t)ONE_OF(1, 1, 2, 3, 65535, 0);
    n.first = (uint16_t)(setup->first + below(setup->days));
    if (one_in(8)) n.first = (uint16_t)between(0, setup->first);
    n.last = (uint16_t)(one_in(3) ? n.first : one_in(2) ? EVERGREEN : setup->first + below(setup->days));
    if (n.last < n.first) n.last = n.first;
    give_entries(setup, &n);
    return n;
}

/* The first, the last or any, so that each of them is often the one at fault; of few entries it often makes all that the days have. */
static unsigned some_entry(const ghendufika_setup *setup, ghendufika_notification *n) {
    if (n->count == 0 || n->count > GHENDUFIKA_MOST_ENTRIES || (n->count < 4 && one_in(2))) give_every_period(setup, n);
    return (unsigned)ONE_OF(0, n->count - 1, below(n->count));
}

static void spoil_entry(const ghendufika_setup *setup, ghendufika_notification *n) {
    unsigned place = some_entry(setup, n);
    ghendufika_entry *entry = &n->entries[place];
    switch (below(6)) {
    case 0: entry->period = (uint8_t)ONE_OF(0, 46, 47, 48, 49, 50, 51, 63, 255, 1); break;
    case 1: entry->period = (uint8_t)(highest_period(setup, n) + ONE_OF(0, 1)); break;
    case 2: if (place > 0) entry->period = (uint8_t)(n->entries[place - 1].period - ONE_OF(0, 0, 1)); break; /* of two that do not rise the later */
    case 3: case 4: entry->volume = wrong_volume(); break;
    default: entry->volume = some_volume(); break;
    }
}

/* 50 entries, or more than there can be. Of a single day of 50 periods the 51st is the first at fault, elsewhere one before it. */
static void give_too_many_entries(const ghendufika_setup *setup, ghendufika_notification *n) {
    bool of_a_long_day = !one_in(4);
    for (unsigned day = 0; day < setup->days && day < MOST_DAYS; day++)
        if (of_a_long_day && setup->codes[day] == GHENDUFIKA_DAY_OF_50) n->first = n->last = (uint16_t)(setup->first + day);
    give_every_period(setup, n);
    n->count = (uint8_t)ONE_OF(50, 51, 51, 63, 255);
    if (one_in(4)) n->entries[below(GHENDUFIKA_MOST_ENTRIES)].volume = wrong_volume(); /* 11, and 10 comes first */
    if (one_in(8)) n->entries[below(GHENDUFIKA_MOST_ENTRIES)].period = (uint8_t)ONE_OF(0, 1, 50, 51);
}

static void spoil_notification(const struct tables *tables, ghendufika_notification *n) {
    const ghendufika_setup *setup = &tables->book.setup;
    switch (below(9)) {
    case 0: n->authorisation = (uint8_t)ONE_OF(setup->authorisations, 63, 64, 255, 0); break;
    case 1: n->agent = (uint8_t)ONE_OF(7, 9, 8, 255); break;
    case 2: n->key = (uint16_t)ONE_OF(500, 600, 501, 0); break;
    case 3: n->originator = (uint8_t)ONE_OF(0, 1, 2, setup->authorisations, 64, 255); break;
    case 4: n->first = (uint16_t)ONE_OF(0, setup->first + setup->days, 65535, n->last + 1, chance()); break;
    case 5: n->last = (uint16_t)ONE_OF(n->first - 1, setup->first - 1, setup->first, 65535, chance()); break;
    case 6: give_too_many_entries(setup, n); break;
    default: for (unsigned times = one_in(2) ? 1 : 3; times > 0; times--) spoil_entry(setup, n); break; /* several at once, 10 behind 11 among them */
    }
}

ghendufika_notification some_notification(const struct tables *tables) {
    ghendufika_notification n = right_notification(tables);
    if (accepted.count <= 50 && one_in(3)) { /* the other agent says the same */
        n = accepted;
        const ghendufika_authorisation *row = &tables->book.setup.rows[n.authorisation % MOST_ROWS];
        n.agent = n.agent == row->agent1 ? row->agent2 : row->agent1;
    }
    if (one_in(3)) spoil_notification(tables, &n);
    if (one_in(20)) spoil_notification(tables, &n);
    return n;
}

ghendufika_nullification some_nullification(const struct tables *tables) {
    const ghendufika_setup *setup = &tables->book.setup;
    ghendufika_nullification x = {some_account(tables), some_account(tables), some_day(tables)};
    if (one_in(2)) {
        const ghendufika_authorisation *row = &setup->rows[below(setup->authorisations) % MOST_ROWS];
        x.account = one_in(2) ? row->account1 : row->account2;
        x.other = x.account == row->account1 ? row->account2 : row->account1;
    }
    return x;
}

/* ---- bytes */

/* Cut, changed, or followed by more. A count above 50 lies in the last two bits of the eleventh byte and the first four of the twelfth. */
static size_t damage(uint8_t *bytes, size_t length) {
    switch (below(24)) {
    case 0: case 1: return below((uint32_t)length + 1);
    case 2: bytes[below((uint32_t)length)] ^= (uint8_t)(1u << below(8)); return length;
    case 3: bytes[length - 1] |= 1; return length; /* padding, where the last byte has some */
    case 4: bytes[0] |= 0xc0; return length;
    case 5: if (length > 11) { bytes[10] |= 3; bytes[11] |= 0xc0; } return length;
    case 6: { size_t more = 1 + below(8); fill_with_chance(bytes + length, more); return length + more; }
    case 7: fill_with_chance(bytes, length); return length;
    default: return length;
    }
}

static size_t packed_message(const struct tables *tables, uint8_t *bytes) {
    struct message message = {0};
    message.kind = (unsigned)ONE_OF(GATE, NOTIFICATION, NOTIFICATION, NOTIFICATION, NOTIFICATION, NULLIFICATION);
    if (message.kind == NOTIFICATION) {
        ghendufika_notification n = some_notification(tables);
        message.notification = told_notification(&n);
    }
    if (message.kind == NULLIFICATION) {
        ghendufika_nullification x = some_nullification(tables);
        message.nullification = told_nullification(&x);
    }
    return pack_message(&message, bytes);
}

size_t some_message_bytes(const struct tables *tables, uint8_t bytes[MOST_BYTES]) { return damage(bytes, packed_message(tables, bytes)); }

size_t some_messages_bytes(const struct tables *tables, uint8_t bytes[MOST_BYTES]) {
    size_t length = 0, messages = below(one_in(50) ? 30 : 7);
    for (size_t k = 0; k < messages; k++) {
        size_t one = packed_message(tables, bytes + length);
        length += one_in(6) ? damage(bytes + length, one) : one;
    }
    return length;
}

static size_t packed_setup(ghendufika_setup setup, uint8_t *bytes) {
    if (one_in(3)) spoil_setup(&setup);
    struct setup told = told_setup(&setup);
    return pack_setup(&told, bytes);
}

size_t some_setup_bytes(uint8_t bytes[MOST_BYTES]) { return damage(bytes, packed_setup(right_setup(), bytes)); }

/* With a padding bit more often, so that 27 and 28 meet 22. */
size_t some_calendar_setup_bytes(uint8_t bytes[MOST_BYTES]) {
    size_t length = packed_setup(calendar_setup(), bytes);
    if (one_in(6)) bytes[length - 1] |= 1;
    return damage(bytes, length);
}

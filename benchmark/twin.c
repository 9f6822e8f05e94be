/* The twin: see twin.h. Plain C11 for speed: no copies of a book inside, bytes joined eight at a time, rows of a table read and written whole. It makes
 * the same checks in the same order as document 01 asks, and keeps nothing from one call to the next. */
#include "twin.h"

#include <string.h>

enum { PLACES = GHENDUFIKA_PLACES_A_DAY, MOST_DAYS = GHENDUFIKA_MOST_DAYS, MOST_SLOTS = GHENDUFIKA_MOST_SLOTS, MOST_ENTRIES = 50, MOST_ROWS = 64, MOST_ACCOUNTS = 64 };
enum { EVERGREEN = 65535, SHORT_DAY = 46, PLAIN_DAY = 48, LONG_DAY = 50, MOST_KWH = 99999999, HEAD_BITS = 92, HEAD_BYTES = 12, ENTRY_BITS = 34 };

static const int32_t MARK = GHENDUFIKA_MARK;
static const uint8_t PERIODS[] = {SHORT_DAY, PLAIN_DAY, LONG_DAY};

/* ---- packed messages */

static uint64_t eight_bytes(const uint8_t *from) {
    return (uint64_t)from[0] << 56 | (uint64_t)from[1] << 48 | (uint64_t)from[2] << 40 | (uint64_t)from[3] << 32 | (uint64_t)from[4] << 24 |
           (uint64_t)from[5] << 16 | (uint64_t)from[6] << 8 | (uint64_t)from[7];
}

/* `width` bits of a word, from its bit `at` on, the highest being bit 0. */
static uint32_t cut(uint64_t word, unsigned at, unsigned width) { return (uint32_t)(word >> (64 - at - width)) & (((uint32_t)1 << width) - 1); }

typedef struct {
    unsigned authorisation, agent, key, originator, reference, first, last, count;
} head;

static head head_in(const uint8_t *bytes) {
    uint64_t front = eight_bytes(bytes), back = eight_bytes(bytes + 4); /* bits 0 to 63 and 32 to 95 */
    return (head){
        .authorisation = cut(front, 2, 6),
        .agent = cut(front, 8, 8),
        .key = cut(front, 16, 16),
        .originator = cut(front, 32, 6),
        .reference = cut(front, 38, 16),
        .first = cut(back, 22, 16),
        .last = cut(back, 38, 16),
        .count = cut(back, 54, 6),
    };
}

/* Period and volume of an entry of a notification that is `whole` bytes long, as one number of 34 bits. The eight bytes never pass its end. */
static uint64_t entry_in(const uint8_t *bytes, size_t whole, unsigned entry) {
    unsigned at = HEAD_BITS + ENTRY_BITS * entry;
    size_t from = at / 8 < whole - 8 ? at / 8 : whole - 8;
    return eight_bytes(bytes + from) << (at - 8 * from) >> (64 - ENTRY_BITS);
}

static unsigned period_of(uint64_t entry) { return (unsigned)(entry >> 28); }

static int32_t volume_of(uint64_t entry) {
    int32_t bits = (int32_t)(entry & 0xfffffff);
    return (bits ^ 0x8000000) - 0x8000000;
}

static uint8_t refusal_of_notification(const uint8_t *bytes, size_t length, size_t *whole) {
    if (length < HEAD_BYTES) return 19;
    unsigned count = (bytes[10] & 3u) << 4 | bytes[11] >> 4;
    if (count > MOST_ENTRIES) return 21;
    unsigned bits = HEAD_BITS + ENTRY_BITS * count;
    size_t needed = (bits + 7) / 8;
    if (length < needed) return 19;
    if (bytes[needed - 1] & ((1u << (8 * needed - bits)) - 1)) return 22;
    *whole = needed;
    return 0;
}

/* The refusal of the message at the front; where there is none, its whole length. */
static uint8_t refusal_of_message(const uint8_t *bytes, size_t length, size_t *whole) {
    *whole = 0;
    if (length == 0) return 19;
    switch (bytes[0] >> 6) {
    case 0:
        if (bytes[0] & 0x3f) return 22;
        *whole = 1;
        return 0;
    case 1:
        return refusal_of_notification(bytes, length, whole);
    case 2:
        if (length < 4) return 19;
        if (bytes[3] & 3) return 22;
        *whole = 4;
        return 0;
    default:
        return 20;
    }
}

uint8_t twin_message_refusal(const uint8_t *bytes, size_t length) {
    size_t whole;
    return refusal_of_message(bytes, length, &whole);
}

size_t twin_message_length(const uint8_t *bytes, size_t length) {
    size_t whole;
    refusal_of_message(bytes, length, &whole);
    return whole;
}

static int64_t entry_field(const uint8_t *bytes, size_t whole, unsigned count, uint32_t field) {
    if (100 <= field && field < 100 + count) return period_of(entry_in(bytes, whole, field - 100));
    if (200 <= field && field < 200 + count) return volume_of(entry_in(bytes, whole, field - 200));
    return 0;
}

static int64_t notification_field(const uint8_t *bytes, size_t whole, uint32_t field) {
    head n = head_in(bytes);
    switch (field) {
    case GHENDUFIKA_FIELD_AUTHORISATION: return n.authorisation;
    case GHENDUFIKA_FIELD_AGENT: return n.agent;
    case GHENDUFIKA_FIELD_KEY: return n.key;
    case GHENDUFIKA_FIELD_ORIGINATOR: return n.originator;
    case GHENDUFIKA_FIELD_REFERENCE: return n.reference;
    case GHENDUFIKA_FIELD_FIRST_DAY: return n.first;
    case GHENDUFIKA_FIELD_LAST_DAY: return n.last;
    case GHENDUFIKA_FIELD_COUNT: return n.count;
    default: return entry_field(bytes, whole, n.count, field);
    }
}

static unsigned first_account(const uint8_t *bytes) { return bytes[0] & 0x3fu; }
static unsigned second_account(const uint8_t *bytes) { return bytes[1] >> 2; }
static unsigned nullified_from(const uint8_t *bytes) { return (bytes[1] & 3u) << 14 | bytes[2] << 6 | bytes[3] >> 2; }

static int64_t nullification_field(const uint8_t *bytes, uint32_t field) {
    switch (field) {
    case GHENDUFIKA_FIELD_ACCOUNT: return first_account(bytes);
    case GHENDUFIKA_FIELD_OTHER_ACCOUNT: return second_account(bytes);
    case GHENDUFIKA_FIELD_FIRST_DAY: return nullified_from(bytes);
    default: return 0;
    }
}

int64_t twin_message_field(const uint8_t *bytes, size_t length, uint32_t field) {
    size_t whole;
    if (refusal_of_message(bytes, length, &whole) != 0) return 0;
    unsigned kind = bytes[0] >> 6;
    if (field == GHENDUFIKA_FIELD_KIND) return kind;
    if (kind == GHENDUFIKA_NOTIFICATION) return notification_field(bytes, whole, field);
    if (kind == GHENDUFIKA_NULLIFICATION) return nullification_field(bytes, field);
    return 0;
}

static void write_entries(ghendufika_entry *to, const uint8_t *bytes, size_t whole, unsigned count) {
    unsigned k = 0;
    for (; k < count; k++) {
        uint64_t entry = entry_in(bytes, whole, k);
        to[k].period = (uint8_t)period_of(entry);
        to[k].volume = volume_of(entry);
    }
    for (; k < MOST_ENTRIES; k++) to[k] = (ghendufika_entry){0, 0};
}

static void write_notification(ghendufika_notification *to, const uint8_t *bytes, size_t whole) {
    head n = head_in(bytes);
    to->authorisation = (uint8_t)n.authorisation;
    to->agent = (uint8_t)n.agent;
    to->key = (uint16_t)n.key;
    to->originator = (uint8_t)n.originator;
    to->reference = (uint16_t)n.reference;
    to->first = (uint16_t)n.first;
    to->last = (uint16_t)n.last;
    to->count = (uint8_t)n.count;
    write_entries(to->entries, bytes, whole, n.count);
}

static ghendufika_nullification nullification_in(const uint8_t *bytes) {
    return (ghendufika_nullification){(uint8_t)first_account(bytes), (uint8_t)second_account(bytes), (uint16_t)nullified_from(bytes)};
}

/* Nothing is cleared that is written anyway: a notification of 50 entries is nearly all of the struct. */
ghendufika_message_read twin_read_message(const uint8_t *bytes, size_t length) {
    ghendufika_message_read read;
    size_t whole;
    read.answer = refusal_of_message(bytes, length, &whole);
    read.length = whole;
    read.message.kind = read.answer == 0 ? bytes[0] >> 6 : 0;
    if (read.message.kind == GHENDUFIKA_NOTIFICATION)
        write_notification(&read.message.notification, bytes, whole);
    else
        memset(&read.message.notification, 0, sizeof read.message.notification);
    read.message.nullification = read.message.kind == GHENDUFIKA_NULLIFICATION ? nullification_in(bytes) : (ghendufika_nullification){0, 0, 0};
    return read;
}

/* ---- the calendar */

enum { LAST_DAY = GHENDUFIKA_LAST_CALENDAR_DAY, SUNDAY = 1, WEEK = 7, FOUR_YEARS = 1461, FROM_APRIL = 275, FROM_NOVEMBER = 61 };

/* Days that follow in the year of a day. From 2000 to 2099 every fourth year, the first among them, has a day more. */
static uint32_t days_left(uint32_t day) {
    uint32_t year = 4 * day / FOUR_YEARS;
    return (FOUR_YEARS * year + FOUR_YEARS + 3) / 4 - 1 - day;
}

/* The last Sunday of a month is the one among its last seven days. Of all days six in seven are told at once, which is quicker than to look the two days
 * of the year up in a table, and much quicker than a search in 200 numbers. */
static unsigned periods_of(uint32_t day) {
    if (day % WEEK != SUNDAY) return PLAIN_DAY;
    uint32_t left = days_left(day);
    if (left - FROM_APRIL < WEEK) return SHORT_DAY;
    if (left - FROM_NOVEMBER < WEEK) return LONG_DAY;
    return PLAIN_DAY;
}

ghendufika_measured twin_day_length(uint32_t day) {
    if (day > LAST_DAY) return (ghendufika_measured){.answer = 27};
    return (ghendufika_measured){.answer = 0, .periods = (uint8_t)periods_of(day)};
}

/* 27 before 28; the days are in a row, so the last decides for all of them. */
static uint8_t refusal_by_calendar(const ghendufika_setup *s) {
    if (s->first + s->days - 1u > LAST_DAY) return 27;
    for (unsigned d = 0; d < s->days; d++)
        if (PERIODS[s->codes[d]] != periods_of(s->first + d)) return 28;
    return 0;
}

/* ---- a sound book */

static uint8_t refusal_of_setup(const ghendufika_setup *s, size_t slots, size_t lent1, size_t lent2) {
    if (s->days < 1 || s->days > MOST_DAYS || s->accounts < 2 || s->accounts > MOST_ACCOUNTS) return 17;
    if (s->authorisations < 1 || s->authorisations > MOST_ROWS) return 17;
    if ((unsigned)s->first + s->days > EVERGREEN) return 17;
    if (slots < 1 || slots > MOST_SLOTS) return 17;
    size_t places = slots * s->days * PLACES;
    if (lent1 != places || lent2 != places) return 17;
    for (unsigned d = 0; d < s->days; d++)
        if (s->codes[d] > 2) return 17;
    for (unsigned a = 0; a < s->authorisations; a++) {
        const ghendufika_authorisation *row = &s->rows[a];
        if (row->account1 >= s->accounts || row->account2 >= s->accounts || row->account1 == row->account2) return 18;
        if (row->first == EVERGREEN || row->last < row->first || row->amendment > 2) return 18;
    }
    return 0;
}

static bool setup_is_right(const ghendufika_setup *s, size_t slots, size_t lent1, size_t lent2) { return refusal_of_setup(s, slots, lent1, lent2) == 0; }

static unsigned gates_of(const ghendufika_setup *s) {
    unsigned gates = 0;
    for (unsigned d = 0; d < s->days; d++) gates += PERIODS[s->codes[d]];
    return gates;
}

/* Held identifiers name known originators and differ. Each is looked for in a table of twice as many places as there can be identifiers. */
static bool held_are_right(const uint32_t *held, size_t slots, unsigned authorisations) {
    uint32_t seen[2 * MOST_SLOTS] = {0};
    for (size_t s = 0; s < slots; s++) {
        uint32_t entry = held[s];
        if (entry == 0) continue;
        if ((entry - 1) >> 16 >= authorisations) return false;
        unsigned at = (entry * 2654435761u) >> 23;
        for (; seen[at] != 0; at = (at + 1) % (2 * MOST_SLOTS))
            if (seen[at] == entry) return false;
        seen[at] = entry;
    }
    return true;
}

/* What is out of range must be the mark. No jump inside the loop, so that it runs on vectors. */
static bool all_in_range(const int32_t *places, size_t count) {
    uint32_t wrong = 0;
    for (size_t k = 0; k < count; k++) wrong |= (uint32_t)places[k] + MOST_KWH > 2 * MOST_KWH ? (uint32_t)(places[k] ^ MARK) : 0;
    return wrong == 0;
}

static bool all_blank(const int32_t *places, size_t count) {
    uint32_t stated = 0;
    for (size_t k = 0; k < count; k++) stated |= (uint32_t)(places[k] ^ MARK);
    return stated == 0;
}

/* Nothing stands past a day's length. Only its last four places can be past it. */
static bool ends_are_blank(const ghendufika_setup *s, const int32_t *places) {
    uint32_t stated = 0;
    for (unsigned d = 0; d < s->days; d++)
        for (unsigned p = PLACES - 4; p < PLACES; p++) stated |= p < PERIODS[s->codes[d]] ? 0 : (uint32_t)(places[d * PLACES + p] ^ MARK);
    return stated == 0;
}

static bool slot_is_right(const ghendufika_setup *s, const int32_t *places, bool is_held) {
    size_t count = (size_t)s->days * PLACES;
    if (!is_held) return all_blank(places, count);
    return all_in_range(places, count) && ends_are_blank(s, places);
}

static bool sides_are_right(const ghendufika_setup *s, const uint32_t *held, size_t slots, const int32_t *side1, const int32_t *side2) {
    size_t places = (size_t)s->days * PLACES;
    for (size_t slot = 0; slot < slots; slot++) {
        bool is_held = held[slot] != 0;
        if (!slot_is_right(s, side1 + slot * places, is_held) || !slot_is_right(s, side2 + slot * places, is_held)) return false;
    }
    return true;
}

static bool book_is_sound(const ghendufika_book *b, const uint32_t *held, size_t slots, const int32_t *side1, size_t lent1, const int32_t *side2, size_t lent2) {
    return setup_is_right(&b->setup, slots, lent1, lent2) && b->closed <= gates_of(&b->setup) && held_are_right(held, slots, b->setup.authorisations) &&
           sides_are_right(&b->setup, held, slots, side1, side2);
}

bool twin_is_sound(ghendufika_book book, const uint32_t *held, size_t slots, const int32_t *side1, size_t lent1, const int32_t *side2, size_t lent2) {
    return book_is_sound(&book, held, slots, side1, lent1, side2, lent2);
}

/* ---- opening */

static ghendufika_opened opened_empty(const ghendufika_setup *setup, uint32_t *held, size_t slots, int32_t *side1, int32_t *side2) {
    size_t places = slots * setup->days * PLACES;
    memset(held, 0, slots * sizeof *held);
    for (size_t k = 0; k < places; k++) side1[k] = MARK;
    for (size_t k = 0; k < places; k++) side2[k] = MARK;
    return (ghendufika_opened){.answer = 0, .book = {.setup = *setup}};
}

ghendufika_opened twin_open(ghendufika_setup setup, uint32_t *held, size_t slots, int32_t *side1, size_t lent1, int32_t *side2, size_t lent2) {
    uint8_t refusal = refusal_of_setup(&setup, slots, lent1, lent2);
    return refusal != 0 ? (ghendufika_opened){.answer = refusal} : opened_empty(&setup, held, slots, side1, side2);
}

ghendufika_opened twin_open_checked(ghendufika_setup setup, uint32_t *held, size_t slots, int32_t *side1, size_t lent1, int32_t *side2, size_t lent2) {
    uint8_t refusal = refusal_of_setup(&setup, slots, lent1, lent2);
    if (refusal == 0) refusal = refusal_by_calendar(&setup);
    return refusal != 0 ? (ghendufika_opened){.answer = refusal} : opened_empty(&setup, held, slots, side1, side2);
}

/* ---- messages on a sound book */

/* What a message needs of the clock, kept up by each gate of a run. */
typedef struct {
    unsigned first, days, closed, gates, today; /* today is a day number; the day after the book where every gate is closed */
    unsigned periods[MOST_DAYS], closed_on[MOST_DAYS];
} clock_state;

static void close_up_to(clock_state *c, unsigned closed) {
    unsigned before = 0;
    c->closed = closed;
    c->today = c->first + c->days;
    for (unsigned d = c->days; d-- > 0;) before += c->periods[d];
    c->gates = before;
    for (unsigned d = c->days; d-- > 0;) {
        before -= c->periods[d];
        unsigned past = closed > before ? closed - before : 0;
        c->closed_on[d] = past < c->periods[d] ? past : c->periods[d];
        if (past < c->periods[d]) c->today = c->first + d;
    }
}

static clock_state clock_of(const ghendufika_book *b) {
    clock_state c = {.first = b->setup.first, .days = b->setup.days};
    for (unsigned d = 0; d < c.days; d++) c.periods[d] = PERIODS[b->setup.codes[d]];
    close_up_to(&c, b->closed);
    return c;
}

typedef struct {
    ghendufika_book *book;
    clock_state clock;
    uint32_t *held;
    size_t slots;
    int32_t *side1, *side2;
} tables;

static int32_t *row_at(const tables *t, int32_t *side, size_t slot, unsigned d) { return side + (slot * t->clock.days + d) * PLACES; }

static bool same_accounts(const ghendufika_authorisation *a, const ghendufika_authorisation *b) { return a->account1 == b->account1 && a->account2 == b->account2; }

/* 2 to 9. */
static uint8_t refusal_of_head(const tables *t, const head *n) {
    const ghendufika_setup *s = &t->book->setup;
    unsigned today = t->clock.today;
    if (t->clock.closed == t->clock.gates) return 2;
    if (n->authorisation >= s->authorisations) return 3;
    const ghendufika_authorisation *under = &s->rows[n->authorisation];
    if (n->key != under->key || (n->agent != under->agent1 && n->agent != under->agent2)) return 4;
    if (today < under->first || under->last < today) return 5;
    if (n->originator != n->authorisation) {
        if (n->originator >= s->authorisations) return 6;
        const ghendufika_authorisation *origin = &s->rows[n->originator];
        if (origin->last >= today || !same_accounts(origin, under)) return 6;
    }
    if (n->last < n->first) return 7;
    if (n->last < today) return 8;
    if (n->first >= t->clock.first + t->clock.days) return 9;
    return 0;
}

/* An answer without kind and slot, and without the place of an entry. */
static ghendufika_notified only(uint8_t answer) { return (ghendufika_notified){.answer = answer}; }

static ghendufika_notified at_fault(uint8_t answer, unsigned entry) { return (ghendufika_notified){.answer = answer, .place = (uint8_t)entry}; }

/* Whether a volume is out of range, as 0 or 1. */
static uint32_t is_out(int32_t volume) { return (uint32_t)volume + MOST_KWH > 2 * MOST_KWH; }

/* The first entry whose volume is out of range, where there is one. Kept out of the caller's loop: inlined there it makes every right message slower. */
__attribute__((cold, noinline)) static unsigned first_out(const head *n, const uint8_t *bytes, size_t whole) {
    unsigned k = 0;
    while (k < n->count && !is_out(volume_of(entry_in(bytes, whole, k)))) k++;
    return k;
}

/* 10 and 11, with the first entry at fault (request A3, document 02). A period further on comes before any volume, so of volumes it is
 * kept only that one is wrong; which, is looked for only then. The volumes by their periods, from 0: a six-bit period less one has room in 64 places. */
static ghendufika_notified read_entries(const tables *t, const head *n, const uint8_t *bytes, size_t whole, int32_t volumes[64]) {
    unsigned highest = n->first == n->last ? t->clock.periods[n->first - t->clock.first] : PLAIN_DAY;
    unsigned before = 0;
    uint32_t wrong = 0;
    for (unsigned k = 0; k < n->count; k++) {
        uint64_t entry = entry_in(bytes, whole, k);
        unsigned period = period_of(entry);
        int32_t volume = volume_of(entry);
        if (period <= before || period > highest) return at_fault(10, k);
        wrong |= is_out(volume);
        volumes[period - 1] = volume;
        before = period;
    }
    return wrong ? at_fault(11, first_out(n, bytes, whole)) : only(0);
}

/* Something stands in these places. A row is mostly full or blank, so it is read whole, on vectors. */
static bool states(const int32_t *row, unsigned from, unsigned to) {
    uint32_t stated = 0;
    for (unsigned p = from; p < to; p++) stated |= (uint32_t)(row[p] ^ MARK);
    return stated != 0;
}

static bool states_on(const tables *t, bool writes1, bool writes2, size_t slot, unsigned d, unsigned from) {
    unsigned to = t->clock.periods[d];
    return (writes1 && states(row_at(t, t->side1, slot, d), from, to)) || (writes2 && states(row_at(t, t->side2, slot, d), from, to));
}

static unsigned place_of_day(const tables *t, unsigned day) { return day > t->clock.first ? day - t->clock.first : 0; }

static bool is_replacement(const tables *t, const head *n, bool writes1, bool writes2, size_t slot) {
    for (unsigned d = place_of_day(t, n->first); d < t->clock.days; d++)
        if (states_on(t, writes1, writes2, slot, d, 0)) return true;
    return false;
}

static bool is_additional(const tables *t, const head *n, bool writes1, bool writes2, size_t own) {
    const ghendufika_setup *s = &t->book->setup;
    const ghendufika_authorisation *under = &s->rows[n->authorisation];
    unsigned first = place_of_day(t, n->first > t->clock.today ? n->first : t->clock.today);
    unsigned past = n->last - t->clock.first < t->clock.days ? n->last - t->clock.first + 1 : t->clock.days;
    for (size_t slot = 0; slot < t->slots; slot++) {
        if (t->held[slot] == 0 || slot == own) continue;
        if (!same_accounts(&s->rows[(t->held[slot] - 1) >> 16], under)) continue;
        for (unsigned d = first; d < past; d++)
            if (states_on(t, writes1, writes2, slot, d, t->clock.closed_on[d])) return true;
    }
    return false;
}

/* The identifier's own slot, else the lowest unheld one, else the number of slots. */
static size_t slot_for(const tables *t, uint32_t entry, bool *is_own) {
    size_t unheld = t->slots;
    for (size_t slot = 0; slot < t->slots; slot++) {
        if (t->held[slot] == entry) {
            *is_own = true;
            return slot;
        }
        if (t->held[slot] == 0 && unheld == t->slots) unheld = slot;
    }
    *is_own = false;
    return unheld;
}

static void blank(int32_t *row, unsigned from, unsigned to) {
    for (unsigned p = from; p < to; p++) row[p] = MARK;
}

/* A day's places from `turn` on show the notification's from `resumed` on; those before `turn` show their own. */
typedef struct {
    unsigned turn, resumed;
} local_hour;

/* Request A1 (document 02): a short day drops periods 3 and 4 of a notification over several days, a long day gives them again as 5 and 6. Here
 * places count from 0. On a plain day, and for a single day, every place is its own. */
static local_hour local_hour_of(const head *n, unsigned periods) {
    if (n->first != n->last && periods == SHORT_DAY) return (local_hour){.turn = 2, .resumed = 4};
    if (n->first != n->last && periods == LONG_DAY) return (local_hour){.turn = 4, .resumed = 2};
    return (local_hour){.turn = 0, .resumed = 0};
}

/* In two pieces straight into the row, so that nothing is laid out for a day's length first. */
static void place_volumes(int32_t *row, unsigned from, unsigned to, const int32_t *volumes, local_hour hour) {
    if (from < hour.turn) {
        memcpy(row + from, volumes + from, (hour.turn - from) * sizeof *row);
        from = hour.turn;
    }
    memcpy(row + from, volumes + hour.resumed + (from - hour.turn), (to - from) * sizeof *row);
}

static void rewrite(const tables *t, int32_t *side, const head *n, size_t slot, const int32_t *volumes) {
    unsigned d = place_of_day(t, n->first > t->clock.today ? n->first : t->clock.today);
    for (; d < t->clock.days; d++) {
        int32_t *row = row_at(t, side, slot, d);
        unsigned from = t->clock.closed_on[d], to = t->clock.periods[d];
        if (t->clock.first + d <= n->last)
            place_volumes(row, from, to, volumes, local_hour_of(n, to));
        else
            blank(row, from, to);
    }
}

size_t twin_accepted[4];

enum { INITIAL = 1, REPLACEMENT = 2, ADDITIONAL = 3 };

static unsigned kind_of(const tables *t, const head *n, bool writes1, bool writes2, size_t slot, bool is_own) {
    if (is_own && is_replacement(t, n, writes1, writes2, slot)) return REPLACEMENT;
    return is_additional(t, n, writes1, writes2, is_own ? slot : t->slots) ? ADDITIONAL : INITIAL;
}

static ghendufika_notified notify(const tables *t, const uint8_t *bytes, size_t whole) {
    int32_t volumes[64] = {0};
    head n = head_in(bytes);
    uint8_t refusal = refusal_of_head(t, &n);
    if (refusal != 0) return only(refusal);
    ghendufika_notified entries = read_entries(t, &n, bytes, whole, volumes);
    if (entries.answer != 0) return entries;

    const ghendufika_authorisation *under = &t->book->setup.rows[n.authorisation];
    bool writes1 = n.agent == under->agent1, writes2 = n.agent == under->agent2, is_own;
    uint32_t entry = (n.originator << 16 | n.reference) + 1;
    size_t slot = slot_for(t, entry, &is_own);
    unsigned kind = kind_of(t, &n, writes1, writes2, slot, is_own);
    if (kind == REPLACEMENT && under->amendment == 2) return only(12);
    if (kind == ADDITIONAL && under->amendment == 1) return only(13);
    if (slot == t->slots) return only(14);
    twin_accepted[kind]++;
    t->held[slot] = entry;
    if (writes1) rewrite(t, t->side1, &n, slot, volumes);
    if (writes2) rewrite(t, t->side2, &n, slot, volumes);
    return (ghendufika_notified){.answer = 0, .kind = (uint8_t)kind, .slot = (uint16_t)slot};
}

static void blank_slot(const tables *t, size_t slot, unsigned first) {
    for (unsigned d = place_of_day(t, first); d < t->clock.days; d++) {
        blank(row_at(t, t->side1, slot, d), t->clock.closed_on[d], t->clock.periods[d]);
        blank(row_at(t, t->side2, slot, d), t->clock.closed_on[d], t->clock.periods[d]);
    }
}

static uint8_t nullify(const tables *t, const uint8_t *bytes) {
    const ghendufika_setup *s = &t->book->setup;
    unsigned account = first_account(bytes), other = second_account(bytes), first = nullified_from(bytes);
    if (t->clock.closed == t->clock.gates) return 2;
    if (account >= s->accounts || other >= s->accounts || account == other) return 15;
    if (first >= t->clock.first + t->clock.days) return 9;
    for (size_t slot = 0; slot < t->slots; slot++) {
        if (t->held[slot] == 0) continue;
        const ghendufika_authorisation *row = &s->rows[(t->held[slot] - 1) >> 16];
        if ((row->account1 == account && row->account2 == other) || (row->account1 == other && row->account2 == account)) blank_slot(t, slot, first);
    }
    return 0;
}

static uint8_t close_gate(tables *t) {
    if (t->clock.closed == t->clock.gates) return 2;
    t->book->closed++;
    close_up_to(&t->clock, t->book->closed);
    return 0;
}

/* Kind, slot and place are a notification's alone. */
static ghendufika_notified do_message(tables *t, const uint8_t *bytes, size_t whole) {
    switch (bytes[0] >> 6) {
    case 0: return only(close_gate(t));
    case 1: return notify(t, bytes, whole);
    default: return only(nullify(t, bytes));
    }
}

ghendufika_applied twin_apply(ghendufika_book book, const uint8_t *bytes, size_t length, uint32_t *held, size_t slots, int32_t *side1, size_t lent1, int32_t *side2, size_t lent2) {
    ghendufika_applied applied = {.answer = 1, .book = book};
    if (!book_is_sound(&applied.book, held, slots, side1, lent1, side2, lent2)) return applied;
    size_t whole;
    applied.answer = refusal_of_message(bytes, length, &whole);
    if (applied.answer != 0) return applied;
    tables t = {&applied.book, clock_of(&applied.book), held, slots, side1, side2};
    ghendufika_notified done = do_message(&t, bytes, whole);
    applied.answer = done.answer;
    applied.kind = done.kind;
    applied.slot = done.slot;
    applied.place = done.place;
    applied.length = done.answer == 0 ? whole : 0;
    return applied;
}

ghendufika_applied_all twin_apply_all(ghendufika_book book, const uint8_t *bytes, size_t length, uint32_t *held, size_t slots, int32_t *side1, size_t lent1, int32_t *side2, size_t lent2, uint8_t *answers, size_t room, uint8_t *places, size_t places_room) {
    ghendufika_applied_all run = {.book = book};
    if (!book_is_sound(&run.book, held, slots, side1, lent1, side2, lent2)) {
        run.answer = 1;
        return run;
    }
    tables t = {&run.book, clock_of(&run.book), held, slots, side1, side2};
    size_t most = room < places_room ? room : places_room;
    while (run.done < most && run.used < length) {
        size_t whole;
        uint8_t refusal = refusal_of_message(bytes + run.used, length - run.used, &whole);
        ghendufika_notified done = refusal != 0 ? only(refusal) : do_message(&t, bytes + run.used, whole);
        answers[run.done] = done.answer;
        places[run.done++] = done.place;
        if (refusal != 0) break;
        run.used += whole;
    }
    return run;
}

/* ---- questions */

static uint8_t refusal_of_day(const ghendufika_book *b, const uint32_t *held, size_t slots, const int32_t *side1, size_t lent1, const int32_t *side2, size_t lent2, unsigned account, unsigned day) {
    if (!book_is_sound(b, held, slots, side1, lent1, side2, lent2)) return 1;
    if (account >= b->setup.accounts) return 15;
    if (day < b->setup.first || day - b->setup.first >= b->setup.days) return 16;
    return 0;
}

/* 1 for account 1 of a slot's identifier, -1 for account 2, 0 for any other and for an unheld slot. */
static int sign_of(const ghendufika_setup *s, uint32_t entry, unsigned account) {
    if (entry == 0) return 0;
    const ghendufika_authorisation *row = &s->rows[(entry - 1) >> 16];
    return (account == row->account1) - (account == row->account2);
}

/* The matched volume of a place; 0 where nothing matches. */
static int32_t matched(int32_t one, int32_t two) { return one == two && one != MARK ? one : 0; }

static const int64_t MOST_TOTAL = 99999999999;

ghendufika_totalled twin_total(ghendufika_book book, const uint32_t *held, size_t slots, const int32_t *side1, size_t lent1, const int32_t *side2, size_t lent2, uint32_t account, uint32_t day, uint32_t period) {
    ghendufika_totalled none = {.answer = refusal_of_day(&book, held, slots, side1, lent1, side2, lent2, account, day)};
    if (none.answer != 0) return none;
    unsigned d = day - book.setup.first;
    none.answer = 16;
    if (period < 1 || period > PERIODS[book.setup.codes[d]]) return none;
    int64_t kwh = 0;
    for (size_t slot = 0; slot < slots; slot++) {
        int sign = sign_of(&book.setup, held[slot], account);
        size_t place = (slot * book.setup.days + d) * PLACES + period - 1u;
        if (sign != 0) kwh += sign * matched(side1[place], side2[place]);
    }
    none.answer = 26;
    if (kwh > MOST_TOTAL || kwh < -MOST_TOTAL) return none;
    return (ghendufika_totalled){.answer = 0, .kwh = kwh};
}

uint8_t twin_day_totals(ghendufika_book book, const uint32_t *held, size_t slots, const int32_t *side1, size_t lent1, const int32_t *side2, size_t lent2, uint32_t account, uint32_t day, int64_t *kwh, size_t room) {
    uint8_t refusal = refusal_of_day(&book, held, slots, side1, lent1, side2, lent2, account, day);
    if (refusal != 0) return refusal;
    unsigned d = day - book.setup.first, periods = PERIODS[book.setup.codes[d]];
    if (room < periods) return 24;
    memset(kwh, 0, periods * sizeof *kwh);
    for (size_t slot = 0; slot < slots; slot++) {
        int sign = sign_of(&book.setup, held[slot], account);
        if (sign == 0) continue;
        const int32_t *row1 = side1 + (slot * book.setup.days + d) * PLACES, *row2 = side2 + (slot * book.setup.days + d) * PLACES;
        for (unsigned p = 0; p < periods; p++) kwh[p] += sign * matched(row1[p], row2[p]);
    }
    return 0; /* 26 never comes of 256 volumes; document 01 leaves open what a day gives for it */
}

ghendufika_figured twin_figures(ghendufika_book book, const uint32_t *held, size_t slots, const int32_t *side1, size_t lent1, const int32_t *side2, size_t lent2, uint32_t account, uint32_t day) {
    ghendufika_figured figured = {.answer = refusal_of_day(&book, held, slots, side1, lent1, side2, lent2, account, day)};
    if (figured.answer != 0) return figured;
    unsigned d = day - book.setup.first, periods = PERIODS[book.setup.codes[d]];
    int64_t sold = 0, bought = 0;
    for (size_t slot = 0; slot < slots; slot++) {
        int sign = sign_of(&book.setup, held[slot], account);
        if (sign == 0) continue;
        const int32_t *row1 = side1 + (slot * book.setup.days + d) * PLACES, *row2 = side2 + (slot * book.setup.days + d) * PLACES;
        for (unsigned p = 0; p < periods; p++) {
            int32_t volume = sign * matched(row1[p], row2[p]);
            sold += volume > 0 ? volume : 0;
            bought += volume < 0 ? -volume : 0;
        }
    }
    figured.day = (ghendufika_day_figures){(double)sold / 1000.0, (double)bought / 1000.0, (double)(sold - bought) / 1000.0};
    return figured;
}

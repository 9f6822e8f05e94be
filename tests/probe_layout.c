/* Where the fields of the header's structs lie, found in what the archive writes. Each export that returns a struct is declared here as one that
 * fills bytes, and called in several runs whose values are known; a field lies at the one place where every run shows its value. So the numbers are
 * the archive's, and not the header's. Printed as static assertions: tests/layout.c has the same lines, and the compiler holds the header
 * against them. Arguments are passed as the header declares them; with another layout than the archive's no value would be found. */
#include "ghendufika.h"

#include <stdio.h>
#include <stdlib.h>
#include <string.h>

enum { RUNS = 6, ROOM = 1024, SLOTS = 2, DAYS = 8, PLACES = SLOTS * DAYS * 50 };

#define TABLES uint32_t *held, size_t slots, int32_t *side1, size_t lent1, int32_t *side2, size_t lent2
#define LENT held, SLOTS, side1, PLACES, side2, PLACES

/* On x86-64 a result of more than 16 bytes is written where a hidden first argument points; a smaller one comes in two registers. */
typedef struct {
    uint64_t low, high;
} registers;

void read_message(uint8_t *result, const uint8_t *bytes, size_t length) __asm__("ghendufika_read_message");
registers write_message(ghendufika_message message, uint8_t *out, size_t room) __asm__("ghendufika_write_message");
void read_setup(uint8_t *result, const uint8_t *bytes, size_t length, size_t slots, size_t lent1, size_t lent2) __asm__("ghendufika_read_setup");
registers write_setup(ghendufika_setup setup, uint8_t *out, size_t room) __asm__("ghendufika_write_setup");
void open_setup(uint8_t *result, ghendufika_setup setup, TABLES) __asm__("ghendufika_open");
void open_packed(uint8_t *result, const uint8_t *bytes, size_t length, TABLES) __asm__("ghendufika_open_packed");
void close_gate(uint8_t *result, ghendufika_book book, TABLES) __asm__("ghendufika_close_gate");
registers notify(ghendufika_book book, ghendufika_notification notification, TABLES) __asm__("ghendufika_notify");
void apply(uint8_t *result, ghendufika_book book, const uint8_t *bytes, size_t length, TABLES) __asm__("ghendufika_apply");
void apply_all(uint8_t *result, ghendufika_book book, const uint8_t *bytes, size_t length, TABLES, uint8_t *answers, size_t room, uint8_t *places, size_t places_room) __asm__("ghendufika_apply_all");
registers total(ghendufika_book book, TABLES, uint32_t account, uint32_t day, uint32_t period) __asm__("ghendufika_total");
void figures(uint8_t *result, ghendufika_book book, TABLES, uint32_t account, uint32_t day) __asm__("ghendufika_figures");
void mark(uint8_t *result, ghendufika_book book, TABLES, uint32_t originator, uint32_t reference, uint32_t account, uint32_t day, uint32_t period) __asm__("ghendufika_mark");
void row(uint8_t *result, ghendufika_book book, TABLES, uint32_t originator, uint32_t reference, uint32_t day, uint32_t side) __asm__("ghendufika_row");
registers day_length(uint32_t day) __asm__("ghendufika_day_length");
registers code_of_day(uint32_t day) __asm__("ghendufika_code_of_day");
registers day_of_date(uint32_t year, uint32_t month, uint32_t day) __asm__("ghendufika_day_of_date");
registers date_of_day(uint32_t day) __asm__("ghendufika_date_of_day");
registers propose_codes(uint32_t first, uint32_t days) __asm__("ghendufika_propose_codes");
void read_spreadsheet(uint8_t *result, const uint8_t *bytes, size_t length) __asm__("ghendufika_read_spreadsheet");
registers write_spreadsheet(ghendufika_spreadsheet spreadsheet, uint8_t *out, size_t room) __asm__("ghendufika_write_spreadsheet");

/* ---- what the archive wrote, and where a value is */

static uint8_t results[RUNS][ROOM];
static uint32_t held[SLOTS];
static int32_t side1[PLACES], side2[PLACES];

static void give_up(const char *why, const char *what) {
    fprintf(stderr, "probe_layout: %s: %s\n", why, what);
    exit(1);
}

static void forget(void) { memset(results, 0xEE, sizeof results); } /* no value below is made of such bytes */

static void keep(int run, registers both) { memcpy(results[run], &both, sizeof both); }

/* the one place from `from` on, before `end`, where every run shows its value */
static size_t find(const char *what, size_t from, size_t end, size_t width, const uint64_t *values) {
    size_t found = ROOM;
    for (size_t at = from; at + width <= end; at++) {
        int shown = 0;
        for (int run = 0; run < RUNS; run++) shown += memcmp(results[run] + at, &values[run], width) == 0;
        if (shown == RUNS && found != ROOM) give_up("found twice", what);
        if (shown == RUNS) found = at;
    }
    if (found == ROOM) give_up("not found", what);
    return found;
}

static size_t field(const char *type, const char *name, size_t base, size_t at) {
    printf("_Static_assert(offsetof(ghendufika_%s, %s) == %zu, \"%s.%s\");\n", type, name, at - base, type, name);
    return at;
}

static void size(const char *type, size_t end, size_t aligned) { /* C ends a struct at the next multiple of its alignment */
    printf("_Static_assert(sizeof(ghendufika_%s) == %zu, \"%s\");\n", type, (end + aligned - 1) / aligned * aligned, type);
}

/* ---- values, and bytes that hold them */

static uint32_t seed = 20000101;

static uint32_t any(uint32_t below) {
    seed = seed * 1664525u + 1013904223u;
    return (seed >> 8) % below;
}

static void any_of(uint64_t *values, uint32_t from, uint32_t below) {
    for (int run = 0; run < RUNS; run++) values[run] = from + any(below - from);
}

static uint8_t packed[1024];
static size_t bit;

static void begin(void) {
    memset(packed, 0, sizeof packed);
    bit = 0;
}

static void put(unsigned width, uint64_t value) {
    for (unsigned k = width; k-- > 0; bit++) packed[bit / 8] = (uint8_t)(packed[bit / 8] | (value >> k & 1u) << (7 - bit % 8));
}

static size_t bytes(void) { return (bit + 7) / 8; }

/* ---- messages */

static const uint64_t refusals[RUNS] = {19, 20, 22, 20, 19, 22};

static size_t message_read_head(void) {
    static const uint8_t refused[3] = {0x80, 0xC0, 0x01}; /* a nullification's first byte alone, kind 3, a gate with a padding bit */
    static const uint64_t kinds[RUNS] = {0, 1, 2, 1, 0, 2}, lengths[RUNS] = {1, 12, 4, 12, 1, 4};
    forget();
    for (int run = 0; run < RUNS; run++) read_message(results[run], &refused[refusals[run] == 19 ? 0 : refusals[run] == 20 ? 1 : 2], 1);
    field("message_read", "answer", 0, find("answer", 0, ROOM, 1, refusals));
    forget();
    for (int run = 0; run < RUNS; run++) {
        begin();
        put(2, kinds[run]);
        read_message(results[run], packed, 12);
    }
    field("message_read", "length", 0, find("length", 0, ROOM, 8, lengths));
    return field("message_read", "message", 0, find("kind", 0, ROOM, 1, kinds));
}

static size_t notification(size_t message) {
    static const char *names[] = {"authorisation", "agent", "key", "originator", "reference", "first", "last", "count"};
    static const unsigned bits[] = {6, 8, 16, 6, 16, 16, 16, 6};
    uint64_t values[8][RUNS], periods[2][RUNS], volumes[2][RUNS];
    for (int k = 0; k < 7; k++) any_of(values[k], 1, bits[k] == 16 ? 60000 : bits[k] == 8 ? 230 : 64);
    any_of(values[7], 2, 51);
    for (int k = 0; k < 2; k++) any_of(periods[k], 1, 64), any_of(volumes[k], 1, 1u << 27);
    forget();
    for (int run = 0; run < RUNS; run++) {
        begin();
        put(2, GHENDUFIKA_NOTIFICATION);
        for (int k = 0; k < 8; k++) put(bits[k], values[k][run]);
        for (int k = 0; k < 2; k++) put(6, periods[k][run]), put(28, volumes[k][run]);
        read_message(results[run], packed, sizeof packed);
    }
    size_t base = find("authorisation", message, ROOM, 1, values[0]), last = base;
    field("message", "kind", message, message);
    field("message", "notification", message, base);
    for (int k = 0; k < 8; k++) last = field("notification", names[k], base, find(names[k], last, ROOM, bits[k] == 16 ? 2 : 1, values[k]));
    size_t entry = find("period", last, ROOM, 1, periods[0]), next = find("the next period", last, ROOM, 1, periods[1]);
    field("notification", "entries", base, entry);
    field("entry", "period", entry, entry);
    field("entry", "volume", entry, find("volume", entry, ROOM, 4, volumes[0]));
    if (find("the next volume", entry, ROOM, 4, volumes[1]) - find("volume", entry, ROOM, 4, volumes[0]) != next - entry) give_up("uneven", "entries");
    size("entry", next - entry, 1); /* seen: from one to the next */
    size("notification", entry + 50 * (next - entry) - base, 4);
    return base + (entry - base) + 50 * (next - entry);
}

static size_t nullification(size_t message, size_t from) {
    uint64_t account[RUNS], other[RUNS], first[RUNS];
    any_of(account, 1, 64), any_of(other, 1, 64), any_of(first, 1, 60000);
    forget();
    for (int run = 0; run < RUNS; run++) {
        begin();
        put(2, GHENDUFIKA_NULLIFICATION), put(6, account[run]), put(6, other[run]), put(16, first[run]);
        read_message(results[run], packed, bytes());
    }
    size_t base = find("account", from, ROOM, 1, account), last = find("first", from, ROOM, 2, first);
    field("message", "nullification", message, base);
    field("nullification", "account", base, base);
    field("nullification", "other", base, find("other", from, ROOM, 1, other));
    field("nullification", "first", base, last);
    size("nullification", last + 2 - base, 2);
    size("message", last + 2 - message, 4);
    return last + 2;
}

/* ---- setups */

typedef struct {
    uint64_t head[4][RUNS], codes[2][RUNS], rows[2][8][RUNS];
} setup_values;

static const unsigned row_bits[8] = {8, 8, 6, 6, 16, 16, 16, 2};

static void any_setup(setup_values *s) {
    static const uint64_t codes[2][RUNS] = {{0, 1, 2, 2, 1, 0}, {2, 2, 1, 0, 0, 1}}, types[2][RUNS] = {{1, 0, 2, 0, 2, 1}, {2, 1, 0, 1, 0, 2}};
    any_of(s->head[0], 1000, 60000), any_of(s->head[2], 40, 65), any_of(s->head[3], 2, 65);
    for (int run = 0; run < RUNS; run++) s->head[1][run] = DAYS;
    memcpy(s->codes, codes, sizeof codes);
    for (int k = 0; k < 2; k++) {
        any_of(s->rows[k][0], 1, 230), any_of(s->rows[k][1], 1, 230), any_of(s->rows[k][2], 1, 20), any_of(s->rows[k][3], 20, 40);
        any_of(s->rows[k][4], 1, 60000), any_of(s->rows[k][5], 1, 30000), any_of(s->rows[k][6], 30000, 60000);
        memcpy(s->rows[k][7], types[k], sizeof types[k]);
    }
}

static void pack_setup(const setup_values *s, int run) {
    static const unsigned head_bits[4] = {16, 4, 7, 7};
    begin();
    for (int k = 0; k < 4; k++) put(head_bits[k], s->head[k][run]);
    for (uint64_t d = 0; d < s->head[1][run]; d++) put(2, d < 2 ? s->codes[d][run] : 0);
    for (uint64_t r = 0; r < s->head[3][run]; r++)
        for (int k = 0; k < 8; k++) put(row_bits[k], r < 2 ? s->rows[r][k][run] : k == 3 ? 1 : 0); /* the rows behind: accounts 0 and 1 */
}

static size_t rows_at(const setup_values *s, size_t base, size_t from) {
    static const char *names[8] = {"agent1", "agent2", "account1", "account2", "key", "first", "last", "amendment"};
    size_t row = find("agent1", from, ROOM, 1, s->rows[0][0]), next = find("the next agent1", from, ROOM, 1, s->rows[1][0]), length = next - row;
    field("setup", "rows", base, row);
    for (int k = 0; k < 8; k++) { /* in their own row: the byte before the rows is nobody's, and may hold anything */
        size_t width = row_bits[k] == 16 ? 2 : 1, at = find(names[k], row, row + length, width, s->rows[0][k]);
        field("authorisation", names[k], row, at);
        if (find(names[k], next, next + length, width, s->rows[1][k]) - next != at - row) give_up("uneven", "rows");
    }
    size("authorisation", length, 1); /* seen: from one to the next */
    return row + 64 * length;
}

/* A refused setup is all zero, but the byte between its codes and its rows is nobody's and may hold the answer too: so the answers of results with a
 * setup are looked for in front of it. */
static void setup_read_answer(size_t setup) {
    static const uint64_t number[RUNS] = {19, 17, 17, 19, 17, 19};
    forget();
    for (int run = 0; run < RUNS; run++) { /* no bytes; a head all zero */
        begin();
        read_setup(results[run], packed, number[run] == 19 ? 0 : 5, SLOTS, PLACES, PLACES);
    }
    field("setup_read", "answer", 0, find("answer", 0, setup, 1, number));
}

static void setups(void) {
    static const char *names[4] = {"first", "days", "accounts", "authorisations"};
    setup_values s;
    uint64_t lengths[RUNS];
    any_setup(&s);
    for (int run = 0; run < RUNS; run++) s.head[1][run] = (uint64_t)(2 + (run * 5 + 1) % 7);
    forget();
    for (int run = 0; run < RUNS; run++) {
        size_t lent = SLOTS * s.head[1][run] * 50;
        pack_setup(&s, run);
        lengths[run] = bytes();
        read_setup(results[run], packed, sizeof packed, SLOTS, lent, lent);
    }
    size_t base = find("first", 0, ROOM, 2, s.head[0]), last = base;
    field("setup_read", "length", 0, find("length", 0, base, 8, lengths));
    field("setup_read", "setup", 0, base);
    for (int k = 0; k < 4; k++) last = field("setup", names[k], base, find(names[k], last, ROOM, k == 0 ? 2 : 1, s.head[k]));
    size_t code = find("codes", last, ROOM, 1, s.codes[0]);
    field("setup", "codes", base, code);
    if (find("the next code", last, ROOM, 1, s.codes[1]) != code + 1) give_up("uneven", "codes");
    size_t end = rows_at(&s, base, code + 2);
    size("setup", end - base, 2);
    size("setup_read", end, 8);
    setup_read_answer(base);
}

/* ---- books */

static ghendufika_setup small_setup(uint16_t first) { /* one authorisation for all: agents 7 and 7, accounts 0 and 1 */
    ghendufika_setup setup = {.first = first, .days = DAYS, .accounts = 2, .authorisations = 1};
    for (int d = 0; d < DAYS; d++) setup.codes[d] = GHENDUFIKA_DAY_OF_50;
    setup.rows[0] = (ghendufika_authorisation){.agent1 = 7, .agent2 = 7, .account2 = 1, .key = 500, .last = GHENDUFIKA_EVERGREEN};
    return setup;
}

static ghendufika_book book; /* the book that the runs ask */

static void open_book(uint16_t first) {
    uint8_t unread[ROOM];
    book = (ghendufika_book){.setup = small_setup(first), .closed = 0};
    open_setup(unread, book.setup, LENT);
}

static ghendufika_notification said(uint16_t reference, uint8_t period, int32_t volume) { /* by agent 7, who writes both sides */
    ghendufika_notification n = {.agent = 7, .key = 500, .reference = reference, .first = book.setup.first, .last = book.setup.first, .count = 1};
    n.entries[0] = (ghendufika_entry){.period = period, .volume = volume};
    return n;
}

static void opened(void) {
    static const uint64_t number[RUNS] = {17, 18, 18, 17, 18, 17};
    uint64_t first[RUNS];
    any_of(first, 1000, 60000);
    forget();
    for (int run = 0; run < RUNS; run++) open_setup(results[run], small_setup((uint16_t)first[run]), LENT);
    size_t base = field("opened", "book", 0, find("first", 0, ROOM, 2, first));
    forget();
    for (int run = 0; run < RUNS; run++) {
        ghendufika_setup setup = small_setup(100);
        if (number[run] == 17) setup.days = 0; else setup.rows[0].amendment = 3;
        open_setup(results[run], setup, LENT);
    }
    field("opened", "answer", 0, find("answer", 0, base, 1, number));
}

static void opened_packed(void) {
    static const uint64_t number[RUNS] = {19, 17, 17, 19, 17, 19};
    setup_values s;
    uint64_t lengths[RUNS];
    any_setup(&s);
    forget();
    for (int run = 0; run < RUNS; run++) {
        pack_setup(&s, run);
        lengths[run] = bytes();
        open_packed(results[run], packed, sizeof packed, LENT);
    }
    field("opened_packed", "length", 0, find("length", 0, ROOM, 8, lengths));
    size_t base = field("opened_packed", "book", 0, find("first", 0, ROOM, 2, s.head[0]));
    forget();
    for (int run = 0; run < RUNS; run++) {
        begin();
        open_packed(results[run], packed, number[run] == 19 ? 0 : 5, LENT);
    }
    field("opened_packed", "answer", 0, find("answer", 0, base, 1, number));
}

static size_t gated(void) { /* gives the size of a book */
    static const uint64_t number[RUNS] = {1, 2, 2, 1, 2, 1};
    uint64_t first[RUNS], closed[RUNS];
    any_of(first, 1000, 60000), any_of(closed, 2, 400);
    forget();
    for (int run = 0; run < RUNS; run++) { /* more gates closed than there are; every gate closed */
        book = (ghendufika_book){.setup = small_setup(100), .closed = number[run] == 1 ? 401 : 400};
        close_gate(results[run], book, LENT);
    }
    field("gated", "answer", 0, find("answer", 0, ROOM, 1, number));
    forget();
    for (int run = 0; run < RUNS; run++) {
        book = (ghendufika_book){.setup = small_setup((uint16_t)first[run]), .closed = (uint16_t)(closed[run] - 1)};
        close_gate(results[run], book, LENT);
    }
    size_t base = find("first", 0, ROOM, 2, first), last = find("closed", 0, ROOM, 2, closed);
    field("gated", "book", 0, base);
    field("book", "setup", base, base);
    field("book", "closed", base, last);
    size("book", last + 2 - base, 2);
    size("gated", last + 2, 2);
    size("opened", last + 2, 2);
    return last + 2 - base;
}

/* ---- calls by messages */

/* Entries at fault: by 10 where the period is 0, by 11 where the volume is too large. No place is its run's answer, or another run's place. */
static const uint64_t at_fault[RUNS] = {10, 11, 11, 10, 11, 10}, fault_places[RUNS] = {3, 49, 17, 1, 30, 24};

static ghendufika_entry entry_of(int run, unsigned place) { /* of the run's notification: periods 1 to 50, 5 kWh each, but for the entry at fault */
    ghendufika_entry entry = {.period = (uint8_t)(place + 1), .volume = 5};
    if (place == fault_places[run] && at_fault[run] == 10) entry.period = 0;
    if (place == fault_places[run] && at_fault[run] == 11) entry.volume = GHENDUFIKA_MOST_VOLUME + 1;
    return entry;
}

static ghendufika_notification wrongly_said(int run) {
    ghendufika_notification n = said(1, 1, 5);
    n.count = GHENDUFIKA_MOST_ENTRIES;
    for (unsigned k = 0; k < n.count; k++) n.entries[k] = entry_of(run, k);
    return n;
}

/* The struct is in the first register. What is past it there is nobody's, and is no value below in every run. */
static void notified(void) {
    enum { REGISTER = 8 };
    static const uint64_t number[RUNS] = {3, 4, 7, 4, 3, 7}, kinds[RUNS] = {1, 3, 2, 2, 2, 2}, slots[RUNS] = {0, 1, 0, 1, 1, 0};
    forget();
    open_book(100);
    for (int run = 0; run < RUNS; run++) {
        ghendufika_notification n = said(1, 1, 5);
        if (number[run] == 3) n.authorisation = 1;
        if (number[run] == 4) n.key = 501;
        if (number[run] == 7) n.last = 99;
        keep(run, notify(book, n, LENT));
    }
    size_t answer = field("notified", "answer", 0, find("answer", 0, REGISTER, 1, number));
    for (int run = 0; run < RUNS; run++) keep(run, notify(book, said((uint16_t)(1 + slots[run]), 1, 5), LENT));
    field("notified", "kind", 0, find("kind", 0, REGISTER, 1, kinds));
    size_t slot = field("notified", "slot", 0, find("slot", 0, REGISTER, 2, slots));
    for (int run = 0; run < RUNS; run++) keep(run, notify(book, wrongly_said(run), LENT));
    if (find("10 and 11", 0, REGISTER, 1, at_fault) != answer) give_up("elsewhere", "the answer with a place");
    size_t place = field("notified", "place", 0, find("place", 0, REGISTER, 1, fault_places));
    size("notified", slot + 2 > place + 1 ? slot + 2 : place + 1, 2);
}

static void pack_head(uint16_t reference, unsigned count) {
    begin();
    put(2, GHENDUFIKA_NOTIFICATION), put(6, 0), put(8, 7), put(16, 500), put(6, 0), put(16, reference), put(16, book.setup.first), put(16, book.setup.first), put(6, count);
}

static void pack_said(uint16_t reference, unsigned count) {
    pack_head(reference, count);
    for (unsigned k = 1; k <= count; k++) put(6, k), put(28, 5);
}

static void pack_wrongly_said(int run) {
    pack_head(1, GHENDUFIKA_MOST_ENTRIES);
    for (unsigned k = 0; k < GHENDUFIKA_MOST_ENTRIES; k++) put(6, entry_of(run, k).period), put(28, (uint64_t)entry_of(run, k).volume);
}

static size_t applied_place(size_t base, size_t answer) {
    open_book(100);
    forget();
    for (int run = 0; run < RUNS; run++) {
        pack_wrongly_said(run);
        apply(results[run], book, packed, bytes(), LENT);
    }
    if (find("10 and 11", 0, base, 1, at_fault) != answer) give_up("elsewhere", "the answer with a place");
    return find("place", 0, base, 1, fault_places);
}

static void applied(size_t book_size) {
    static const uint64_t kinds[RUNS] = {1, 3, 2, 2, 2, 2}, slots[RUNS] = {0, 1, 0, 1, 1, 0};
    uint64_t first[RUNS], lengths[RUNS];
    any_of(first, 1000, 60000);
    open_book(100);
    forget();
    for (int run = 0; run < RUNS; run++) apply(results[run], book, &(const uint8_t[]){0x80, 0xC0, 0x01}[refusals[run] == 19 ? 0 : refusals[run] == 20 ? 1 : 2], 1, LENT);
    size_t answer = field("applied", "answer", 0, find("answer", 0, ROOM, 1, refusals));
    forget();
    for (int run = 0; run < RUNS; run++) {
        book.setup.first = (uint16_t)first[run];
        pack_said((uint16_t)(1 + slots[run]), (unsigned)(7 * run + 3));
        lengths[run] = bytes();
        apply(results[run], book, packed, sizeof packed, LENT);
    }
    size_t base = find("first", 0, ROOM, 2, first), length = find("length", 0, base, 8, lengths);
    field("applied", "kind", 0, find("kind", 0, base, 1, kinds));
    field("applied", "slot", 0, find("slot", 0, base, 2, slots));
    field("applied", "place", 0, applied_place(base, answer));
    field("applied", "length", 0, length);
    field("applied", "book", 0, base);
    size("applied", base + book_size, 8);
    size("opened_packed", base + book_size, 8); /* the same fields */
}

enum { MORE_GATES = 5 };

/* Gates, one byte each, and then a notification with an entry at fault; behind it more gates, for which one of the buffers has no room. */
static size_t pack_run(int run, size_t messages) {
    pack_wrongly_said(run);
    size_t length = bytes();
    memmove(packed + messages - 1, packed, length);
    memset(packed, 0, messages - 1);
    memset(packed + messages - 1 + length, 0, MORE_GATES);
    return messages - 1 + length + MORE_GATES;
}

/* Which buffer the archive takes for which, and whose room is whose: the last message's answer is in the first, its place in the second, and no more is. */
static void buffers_hold(int run, size_t done, const uint8_t *answers, const uint8_t *places) {
    if (answers[done - 1] != at_fault[run] || places[done - 1] != fault_places[run]) give_up("not found", "the answer and the place of a run's message");
    for (size_t k = 0; k + 1 < done; k++)
        if (answers[k] != 0 || places[k] != 0) give_up("not zero", "the answer or the place of a gate in a run");
    if (answers[done] != 0xEE || places[done] != 0xEE) give_up("written", "a buffer past the run");
}

static void applied_all(size_t book_size) {
    static const uint64_t number[RUNS] = {1, 0, 1, 1, 0, 0};
    uint64_t first[RUNS], done[RUNS], used[RUNS];
    uint8_t answers[64], places[64];
    any_of(first, 1000, 60000), any_of(done, 2, 40); /* fewer gates than the first day has */
    forget();
    for (int run = 0; run < RUNS; run++) {
        book.closed = number[run] == 1 ? 1000 : 7; /* 1000: more than there are */
        apply_all(results[run], book, packed, 0, LENT, answers, sizeof answers, places, sizeof places);
    }
    field("applied_all", "answer", 0, find("answer", 0, ROOM, 1, number));
    forget();
    for (int run = 0; run < RUNS; run++) {
        book.setup.first = (uint16_t)first[run], book.closed = 0;
        size_t length = pack_run(run, done[run]);
        used[run] = length - MORE_GATES;
        memset(answers, 0xEE, sizeof answers), memset(places, 0xEE, sizeof places);
        apply_all(results[run], book, packed, length, LENT, answers, run % 2 ? done[run] : sizeof answers, places, run % 2 ? sizeof places : done[run]);
        buffers_hold(run, done[run], answers, places);
    }
    size_t base = find("first", 0, ROOM, 2, first);
    field("applied_all", "done", 0, find("done", 0, base, 8, done));
    field("applied_all", "used", 0, find("used", 0, base, 8, used));
    field("applied_all", "book", 0, base);
    size("applied_all", base + book_size, 8);
}

static void written(void) {
    static const uint64_t number[RUNS] = {20, 23, 24, 23, 20, 24}, wrong[RUNS] = {17, 18, 24, 18, 17, 24};
    uint64_t lengths[RUNS];
    for (int run = 0; run < RUNS; run++) keep(run, write_message((ghendufika_message){.kind = number[run] == 20 ? 3 : number[run] == 23 ? 4 : 0}, packed, 0));
    field("message_written", "answer", 0, find("answer", 0, 16, 1, number));
    for (int run = 0; run < RUNS; run++) {
        ghendufika_setup setup = small_setup(100);
        if (wrong[run] == 17) setup.days = 9;
        if (wrong[run] == 18) setup.rows[0].amendment = 3;
        keep(run, write_setup(setup, packed, 5));
    }
    field("setup_written", "answer", 0, find("answer", 0, 16, 1, wrong));
    for (int run = 0; run < RUNS; run++) {
        ghendufika_message m = {.kind = GHENDUFIKA_NOTIFICATION, .notification = said(1, 1, 5)};
        m.notification.count = (uint8_t)(7 * run + 3);
        lengths[run] = (92 + 34u * m.notification.count + 7) / 8;
        keep(run, write_message(m, packed, sizeof packed));
    }
    size("message_written", field("message_written", "length", 0, find("length", 0, 16, 8, lengths)) + 8, 8);
    for (int run = 0; run < RUNS; run++) {
        ghendufika_setup setup = small_setup(100);
        setup.authorisations = (uint8_t)(1 + 9 * run);
        for (int k = 1; k < setup.authorisations; k++) setup.rows[k] = setup.rows[0];
        lengths[run] = (34 + 2 * DAYS + 78u * setup.authorisations + 7) / 8;
        keep(run, write_setup(setup, packed, sizeof packed));
    }
    size("setup_written", field("setup_written", "length", 0, find("length", 0, 16, 8, lengths)) + 8, 8);
}

/* ---- questions */

static const uint64_t asked_wrong[RUNS] = {1, 15, 16, 15, 1, 16};

static void totalled(void) {
    uint64_t kwh[RUNS];
    any_of(kwh, 1, GHENDUFIKA_MOST_VOLUME);
    open_book(100);
    for (int run = 0; run < RUNS; run++) {
        book.closed = asked_wrong[run] == 1 ? 401 : 0;
        keep(run, total(book, LENT, asked_wrong[run] == 15 ? 2 : 0, 100, asked_wrong[run] == 16 ? 51 : 1));
    }
    field("totalled", "answer", 0, find("answer", 0, 16, 1, asked_wrong));
    for (int run = 0; run < RUNS; run++) {
        open_book(100);
        notify(book, said(1, 1, (int32_t)kwh[run]), LENT);
        keep(run, total(book, LENT, 0, 100, 1));
    }
    size("totalled", field("totalled", "kwh", 0, find("kwh", 0, 16, 8, kwh)) + 8, 8);
}

static uint64_t float_bits(int64_t kwh) { /* in MWh */
    double mwh = (double)kwh / 1000.0;
    uint64_t value;
    memcpy(&value, &mwh, sizeof value);
    return value;
}

static void figured(void) {
    uint64_t sold[RUNS], bought[RUNS], net[RUNS];
    forget();
    open_book(100);
    for (int run = 0; run < RUNS; run++) {
        book.closed = asked_wrong[run] == 1 ? 401 : 0;
        figures(results[run], book, LENT, asked_wrong[run] == 15 ? 2 : 0, asked_wrong[run] == 16 ? 99 : 100);
    }
    field("figured", "answer", 0, find("answer", 0, ROOM, 1, asked_wrong));
    for (int run = 0; run < RUNS; run++) { /* one identifier sold, another bought */
        int32_t plus = (int32_t)any(90000) + 1, minus = (int32_t)any(90000) + 1;
        open_book(100);
        notify(book, said(1, 1, plus), LENT);
        notify(book, said(2, 2, -minus), LENT);
        sold[run] = float_bits(plus), bought[run] = float_bits(minus), net[run] = float_bits(plus - minus);
        memset(results[run], 0xEE, ROOM);
        figures(results[run], book, LENT, 0, 100);
    }
    size_t base = find("sold", 0, ROOM, 8, sold), last = find("net", 0, ROOM, 8, net);
    field("figured", "day", 0, base);
    field("day_figures", "sold", base, base);
    field("day_figures", "bought", base, find("bought", 0, ROOM, 8, bought));
    field("day_figures", "net", base, last);
    size("day_figures", last + 8 - base, 8);
    size("figured", last + 8, 8);
}

static void marked(void) {
    static const uint64_t bars[RUNS] = {0, 1, 2, 3, 1, 3};
    static const uint64_t number[RUNS] = {25, 15, 16, 16, 25, 15};
    uint64_t first[RUNS] = {0}, second[RUNS] = {0};
    open_book(100);
    notify(book, said(1, 1, 5), LENT);
    forget();
    for (int run = 0; run < RUNS; run++) mark(results[run], book, LENT, 0, number[run] == 25 ? 2 : 1, number[run] == 15 ? 2 : 0, 100, number[run] == 16 ? 51 : 1);
    field("marked", "answer", 0, find("answer", 0, ROOM, 1, number));
    forget();
    for (int run = 0; run < RUNS; run++) { /* what stands in period 1 is put there, as a C program may */
        int32_t one = (int32_t)any(90000) + 1, two = one + (int32_t)any(90000) + 1;
        side1[0] = bars[run] == 0 ? GHENDUFIKA_MARK : one;
        side2[0] = bars[run] < 2 ? GHENDUFIKA_MARK : bars[run] == 2 ? one : two;
        if (bars[run] > 0) first[run] = float_bits(one);
        if (bars[run] == 3) second[run] = float_bits(two);
        mark(results[run], book, LENT, 0, 1, 0, 100, 1);
    }
    size_t last = find("second", 0, ROOM, 8, second);
    field("marked", "bar", 0, find("bar", 0, ROOM, 1, bars));
    field("marked", "first", 0, find("first", 0, ROOM, 8, first));
    field("marked", "second", 0, last);
    size("marked", last + 8, 8);
}

static void row_place(void) {
    static const uint64_t number[RUNS] = {1, 25, 16, 25, 16, 1};
    uint64_t start[RUNS], length[RUNS];
    forget();
    for (int run = 0; run < RUNS; run++) {
        book.closed = number[run] == 1 ? 401 : 0;
        row(results[run], book, LENT, 0, number[run] == 25 ? 2 : 1, number[run] == 16 ? 99 : 100, 1);
    }
    field("row_place", "answer", 0, find("answer", 0, ROOM, 1, number));
    forget();
    for (int run = 0; run < RUNS; run++) {
        static const uint64_t lengths[3] = {46, 48, 50};
        open_book(100);
        book.setup.codes[run + 1] = (uint8_t)(run * 2 % 3);
        notify(book, said(1, 1, 5), LENT);
        start[run] = 50u * (unsigned)(run + 1), length[run] = lengths[run * 2 % 3];
        row(results[run], book, LENT, 0, 1, 101 + (unsigned)run, 2);
    }
    size_t last = find("length", 0, ROOM, 8, length);
    field("row_place", "start", 0, find("start", 0, ROOM, 8, start));
    field("row_place", "length", 0, last);
    size("row_place", last + 8, 8);
}

/* ---- the calendar: the clock-change days of 2000 and 2001 and plain ones, by hand; a refusal is 27. Of the two registers
 * the first alone is looked at where it has room for the struct: what is in the other is nobody's. */

static const uint64_t days_asked[RUNS] = {85, 302, 100, 666, 449, 101}, codes_there[RUNS] = {0, 2, 1, 2, 0, 1}, refused_or_not[RUNS] = {27, 0, 0, 27, 0, 27};
static const uint32_t no_day = 65536;

static size_t answer_at(const char *type, registers (*question)(uint32_t day)) {
    forget();
    for (int run = 0; run < RUNS; run++) keep(run, question(refused_or_not[run] == 27 ? no_day : 100));
    return field(type, "answer", 0, find("answer", 0, 8, 1, refused_or_not));
}

static void measured_and_coded(void) {
    uint64_t periods[RUNS];
    answer_at("measured", day_length);
    for (int run = 0; run < RUNS; run++) periods[run] = 46 + 2 * codes_there[run];
    for (int run = 0; run < RUNS; run++) keep(run, day_length((uint32_t)days_asked[run]));
    size("measured", field("measured", "periods", 0, find("periods", 0, 8, 1, periods)) + 1, 1);
    answer_at("coded", code_of_day);
    for (int run = 0; run < RUNS; run++) keep(run, code_of_day((uint32_t)days_asked[run]));
    size("coded", field("coded", "code", 0, find("code", 0, 8, 1, codes_there)) + 1, 1);
}

static const uint64_t dates[3][RUNS] = {{2000, 2024, 2099, 2001, 2026, 2000}, {1, 10, 12, 3, 4, 2}, {2, 27, 31, 25, 16, 29}};
static const uint64_t days_of_dates[RUNS] = {1, 9066, 36524, 449, 9602, 59};

static void numbered(void) {
    forget();
    for (int run = 0; run < RUNS; run++) keep(run, day_of_date(2000, refused_or_not[run] == 27 ? 13 : 1, 1));
    field("numbered", "answer", 0, find("answer", 0, 8, 1, refused_or_not));
    for (int run = 0; run < RUNS; run++) keep(run, day_of_date((uint32_t)dates[0][run], (uint32_t)dates[1][run], (uint32_t)dates[2][run]));
    size("numbered", field("numbered", "day", 0, find("day", 0, 8, 2, days_of_dates)) + 2, 2);
}

static void dated(void) {
    answer_at("dated", date_of_day);
    for (int run = 0; run < RUNS; run++) keep(run, date_of_day((uint32_t)days_of_dates[run]));
    size_t base = find("year", 0, 8, 2, dates[0]), last = find("day", 0, 8, 1, dates[2]);
    field("dated", "date", 0, base);
    field("date", "year", base, base);
    field("date", "month", base, find("month", 0, 8, 1, dates[1]));
    field("date", "day", base, last);
    size("date", last + 1 - base, 2);
    size("dated", last + 1, 2);
}

static void proposed(void) {
    static const uint64_t number[RUNS] = {17, 27, 27, 17, 27, 17};
    uint64_t codes[2][RUNS];
    forget();
    for (int run = 0; run < RUNS; run++) keep(run, propose_codes(number[run] == 17 ? 65535 : 65534, 1));
    field("proposed", "answer", 0, find("answer", 0, 16, 1, number));
    for (int run = 0; run < RUNS; run++) { /* the first and the last of 8 days; the six between are plain */
        uint32_t first = (uint32_t)days_asked[run] - (run % 2 ? 7 : 0);
        codes[0][run] = run % 2 ? 1 : codes_there[run], codes[1][run] = run % 2 ? codes_there[run] : 1;
        keep(run, propose_codes(first, 8));
    }
    size_t base = find("the first code", 0, 16, 1, codes[0]), last = find("the last code", 0, 16, 1, codes[1]);
    if (last != base + 7) give_up("uneven", "codes");
    field("proposed", "codes", 0, base);
    size("proposed", last + 1, 1);
}

/* ---- spreadsheets */

/* Of so many entries, the first two of a run's periods and kWh, those behind of zeros. Gives its length. */
static size_t put_spreadsheet(int run, uint64_t count, uint64_t periods[2][RUNS], uint64_t kwh[2][RUNS]) {
    size_t length = (size_t)sprintf((char *)packed, "period,mwh\n");
    for (uint64_t k = 0; k < count; k++) {
        unsigned period = k < 2 ? (unsigned)periods[k][run] : 0, volume = k < 2 ? (unsigned)kwh[k][run] : 0;
        length += (size_t)sprintf((char *)packed + length, "%u,%u.%03u\n", period, volume / 1000, volume % 1000);
    }
    return length;
}

static void spreadsheet_read_answer(void) {
    static const char *const refused[] = {"\t", "x", "period,mwh\nx"}; /* by 29, 30 and 31 */
    static const uint64_t number[RUNS] = {29, 30, 31, 30, 29, 31};
    forget();
    for (int run = 0; run < RUNS; run++) read_spreadsheet(results[run], (const uint8_t *)refused[number[run] - 29], strlen(refused[number[run] - 29]));
    field("spreadsheet_read", "answer", 0, find("answer", 0, ROOM, 1, number));
}

static void spreadsheet_read(void) {
    uint64_t counts[RUNS], periods[2][RUNS], kwh[2][RUNS], lengths[RUNS];
    any_of(counts, 2, 51);
    for (int k = 0; k < 2; k++) any_of(periods[k], 1, 100), any_of(kwh[k], 1, GHENDUFIKA_MOST_VOLUME);
    spreadsheet_read_answer();
    forget();
    for (int run = 0; run < RUNS; run++) {
        lengths[run] = put_spreadsheet(run, counts[run], periods, kwh);
        read_spreadsheet(results[run], packed, lengths[run]);
    }
    field("spreadsheet_read", "place", 0, find("place", 0, ROOM, 8, lengths)); /* of the end */
    size_t base = find("count", 0, ROOM, 1, counts);
    size_t entry = find("period", base, ROOM, 1, periods[0]), next = find("the next period", base, ROOM, 1, periods[1]);
    field("spreadsheet_read", "spreadsheet", 0, base);
    field("spreadsheet", "count", base, base);
    field("spreadsheet", "entries", base, entry);
    if (find("the next volume", entry, ROOM, 4, kwh[1]) - find("volume", entry, ROOM, 4, kwh[0]) != next - entry) give_up("uneven", "entries of a spreadsheet");
    size("spreadsheet", entry + 50 * (next - entry) - base, 4);
    size("spreadsheet_read", entry + 50 * (next - entry), 8);
}

static void spreadsheet_written(void) {
    static const uint64_t number[RUNS] = {23, 24, 24, 23, 24, 23}, counts[RUNS] = {50, 3, 17, 0, 29, 8};
    uint64_t lengths[RUNS];
    for (int run = 0; run < RUNS; run++) keep(run, write_spreadsheet((ghendufika_spreadsheet){.count = number[run] == 23 ? 51 : 0}, packed, 0));
    field("spreadsheet_written", "answer", 0, find("answer", 0, 16, 1, number));
    for (int run = 0; run < RUNS; run++) {
        lengths[run] = strlen("period,mwh\n") + counts[run] * strlen("0,0.000\n");
        keep(run, write_spreadsheet((ghendufika_spreadsheet){.count = (uint8_t)counts[run]}, packed, sizeof packed));
    }
    size("spreadsheet_written", field("spreadsheet_written", "length", 0, find("length", 0, 16, 8, lengths)) + 8, 8);
}

int main(void) {
    size_t message = message_read_head();
    size("message_read", nullification(message, notification(message)), 8);
    setups();
    opened();
    opened_packed();
    size_t book_size = gated();
    notified();
    applied(book_size);
    applied_all(book_size);
    written();
    totalled();
    figured();
    marked();
    row_place();
    measured_and_coded();
    numbered();
    dated();
    proposed();
    spreadsheet_read();
    spreadsheet_written();
    return 0;
}

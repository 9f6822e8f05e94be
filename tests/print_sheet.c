/* The sheet of document 01, and with `all` everything that its book shows, in the form of reference/sheet.c, through the proved archive.
 * `print_sheet [all] [one|run]`: messages applied one by one and totals and marks asked period by period, or messages as runs with room for 64
 * answers and 60 places and a day of totals and marks at once (the default). */
#include "ghendufika.h"

#include <stdio.h>
#include <stdlib.h>
#include <string.h>

/* A packed setup can say 15 days; they are refused, but tables are lent for them. */
enum { SLOTS = 16, MOST_PLACES = SLOTS * 15 * GHENDUFIKA_PLACES_A_DAY };

static ghendufika_book book;
static uint32_t held[SLOTS];
static int32_t side1[MOST_PLACES], side2[MOST_PLACES];
static size_t lent; /* places of a side */
static bool one;    /* one by one */

#define TABLES held, SLOTS, side1, lent, side2, lent

static void give_up(const char *why) {
    fprintf(stderr, "print_sheet: %s\n", why);
    exit(2);
}

static unsigned long long bits(double figure) {
    uint64_t number;
    memcpy(&number, &figure, sizeof number);
    return number;
}

static unsigned periods_on(unsigned day) { /* the day's place */
    static const unsigned lengths[] = {46, 48, 50};
    return lengths[book.setup.codes[day]];
}

static unsigned originator_of(unsigned slot) { return (held[slot] - 1) / 65536; }
static unsigned reference_of(unsigned slot) { return (held[slot] - 1) % 65536; }

/* Unreadable bytes end the reading. */
static int is_unreadable(uint8_t answer) { return 19 <= answer && answer <= 22; }

/* An entry at fault has a place, which is the line's third number; no other answer has one. */
static void print_message(size_t number, uint8_t answer, uint8_t place) {
    bool has_place = answer == GHENDUFIKA_PERIOD_WRONG || answer == GHENDUFIKA_VOLUME_WRONG;
    if (!has_place && place != 0) give_up("a place comes with another answer than 10 and 11");
    printf("m %zu %u", number, answer);
    if (has_place) printf(" %u", place);
    printf("\n");
}

static size_t apply_runs(const uint8_t *bytes, size_t length) {
    uint8_t answers[64], places[60];
    size_t messages = 0;
    for (size_t at = 0; at < length;) {
        ghendufika_applied_all run = ghendufika_apply_all(book, bytes + at, length - at, TABLES, answers, sizeof answers, places, sizeof places);
        if (run.answer != 0 || run.done == 0) give_up("a run was refused");
        for (size_t k = 0; k < run.done; k++) print_message(++messages, answers[k], places[k]);
        book = run.book;
        at += run.used;
        if (is_unreadable(answers[run.done - 1])) break;
    }
    return messages;
}

static size_t apply_one_by_one(const uint8_t *bytes, size_t length) {
    size_t messages = 0;
    for (size_t at = 0; at < length;) {
        ghendufika_applied one = ghendufika_apply(book, bytes + at, length - at, TABLES);
        print_message(++messages, one.answer, one.place);
        book = one.book;
        size_t taken = one.answer == 0 ? one.length : ghendufika_message_length(bytes + at, length - at); /* a refusal gives no length */
        at += taken;
        if (taken == 0) break;
    }
    return messages;
}

static void ask_totals(unsigned account, unsigned day, int64_t *kwh) {
    unsigned number = book.setup.first + day;
    if (!one && ghendufika_day_totals(book, TABLES, account, number, kwh, GHENDUFIKA_PLACES_A_DAY) != 0) give_up("totals were refused");
    for (unsigned p = 0; one && p < periods_on(day); p++) {
        ghendufika_totalled total = ghendufika_total(book, TABLES, account, number, p + 1);
        if (total.answer != 0) give_up("a total was refused");
        kwh[p] = total.kwh;
    }
}

static void print_totals(void) {
    for (unsigned account = 0; account < book.setup.accounts; account++)
        for (unsigned day = 0; day < book.setup.days; day++) {
            int64_t kwh[GHENDUFIKA_PLACES_A_DAY];
            unsigned number = book.setup.first + day;
            ask_totals(account, day, kwh);
            for (unsigned p = 0; p < periods_on(day); p++)
                if (kwh[p] != 0) printf("t %u %u %u %lld\n", account, number, p + 1, (long long)kwh[p]);
        }
}

static void print_rows(unsigned slot) {
    for (unsigned side = 1; side <= 2; side++)
        for (unsigned day = 0; day < book.setup.days; day++) {
            unsigned number = book.setup.first + day;
            ghendufika_row_place row = ghendufika_row(book, TABLES, originator_of(slot), reference_of(slot), number, side);
            if (row.answer != 0) give_up("a row was refused");
            printf("r %u %u %u %u", originator_of(slot), reference_of(slot), side, number);
            for (size_t p = 0; p < row.length; p++) printf(" %d", (side == 1 ? side1 : side2)[row.start + p]);
            printf("\n");
        }
}

static void ask_marks(unsigned slot, unsigned account, unsigned day, uint8_t *cases, double *firsts, double *seconds) {
    unsigned originator = originator_of(slot), reference = reference_of(slot), number = book.setup.first + day;
    if (!one && ghendufika_day_marks(book, TABLES, originator, reference, account, number, cases, GHENDUFIKA_PLACES_A_DAY,
                                     firsts, GHENDUFIKA_PLACES_A_DAY, seconds, GHENDUFIKA_PLACES_A_DAY) != 0) give_up("marks were refused");
    for (unsigned p = 0; one && p < periods_on(day); p++) {
        ghendufika_marked mark = ghendufika_mark(book, TABLES, originator, reference, account, number, p + 1);
        if (mark.answer != 0) give_up("a mark was refused");
        cases[p] = mark.bar;
        firsts[p] = mark.first;
        seconds[p] = mark.second;
    }
}

static void print_marks(unsigned slot, unsigned account) {
    for (unsigned day = 0; day < book.setup.days; day++) {
        uint8_t cases[GHENDUFIKA_PLACES_A_DAY];
        double firsts[GHENDUFIKA_PLACES_A_DAY], seconds[GHENDUFIKA_PLACES_A_DAY];
        unsigned number = book.setup.first + day;
        ask_marks(slot, account, day, cases, firsts, seconds);
        for (unsigned p = 0; p < periods_on(day); p++)
            if (cases[p] != 0)
                printf("k %u %u %u %u %u %u %016llx %016llx\n", originator_of(slot), reference_of(slot), account, number, p + 1, cases[p], bits(firsts[p]), bits(seconds[p]));
    }
}

static void print_figures(void) {
    for (unsigned account = 0; account < book.setup.accounts; account++)
        for (unsigned day = 0; day < book.setup.days; day++) {
            ghendufika_figured f = ghendufika_figures(book, TABLES, account, book.setup.first + day);
            if (f.answer != 0) give_up("figures were refused");
            printf("f %u %u %016llx %016llx %016llx\n", account, book.setup.first + day, bits(f.day.sold), bits(f.day.bought), bits(f.day.net));
        }
}

static void print_all(void) {
    for (unsigned slot = 0; slot < SLOTS; slot++)
        if (held[slot] != 0) printf("i %u %u %u\n", slot, originator_of(slot), reference_of(slot));
    for (unsigned slot = 0; slot < SLOTS; slot++)
        if (held[slot] != 0) print_rows(slot);
    for (unsigned slot = 0; slot < SLOTS; slot++)
        if (held[slot] != 0) {
            print_marks(slot, book.setup.rows[originator_of(slot)].account1);
            print_marks(slot, book.setup.rows[originator_of(slot)].account2);
        }
    print_figures();
}

/* The answer to the setup held against the calendar: each way to read and open it gives the same. Opening empties the tables, so this comes last. */
static void print_checked(const uint8_t *bytes, size_t length, const ghendufika_setup_read *unchecked) {
    uint8_t answer = ghendufika_read_setup_checked(bytes, length, SLOTS, lent, lent).answer;
    if (ghendufika_open_packed_checked(bytes, length, TABLES).answer != answer) give_up("a checked setup is read and opened by other answers");
    if (unchecked->answer == 0 && ghendufika_open_checked(unchecked->setup, TABLES).answer != answer) give_up("a checked setup is opened packed and by struct by other answers");
    printf("c %u\n", answer);
}

static void print_book(const uint8_t *messages, size_t length, bool all) {
    printf("sheet %u %u %u\n", book.setup.first, book.setup.days, book.setup.accounts);
    size_t seen = one ? apply_one_by_one(messages, length) : apply_runs(messages, length);
    if (!ghendufika_is_sound(book, TABLES)) give_up("the book is not sound any more");
    print_totals();
    printf("end %zu\n", seen);
    if (all) print_all();
}

static void print_opened(const ghendufika_setup_read *read, const uint8_t *bytes, size_t length, bool all) {
    if (read->answer != 0) {
        printf("setup %u\n", read->answer);
        return;
    }
    ghendufika_opened opened = ghendufika_open(read->setup, TABLES);
    if (opened.answer != 0) give_up("a setup that was read is not opened");
    book = opened.book;
    print_book(bytes + read->length, length - read->length, all);
}

int main(int argc, char **argv) {
    bool all = false;
    for (int k = 1; k < argc; k++) {
        all = all || strcmp(argv[k], "all") == 0;
        one = one || strcmp(argv[k], "one") == 0;
    }
    size_t length = 0, room = 1 << 16;
    uint8_t *bytes = malloc(room);
    for (size_t got; bytes != NULL && (got = fread(bytes + length, 1, room - length, stdin)) > 0;) {
        length += got;
        if (length == room) bytes = realloc(bytes, room *= 2);
    }
    if (bytes == NULL) give_up("no memory");

    size_t days = length > 2 ? bytes[2] >> 4 : 0; /* bits 16 to 19 of a packed setup */
    lent = SLOTS * days * GHENDUFIKA_PLACES_A_DAY;
    ghendufika_setup_read read = ghendufika_read_setup(bytes, length, SLOTS, lent, lent);
    print_opened(&read, bytes, length, all);
    if (all) print_checked(bytes, length, &read);
    free(bytes);
    return 0;
}

/*
 * The book of the scope paper, written a second time and independently.
 *
 * Everything here follows the sentences of the scope paper ("What to make
 * and its exact rules") and of change requests A1 ("Clock-change days follow
 * the local hour"), A2 ("A settlement calendar") and A3 ("Say which entry was
 * at fault").  Names are the paper's words.  A comment in quotes is a sentence
 * of the paper, and of a request where it begins with A1, A2 or A3;
 * "(decided)" marks a reading that was settled because the paper leaves it
 * open (README.md lists them).
 *
 * Numbering: accounts, authorisations, slots and places of entries count from
 * 0; periods and sides from 1; days are day numbers (0 is 1 January 2000).
 */
#ifndef REFERENCE_H
#define REFERENCE_H

#include <stdbool.h>
#include <stddef.h>
#include <stdint.h>

/* "A book covers 1 to 8 consecutive settlement days of 46, 48 or 50 periods,
 * 2 to 64 energy accounts, 1 to 64 authorisations and 1 to 256 identifiers." */
enum {
    MOST_DAYS = 8,
    MOST_PERIODS = 50,
    FEWEST_ACCOUNTS = 2,
    MOST_ACCOUNTS = 64,
    MOST_AUTHORISATIONS = 64,
    MOST_SLOTS = 256,
    MOST_ENTRIES = 50
};

/* "Day numbers are 0 to 65,534 ...; 65,535 as an end day means evergreen". */
enum { LATEST_DAY = 65534, EVERGREEN = 65535 };

/* "Volumes are whole kWh, from -99,999,999 to 99,999,999". */
enum { HIGHEST_VOLUME = 99999999, LOWEST_VOLUME = -99999999 };

/* "the mark -2,147,483,648 means "nothing stands"". */
#define NOTHING_STANDS INT32_MIN

/* "26: an account total beyond 99,999,999,999 either way". */
#define HIGHEST_TOTAL INT64_C(99999999999)

/* The answer numbers that this program gives.  Of writing it has the
 * spreadsheets (A5) alone, so 23 and 24 belong to these, as 29 to 32 do; see
 * spreadsheet.h. */
enum answer {
    DONE = 0,
    NOT_A_SOUND_BOOK = 1,
    EVERY_GATE_CLOSED = 2,
    AUTHORISATION_UNKNOWN = 3,
    KEY_OR_AGENT_WRONG = 4,
    NOT_IN_FORCE = 5,
    ORIGINATOR_WRONG = 6,
    LAST_BEFORE_FIRST = 7,
    LAST_BEFORE_CURRENT = 8,
    FIRST_AFTER_BOOK = 9,
    PERIODS_WRONG = 10,
    VOLUME_OUT_OF_RANGE = 11,
    REPLACEMENT_REFUSED = 12,
    ADDITIONAL_REFUSED = 13,
    EVERY_SLOT_HELD = 14,
    ACCOUNT_WRONG = 15,
    NO_SUCH_PLACE = 16,
    SETUP_WRONG = 17,
    ROW_WRONG = 18,
    BYTES_END_TOO_SOON = 19,
    KIND_3 = 20,
    MORE_THAN_50_ENTRIES = 21,
    PADDING_BIT_SET = 22,
    VALUE_DOES_NOT_FIT = 23,
    NO_ROOM = 24,
    IDENTIFIER_NOT_HELD = 25,
    TOTAL_TOO_LARGE = 26,
    NOT_IN_THE_CALENDAR = 27,
    CODE_DISAGREES = 28,
    NOT_CSV = 29,
    NOT_TWO_FIELDS = 30,
    NOT_A_NUMBER = 31,
    TOO_MANY_RECORDS = 32
};

/* ---- What is handed in ---- */

enum authorisation_type { TYPE_BOTH = 0, TYPE_REPLACEMENT = 1, TYPE_ADDITIONAL = 2 };

/* "An authorisation has agent 1, agent 2, account 1, account 2, key, first
 * day, last day and type".  agent[0] is agent 1, account[0] is account 1. */
struct authorisation {
    unsigned agent[2];
    unsigned account[2];
    unsigned key;
    unsigned first_day;
    unsigned last_day;
    unsigned type;
};

struct setup {
    unsigned first_day;
    unsigned days;
    unsigned accounts;
    unsigned authorisations;
    unsigned day_code[MOST_DAYS]; /* 0, 1, 2 for 46, 48, 50 */
    struct authorisation authorisation[MOST_AUTHORISATIONS];
};

enum message_kind { GATE = 0, NOTIFICATION = 1, NULLIFICATION = 2 };

struct entry {
    unsigned period;
    int32_t volume;
};

/* The count may say more than 50 entries; only 50 are held. */
struct notification {
    unsigned authorisation;
    unsigned agent;
    unsigned key;
    unsigned originator;
    unsigned reference;
    unsigned first_day;
    unsigned last_day;
    unsigned count;
    struct entry entry[MOST_ENTRIES];
};

/* Any 32-bit numbers, as in the questions. */
struct nullification {
    uint32_t account[2];
    uint32_t first_day;
};

/* The fields that a message's kind lacks are zero. */
struct message {
    unsigned kind;
    struct notification notification;
    struct nullification nullification;
};

/* ---- The book ---- */

/* "An identifier is an originating authorisation number with a reference
 * code." */
struct identifier {
    bool held;
    unsigned originator;
    unsigned reference;
};

struct book {
    struct setup setup;
    unsigned slots;
    unsigned gates_closed; /* the clock */
    struct identifier slot[MOST_SLOTS];
    /* "Each side has its own lent table, slots times days times 50 volumes".
     * side[0] is side 1; a day is its place in the book, from 0; the place
     * of period p is p - 1. */
    int32_t side[2][MOST_SLOTS][MOST_DAYS][MOST_PERIODS];
};

/* ---- What is given back ---- */

enum notification_kind { INITIAL, REPLACEMENT, ADDITIONAL };

/* "The answer gives kind and slot."  With a refusal these are INITIAL and 0.
 * A3: "Refusals 10 and 11 are to carry the first offending entry's place,
 * counted from 0"; with every other answer the place is 0, with 0 too
 * (decided). */
struct acceptance {
    enum notification_kind kind;
    unsigned slot;
    unsigned place;
};

/* What one packed message did: of a notification its kind, 1 initial, 2
 * replacement, 3 additional, and its slot, which a gate and a nullification
 * lack; and the message's length.  All zero with a refusal, but for the place
 * that the refusals 10 and 11 of a notification carry (A3). */
struct application {
    unsigned kind;
    unsigned slot;
    unsigned place;
    size_t length;
};

enum mark_case { BLANK = 0, ONE_SIDE = 1, AGREED = 2, DISAGREED = 3 };

/* "Blank, OneSide, Agreed or Disagreed with its MWh (two figures for
 * Disagreed, side 1 first)".  Figures that a case lacks are zero. */
struct mark {
    enum mark_case mark_case;
    double first;
    double second;
};

/* A part of one side's own table; empty (length 0) exactly on a refusal. */
struct row {
    const int32_t *volume;
    unsigned length;
};

struct day_figures {
    double sold;
    double bought;
    double net;
};

/* Months and days of a month count from 1: {2000, 1, 1} is day 0. */
struct date {
    unsigned year;
    unsigned month;
    unsigned day;
};

/* ---- Facts about a book ---- */

/* The length of the day at this place in the book (from 0). */
unsigned day_length(const struct setup *setup, unsigned day_place);

/* The number of the book's last day. */
unsigned last_day_of_book(const struct setup *setup);

/* "The current day is the earliest with an open gate": its place in the
 * book, or the number of days when every gate is closed. */
unsigned current_day_place(const struct book *book);

/* Whether the gate of this period (from 1) is still open. */
bool gate_is_open(const struct book *book, unsigned day_place, unsigned period);

/* The sentence "A sound book: ...". */
bool sound_book(const struct book *book);

/* ---- The settlement calendar (A2); on a refusal every result is zero ----
 *
 * "Give the length of any day, day number from date and back".  Like the
 * questions about a book these take any 32-bit numbers, and none is cut: day
 * 65,636 is not day 100, year 67,536 is not 2000.
 *
 * The first question walks the calendar; those after it look it up.  Where
 * several threads ask, one has to have asked before the others. */

enum answer calendar_length(uint32_t day, unsigned *periods);

/* The length as a setup's day code: 0, 1, 2 for 46, 48, 50. */
enum answer calendar_code(uint32_t day, unsigned *code);

enum answer day_of_date(uint32_t year, uint32_t month, uint32_t day, unsigned *number);
enum answer date_of_day(uint32_t day, struct date *date);

/* The codes for a setup of so many days from the first; places past them are
 * zero. */
enum answer propose_codes(uint32_t first_day, uint32_t days, unsigned code[MOST_DAYS]);

/* ---- Reading packed bytes; "used" is zero on a refusal ---- */

enum answer read_setup(const uint8_t *bytes, size_t length, struct setup *setup, size_t *used);
enum answer read_message(const uint8_t *bytes, size_t length, struct message *message,
                         size_t *used);

/* A2: "check a setup against it on request".  The setup too is zero on a
 * refusal. */
enum answer read_checked_setup(const uint8_t *bytes, size_t length, struct setup *setup,
                               size_t *used);

/* ---- What changes a book; a refusal leaves it unchanged ---- */

enum answer open_book(struct book *book, const struct setup *setup, unsigned slots);

/* A2: the same with the setup held against the calendar. */
enum answer open_checked_book(struct book *book, const struct setup *setup, unsigned slots);

enum answer close_gate(struct book *book);
enum answer notify(struct book *book, const struct notification *notification,
                   struct acceptance *acceptance);
enum answer nullify(struct book *book, const struct nullification *nullification);

/* One packed message at the front of the bytes. */
enum answer apply_message(struct book *book, const uint8_t *bytes, size_t length,
                          struct application *application);

/* ---- Questions; on a refusal the result is zero, Blank or empty ----
 *
 * They take any 32-bit numbers and hold them whole against what the book has:
 * account 257 is not account 1. */

enum answer account_total(const struct book *book, uint32_t account, uint32_t day,
                          uint32_t period, int64_t *total);
enum answer ask_mark(const struct book *book, uint32_t originator, uint32_t reference,
                     uint32_t account, uint32_t day, uint32_t period, struct mark *mark);
enum answer ask_row(const struct book *book, uint32_t originator, uint32_t reference,
                    uint32_t side, uint32_t day, struct row *row);
enum answer ask_day_figures(const struct book *book, uint32_t account, uint32_t day,
                            struct day_figures *figures);

#endif

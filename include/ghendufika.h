/* One position, right way up: packed messages, and a book of energy contract positions, from C; and volumes from a spreadsheet.
 *
 * Link with the archive that `rt staticlib viewer` writes (libviewer.a, x86-64). What each function answers is proved for every input; the promise
 * stands beside its source in crates/viewer/src, and docs/PROMISES.md says it in words.
 *
 * CALLING. Every function may be called with any bytes, tables and numbers: it reads and writes only what is lent, keeps no pointer, allocates
 * nothing and always returns. A pointer must point somewhere, also where its length is 0; buffers lent to one call may not overlap; a pointer must
 * be aligned for its type. Lengths count elements, not bytes. Structs go in and come out by value; nothing has to be freed.
 *
 * Numbers that a call or a question names by themselves (account, day, period, side, originator, reference, date) are taken as 32 bits and checked, not
 * cut: account 257 is none (15) and not account 1, and so are day 65,636 and period or side 257 (16), and reference 65,537 (25). The numbers in structs
 * are narrower; a wider one that C cuts into them is cut before the call.
 *
 * UNITS. Volumes are whole kWh, from -99,999,999 to 99,999,999. Figures (double) are MWh. Days are day numbers: 0 is 1 January 2000, 65,534 the
 * last; as a last day 65,535 is evergreen, without end. Periods count from 1 to the day's length, 46, 48 or 50. Slots, accounts, authorisations and
 * sides' table places count from 0; the two sides are 1 and 2. Plus is sold and minus bought, seen from account 1 of an authorisation.
 *
 * A BOOK is a struct by value and three tables that the caller owns and lends to each call: `held`, one number a slot (1 to 256 slots; 0 where a
 * slot is unheld, else 1 + originator * 65,536 + reference), and `side1` and `side2`, each exactly slots * days * 50 volumes. Place
 * (slot * days + day's place) * 50 + period - 1 of a side holds what stands there, or GHENDUFIKA_MARK where nothing stands. A call that changes the
 * book (opening, a gate, a packed message) returns it; keep the returned one. Change the tables by these functions only: tables that are no sound
 * book are refused by 1 and stay as they are.
 *
 * ANSWERS. 0 is done; every other number is a refusal. Each function names the numbers that can come in the order in which they are tested: the
 * first that applies is the answer; only of a spreadsheet that is read it is the first byte by which no right file can begin so that decides, and the
 * lowest number that applies there. A refusal leaves every table and buffer as it was and closes no gate. Its other results are zero, except where the declaration says otherwise. Two sorts of `place` say where a
 * refusal comes from, both counted from 0: a refusal by 10 or 11 has that of the entry of the notification that was at fault, and with every other answer
 * of a call, 0 too, that place is 0 and says nothing; a spreadsheet that is read has the place of the byte at which it was decided, with every answer.
 */
#ifndef GHENDUFIKA_H
#define GHENDUFIKA_H

#include <stdbool.h>
#include <stddef.h>
#include <stdint.h>

#ifdef __cplusplus
extern "C" {
#endif

/* ---- numbers */

/* Answers (document 01, "Answer numbers"; 27 and 28 document 02, A2; the place of 10 and 11 document 02, A3; 29 to 32 document 02, A5). */
#define GHENDUFIKA_DONE 0
#define GHENDUFIKA_NOT_SOUND 1              /* the tables handed in are not a sound book */
#define GHENDUFIKA_EVERY_GATE_CLOSED 2
#define GHENDUFIKA_NO_AUTHORISATION 3       /* authorisation number unknown */
#define GHENDUFIKA_KEY_OR_AGENT_WRONG 4     /* key wrong, or agent is neither of its two */
#define GHENDUFIKA_NOT_IN_FORCE 5           /* authorisation not in force on the current day */
#define GHENDUFIKA_ORIGINATOR_WRONG 6       /* neither this authorisation nor an expired one of the same two accounts */
#define GHENDUFIKA_LAST_BEFORE_FIRST 7      /* last day before first day */
#define GHENDUFIKA_LAST_DAY_PAST 8          /* last day before the current day */
#define GHENDUFIKA_FIRST_DAY_AFTER_BOOK 9   /* first day after the book's last day */
#define GHENDUFIKA_PERIOD_WRONG 10          /* 0, too high, or not above the one before; an entry past the 50th counts as too high. It has a place */
#define GHENDUFIKA_VOLUME_WRONG 11          /* a volume out of range, and no period wrong. It has a place */
#define GHENDUFIKA_REPLACEMENT_NOT_ALLOWED 12
#define GHENDUFIKA_ADDITIONAL_NOT_ALLOWED 13
#define GHENDUFIKA_NO_SLOT 14               /* identifier not held and every slot held */
#define GHENDUFIKA_NO_SUCH_ACCOUNT 15       /* not in the book, not in the pair, or the two equal */
#define GHENDUFIKA_NO_SUCH_DAY 16           /* no such day number, period or side */
#define GHENDUFIKA_SETUP_WRONG 17           /* counts, day code, last day or lent lengths wrong */
#define GHENDUFIKA_AUTHORISATION_ROW_WRONG 18
#define GHENDUFIKA_BYTES_END_TOO_SOON 19
#define GHENDUFIKA_KIND_THREE 20            /* message kind 3 */
#define GHENDUFIKA_TOO_MANY_ENTRIES 21      /* more than 50 entries to read */
#define GHENDUFIKA_PADDING_BIT 22           /* a padding bit is 1 */
#define GHENDUFIKA_VALUE_DOES_NOT_FIT 23    /* a value does not fit its field, or more than 50 entries to write */
#define GHENDUFIKA_NO_ROOM 24               /* no room for the packed message, for a day's answers or for the spreadsheet */
#define GHENDUFIKA_NOT_HELD 25              /* identifier not held */
#define GHENDUFIKA_TOTAL_TOO_LARGE 26       /* beyond 99,999,999,999 either way; never of a sound book */
#define GHENDUFIKA_NOT_IN_CALENDAR 27       /* a day or date that is not in 2000 to 2099 */
#define GHENDUFIKA_CODE_DISAGREES 28        /* a day's code is not the calendar's */
#define GHENDUFIKA_NOT_CSV 29               /* not well-formed CSV. 29 to 32 have the place of a byte */
#define GHENDUFIKA_NOT_TWO_FIELDS 30        /* wrong header or field count, empty input included */
#define GHENDUFIKA_NOT_A_NUMBER 31          /* a field is not a period, or not a number of MWh */
#define GHENDUFIKA_TOO_MANY_RECORDS 32      /* more than 50 entries in a spreadsheet */

/* "Nothing stands." Zero is not nothing. */
#define GHENDUFIKA_MARK INT32_MIN

/* As a last day: no end. */
#define GHENDUFIKA_EVERGREEN 65535u

/* 31 December 2099, the calendar's last day; its first is day 0. */
#define GHENDUFIKA_LAST_CALENDAR_DAY 36524u

/* Limits. */
#define GHENDUFIKA_MOST_ENTRIES 50u
#define GHENDUFIKA_PLACES_A_DAY 50
#define GHENDUFIKA_MOST_SLOTS 256
#define GHENDUFIKA_MOST_DAYS 8
#define GHENDUFIKA_FEWEST_ACCOUNTS 2
#define GHENDUFIKA_MOST_ACCOUNTS 64
#define GHENDUFIKA_MOST_AUTHORISATIONS 64
#define GHENDUFIKA_MOST_VOLUME 99999999
#define GHENDUFIKA_MOST_MESSAGE_BYTES 224u /* a notification of 50 entries */
#define GHENDUFIKA_MOST_SETUP_BYTES 631u   /* 8 days, 64 authorisations */
#define GHENDUFIKA_MOST_SPREADSHEET_BYTES 711u /* as written: the header and 50 entries */

/* Kinds of a message. */
#define GHENDUFIKA_GATE 0
#define GHENDUFIKA_NOTIFICATION 1
#define GHENDUFIKA_NULLIFICATION 2

/* Kinds of a notification that was accepted. */
#define GHENDUFIKA_INITIAL 1
#define GHENDUFIKA_REPLACEMENT 2
#define GHENDUFIKA_ADDITIONAL 3

/* Types of an authorisation: which amendments it allows. */
#define GHENDUFIKA_TYPE_BOTH 0
#define GHENDUFIKA_TYPE_REPLACEMENT 1
#define GHENDUFIKA_TYPE_ADDITIONAL 2

/* Codes of a day. */
#define GHENDUFIKA_DAY_OF_46 0
#define GHENDUFIKA_DAY_OF_48 1
#define GHENDUFIKA_DAY_OF_50 2

/* Marks on a bar: nothing stands; one side stands; both stand and are equal; both stand and differ. */
#define GHENDUFIKA_BLANK 0
#define GHENDUFIKA_ONE_SIDE 1
#define GHENDUFIKA_AGREED 2
#define GHENDUFIKA_DISAGREED 3

/* Fields of a message, for ghendufika_message_field. A field that a kind lacks is 0, and so is an unknown one. */
#define GHENDUFIKA_FIELD_KIND 0u
#define GHENDUFIKA_FIELD_AUTHORISATION 1u
#define GHENDUFIKA_FIELD_AGENT 2u
#define GHENDUFIKA_FIELD_KEY 3u
#define GHENDUFIKA_FIELD_ORIGINATOR 4u
#define GHENDUFIKA_FIELD_REFERENCE 5u
#define GHENDUFIKA_FIELD_FIRST_DAY 6u /* of a notification or a nullification */
#define GHENDUFIKA_FIELD_LAST_DAY 7u
#define GHENDUFIKA_FIELD_COUNT 8u
#define GHENDUFIKA_FIELD_ACCOUNT 9u /* of a nullification */
#define GHENDUFIKA_FIELD_OTHER_ACCOUNT 10u
#define GHENDUFIKA_FIELD_PERIOD(entry) (100u + (entry)) /* entry 0 to 49; 0 past the count */
#define GHENDUFIKA_FIELD_VOLUME(entry) (200u + (entry))

/* ---- structs (tests/layout.c holds them against the archive) */

/* Equal agents mean single notification: that agent writes both sides. Otherwise agent 1 writes side 1 and agent 2 side 2. */
typedef struct {
    uint8_t agent1, agent2, account1, account2;
    uint16_t key, first, last; /* days; last may be evergreen */
    uint8_t amendment;         /* GHENDUFIKA_TYPE_BOTH, .. */
} ghendufika_authorisation;

/* What is past `days` in codes and past `authorisations` in rows is no part of it; read, it is zero. */
typedef struct {
    uint16_t first;         /* day */
    uint8_t days;           /* 1 to 8 */
    uint8_t accounts;       /* 2 to 64 */
    uint8_t authorisations; /* 1 to 64 */
    uint8_t codes[8];       /* GHENDUFIKA_DAY_OF_46, .. */
    ghendufika_authorisation rows[64];
} ghendufika_setup;

/* The setup, and how many gates are closed. */
typedef struct {
    ghendufika_setup setup;
    uint16_t closed;
} ghendufika_book;

/* One period and its volume. */
typedef struct {
    uint8_t period;
    int32_t volume;
} ghendufika_entry;

/* `authorisation` is the one that it is sent under; originator and reference are the identifier. Entries past `count` are no part of it. With `first`
 * and `last` equal the periods are that day's own. Otherwise, evergreen included, they are the 48 of a plain day, and each day shows them at the same
 * local hour: a day of 46 drops 3 and 4 and shows 5 to 48 as its 3 to 46; a day of 50 shows 3 and 4 again as its 5 and 6, and 5 to 48 as its 7 to 50. */
typedef struct {
    uint8_t authorisation, agent;
    uint16_t key;
    uint8_t originator;
    uint16_t reference, first, last;
    uint8_t count;
    ghendufika_entry entries[50];
} ghendufika_notification;

/* The two accounts in either order, and the first day. */
typedef struct {
    uint8_t account, other;
    uint16_t first;
} ghendufika_nullification;

/* What the kind lacks is no part of it; read, it is zero. */
typedef struct {
    uint8_t kind; /* GHENDUFIKA_GATE, .. */
    ghendufika_notification notification;
    ghendufika_nullification nullification;
} ghendufika_message;

typedef struct {
    uint8_t answer;
    size_t length; /* bytes that the message takes */
    ghendufika_message message;
} ghendufika_message_read;

typedef struct {
    uint8_t answer;
    size_t length; /* bytes written */
} ghendufika_message_written;

typedef struct {
    uint8_t answer;
    size_t length; /* bytes that the setup takes; the messages follow there */
    ghendufika_setup setup;
} ghendufika_setup_read;

typedef struct {
    uint8_t answer;
    size_t length; /* bytes written */
} ghendufika_setup_written;

typedef struct {
    uint8_t answer;
    ghendufika_book book; /* opened; all zero with a refusal */
} ghendufika_opened;

typedef struct {
    uint8_t answer;
    size_t length;        /* bytes that the setup takes; the messages follow there */
    ghendufika_book book; /* opened; all zero with a refusal */
} ghendufika_opened_packed;

typedef struct {
    uint8_t answer;
    ghendufika_book book; /* with one gate more closed; as it came with a refusal */
} ghendufika_gated;

/* At fault under 10 is an entry whose period is 0, too high or not above that of the entry before it, so of two that do not rise the later; and every
 * entry past the 50th, the first of which has place GHENDUFIKA_MOST_ENTRIES. At fault under 11 is an entry whose volume is out of range. */
typedef struct {
    uint8_t answer;
    uint8_t kind;  /* GHENDUFIKA_INITIAL, ..; 0 with a refusal */
    uint16_t slot; /* that holds its identifier; 0 with a refusal */
    uint8_t place; /* of the first entry at fault, with 10 and 11 only; else 0 */
} ghendufika_notified;

typedef struct {
    uint8_t answer;
    uint8_t kind;         /* of an accepted notification: GHENDUFIKA_INITIAL, ..; else 0 */
    uint16_t slot;        /* that holds its identifier; else 0 */
    uint8_t place;        /* of the first entry at fault, with 10 and 11 only; else 0 */
    size_t length;        /* bytes that the message takes; 0 with every refusal: ask ghendufika_message_length to go on after one */
    ghendufika_book book; /* after it; as it came with a refusal */
} ghendufika_applied;

typedef struct {
    uint8_t answer; /* 1 where the tables are no sound book; else 0, and the messages' answers and places stand in the lent buffers */
    size_t done;    /* how many of them */
    size_t used;    /* bytes of whole messages */
    ghendufika_book book;
} ghendufika_applied_all;

typedef struct {
    uint8_t answer;
    int64_t kwh;
} ghendufika_totalled;

typedef struct {
    double sold, bought, net; /* MWh; zero is positive zero */
} ghendufika_day_figures;

typedef struct {
    uint8_t answer;
    ghendufika_day_figures day;
} ghendufika_figured;

/* A figure that the mark does not have is positive zero. */
typedef struct {
    uint8_t answer;
    uint8_t bar;   /* GHENDUFIKA_BLANK, ..; Blank with a refusal */
    double first;  /* MWh seen from the asking account; side 1's where the two differ */
    double second; /* side 2's, of GHENDUFIKA_DISAGREED only */
} ghendufika_marked;

/* A day's row is `length` volumes from place `start` on of the side's own table: side1 + start, or side2 + start. */
typedef struct {
    uint8_t answer;
    size_t start;
    size_t length; /* the day's periods; 0 exactly with a refusal */
} ghendufika_row_place;

/* Months count from 1 to 12, days of a month from 1. */
typedef struct {
    uint16_t year;
    uint8_t month, day;
} ghendufika_date;

typedef struct {
    uint8_t answer;
    uint8_t periods; /* 46, 48 or 50 */
} ghendufika_measured;

typedef struct {
    uint8_t answer;
    uint8_t code; /* GHENDUFIKA_DAY_OF_46, ..; 0 with a refusal, which is no code then */
} ghendufika_coded;

typedef struct {
    uint8_t answer;
    uint16_t day;
} ghendufika_numbered;

typedef struct {
    uint8_t answer;
    ghendufika_date date;
} ghendufika_dated;

/* What is past the days asked for is zero. */
typedef struct {
    uint8_t answer;
    uint8_t codes[8]; /* GHENDUFIKA_DAY_OF_46, ..; as a setup has them */
} ghendufika_proposed;

/* The entries of a spreadsheet, as a notification has them. Entries past `count` are no part of it; read, they are zero. */
typedef struct {
    uint8_t count; /* 0 to 50 */
    ghendufika_entry entries[50];
} ghendufika_spreadsheet;

/* The place is that of the byte at which the answer was decided. The end counts as a byte, and its place is the length: 0 has that place, as only the end
 * can decide that a file is right, and so has a refusal where the file stops too early. */
typedef struct {
    uint8_t answer;
    size_t place;                       /* 0 to the length, with every answer */
    ghendufika_spreadsheet spreadsheet; /* all zero with a refusal */
} ghendufika_spreadsheet_read;

typedef struct {
    uint8_t answer;
    size_t length; /* bytes written; 0 with a refusal */
} ghendufika_spreadsheet_written;

/* ---- about message bytes, each asked apart */

/* The number that refuses these bytes as a message, or 0: 19, 20, 19, 21, 19, 22. Bytes after the message belong to the next and are not looked at. */
uint8_t ghendufika_message_refusal(const uint8_t *bytes, size_t length);

/* How many bytes the message takes; 0 with a refusal. */
size_t ghendufika_message_length(const uint8_t *bytes, size_t length);

/* One field of the message; 0 with a refusal. */
int64_t ghendufika_message_field(const uint8_t *bytes, size_t length, uint32_t field);

/* ---- packing */

/* The message at the front of the bytes: 19, 20, 19, 21, 19, 22. With a refusal the length is 0 and the message all zero. */
ghendufika_message_read ghendufika_read_message(const uint8_t *bytes, size_t length);

/* The message to the front of the buffer: 20, 23, 24. Bytes of the buffer past what is written stay. A buffer of GHENDUFIKA_MOST_MESSAGE_BYTES has
 * room for every message. */
ghendufika_message_written ghendufika_write_message(ghendufika_message message, uint8_t *out, size_t room);

/* A packed setup, for so many slots and two side tables of such lengths: 19, 17, 19, 17, 18, 22. With a refusal the length is 0 and the setup all
 * zero. */
ghendufika_setup_read ghendufika_read_setup(const uint8_t *bytes, size_t length, size_t slots, size_t lent1, size_t lent2);

/* The same, with the setup's days held against the calendar: 19, 17, 19, 17, 18, 27, 28, 22. */
ghendufika_setup_read ghendufika_read_setup_checked(const uint8_t *bytes, size_t length, size_t slots, size_t lent1, size_t lent2);

/* The setup to the front of the buffer: 17, 18, 24 (23 never comes: what passes 17 and 18 fits). Bytes of the buffer past what is written stay. A
 * buffer of GHENDUFIKA_MOST_SETUP_BYTES has room for every setup. */
ghendufika_setup_written ghendufika_write_setup(ghendufika_setup setup, uint8_t *out, size_t room);

/* ---- the calendar, 1 January 2000 to 31 December 2099 */

/* The periods of a day: 46 on the last Sunday of March, 50 on the last Sunday of October, else 48: 27. */
ghendufika_measured ghendufika_day_length(uint32_t day);

/* Its code in a setup: 27. */
ghendufika_coded ghendufika_code_of_day(uint32_t day);

/* The number of a date's day, and the date of a day's number: 27, also for a date that does not exist, as 30 February. */
ghendufika_numbered ghendufika_day_of_date(uint32_t year, uint32_t month, uint32_t day);
ghendufika_dated ghendufika_date_of_day(uint32_t day);

/* The codes of so many days from a first one on, for a setup, so that nobody types them: 17 where a setup of these days would have it (0 or more than
 * 8 days, or a last day above 65,534), then 27. */
ghendufika_proposed ghendufika_propose_codes(uint32_t first, uint32_t days);

/* ---- spreadsheets (document 02, A5)
 *
 * CSV (RFC 4180) of ASCII. The first record is the header, `period,mwh`, letter for letter; each record behind it has two fields and is an entry. Here is
 * a file of two entries, period 7 with -250 kWh and period 8 with 12,500:
 *
 *     period,mwh
 *     7,-0.250
 *     "8","12.5"
 *
 * A record ends at LF or at CR LF, of which a file may have both; the last one may also end at the file's end. Any field, the header's too, may stand
 * in quotes, which are no part of it. A header alone is a file of no entries. An empty line is a record of one empty field, and so refused by 30.
 *
 * A period is one or two digits, 0 to 99. MWh are an optional minus, one to five digits and, optionally, a point with one to three digits: 5, 00.5, -0
 * and -99999.999, but not +5, .5, 5. or 1e3, and no blank before or behind. They become whole kWh exactly, times 1000, and so are within
 * GHENDUFIKA_MOST_VOLUME either way. Which periods a day has and that periods rise is not asked here: 0, 99, one twice or falling ones are read as they
 * stand, and GHENDUFIKA_PERIOD_WRONG is the book's answer to them. */

/* The entries of a spreadsheet: 29, 30, 31, 32. It is refused at the first byte, the end counting as one, by which no right file can begin so, and of
 * the numbers that apply there the lowest is the answer. 29: a byte that is neither printable ASCII (32 to 126), CR nor LF, in quotes or not; a quote
 * inside a field that began without one; anything but a quote, a comma, CR, LF or the end behind a quote that closes; a CR outside quotes that no LF
 * follows (told at the byte after it); the end inside quotes. 30: another header; a record that ends after one field or goes on to a third; an empty
 * file. 31: a field that is no such number, told at its first byte that cannot be one, or at what ends it too early. 32: the first byte of a 51st
 * entry. */
ghendufika_spreadsheet_read ghendufika_read_spreadsheet(const uint8_t *bytes, size_t length);

/* The entries as a spreadsheet to the front of the buffer: 23 where `count` is above 50, or among the first `count` entries a period is above 99 or a
 * volume beyond GHENDUFIKA_MOST_VOLUME either way; then 24 where `room` is less than its length. It is the header and a line for each entry, each ended
 * by LF, without quotes; periods and MWh have no needless leading zeros, MWh always three decimals and a minus only below zero, as in `7,-0.250`. What
 * is written reads back as the same entries. Bytes of the buffer past it stay. A buffer of GHENDUFIKA_MOST_SPREADSHEET_BYTES has room for every
 * spreadsheet. */
ghendufika_spreadsheet_written ghendufika_write_spreadsheet(ghendufika_spreadsheet spreadsheet, uint8_t *out, size_t room);

/* ---- calls on a book */

/* Opens a book and empties the three tables: no gate closed, no identifier held, the mark in every place. The number of slots is the length of
 * `held`: 17, 18. */
ghendufika_opened ghendufika_open(ghendufika_setup setup, uint32_t *held, size_t slots, int32_t *side1, size_t lent1, int32_t *side2, size_t lent2);

/* Reads a packed setup for the lent tables and opens it: 19, 17, 19, 17, 18, 22. What is read is always opened. */
ghendufika_opened_packed ghendufika_open_packed(const uint8_t *bytes, size_t length, uint32_t *held, size_t slots, int32_t *side1, size_t lent1, int32_t *side2, size_t lent2);

/* The same two, with the setup's days held against the calendar: 17, 18, 27, 28, and 19, 17, 19, 17, 18, 27, 28, 22. Every day of the book is looked
 * for in the calendar (27) before any code is held against it (28). What is opened is opened as by the two above; they, and every function of a
 * book that is open, do not ask the calendar. */
ghendufika_opened ghendufika_open_checked(ghendufika_setup setup, uint32_t *held, size_t slots, int32_t *side1, size_t lent1, int32_t *side2, size_t lent2);
ghendufika_opened_packed ghendufika_open_packed_checked(const uint8_t *bytes, size_t length, uint32_t *held, size_t slots, int32_t *side1, size_t lent1, int32_t *side2, size_t lent2);

/* Whether the tables are a sound book: where not, every call and question answers 1. */
bool ghendufika_is_sound(ghendufika_book book, const uint32_t *held, size_t slots, const int32_t *side1, size_t lent1, const int32_t *side2, size_t lent2);

/* Closes the next gate: 1, 2. */
ghendufika_gated ghendufika_close_gate(ghendufika_book book, const uint32_t *held, size_t slots, const int32_t *side1, size_t lent1, const int32_t *side2, size_t lent2);

/* A notification: 1 to 14 as numbered. 10 is decided over all entries before 11. With a refusal kind and slot are 0; 10 and 11 have a place. */
ghendufika_notified ghendufika_notify(ghendufika_book book, ghendufika_notification notification, uint32_t *held, size_t slots, int32_t *side1, size_t lent1, int32_t *side2, size_t lent2);

/* A nullification of two accounts, in either order, from a first day on: 1, 2, 15, 9. Where nothing stands it is still 0. */
uint8_t ghendufika_nullify(ghendufika_book book, uint32_t account, uint32_t other, uint32_t first, const uint32_t *held, size_t slots, int32_t *side1, size_t lent1, int32_t *side2, size_t lent2);

/* One packed message: 1, then 19 to 22 as in reading, then what the book answers. With any refusal kind, slot and length are 0, and 10 and 11 have a
 * place; where the message was read, the next one starts ghendufika_message_length bytes on. */
ghendufika_applied ghendufika_apply(ghendufika_book book, const uint8_t *bytes, size_t length, uint32_t *held, size_t slots, int32_t *side1, size_t lent1, int32_t *side2, size_t lent2);

/* Packed messages one after the other, until the bytes end, one is unreadable (its answer is the last) or `answers` or `places` is full, so that the
 * lesser of their rooms counts. answers[k] and places[k] are message k's, for each k below `done`; what is past them stays. Where the last answer is
 * 19 and more bytes may come, forget it and call again from `used` on. */
ghendufika_applied_all ghendufika_apply_all(ghendufika_book book, const uint8_t *bytes, size_t length, uint32_t *held, size_t slots, int32_t *side1, size_t lent1, int32_t *side2, size_t lent2, uint8_t *answers, size_t room, uint8_t *places, size_t places_room);

/* ---- questions of a book; they change nothing but the buffer that they fill */

/* An account's total in a period, matched volumes only: 1, 15, 16, 26. Plus is sold. */
ghendufika_totalled ghendufika_total(ghendufika_book book, const uint32_t *held, size_t slots, const int32_t *side1, size_t lent1, const int32_t *side2, size_t lent2, uint32_t account, uint32_t day, uint32_t period);

/* Those of all periods of a day, the first in kwh[0]: 1, 15, 16, and 24 where `room` is less than the day's periods. Places past them stay. */
uint8_t ghendufika_day_totals(ghendufika_book book, const uint32_t *held, size_t slots, const int32_t *side1, size_t lent1, const int32_t *side2, size_t lent2, uint32_t account, uint32_t day, int64_t *kwh, size_t room);

/* Sold, bought and net MWh of a day: 1, 15, 16. Net is sold less bought, made of whole kWh. */
ghendufika_figured ghendufika_figures(ghendufika_book book, const uint32_t *held, size_t slots, const int32_t *side1, size_t lent1, const int32_t *side2, size_t lent2, uint32_t account, uint32_t day);

/* What an account is shown of an identifier in one period: 1, 25, 15, 16. */
ghendufika_marked ghendufika_mark(ghendufika_book book, const uint32_t *held, size_t slots, const int32_t *side1, size_t lent1, const int32_t *side2, size_t lent2, uint32_t originator, uint32_t reference, uint32_t account, uint32_t day, uint32_t period);

/* The same of each period of a day: cases[p] is the bar of period p + 1, with its figures in firsts[p] and seconds[p]: 1, 25, 15, 16, and 24 where
 * one of the buffers is shorter than the day. Places past the day stay. */
uint8_t ghendufika_day_marks(ghendufika_book book, const uint32_t *held, size_t slots, const int32_t *side1, size_t lent1, const int32_t *side2, size_t lent2, uint32_t originator, uint32_t reference, uint32_t account, uint32_t day, uint8_t *cases, size_t case_room, double *firsts, size_t first_room, double *seconds, size_t second_room);

/* Where the row of an identifier's day and side (1 or 2) lies: 1, 25, 16. */
ghendufika_row_place ghendufika_row(ghendufika_book book, const uint32_t *held, size_t slots, const int32_t *side1, size_t lent1, const int32_t *side2, size_t lent2, uint32_t originator, uint32_t reference, uint32_t day, uint32_t side);

/* That answer alone. */
uint8_t ghendufika_row_refusal(ghendufika_book book, const uint32_t *held, size_t slots, const int32_t *side1, size_t lent1, const int32_t *side2, size_t lent2, uint32_t originator, uint32_t reference, uint32_t day, uint32_t side);

#ifdef __cplusplus
}
#endif

#endif

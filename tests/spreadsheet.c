/* Spreadsheets (document 02, A5) through the exports, held against the second program:
 *   spreadsheet DEPTH FILES SEED
 * files worked out by hand, to which both programs are held; every byte within those that are accepted; every string of up to DEPTH bytes of a telling
 * alphabet after each of several beginnings; and so many damaged files. Whatever is accepted is written by both and read back by both. It ends with 1
 * at the first difference, with the string in words, and where an answer that can come never came. */
#include "chance.h"
#include "files.h"
#include "ghendufika.h"
#include "spreadsheet.h"

#include <ctype.h>
#include <stdio.h>
#include <stdlib.h>
#include <string.h>

/* ---- what is asked, and how often each answer came */

enum { ANSWERS = 33 };

static struct { const char *of; const uint8_t *bytes; size_t length; } asked;
static struct { unsigned long at_a_byte[ANSWERS], at_the_end[ANSWERS], written[ANSWERS], strings; } counted;

/* Its bytes as in C. */
static void say_asked(void) {
    for (size_t k = 0; k < asked.length; k++) {
        uint8_t byte = asked.bytes[k];
        if (byte == '\n') fputs("\\n", stderr);
        else if (byte == '\r') fputs("\\r", stderr);
        else if (byte < 128 && isprint(byte)) fputc(byte, stderr);
        else fprintf(stderr, "\\x%02x", byte);
    }
}

static void must(bool holds, const char *promise) {
    if (holds) return;
    fprintf(stderr, "spreadsheet: %s, %zu bytes: ", asked.of, asked.length);
    say_asked();
    fprintf(stderr, "\nspreadsheet: this does not hold: %s\n", promise);
    exit(1);
}

static void ask(const char *of, const uint8_t *bytes, size_t length) {
    asked.of = of;
    asked.bytes = bytes;
    asked.length = length;
}

/* Every answer that must come has come: those of reading at a byte and at the end, but 0, which comes at the end alone, and 32, which a 51st record has at
 * its first byte; and those of writing. */
static bool each_came(const char *what, const unsigned long *times, const char *must_come) {
    bool all = true;
    printf("; %s", what);
    for (char *end; *must_come != '\0'; must_come = end) {
        unsigned long answer = strtoul(must_come, &end, 10);
        printf(" %lu:%lu", answer, times[answer]);
        all = all && times[answer] > 0;
    }
    return all;
}

static bool print_counted(void) {
    printf("spreadsheet: %lu strings", counted.strings);
    bool at_a_byte = each_came("at a byte", counted.at_a_byte, "29 30 31 32");
    bool at_the_end = each_came("at the end", counted.at_the_end, "0 29 30 31");
    bool written = each_came("written", counted.written, "0 23 24");
    bool all = at_a_byte && at_the_end && written;
    printf(": %s\n", all ? "each as the second program answers" : "and an answer that must come never came");
    return all;
}

/* ---- writing */

/* A buffer with bytes before and behind it, all of a pattern that no text has. */
enum { BESIDE = 64, MOST_ROOM = MOST_SPREADSHEET_BYTES + 64 };
struct lent { uint8_t bytes[BESIDE + MOST_ROOM + BESIDE]; };

static uint8_t pattern_at(size_t place) { return (uint8_t)(0x80 | (place * 37 & 0x7F)); }

static uint8_t *fill(struct lent *lent) {
    for (size_t place = 0; place < sizeof lent->bytes; place++) lent->bytes[place] = pattern_at(place);
    return lent->bytes + BESIDE;
}

/* Nothing but the first bytes of the buffer has been written. */
static bool only_front_is_written(const struct lent *lent, size_t length) {
    for (size_t place = 0; place < sizeof lent->bytes; place++)
        if ((place < BESIDE || place >= BESIDE + length) && lent->bytes[place] != pattern_at(place)) return false;
    return true;
}

/* By both; gives the text that both have written, or none. */
struct text { unsigned answer; size_t length; uint8_t bytes[MOST_ROOM]; };

static struct text write_by_both(const ghendufika_spreadsheet *spreadsheet, size_t room) {
    struct lent ours, seconds;
    struct spreadsheet told = told_spreadsheet(spreadsheet);
    struct text text = {0};
    size_t length;
    uint8_t *out = fill(&ours);
    ghendufika_spreadsheet_written written = ghendufika_write_spreadsheet(*spreadsheet, out, room);
    text.answer = write_spreadsheet(&told, fill(&seconds), room, &length);
    must(written.answer == text.answer, "the answer to writing is the second program's");
    must(written.length == length, "the length written is the second program's, and 0 with a refusal");
    must(only_front_is_written(&ours, length), "nothing is written past the text or beside the buffer, and nothing at all with a refusal");
    must(only_front_is_written(&seconds, length), "nor by the second program");
    must(memcmp(out, seconds.bytes + BESIDE, length) == 0, "the text is the second program's");
    must(text.answer == DONE || length == 0, "a refusal has no length");
    counted.written[text.answer]++;
    memcpy(text.bytes, out, length);
    text.length = length;
    return text;
}

/* "reading that back gives the same entries", by both programs. */
static void reads_back(const struct text *text, const ghendufika_spreadsheet *spreadsheet) {
    struct spreadsheet wanted = told_spreadsheet(spreadsheet), read;
    size_t place;
    for (unsigned entry = wanted.count; entry < MOST_ENTRIES; entry++) wanted.entry[entry] = (struct entry){0, 0};
    ghendufika_spreadsheet_read back = ghendufika_read_spreadsheet(text->bytes, text->length);
    must(back.answer == DONE && back.place == text->length, "what was written reads back");
    must(is_as_second(&back.spreadsheet, &wanted), "what was written reads back to the same entries");
    must(read_spreadsheet(text->bytes, text->length, &read, &place) == DONE && place == text->length, "what was written reads back by the second program");
    must(is_as_second(&back.spreadsheet, &read), "what was written reads back by the second program to the same entries");
}

/* With room to spare, just enough, and one byte less. */
static void try_writing(const ghendufika_spreadsheet *spreadsheet) {
    struct text text = write_by_both(spreadsheet, MOST_ROOM);
    if (text.answer != DONE) {
        must(write_by_both(spreadsheet, 0).answer == text.answer, "23 comes before 24");
        return;
    }
    reads_back(&text, spreadsheet);
    must(write_by_both(spreadsheet, text.length).answer == DONE, "the text's own length is room enough");
    must(write_by_both(spreadsheet, text.length - 1).answer == NO_ROOM, "one byte less is no room");
}

/* ---- reading */

/* What the second program says of a string. */
struct said {
    enum answer answer;
    size_t place;
    struct spreadsheet spreadsheet;
};

static void reads_as(const uint8_t *bytes, size_t length, const struct said *said) {
    ghendufika_spreadsheet_read read = ghendufika_read_spreadsheet(bytes, length);
    must(read.answer == said->answer, "the answer to reading is the second program's");
    must(read.place == said->place, "the place is the second program's");
    must(is_as_second(&read.spreadsheet, &said->spreadsheet), "the entries are the second program's, and zero past the count and with a refusal");
    counted.strings++;
    (read.place == length ? counted.at_the_end : counted.at_a_byte)[read.answer]++;
    if (read.answer == DONE) try_writing(&read.spreadsheet);
}

static void reads_alike(const char *of, const uint8_t *bytes, size_t length) {
    struct said said;
    ask(of, bytes, length);
    said.answer = read_spreadsheet(bytes, length, &said.spreadsheet, &said.place);
    reads_as(bytes, length, &said);
}

/* ---- files worked out by hand, from document 02 */

/* The header and LF are 11 bytes, and so many records "1,2" and LF before the bytes are 4 each: the 51st begins at place 211. */
#define BEGINNING "period,mwh\n"
#define RECORD "1,2\n"
enum { MOST_BY_HAND = 4 };

#define FILE_IS(bytes) 0, bytes, sizeof(bytes) - 1
#define AFTER(records, bytes) records, bytes, sizeof(bytes) - 1
#define NO_ENTRIES 0, {{0, 0}}
#define VOLUME(kwh) 1, {{1, kwh}} /* one entry, of period 1 */

static const struct by_hand {
    const char *words;
    unsigned records; /* before the bytes, behind a header; where 0, the bytes are all */
    const char *bytes;
    size_t length;
    unsigned answer;
    size_t place;
    unsigned count; /* of the entries that the bytes have */
    ghendufika_entry entries[MOST_BY_HAND];
} by_hand[] = {
    /* accepted */
    {"a header alone", FILE_IS("period,mwh"), 0, 10, NO_ENTRIES},
    {"a header's line", FILE_IS("period,mwh\n"), 0, 11, NO_ENTRIES},
    {"a header's line, CRLF", FILE_IS("period,mwh\r\n"), 0, 12, NO_ENTRIES},
    {"CRLF and LF mixed", FILE_IS("period,mwh\r\n1,2\n3,4\r\n"), 0, 21, 2, {{1, 2000}, {3, 4000}}},
    {"LF and CRLF mixed, no last line end", FILE_IS("period,mwh\n1,2\r\n3,4"), 0, 19, 2, {{1, 2000}, {3, 4000}}},
    {"a quoted header", FILE_IS("\"period\",\"mwh\""), 0, 14, NO_ENTRIES},
    {"one field of the header quoted", FILE_IS("period,\"mwh\"\r\n"), 0, 14, NO_ENTRIES},
    {"quoted fields", FILE_IS("\"period\",mwh\n\"12\",\"-34.5\"\r\n7,\"8\""), 0, 32, 2, {{12, -34500}, {7, 8000}}},
    {"periods 0, 99, twice the same and falling", FILE_IS("period,mwh\n99,1\n0,2\n00,3\n0,4"), 0, 28, 4, {{99, 1000}, {0, 2000}, {0, 3000}, {0, 4000}}},
    {"a kWh bought", FILE_IS("period,mwh\n1,-0.001"), 0, 19, VOLUME(-1)},
    {"a zero with a minus", FILE_IS("period,mwh\n1,-0"), 0, 15, VOLUME(0)},
    {"a zero with a minus and decimals", FILE_IS("period,mwh\n1,-0.000"), 0, 19, VOLUME(0)},
    {"needless leading zeros", FILE_IS("period,mwh\n01,00001.5"), 0, 21, VOLUME(1500)},
    {"the highest volume", FILE_IS("period,mwh\n1,99999.999"), 0, 22, VOLUME(99999999)},
    {"the lowest volume", FILE_IS("period,mwh\n1,-99999.999"), 0, 23, VOLUME(-99999999)},
    {"one decimal", FILE_IS("period,mwh\n1,0.1"), 0, 16, VOLUME(100)},
    {"two decimals", FILE_IS("period,mwh\n1,0.01"), 0, 17, VOLUME(10)},
    {"a third decimal that is 0", FILE_IS("period,mwh\n1,0.120"), 0, 18, VOLUME(120)},
    {"50 records", AFTER(50, ""), 0, 211, NO_ENTRIES},
    {"50 records, the last without a line end", AFTER(49, "3,4"), 0, 210, 1, {{3, 4000}}},
    {"50 records, the last line end CRLF", AFTER(49, "3,4\r\n"), 0, 212, 1, {{3, 4000}}},

    /* 29: no well-formed CSV begins so */
    {"CR at the end of the file", FILE_IS("period,mwh\r"), 29, 11, NO_ENTRIES},
    {"CR at the end behind a record", FILE_IS("period,mwh\n1,2\r"), 29, 15, NO_ENTRIES},
    {"CR and no LF", FILE_IS("period,mwh\r1,2"), 29, 11, NO_ENTRIES},
    {"CR twice", FILE_IS("period,mwh\r\r\n"), 29, 11, NO_ENTRIES},
    {"a tab in the header", FILE_IS("period,\tmwh"), 29, 7, NO_ENTRIES},
    {"a tab in a record", FILE_IS("period,mwh\n1\t,2"), 29, 12, NO_ENTRIES},
    {"a tab in quotes", FILE_IS("period,mwh\n\"\t\",2"), 29, 12, NO_ENTRIES},
    {"a byte of 128", FILE_IS("\x80"), 29, 0, NO_ENTRIES},
    {"a byte of 128 in quotes", FILE_IS("period,mwh\n1,\"\x80\""), 29, 14, NO_ENTRIES},
    {"a byte order mark", FILE_IS("\xEF\xBB\xBFperiod,mwh"), 29, 0, NO_ENTRIES},
    {"DEL", FILE_IS("period,mwh\n1,\x7f"), 29, 13, NO_ENTRIES},
    {"a zero byte", FILE_IS("period,mwh\n\0"), 29, 11, NO_ENTRIES},
    {"a zero byte at the front", FILE_IS("\0"), 29, 0, NO_ENTRIES},
    {"a quote within a field", FILE_IS("per\"iod\",mwh"), 29, 3, NO_ENTRIES},
    {"a quote behind a digit", FILE_IS("period,mwh\n1\",2"), 29, 12, NO_ENTRIES},
    {"a letter behind a closed quote", FILE_IS("\"period\"x,mwh"), 29, 8, NO_ENTRIES},
    {"a space behind a closed quote", FILE_IS("period,mwh\n\"1\" ,2"), 29, 14, NO_ENTRIES},
    {"a quote that is never closed", FILE_IS("period,mwh\n1,\"2"), 29, 15, NO_ENTRIES},
    {"a quote of the header that is never closed", FILE_IS("\"period"), 29, 7, NO_ENTRIES},
    {"a tab where a 51st record would begin", AFTER(50, "\t"), 29, 211, NO_ENTRIES},

    /* 30: well-formed, but no such header or not two fields */
    {"nothing", FILE_IS(""), 30, 0, NO_ENTRIES},
    {"an empty line", FILE_IS("\n"), 30, 0, NO_ENTRIES},
    {"half a header", FILE_IS("period"), 30, 6, NO_ENTRIES},
    {"a header without its last letter", FILE_IS("period,mw"), 30, 9, NO_ENTRIES},
    {"a header that goes on", FILE_IS("periods,mwh"), 30, 6, NO_ENTRIES},
    {"a header in capitals", FILE_IS("Period,MWh"), 30, 0, NO_ENTRIES},
    {"a space in the header", FILE_IS("period, mwh"), 30, 7, NO_ENTRIES},
    {"a header of one field", FILE_IS("period\nmwh"), 30, 6, NO_ENTRIES},
    {"a header of three fields", FILE_IS("period,mwh,"), 30, 10, NO_ENTRIES},
    {"a doubled quote in the header", FILE_IS("\"per\"\"iod\",mwh"), 30, 4, NO_ENTRIES},
    {"a doubled quote behind the header's word", FILE_IS("\"period\"\",mwh"), 30, 8, NO_ENTRIES},
    {"a blank last line", FILE_IS("period,mwh\n1,2\n\n"), 30, 15, NO_ENTRIES},
    {"a blank last line, CRLF", FILE_IS("period,mwh\r\n\r\n"), 30, 12, NO_ENTRIES},
    {"a third field behind half a number", FILE_IS("period,mwh\n1,2.,"), 30, 15, NO_ENTRIES},
    {"a third field", FILE_IS("period,mwh\n1,2,3"), 30, 14, NO_ENTRIES},
    {"one field, then the end", FILE_IS("period,mwh\n1"), 30, 12, NO_ENTRIES},
    {"one field, then LF", FILE_IS("period,mwh\n1\n"), 30, 12, NO_ENTRIES},
    {"one field, then CR", FILE_IS("period,mwh\n1\r"), 30, 12, NO_ENTRIES},
    {"CR within the header", FILE_IS("per\riod"), 30, 3, NO_ENTRIES},
    {"LF where a 51st record would begin", AFTER(50, "\n"), 30, 211, NO_ENTRIES},
    {"CR where a 51st record would begin", AFTER(50, "\r\n"), 30, 211, NO_ENTRIES},

    /* 31: two fields, but not such numbers */
    {"a bad number before a quote that is never closed", FILE_IS("period,mwh\n1x,\"2"), 31, 12, NO_ENTRIES},
    {"a bad number in a quote that is never closed", FILE_IS("period,mwh\n\"1x"), 31, 13, NO_ENTRIES},
    {"a quoted field begins with a comma", FILE_IS("period,mwh\n\",\",2"), 31, 12, NO_ENTRIES},
    {"a line end in quotes", FILE_IS("period,mwh\n1,\"2\n\""), 31, 15, NO_ENTRIES},
    {"CR in quotes", FILE_IS("period,mwh\n1,\"2\r\""), 31, 15, NO_ENTRIES},
    {"a doubled quote", FILE_IS("period,mwh\n\"1\"\"\",2"), 31, 14, NO_ENTRIES},
    {"an empty period", FILE_IS("period,mwh\n,2"), 31, 11, NO_ENTRIES},
    {"an empty period in quotes", FILE_IS("period,mwh\n\"\",2"), 31, 12, NO_ENTRIES},
    {"a period of three digits", FILE_IS("period,mwh\n012,2"), 31, 13, NO_ENTRIES},
    {"a period with a minus", FILE_IS("period,mwh\n-1,2"), 31, 11, NO_ENTRIES},
    {"a period with a point", FILE_IS("period,mwh\n1.0,2"), 31, 12, NO_ENTRIES},
    {"a space before a volume", FILE_IS("period,mwh\n1, 2"), 31, 13, NO_ENTRIES},
    {"no volume, then the end", FILE_IS("period,mwh\n1,"), 31, 13, NO_ENTRIES},
    {"no volume, then CR", FILE_IS("period,mwh\n1,\r"), 31, 13, NO_ENTRIES},
    {"a minus alone", FILE_IS("period,mwh\n1,-"), 31, 14, NO_ENTRIES},
    {"two minuses", FILE_IS("period,mwh\n1,--1"), 31, 14, NO_ENTRIES},
    {"a plus", FILE_IS("period,mwh\n1,+1"), 31, 13, NO_ENTRIES},
    {"a volume of six digits", FILE_IS("period,mwh\n1,000001"), 31, 18, NO_ENTRIES},
    {"a point without digits before it", FILE_IS("period,mwh\n1,.5"), 31, 13, NO_ENTRIES},
    {"a point without digits behind it, then the end", FILE_IS("period,mwh\n1,2."), 31, 15, NO_ENTRIES},
    {"a point without digits behind it, then LF", FILE_IS("period,mwh\n1,2.\n"), 31, 15, NO_ENTRIES},
    {"four decimals", FILE_IS("period,mwh\n1,1.2340"), 31, 18, NO_ENTRIES},
    {"two points", FILE_IS("period,mwh\n1,1.2.3"), 31, 16, NO_ENTRIES},
    {"a letter where a 51st record would begin", AFTER(50, "x"), 31, 211, NO_ENTRIES},
    {"a comma where a 51st record would begin", AFTER(50, ","), 31, 211, NO_ENTRIES},
    {"a bad 50th record", AFTER(49, "1,x"), 31, 209, NO_ENTRIES},

    /* 32 */
    {"a 51st record that begins with a quote", AFTER(50, "\""), 32, 211, NO_ENTRIES},
    {"a 51st record that begins with a digit", AFTER(50, "1"), 32, 211, NO_ENTRIES},
    {"a 51st record, whole", AFTER(50, "1,2\n"), 32, 211, NO_ENTRIES},
    {"a 51st record that is no record", AFTER(50, "1\t\x80"), 32, 211, NO_ENTRIES},
    {"a 51st record behind CRLF", AFTER(49, "1,2\r\n1,2"), 32, 212, NO_ENTRIES},
};

static size_t put(uint8_t *bytes, size_t length, const void *more, size_t more_length) {
    memcpy(bytes + length, more, more_length);
    return length + more_length;
}

static size_t put_records(uint8_t *bytes, unsigned records) {
    size_t length = put(bytes, 0, BEGINNING, strlen(BEGINNING));
    while (records-- > 0) length = put(bytes, length, RECORD, strlen(RECORD));
    return length;
}

static struct said said_by_hand(const struct by_hand *one) {
    struct said said = {.answer = one->answer, .place = one->place};
    if (one->answer != 0) return said;
    for (unsigned record = 0; record < one->records; record++) said.spreadsheet.entry[said.spreadsheet.count++] = (struct entry){1, 2000};
    for (unsigned entry = 0; entry < one->count; entry++)
        said.spreadsheet.entry[said.spreadsheet.count++] = (struct entry){one->entries[entry].period, one->entries[entry].volume};
    return said;
}

/* Both programs. */
static void try_by_hand(const struct by_hand *one) {
    uint8_t bytes[MOST_FILE_BYTES];
    struct said said = said_by_hand(one), by_second;
    size_t length = one->records == 0 ? 0 : put_records(bytes, one->records);
    length = put(bytes, length, one->bytes, one->length);
    ask(one->words, bytes, length);
    reads_as(bytes, length, &said);
    by_second.answer = read_spreadsheet(bytes, length, &by_second.spreadsheet, &by_second.place);
    must(by_second.answer == said.answer && by_second.place == said.place, "the second program answers as was worked out by hand");
    must(memcmp(&by_second.spreadsheet, &said.spreadsheet, sizeof said.spreadsheet) == 0, "the second program's entries are as was worked out by hand");
}

static void try_every_one_by_hand(void) {
    for (size_t k = 0; k < sizeof by_hand / sizeof by_hand[0]; k++) try_by_hand(&by_hand[k]);
}

/* How entries are written, by hand too. */
static void is_written_as(const ghendufika_spreadsheet *spreadsheet, const char *text) {
    ask("entries to write", (const uint8_t *)text, strlen(text));
    struct text written = write_by_both(spreadsheet, MOST_ROOM);
    must(written.answer == DONE && written.length == strlen(text) && memcmp(written.bytes, text, written.length) == 0, "the entries are written so");
    try_writing(spreadsheet);
}

static void is_refused_by_23(ghendufika_spreadsheet spreadsheet) {
    ask("entries that do not fit", NULL, 0);
    must(write_by_both(&spreadsheet, MOST_ROOM).answer == VALUE_DOES_NOT_FIT, "they are refused by 23");
    must(write_by_both(&spreadsheet, 0).answer == VALUE_DOES_NOT_FIT, "23 comes before 24");
}

static void entries_are_written_as_by_hand(void) {
    ghendufika_spreadsheet most = {.count = 50};
    for (unsigned entry = 0; entry < 50; entry++) most.entries[entry] = (ghendufika_entry){99, -99999999};
    is_written_as(&(ghendufika_spreadsheet){0, {{200, GHENDUFIKA_MARK}}}, "period,mwh\n"); /* what is past the count is no part of it */
    is_written_as(&(ghendufika_spreadsheet){5, {{1, 0}, {9, -1}, {10, 999}, {99, -12345678}, {0, 99999999}}},
                  "period,mwh\n1,0.000\n9,-0.001\n10,0.999\n99,-12345.678\n0,99999.999\n");
    ask("the longest text", NULL, 0);
    must(write_by_both(&most, MOST_ROOM).length == MOST_SPREADSHEET_BYTES && MOST_SPREADSHEET_BYTES == GHENDUFIKA_MOST_SPREADSHEET_BYTES, "it has 711 bytes");
    try_writing(&most);
    is_refused_by_23((ghendufika_spreadsheet){1, {{100, 0}}});
    is_refused_by_23((ghendufika_spreadsheet){2, {{1, 0}, {1, 100000000}}});
    is_refused_by_23((ghendufika_spreadsheet){1, {{1, -100000000}}});
    is_refused_by_23((ghendufika_spreadsheet){1, {{1, GHENDUFIKA_MARK}}});
    is_refused_by_23((ghendufika_spreadsheet){51, {{0, 0}}});
}

/* ---- every short string after several beginnings */

/* A byte of each kind that some rule tells apart: text that is nowhere, a digit, what numbers have besides, quotes, separators, and bytes that no CSV
 * has, below 32 and above 127. The first is another for each beginning: the letter with which its header goes on, or another digit. */
static uint8_t alphabet[] = {0, 'x', '1', '-', '.', '"', ',', '\r', '\n', '\t', 128};
enum { LETTERS = sizeof alphabet };

static const struct beginning {
    unsigned records;
    const char *bytes;
    uint8_t letter;
} beginnings[] = {
    {0, "", 'p'},
    {0, "perio", 'd'},
    {0, "\"perio", 'd'},
    {0, "period,mw", 'h'},
    {0, "\"period\",\"mw", 'h'},
    {0, "period,mwh", '0'},
    {0, "period,mwh\n", '0'},
    {0, "period,mwh\r\n12,-3.4\r\n", '0'},
    {0, "period,mwh\n1,", '0'},
    {0, "period,mwh\n1,-123", '0'},
    {0, "period,mwh\n1,2.34", '0'},
    {0, "period,mwh\n\"1", '0'},
    {0, "period,mwh\n1,\"2", '0'},
    {48, "3,4", '0'},
    {49, "", '0'},
    {49, "3,4", '0'},
    {49, "3,4\r", '0'},
    {50, "", '0'},
};

struct string {
    uint8_t bytes[MOST_FILE_BYTES];
    size_t length;
};

/* The second program has read the string but its last byte, and has not refused; or it has refused it, and nothing that follows changes that. */
struct known {
    struct read_so_far so_far;
    enum answer answer;
    size_t place;
};

static void read_last_byte(const struct string *string, struct known *known) {
    if (known->answer != DONE) return;
    read_on(&known->so_far, string->bytes[string->length - 1]);
    known->answer = refusal_so_far(&known->so_far);
    known->place = string->length - 1;
}

static void compare_known(const struct string *string, const struct known *known) {
    static struct said said; /* its spreadsheet stays zero but for a file that is accepted */
    said.answer = known->answer;
    said.place = known->answer == DONE ? string->length : known->place;
    if (known->answer == DONE) said.answer = refusal_at_the_end(&known->so_far);
    ask("a short string after a beginning", string->bytes, string->length);
    if (said.answer == DONE) reads_alike(asked.of, string->bytes, string->length);
    else reads_as(string->bytes, string->length, &said);
}

static void try_longer(struct string *string, const struct known *known, unsigned depth) {
    compare_known(string, known);
    if (depth == 0) return;
    string->length++;
    for (unsigned letter = 0; letter < LETTERS; letter++) {
        struct known longer = *known;
        string->bytes[string->length - 1] = alphabet[letter];
        read_last_byte(string, &longer);
        try_longer(string, &longer, depth - 1);
    }
    string->length--;
}

static void try_beginning(const struct beginning *beginning, unsigned depth) {
    static struct string string;
    struct known known = {nothing_read(), DONE, 0};
    size_t whole = beginning->records == 0 ? 0 : put_records(string.bytes, beginning->records);
    whole = put(string.bytes, whole, beginning->bytes, strlen(beginning->bytes));
    for (string.length = 1; string.length <= whole; string.length++) read_last_byte(&string, &known);
    string.length = whole;
    ask("a beginning", string.bytes, whole);
    must(known.answer == DONE, "a valid file can begin so");
    alphabet[0] = beginning->letter;
    try_longer(&string, &known, depth);
}

/* All 256 bytes, whatever the alphabet leaves out: after each beginning, and within each file that was worked out by hand and is accepted. */
static void try_every_byte_after(struct string *string) {
    string->length++;
    for (unsigned byte = 0; byte < 256; byte++) {
        string->bytes[string->length - 1] = (uint8_t)byte;
        reads_alike("any byte after a beginning", string->bytes, string->length);
    }
    string->length--;
}

static void try_every_byte_within(const struct by_hand *one) {
    struct string string;
    if (one->records > 0 || one->answer != DONE) return;
    for (string.length = 0; string.length <= one->length; string.length++) {
        memcpy(string.bytes, one->bytes, string.length);
        try_every_byte_after(&string);
    }
}

static void try_every_byte(void) {
    for (size_t k = 0; k < sizeof by_hand / sizeof by_hand[0]; k++) try_every_byte_within(&by_hand[k]);
    for (size_t k = 0; k < sizeof beginnings / sizeof beginnings[0]; k++) {
        struct string string = {{0}, 0};
        if (beginnings[k].records > 0) string.length = put_records(string.bytes, beginnings[k].records);
        string.length = put(string.bytes, string.length, beginnings[k].bytes, strlen(beginnings[k].bytes));
        try_every_byte_after(&string);
    }
}

static void try_every_string(unsigned depth) {
    for (size_t k = 0; k < sizeof beginnings / sizeof beginnings[0]; k++) try_beginning(&beginnings[k], depth);
}

/* ---- damaged files, and entries that may not fit */

static void try_damaged_files(unsigned long files) {
    uint8_t bytes[MOST_FILE_BYTES];
    for (; files > 0; files--) {
        size_t length = some_file(bytes);
        if (!one_in(4)) length = damaged(bytes, length);
        reads_alike("a file made by chance", bytes, length);
        ghendufika_spreadsheet entries = some_spreadsheet();
        ask("entries made by chance", NULL, 0);
        if (one_in(4)) try_writing(&entries);
    }
}

static unsigned long number(const char *word) {
    if (word[0] == '\0' || strspn(word, "0123456789") != strlen(word) || strlen(word) > 9) {
        fprintf(stderr, "spreadsheet DEPTH FILES SEED\n");
        exit(2);
    }
    return strtoul(word, NULL, 10);
}

int main(int argc, char **argv) {
    unsigned long depth = number(argc > 1 ? argv[1] : ""), files = number(argc > 2 ? argv[2] : ""), seed = number(argc > 3 ? argv[3] : "");
    chance_from(seed);
    try_every_one_by_hand();
    entries_are_written_as_by_hand();
    try_every_byte();
    try_every_string((unsigned)depth);
    try_damaged_files(files);
    return print_counted() ? 0 : 1;
}

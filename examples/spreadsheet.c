/* spreadsheet check | tidy | pack | unpack | values, each with a FILE and what it takes (`spreadsheet --help`)
 * Volumes from a spreadsheet (document 02, A5), for the desk that would have to retype it: the CSV file that a small generator sends becomes a packed
 * notification, with the header values that the desk gives beside it, and a packed notification becomes a CSV file again. What is right and where a file
 * goes wrong is the proved code's word; here it is counted in lines and columns.
 * Nothing is given out where something was refused: then there is a line on standard error, and it leaves with 1 where a file is refused for what it
 * holds, with 2 where the program was used wrongly or a file cannot be read or written. */
#include "refusals.h"

#include <errno.h>
#include <inttypes.h>
#include <stdarg.h>
#include <stdio.h>
#include <stdlib.h>
#include <string.h>

enum { ALL_DONE = ALL_SHOWN, REFUSED = 1, USED_WRONGLY = NOTHING_SHOWN };

enum {
    MOST_FILE_BYTES = 1 << 24, /* far above what any spreadsheet has, and a good many messages */
    MOST_PACKED_PERIOD = 63,   /* of the 6 bits that a packed message has for it */
    MOST_BYTE_WORDS = 24
};

/* ---- saying */

/* Always false, so that it can stand for what is not right. */
static bool say(const char *format, ...) {
    va_list words;
    va_start(words, format);
    fputs("spreadsheet: ", stderr);
    vfprintf(stderr, format, words);
    fputc('\n', stderr);
    va_end(words);
    return false;
}

static const char *name_of(const char *path) { return strcmp(path, "-") == 0 ? "standard input" : path; }

/* What cannot be seen is named. */
static void tell_byte(uint8_t byte, char words[MOST_BYTE_WORDS]) {
    if (byte == '\t') strcpy(words, "a tab");
    else if (byte == '\n') strcpy(words, "a line end");
    else if (byte == '\r') strcpy(words, "a carriage return");
    else if (byte == ' ') strcpy(words, "a space");
    else if (byte == '"') strcpy(words, "a double quote");
    else if (byte > ' ' && byte <= '~') snprintf(words, MOST_BYTE_WORDS, "\"%c\"", byte);
    else snprintf(words, MOST_BYTE_WORDS, "byte %u", byte);
}

/* Some programs put one in front of what they save, where nobody sees it. */
static bool has_byte_order_mark(const input *text) { return text->length >= 3 && memcmp(text->bytes, "\xEF\xBB\xBF", 3) == 0; }

/* Lines and columns count from 1, columns in bytes; a line ends at its LF. */
static void say_place(const char *path, const input *text, uint8_t answer, size_t place) {
    size_t line = 1, column = 1;
    char words[MOST_BYTE_WORDS] = "";
    for (size_t k = 0; k < place; k++) {
        column = text->bytes[k] == '\n' ? 1 : column + 1;
        line += text->bytes[k] == '\n';
    }
    if (place == 0 && has_byte_order_mark(text)) strcpy(words, "a byte order mark");
    else if (place < text->length) tell_byte(text->bytes[place], words);
    say("%s: line %zu, column %zu: refused by %u: %s; here %s%s", name_of(path), line, column, answer, words_of(answer),
        place < text->length ? "stands " : "the file ends", words);
}

/* ---- what is named behind the file */

typedef enum { AUTHORISATION, AGENT, KEY, ORIGINATOR, REFERENCE, FIRST, LAST, MESSAGE, AFTER, TO, NAMES } named;

static const char *const names[NAMES] = {"authorisation", "agent", "key", "originator", "reference", "first", "last", "message", "after", "to"};

/* As bits: a header value for each field of a packed notification before its entries, and what says which message is meant. */
enum { OF_HEADER = (1 << MESSAGE) - 1, OF_MESSAGE = 1 << MESSAGE | 1 << AFTER, OUTPUT = 1 << TO };

typedef struct {
    const char *command, *path;
    const char *given[NAMES];       /* as it was typed; NULL where it was not */
    ghendufika_notification header; /* the values for `pack`; there are no entries in it */
    unsigned message;               /* the number of the one that is meant; 1 where none was said */
} wish;

static bool is_among(unsigned set, named name) { return (set >> name & 1) != 0; }

static named name_in(unsigned set, const char *text) {
    for (named name = 0; name < NAMES; name++)
        if (is_among(set, name) && strcmp(names[name], text) == 0) return name;
    return NAMES;
}

/* Names, each with its value. All that is wrong with them is said, not the first of it alone. */
static bool take_names(wish *asked, unsigned taken, unsigned needed, char **texts, int count) {
    bool right = true;
    for (int k = 0; k < count; k += 2) {
        named name = name_in(taken, texts[k]);
        if (name == NAMES) right = say("%s does not take %s", asked->command, texts[k]);
        else if (k + 1 == count) right = say("%s has no value", texts[k]);
        else if (asked->given[name] != NULL) right = say("%s is given twice, as %s and as %s", texts[k], asked->given[name], texts[k + 1]);
        else asked->given[name] = texts[k + 1];
    }
    for (named name = 0; name < NAMES; name++)
        if (is_among(needed, name) && asked->given[name] == NULL) right = say("%s is missing", names[name]);
    return right;
}

/* ---- header values */

static bool take_number(const wish *asked, named name, unsigned most, unsigned *number) {
    const char *text = asked->given[name];
    return is_number(text, most, number) || say("%s %s: a number from 0 to %u is wanted", names[name], text, most);
}

/* YEAR-MONTH-DAY, of four, two and two digits. */
static bool is_date(const char *text) {
    return strlen(text) == 10 && strspn(text, "0123456789") == 4 && text[4] == '-' && strspn(text + 5, "0123456789") == 2 && text[7] == '-' &&
           strspn(text + 8, "0123456789") == 2;
}

static bool take_date(const wish *asked, named name, unsigned *day) {
    const char *text = asked->given[name];
    ghendufika_numbered found = ghendufika_day_of_date((uint32_t)atoi(text), (uint32_t)atoi(text + 5), (uint32_t)atoi(text + 8));
    *day = found.day;
    return found.answer == GHENDUFIKA_DONE || say("%s %s: refused by %u: %s", names[name], text, found.answer, words_of(found.answer));
}

static bool take_day(const wish *asked, named name, unsigned *day) {
    const char *text = asked->given[name];
    unsigned most = name == LAST ? GHENDUFIKA_EVERGREEN : GHENDUFIKA_EVERGREEN - 1;
    if (is_date(text)) return take_date(asked, name, day);
    if (is_number(text, most, day)) return true;
    *day = GHENDUFIKA_EVERGREEN;
    if (name == LAST && strcmp(text, "evergreen") == 0) return true;
    return say("%s %s: a day from 0 to %u%s or a date as 2024-08-22 is wanted", names[name], text, GHENDUFIKA_EVERGREEN - 1, name == LAST ? ", evergreen" : "");
}

/* Whole numbers of the fields' ranges, so that none is cut where it goes into the struct. */
static bool take_header(wish *asked) {
    unsigned value[MESSAGE] = {0};
    bool right = take_number(asked, AUTHORISATION, GHENDUFIKA_MOST_AUTHORISATIONS - 1, &value[AUTHORISATION]);
    right = take_number(asked, AGENT, UINT8_MAX, &value[AGENT]) && right;
    right = take_number(asked, KEY, UINT16_MAX, &value[KEY]) && right;
    right = take_number(asked, ORIGINATOR, GHENDUFIKA_MOST_AUTHORISATIONS - 1, &value[ORIGINATOR]) && right;
    right = take_number(asked, REFERENCE, UINT16_MAX, &value[REFERENCE]) && right;
    right = take_day(asked, FIRST, &value[FIRST]) && right;
    right = take_day(asked, LAST, &value[LAST]) && right;
    asked->header = (ghendufika_notification){.authorisation = (uint8_t)value[AUTHORISATION], .agent = (uint8_t)value[AGENT], .key = (uint16_t)value[KEY],
                                              .originator = (uint8_t)value[ORIGINATOR], .reference = (uint16_t)value[REFERENCE],
                                              .first = (uint16_t)value[FIRST], .last = (uint16_t)value[LAST]};
    return right;
}

/* ---- which message */

static bool take_choice(wish *asked) {
    const char *number = asked->given[MESSAGE], *after = asked->given[AFTER];
    bool right = true;
    asked->message = 1;
    if (number != NULL && (!is_number(number, UINT32_MAX, &asked->message) || asked->message == 0))
        right = say("message %s: a number from 1 on is wanted", number);
    if (after != NULL && strcmp(after, "setup") != 0) right = say("after %s: the word setup is wanted", after);
    return right;
}

/* ---- files in and out */

static bool take_file(const char *path, input *all) {
    if (read_file_up_to(path, MOST_FILE_BYTES, all)) return true;
    if (errno == EFBIG) return say("%s has more than %d bytes, and so much is not read", name_of(path), MOST_FILE_BYTES);
    return say("%s cannot be read: %s", name_of(path), strerror(errno));
}

static bool write_file(FILE *file, const uint8_t *bytes, size_t length) {
    bool whole = fwrite(bytes, 1, length, file) == length;
    int why = errno;
    if (fclose(file) == 0) errno = why;
    else whole = false;
    return whole;
}

/* A file that is there already may be the one that was read, or somebody's work: it stays. Half a file does not. */
static int give(const wish *asked, const uint8_t *bytes, size_t length) {
    const char *path = asked->given[TO];
    if (path == NULL) { /* whether that can be written, `leave` finds */
        fwrite(bytes, 1, length, stdout);
        return ALL_DONE;
    }
    FILE *file = fopen(path, "wbx");
    if (file != NULL && write_file(file, bytes, length)) return ALL_DONE;
    int why = errno;
    if (file != NULL) remove(path);
    if (file == NULL && why == EEXIST) say("%s is there already, and is not overwritten", path);
    else say("%s cannot be written: %s", path, strerror(why));
    return USED_WRONGLY;
}

/* ---- from a spreadsheet */

static bool take_spreadsheet(const char *path, const input *text, ghendufika_spreadsheet *spreadsheet) {
    ghendufika_spreadsheet_read read = ghendufika_read_spreadsheet(text->bytes, text->length);
    *spreadsheet = read.spreadsheet;
    if (read.answer != GHENDUFIKA_DONE) say_place(path, text, read.answer, read.place);
    return read.answer == GHENDUFIKA_DONE;
}

/* Whole kWh as MWh; 50 volumes are together more than 32 bits. */
static void print_mwh(int width, int64_t kwh) {
    char words[32];
    uint64_t size = (uint64_t)(kwh < 0 ? -kwh : kwh);
    snprintf(words, sizeof words, "%s%" PRIu64 ".%03" PRIu64, kwh < 0 ? "-" : "", size / 1000, size % 1000);
    printf("%*s", width, words);
}

static int check(const wish *asked, const input *text) {
    ghendufika_spreadsheet spreadsheet;
    int64_t all = 0;
    if (!take_spreadsheet(asked->path, text, &spreadsheet)) return REFUSED;
    printf("entry  period         MWh\n");
    for (unsigned k = 0; k < spreadsheet.count; k++) {
        printf("%5u  %6u  ", k + 1, spreadsheet.entries[k].period);
        print_mwh(10, spreadsheet.entries[k].volume);
        putchar('\n');
        all += spreadsheet.entries[k].volume;
    }
    printf("in all: %u %s, ", spreadsheet.count, spreadsheet.count == 1 ? "entry" : "entries");
    print_mwh(0, all);
    puts(" MWh");
    return ALL_DONE;
}

/* The first entry that does not fit, as people count: from 1. A period that does not fit is one of a spreadsheet, which has more of them than a packed
 * message; a volume that does not fit is one of a packed message. */
static void say_entry(const char *where, uint8_t answer, const ghendufika_entry *entries, unsigned count) {
    char words[MOST_LINE];
    for (unsigned k = 0; k < count; k++) {
        int period = entries[k].period, kwh = entries[k].volume;
        if (period > MOST_PACKED_PERIOD) snprintf(words, sizeof words, "period %d, and a packed message has at most %d", period, MOST_PACKED_PERIOD);
        else if (abs(kwh) > GHENDUFIKA_MOST_VOLUME) snprintf(words, sizeof words, "%d kWh, and the most is %d either way", kwh, GHENDUFIKA_MOST_VOLUME);
        else continue;
        say("%s: refused by %u, entry %u of %u: %s", where, answer, k + 1, count, words);
        return;
    }
    say("%s: refused by %u: %s", where, answer, words_of(answer));
}

static int give_spreadsheet(const wish *asked, const char *where, ghendufika_spreadsheet spreadsheet) {
    uint8_t text[GHENDUFIKA_MOST_SPREADSHEET_BYTES];
    ghendufika_spreadsheet_written written = ghendufika_write_spreadsheet(spreadsheet, text, sizeof text);
    if (written.answer == GHENDUFIKA_DONE) return give(asked, text, written.length);
    say_entry(where, written.answer, spreadsheet.entries, spreadsheet.count);
    return REFUSED;
}

static int tidy(const wish *asked, const input *text) {
    ghendufika_spreadsheet spreadsheet;
    return take_spreadsheet(asked->path, text, &spreadsheet) ? give_spreadsheet(asked, name_of(asked->path), spreadsheet) : REFUSED;
}

static int pack(const wish *asked, const input *text) {
    uint8_t packed[GHENDUFIKA_MOST_MESSAGE_BYTES];
    ghendufika_message message = {.kind = GHENDUFIKA_NOTIFICATION, .notification = asked->header};
    ghendufika_spreadsheet spreadsheet;
    if (!take_spreadsheet(asked->path, text, &spreadsheet)) return REFUSED;
    message.notification.count = spreadsheet.count;
    memcpy(message.notification.entries, spreadsheet.entries, sizeof spreadsheet.entries);
    ghendufika_message_written written = ghendufika_write_message(message, packed, sizeof packed);
    if (written.answer == GHENDUFIKA_DONE) return give(asked, packed, written.length);
    say_entry(name_of(asked->path), written.answer, spreadsheet.entries, spreadsheet.count);
    return REFUSED;
}

/* ---- from packed messages */

/* Where the messages begin: behind a setup, if the file is said to have one. Its bytes alone do not tell a setup from messages. */
static bool pass_setup(const wish *asked, const input *all, size_t *start) {
    *start = 0;
    if (asked->given[AFTER] == NULL) return true;
    size_t lent = places_for(all);
    ghendufika_setup_read read = ghendufika_read_setup(all->bytes, all->length, SLOTS, lent, lent);
    *start = read.length;
    return read.answer == GHENDUFIKA_DONE || say("%s: setup refused by %u: %s", name_of(asked->path), read.answer, words_of(read.answer));
}

/* Goes over all messages, from `start` on, which moves to the one that is meant, and counts them. All have to be messages, as otherwise the file is
 * another than it is taken for. */
static bool pass_messages(const wish *asked, const input *all, size_t *start, size_t *count) {
    *count = 0;
    for (size_t at = *start; at < all->length;) {
        const uint8_t *bytes = all->bytes + at;
        uint8_t answer = ghendufika_message_refusal(bytes, all->length - at);
        if (answer != GHENDUFIKA_DONE)
            return say("%s: message %zu, from byte %zu on, refused by %u: %s%s", name_of(asked->path), *count + 1, at + 1, answer, words_of(answer),
                       asked->given[AFTER] == NULL ? "; if a setup stands before the messages, say: after setup" : "");
        if (++*count == asked->message) *start = at;
        at += ghendufika_message_length(bytes, all->length - at);
    }
    return *count > 0 || say("%s has no message", name_of(asked->path));
}

static int find_message(const wish *asked, const input *all, size_t *start) {
    const char *name = name_of(asked->path);
    size_t count;
    if (!pass_setup(asked, all, start) || !pass_messages(asked, all, start, &count)) return REFUSED;
    bool is_there = asked->message <= count || say("message %u: %s has %zu", asked->message, name, count);
    bool is_meant = asked->given[MESSAGE] != NULL || count == 1 || say("%s has %zu messages: say which is meant, message 1 to message %zu", name, count, count);
    return is_there && is_meant ? ALL_DONE : USED_WRONGLY;
}

/* The notification that is meant, and the words for where it stands. */
static int take_notification(const wish *asked, const input *all, ghendufika_notification *notification, char where[MOST_LINE]) {
    static const char *const kinds[] = {"a gate", "a notification", "a nullification"};
    size_t start;
    int status = find_message(asked, all, &start);
    if (status != ALL_DONE) return status;
    ghendufika_message_read read = ghendufika_read_message(all->bytes + start, all->length - start);
    *notification = read.message.notification;
    snprintf(where, MOST_LINE, "%.200s: message %u", name_of(asked->path), asked->message);
    if (read.answer == GHENDUFIKA_DONE && read.message.kind == GHENDUFIKA_NOTIFICATION) return ALL_DONE;
    if (read.answer != GHENDUFIKA_DONE) say("%s refused by %u: %s", where, read.answer, words_of(read.answer));
    else say("%s is %s, which has no volumes", where, kinds[read.message.kind]);
    return REFUSED;
}

static int unpack(const wish *asked, const input *all) {
    ghendufika_notification notification;
    char where[MOST_LINE];
    int status = take_notification(asked, all, &notification, where);
    if (status != ALL_DONE) return status;
    ghendufika_spreadsheet spreadsheet = {.count = notification.count};
    memcpy(spreadsheet.entries, notification.entries, sizeof spreadsheet.entries);
    return give_spreadsheet(asked, where, spreadsheet);
}

/* As `pack` takes them. A first day of 65535 is none, and `pack` would not take it. */
static int show_values(const wish *asked, const input *all) {
    ghendufika_notification n;
    char where[MOST_LINE];
    int status = take_notification(asked, all, &n, where);
    if (status != ALL_DONE) return status;
    if (n.first == GHENDUFIKA_EVERGREEN) {
        say("%s has first day %u, which is no day", where, n.first);
        return REFUSED;
    }
    printf("authorisation %u agent %u key %u originator %u reference %u first %u last ", n.authorisation, n.agent, n.key, n.originator, n.reference, n.first);
    if (n.last == GHENDUFIKA_EVERGREEN) puts("evergreen");
    else printf("%u\n", n.last);
    return ALL_DONE;
}

/* ---- the program */

static const char use[] = "use: spreadsheet check FILE.csv                   the entries of a spreadsheet as a table\n"
                          "     spreadsheet tidy FILE.csv                    the same entries as a spreadsheet without quotes, with three decimals\n"
                          "     spreadsheet pack FILE.csv VALUES..           the packed notification of the entries and these header values, all of them:\n"
                          "         authorisation N  agent N  key N  originator N  reference N  first DAY  last DAY\n"
                          "         a DAY is a day number or a date as 2024-08-22; the last may be evergreen\n"
                          "     spreadsheet unpack FILE.packed               the entries of a packed notification as a spreadsheet\n"
                          "     spreadsheet values FILE.packed               its header values, as pack takes them\n"
                          "FILE may be - for standard input. To standard output, or behind tidy, pack and unpack:\n"
                          "     to FILE        to a file that is not there yet\n"
                          "Behind unpack and values:\n"
                          "     message N      where the file has several messages, the one that is meant, from 1 on\n"
                          "     after setup    where a packed setup stands before the messages\n"
                          "Leaves with 0 where it is done, 1 where a file is refused for what it holds, 2 where it was used wrongly or a file cannot be read or\n"
                          "written. With 1 and 2 nothing is given out.\n";

typedef struct {
    const char *word;
    unsigned taken, needed; /* names */
    int (*does)(const wish *asked, const input *all);
} command;

static const command commands[] = {{"check", 0, 0, check},
                                   {"tidy", OUTPUT, 0, tidy},
                                   {"pack", OF_HEADER | OUTPUT, OF_HEADER, pack},
                                   {"unpack", OF_MESSAGE | OUTPUT, 0, unpack},
                                   {"values", OF_MESSAGE, 0, show_values}};

static int obey(const command *one, int argc, char **argv) {
    wish asked = {.command = argv[1], .path = argv[2]};
    input all = {NULL, 0};
    int status = USED_WRONGLY;
    bool right = take_names(&asked, one->taken, one->needed, argv + 3, argc - 3) && take_choice(&asked) && (one->needed != OF_HEADER || take_header(&asked));
    if (right && take_file(asked.path, &all)) status = one->does(&asked, &all);
    free(all.bytes);
    return status;
}

int main(int argc, char **argv) {
    if (argc == 2 && strcmp(argv[1], "--help") == 0) {
        fputs(use, stdout);
        return leave("spreadsheet", ALL_DONE);
    }
    for (size_t k = 0; argc > 2 && k < sizeof commands / sizeof commands[0]; k++)
        if (strcmp(argv[1], commands[k].word) == 0) return leave("spreadsheet", obey(&commands[k], argc, argv));
    fputs(use, stderr);
    return USED_WRONGLY;
}

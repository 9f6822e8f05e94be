/*
 * Volumes from a spreadsheet; see spreadsheet.h.
 *
 * Reading is decided by grammars alone.  Each is put together from bytes and
 * becomes a set of positions, one for each place where the grammar names a
 * byte, with the positions that can come after each.  Bytes are read by every
 * way through the grammar at once: what they may have come to is a set of
 * positions.  A file can still begin so as long as one of these leads to a
 * position at which a file may end.
 */
#include "spreadsheet.h"

#include <stdio.h>
#include <stdlib.h>
#include <string.h>

/* ======================================================================
 * Grammars
 * ====================================================================== */

enum { BYTES = 256, MOST_POSITIONS = 64 };

/* Position 0 is the beginning, before any byte. */
enum { BEGINNING = 0 };

struct grammar {
    unsigned positions;
    uint64_t naming[BYTES];         /* the positions that name this byte */
    uint64_t after[MOST_POSITIONS]; /* those that can come next */
    uint64_t ends;                  /* those at which a file may end */
    uint64_t leads_on;              /* those from which one of these can be come to */
    uint64_t begins_a_record;       /* the first ones of each record after the header */
    uint64_t after_eight[8][BYTES]; /* what can come after any of eight positions, to be quick */
};

/* What a rule of a grammar stands for: whether it may be nothing, and the
 * positions with which it may begin and end. */
struct part {
    bool may_be_nothing;
    uint64_t first;
    uint64_t last;
};

static uint64_t only(unsigned position)
{
    return UINT64_C(1) << position;
}

static bool has(uint64_t set, unsigned position)
{
    return (set & only(position)) != 0;
}

/* What can come after one of this set. */
static uint64_t after_any_of(const struct grammar *grammar, uint64_t set)
{
    uint64_t next = 0;

    for (unsigned eight = 0; set != 0; eight++, set >>= 8)
        next |= grammar->after_eight[eight][set & 0xFF];
    return next;
}

static void join_eights(struct grammar *grammar)
{
    for (unsigned position = 0; position < grammar->positions; position++)
        for (unsigned set = 0; set < BYTES; set++)
            if (has(set, position % 8))
                grammar->after_eight[position / 8][set] |= grammar->after[position];
}

static void may_follow(struct grammar *grammar, uint64_t set, uint64_t next)
{
    for (unsigned position = 0; position < grammar->positions; position++)
        if (has(set, position))
            grammar->after[position] |= next;
}

/* One byte of those for which `is_named` holds. */
static struct part any_byte(struct grammar *grammar, bool (*is_named)(unsigned byte))
{
    unsigned position = grammar->positions++;

    if (position >= MOST_POSITIONS)
        abort();
    for (unsigned byte = 0; byte < BYTES; byte++)
        if (is_named(byte))
            grammar->naming[byte] |= only(position);
    return (struct part){false, only(position), only(position)};
}

static struct part this_byte(struct grammar *grammar, unsigned byte)
{
    unsigned position = grammar->positions++;

    if (position >= MOST_POSITIONS)
        abort();
    grammar->naming[byte] |= only(position);
    return (struct part){false, only(position), only(position)};
}

static struct part optional(struct part part)
{
    part.may_be_nothing = true;
    return part;
}

static struct part either(struct part one, struct part other)
{
    return (struct part){
        one.may_be_nothing || other.may_be_nothing,
        one.first | other.first,
        one.last | other.last,
    };
}

static struct part in_turn(struct grammar *grammar, struct part one, struct part next)
{
    may_follow(grammar, one.last, next.first);
    return (struct part){
        one.may_be_nothing && next.may_be_nothing,
        one.may_be_nothing ? one.first | next.first : one.first,
        next.may_be_nothing ? one.last | next.last : next.last,
    };
}

/* Any number of times, none too: the RFC's "*". */
static struct part repeated(struct grammar *grammar, struct part part)
{
    may_follow(grammar, part.last, part.first);
    return optional(part);
}

/* The positions from which one of the ends can be come to, the ends too. */
static uint64_t leading_to_an_end(const struct grammar *grammar)
{
    uint64_t leading = grammar->ends;
    uint64_t before;

    do {
        before = leading;
        for (unsigned position = 0; position < grammar->positions; position++)
            if (grammar->after[position] & leading)
                leading |= only(position);
    } while (leading != before);
    return leading;
}

static void start_grammar(struct grammar *grammar)
{
    memset(grammar, 0, sizeof *grammar);
    grammar->positions = BEGINNING + 1;
}

static void finish_grammar(struct grammar *grammar, struct part file)
{
    grammar->after[BEGINNING] = file.first;
    grammar->ends = file.last | (file.may_be_nothing ? only(BEGINNING) : 0);
    grammar->leads_on = leading_to_an_end(grammar);
    join_eights(grammar);
}

/* ======================================================================
 * RFC 4180, section 2
 * ====================================================================== */

enum { LF = '\n', CR = '\r', COMMA = ',', DQUOTE = '"' };

/* "TEXTDATA = %x20-21 / %x23-2B / %x2D-7E". */
static bool is_textdata(unsigned byte)
{
    return (byte >= 0x20 && byte <= 0x21) || (byte >= 0x23 && byte <= 0x2B)
        || (byte >= 0x2D && byte <= 0x7E);
}

/* "(TEXTDATA / COMMA / CR / LF / ...)": what stands for itself in quotes. */
static bool is_data_in_quotes(unsigned byte)
{
    return is_textdata(byte) || byte == COMMA || byte == CR || byte == LF;
}

/* "CRLF or LF line ends included". */
static struct part line_end(struct grammar *g)
{
    return in_turn(g, optional(this_byte(g, CR)), this_byte(g, LF));
}

static struct part in_quotes(struct grammar *g, struct part content)
{
    return in_turn(g, this_byte(g, DQUOTE), in_turn(g, content, this_byte(g, DQUOTE)));
}

/* "escaped = DQUOTE *(TEXTDATA / COMMA / CR / LF / 2DQUOTE) DQUOTE". */
static struct part escaped(struct grammar *g)
{
    struct part two_quotes = in_turn(g, this_byte(g, DQUOTE), this_byte(g, DQUOTE));

    return in_quotes(g, repeated(g, either(any_byte(g, is_data_in_quotes), two_quotes)));
}

/* "non-escaped = *TEXTDATA". */
static struct part non_escaped(struct grammar *g)
{
    return repeated(g, any_byte(g, is_textdata));
}

/* "field = (escaped / non-escaped)". */
static struct part any_field(struct grammar *g)
{
    return either(escaped(g), non_escaped(g));
}

/* "record = field *(COMMA field)". */
static struct part any_record(struct grammar *g)
{
    struct part another = in_turn(g, this_byte(g, COMMA), any_field(g));

    return in_turn(g, any_field(g), repeated(g, another));
}

/* "file = [header CRLF] record *(CRLF record) [CRLF]", where A5's header is the
 * first record and a file may have no other. */
static struct part file_of(struct grammar *g, struct part first_record, struct part record)
{
    struct part records = repeated(g, in_turn(g, line_end(g), record));

    return in_turn(g, in_turn(g, first_record, records), optional(line_end(g)));
}

/* ======================================================================
 * A5's header, two fields, numbers
 * ====================================================================== */

static struct part two_fields(struct grammar *g, struct part one_field, struct part other)
{
    return in_turn(g, one_field, in_turn(g, this_byte(g, COMMA), other));
}

/* "quoted fields ... included": the same content, quoted or not. */
static struct part quoted_or_not(struct grammar *g, struct part (*content)(struct grammar *g))
{
    return either(content(g), in_quotes(g, content(g)));
}

static struct part word(struct grammar *g, const char *letters)
{
    struct part whole = this_byte(g, (unsigned char)*letters);

    while (*++letters != '\0')
        whole = in_turn(g, whole, this_byte(g, (unsigned char)*letters));
    return whole;
}

static struct part word_period(struct grammar *g)
{
    return word(g, "period");
}

static struct part word_mwh(struct grammar *g)
{
    return word(g, "mwh");
}

/* "The first record must be `period,mwh`."  Quotes are transparent here too
 * (decided). */
static struct part header(struct grammar *g)
{
    return two_fields(g, quoted_or_not(g, word_period), quoted_or_not(g, word_mwh));
}

static bool is_digit(unsigned byte)
{
    return byte >= '0' && byte <= '9';
}

static struct part one_to(struct grammar *g, unsigned most_digits)
{
    struct part digits = any_byte(g, is_digit);

    for (unsigned more = 1; more < most_digits; more++)
        digits = in_turn(g, any_byte(g, is_digit), optional(digits));
    return digits;
}

/* "Period is one or two digits." */
static struct part period(struct grammar *g)
{
    return one_to(g, 2);
}

/* "MWh is an optional minus, one to five digits and an optional point with one
 * to three digits". */
static struct part mwh(struct grammar *g)
{
    struct part minus = this_byte(g, '-');
    struct part decimals = in_turn(g, this_byte(g, '.'), one_to(g, 3));

    return in_turn(g, optional(minus), in_turn(g, one_to(g, 5), optional(decimals)));
}

/* ======================================================================
 * The languages
 * ====================================================================== */

enum language { CSV, TWO_FIELDS, NUMBERS };

static struct grammar grammar_of[GRAMMARS];

/* "29 not well-formed CSV". */
static void build_csv(struct grammar *g)
{
    start_grammar(g);
    finish_grammar(g, file_of(g, any_record(g), any_record(g)));
}

/* "30 wrong header or field count". */
static void build_two_fields(struct grammar *g)
{
    start_grammar(g);
    finish_grammar(g, file_of(g, header(g), two_fields(g, any_field(g), any_field(g))));
}

/* "31 a field is not such a number". */
static void build_numbers(struct grammar *g)
{
    start_grammar(g);

    struct part record = two_fields(g, quoted_or_not(g, period), quoted_or_not(g, mwh));

    finish_grammar(g, file_of(g, header(g), record));
    g->begins_a_record = record.first;
}

static void build_once(void)
{
    static bool built;

    if (built)
        return;
    build_csv(&grammar_of[CSV]);
    build_two_fields(&grammar_of[TWO_FIELDS]);
    build_numbers(&grammar_of[NUMBERS]);
    built = true;
}

struct read_so_far nothing_read(void)
{
    struct read_so_far so_far = {.records = 0};

    build_once();
    for (unsigned which = 0; which < GRAMMARS; which++)
        so_far.positions[which] = only(BEGINNING);
    return so_far;
}

/* "32 more than 50 entries": the fourth language counts the records of the
 * third.  One has begun with its first byte, not with the line end before it,
 * which may be the file's last. */
void read_on(struct read_so_far *so_far, uint8_t byte)
{
    for (unsigned which = 0; which < GRAMMARS; which++) {
        const struct grammar *g = &grammar_of[which];

        so_far->positions[which] = after_any_of(g, so_far->positions[which]) & g->naming[byte];
    }
    if (so_far->positions[NUMBERS] & grammar_of[NUMBERS].begins_a_record)
        so_far->records++;
}

/* Of each language its number; "the lower number first". */
static enum answer lowest(bool csv, bool two_fields, bool numbers, bool few_enough)
{
    if (!csv)
        return NOT_CSV;
    if (!two_fields)
        return NOT_TWO_FIELDS;
    if (!numbers)
        return NOT_A_NUMBER;
    return few_enough ? DONE : TOO_MANY_RECORDS;
}

/* Whatever record of the third language has begun can end without another. */
static bool few_enough(const struct read_so_far *so_far)
{
    return so_far->records <= MOST_ENTRIES;
}

static bool can_go_on(const struct read_so_far *so_far, enum language language)
{
    return (so_far->positions[language] & grammar_of[language].leads_on) != 0;
}

static bool may_end(const struct read_so_far *so_far, enum language language)
{
    return (so_far->positions[language] & grammar_of[language].ends) != 0;
}

enum answer refusal_so_far(const struct read_so_far *so_far)
{
    return lowest(can_go_on(so_far, CSV), can_go_on(so_far, TWO_FIELDS),
                  can_go_on(so_far, NUMBERS), few_enough(so_far));
}

enum answer refusal_at_the_end(const struct read_so_far *so_far)
{
    return lowest(may_end(so_far, CSV), may_end(so_far, TWO_FIELDS),
                  may_end(so_far, NUMBERS), few_enough(so_far));
}

/* ======================================================================
 * The entries of a valid file
 * ====================================================================== */

/* What is not yet taken of a valid file. */
struct rest {
    const uint8_t *next;
    const uint8_t *end;
};

/* The longest is a volume. */
enum { MOST_CONTENT = sizeof "-99999.999" };

/* The content of the next field, without its quotes; what ends it is taken
 * too.  In a valid file no field holds a comma, CR or LF. */
static void take_field(struct rest *rest, char content[MOST_CONTENT])
{
    size_t length = 0;

    while (rest->next < rest->end) {
        uint8_t byte = *rest->next++;

        if (byte == COMMA || byte == LF)
            break;
        if (byte != DQUOTE && byte != CR && length + 1 < MOST_CONTENT)
            content[length++] = (char)byte;
    }
    content[length] = '\0';
}

static unsigned period_in(const char *content)
{
    return (unsigned)strtoul(content, NULL, 10);
}

/* "it becomes whole kWh exactly": a decimal that is not there is 0. */
static int32_t kwh_in(const char *content)
{
    bool negative = content[0] == '-';
    const char *digits = content + (negative ? 1 : 0);
    const char *point = strchr(digits, '.');
    char decimals[] = "000";
    int32_t kwh;

    if (point != NULL)
        memcpy(decimals, point + 1, strlen(point + 1));
    kwh = (int32_t)(strtol(digits, NULL, 10) * 1000 + strtol(decimals, NULL, 10));
    return negative ? -kwh : kwh;
}

static void take_entries(const uint8_t *bytes, size_t length, struct spreadsheet *spreadsheet)
{
    struct rest rest = {bytes, bytes + length};
    char content[MOST_CONTENT];

    take_field(&rest, content); /* period */
    take_field(&rest, content); /* mwh */
    while (rest.next < rest.end) {
        struct entry *entry = &spreadsheet->entry[spreadsheet->count++];

        take_field(&rest, content);
        entry->period = period_in(content);
        take_field(&rest, content);
        entry->volume = kwh_in(content);
    }
}

/* "Refusals, at the first byte (the end counts as one) by which no valid file
 * can begin so". */
enum answer read_spreadsheet(const uint8_t *bytes, size_t length,
                             struct spreadsheet *spreadsheet, size_t *place)
{
    struct read_so_far so_far = nothing_read();
    enum answer answer = DONE;

    memset(spreadsheet, 0, sizeof *spreadsheet);
    for (*place = 0; *place < length; ++*place) {
        read_on(&so_far, bytes[*place]);
        answer = refusal_so_far(&so_far);
        if (answer != DONE)
            return answer;
    }
    answer = refusal_at_the_end(&so_far);
    if (answer == DONE)
        take_entries(bytes, length, spreadsheet);
    return answer;
}

/* ======================================================================
 * Writing
 * ====================================================================== */

/* "Periods above 99, volumes out of range or over 50 entries give 23".  Places
 * past the count are not looked at (decided). */
static bool fits(const struct spreadsheet *spreadsheet)
{
    if (spreadsheet->count > MOST_ENTRIES)
        return false;
    for (unsigned e = 0; e < spreadsheet->count; e++) {
        const struct entry *entry = &spreadsheet->entry[e];

        if (entry->period > HIGHEST_PERIOD_IN_A_FILE || entry->volume < LOWEST_VOLUME
            || entry->volume > HIGHEST_VOLUME)
            return false;
    }
    return true;
}

/* "each line ended by LF, no needless leading zeros, minus only below zero,
 * always three decimals". */
static size_t put_entry(char *line, size_t room, const struct entry *entry)
{
    unsigned kwh = (unsigned)abs(entry->volume);
    const char *sign = entry->volume < 0 ? "-" : "";

    return (size_t)snprintf(line, room, "%u,%s%u.%03u\n", entry->period, sign, kwh / 1000,
                            kwh % 1000);
}

enum answer write_spreadsheet(const struct spreadsheet *spreadsheet, uint8_t *bytes,
                              size_t room, size_t *written)
{
    char text[MOST_SPREADSHEET_BYTES + 1] = "period,mwh\n"; /* one for the C string's end */
    size_t length = strlen(text);

    *written = 0;
    if (!fits(spreadsheet))
        return VALUE_DOES_NOT_FIT;
    for (unsigned e = 0; e < spreadsheet->count; e++)
        length += put_entry(text + length, sizeof text - length, &spreadsheet->entry[e]);
    /* "then 24 for room". */
    if (room < length)
        return NO_ROOM;
    memcpy(bytes, text, length);
    *written = length;
    return DONE;
}

/* The twin of the spreadsheets (document 02, A5): see twin.h. A reader that goes over the bytes once. An entry without quotes is read by a short way that
 * does not ask for the end of the bytes at each of them; what that way does not know is read by the other, which knows all. What no right file has at
 * a byte is told by the byte itself and by where in a record it stands, so that a right file pays nothing for it. */
#include "twin.h"

#include <string.h>

enum { MOST_ENTRIES = GHENDUFIKA_MOST_ENTRIES, MOST_PERIOD = 99, MOST_KWH = GHENDUFIKA_MOST_VOLUME, END = -1 };

typedef enum { HEADER, ENTRY } record;
typedef enum { FIRST, SECOND } field;

typedef struct {
    const uint8_t *at, *end;
    uint8_t answer; /* of the byte at which reading stopped; 0 while there is none */
} reading;

static int byte_at(const reading *from) { return from->at < from->end ? *from->at : END; }

static bool is_digit(int byte) { return '0' <= byte && byte <= '9'; }
static bool is_printable(int byte) { return ' ' <= byte && byte <= '~'; }
static bool is_line_end(int byte) { return byte == '\n' || byte == '\r'; }
static bool ends_record(int byte) { return is_line_end(byte) || byte == END; }
static bool ends(field which, int byte) { return which == FIRST ? byte == ',' : ends_record(byte); }

/* ---- what a byte is refused by, where no right file has it */

static uint8_t wrong_value(record in) { return in == HEADER ? 30 : 31; }

static uint8_t wrong_in_quotes(int byte, record in) { return is_printable(byte) || is_line_end(byte) ? wrong_value(in) : 29; }

static uint8_t wrong_behind_quotes(int byte, record in) {
    if (byte == '"') return wrong_value(in); /* a quote of the field itself */
    return byte == ',' || ends_record(byte) ? 30 : 29;
}

static uint8_t wrong_without_quotes(int byte, record in, field which) {
    if (byte == '"' || !(is_printable(byte) || ends_record(byte))) return 29;
    if (which == FIRST ? ends_record(byte) : byte == ',') return 30;
    return wrong_value(in);
}

static bool refuse(reading *from, uint8_t answer) {
    from->answer = answer;
    return false;
}

/* ---- fields: each reads what it can and says whether that is a whole value */

static bool read_name(reading *from, const char *name) {
    for (; *name != '\0' && byte_at(from) == *name; name++) from->at++;
    return *name == '\0';
}

/* Digits, at most so many of them, behind those that the number has already. Gives how many. */
static unsigned read_digits(reading *from, unsigned most, uint32_t *number) {
    unsigned count = 0;
    for (; count < most && from->at < from->end && is_digit(*from->at); count++) *number = 10 * *number + (*from->at++ - '0');
    return count;
}

static bool read_period(reading *from, uint8_t *period) {
    uint32_t number = 0;
    unsigned digits = read_digits(from, 2, &number);
    *period = (uint8_t)number;
    return digits > 0;
}

static const uint32_t missing_decimals[] = {1000, 100, 10, 1};

static bool read_volume(reading *from, int32_t *kwh) {
    uint32_t number = 0;
    bool is_minus = byte_at(from) == '-';
    from->at += is_minus;
    if (read_digits(from, 5, &number) == 0) return false;
    bool has_point = byte_at(from) == '.';
    from->at += has_point;
    unsigned decimals = has_point ? read_digits(from, 3, &number) : 0;
    number *= missing_decimals[decimals];
    *kwh = is_minus ? -(int32_t)number : (int32_t)number;
    return !has_point || decimals > 0;
}

/* ---- records */

static bool opens_quotes(reading *from) {
    bool quoted = byte_at(from) == '"';
    from->at += quoted;
    return quoted;
}

/* A field whose value was read as far as it goes has to end here: by its quote where it began with one, and then by what ends it in its record. */
static inline bool close_field(reading *from, record in, field which, bool quoted, bool whole) {
    int byte = byte_at(from);
    if (!quoted) return (whole && ends(which, byte)) || refuse(from, wrong_without_quotes(byte, in, which));
    if (!whole || byte != '"') return refuse(from, wrong_in_quotes(byte, in));
    from->at++;
    byte = byte_at(from);
    return ends(which, byte) || refuse(from, wrong_behind_quotes(byte, in));
}

/* Behind the last field of a record; at the end there is no line end to be read. */
static bool read_line_end(reading *from) {
    if (from->at == from->end) return true;
    if (*from->at++ == '\n') return true;
    if (byte_at(from) != '\n') return refuse(from, 29);
    from->at++;
    return true;
}

static bool read_header(reading *from) {
    bool quoted = opens_quotes(from);
    if (!close_field(from, HEADER, FIRST, quoted, read_name(from, "period"))) return false;
    from->at++;
    quoted = opens_quotes(from);
    return close_field(from, HEADER, SECOND, quoted, read_name(from, "mwh")) && read_line_end(from);
}

/* ---- entries by the short way: no quotes, and as many bytes left as one can have. Each gives where it stopped, or NULL where this way does not go on. */

enum { MOST_PLAIN_ENTRY = sizeof "99,-99999.999\r\n" - 1 };

static const uint8_t *plain_digits(const uint8_t *at, unsigned most, uint32_t *number) {
    for (const uint8_t *stop = at + most; at < stop && is_digit(*at); at++) *number = 10 * *number + (*at - '0');
    return at;
}

static const uint8_t *plain_volume(const uint8_t *at, int32_t *kwh) {
    bool is_minus = *at == '-';
    uint32_t number = 0;
    const uint8_t *from = at + is_minus;
    at = plain_digits(from, 5, &number);
    if (at == from) return NULL;
    if (*at == '.') {
        from = at + 1;
        at = plain_digits(from, 3, &number);
        if (at == from) return NULL;
        number *= missing_decimals[at - from];
    } else number *= 1000;
    *kwh = is_minus ? -(int32_t)number : (int32_t)number;
    return at;
}

static const uint8_t *plain_entry(const uint8_t *from, ghendufika_entry *entry) {
    uint32_t period = 0;
    const uint8_t *at = plain_digits(from, 2, &period);
    if (at == from || *at != ',') return NULL;
    entry->period = (uint8_t)period;
    at = plain_volume(at + 1, &entry->volume);
    if (at == NULL) return NULL;
    at += *at == '\r';
    return *at == '\n' ? at + 1 : NULL;
}

static bool read_plain_entry(reading *from, ghendufika_entry *entry) {
    const uint8_t *next = from->end - from->at >= MOST_PLAIN_ENTRY ? plain_entry(from->at, entry) : NULL;
    if (next != NULL) from->at = next;
    return next != NULL;
}

/* ---- the file */

static bool read_entry(reading *from, ghendufika_entry *entry) {
    if (read_plain_entry(from, entry)) return true;
    bool quoted = opens_quotes(from);
    if (!close_field(from, ENTRY, FIRST, quoted, read_period(from, &entry->period))) return false;
    from->at++;
    quoted = opens_quotes(from);
    return close_field(from, ENTRY, SECOND, quoted, read_volume(from, &entry->volume)) && read_line_end(from);
}

/* The first byte of one entry too many, if it can begin one. */
static bool refuse_another(reading *from) {
    int byte = byte_at(from);
    return refuse(from, is_digit(byte) || byte == '"' ? 32 : wrong_without_quotes(byte, ENTRY, FIRST));
}

static bool read_records(reading *from, ghendufika_spreadsheet *to) {
    unsigned count = 0;
    if (!read_header(from)) return false;
    for (; from->at < from->end && count < MOST_ENTRIES; count++)
        if (!read_entry(from, &to->entries[count])) return false;
    to->count = (uint8_t)count;
    for (; count < MOST_ENTRIES; count++) to->entries[count] = (ghendufika_entry){0, 0};
    return from->at == from->end || refuse_another(from);
}

/* Nothing is cleared that is written anyway. */
ghendufika_spreadsheet_read twin_read_spreadsheet(const uint8_t *bytes, size_t length) {
    ghendufika_spreadsheet_read read;
    reading from = {.at = bytes, .end = bytes + length, .answer = 0};
    if (!read_records(&from, &read.spreadsheet)) memset(&read.spreadsheet, 0, sizeof read.spreadsheet);
    read.answer = from.answer;
    read.place = (size_t)(from.at - bytes);
    return read;
}

/* ---- writing */

/* Its digits, without needless zeros in front. */
static uint8_t *put_number(uint8_t *to, uint32_t number) {
    unsigned digits = 1;
    for (uint32_t power = 10; power <= number; power *= 10) digits++;
    for (unsigned k = digits; k-- > 0; number /= 10) to[k] = (uint8_t)('0' + number % 10);
    return to + digits;
}

static uint8_t *put_entry(uint8_t *to, const ghendufika_entry *entry) {
    uint32_t kwh = (uint32_t)(entry->volume < 0 ? -entry->volume : entry->volume), decimals = kwh % 1000;
    to = put_number(to, entry->period);
    *to++ = ',';
    if (entry->volume < 0) *to++ = '-';
    to = put_number(to, kwh / 1000);
    to[0] = '.';
    to[1] = (uint8_t)('0' + decimals / 100);
    to[2] = (uint8_t)('0' + decimals / 10 % 10);
    to[3] = (uint8_t)('0' + decimals % 10);
    to[4] = '\n';
    return to + 5;
}

static bool fits(const ghendufika_entry *entry) { return entry->period <= MOST_PERIOD && -MOST_KWH <= entry->volume && entry->volume <= MOST_KWH; }

/* Written apart first, as a refusal may change no byte of the buffer. */
ghendufika_spreadsheet_written twin_write_spreadsheet(ghendufika_spreadsheet spreadsheet, uint8_t *out, size_t room) {
    static const char header[] = "period,mwh\n";
    uint8_t text[GHENDUFIKA_MOST_SPREADSHEET_BYTES], *to = text + sizeof header - 1;
    if (spreadsheet.count > MOST_ENTRIES) return (ghendufika_spreadsheet_written){.answer = 23};
    memcpy(text, header, sizeof header - 1);
    for (unsigned k = 0; k < spreadsheet.count; k++) {
        if (!fits(&spreadsheet.entries[k])) return (ghendufika_spreadsheet_written){.answer = 23};
        to = put_entry(to, &spreadsheet.entries[k]);
    }
    size_t length = (size_t)(to - text);
    if (room < length) return (ghendufika_spreadsheet_written){.answer = 24};
    memcpy(out, text, length);
    return (ghendufika_spreadsheet_written){.answer = 0, .length = length};
}

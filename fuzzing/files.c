/* Spreadsheets to hand in; see files.h. */
#include "files.h"

#include "chance.h"

#include <string.h>

struct file {
    uint8_t *bytes;
    size_t length;
    /* Of its fields and line ends one in so many is quoted, or CRLF; 0 for none. */
    uint32_t quoted, crlf;
};

static void put(struct file *file, int64_t byte) { file->bytes[file->length++] = (uint8_t)byte; }

static bool happens(uint32_t one_in_so_many) { return one_in_so_many > 0 && one_in(one_in_so_many); }

static void put_line_end(struct file *file) {
    if (happens(file->crlf)) put(file, '\r');
    put(file, '\n');
}

/* Zeros are often, so that there are needless ones. */
static void put_digits(struct file *file, unsigned count) {
    while (count-- > 0) put(file, one_in(3) ? '0' : '0' + below(10));
}

static void put_words(struct file *file, const char *words) {
    while (*words != '\0') put(file, *words++);
}

static void put_period(struct file *file) { put_digits(file, 1 + below(2)); }

static void put_mwh(struct file *file) {
    if (one_in(3)) put(file, '-');
    put_digits(file, one_in(4) ? 5 : 1 + below(5));
    if (one_in(3)) return;
    put(file, '.');
    put_digits(file, 1 + below(3));
}

static void put_header_period(struct file *file) { put_words(file, "period"); }
static void put_header_mwh(struct file *file) { put_words(file, "mwh"); }

static void put_field(struct file *file, void (*put_content)(struct file *file)) {
    bool quoted = happens(file->quoted);
    if (quoted) put(file, '"');
    put_content(file);
    if (quoted) put(file, '"');
}

size_t some_file(uint8_t bytes[MOST_FILE_BYTES]) {
    struct file file = {bytes, 0, (uint32_t)ONE_OF(0, 0, 1, 2, 5), (uint32_t)ONE_OF(0, 0, 1, 2, 5)};
    unsigned records = (unsigned)(one_in(3) ? ONE_OF(48, 49, 50, 50, 50, 51, 52) : one_in(4) ? below(48) : below(4));
    put_field(&file, put_header_period);
    put(&file, ',');
    put_field(&file, put_header_mwh);
    while (records-- > 0) {
        put_line_end(&file);
        put_field(&file, put_period);
        put(&file, ',');
        put_field(&file, put_mwh);
    }
    if (!one_in(4)) put_line_end(&file);
    return file.length;
}

/* ---- damage */

/* Mostly one that some rule names, so that the damage is not seen at once. */
static uint8_t telling_byte(void) {
    if (one_in(6)) return (uint8_t)below(256);
    return (uint8_t)ONE_OF('0', '1', '9', '-', '.', '.', ',', ',', '"', '"', '"', '\r', '\r', '\n', '\n', '\t', ' ', 'p', 'x', 127, 128);
}

/* Anywhere, or close to the end, where the last record is. */
static size_t some_place(size_t length) { return one_in(3) && length > 4 ? length - 1 - below(4) : below((uint32_t)length); }

static size_t with_byte_at(uint8_t *bytes, size_t length, size_t place) {
    memmove(bytes + place + 1, bytes + place, length - place);
    bytes[place] = telling_byte();
    return length + 1;
}

static size_t without_byte_at(uint8_t *bytes, size_t length, size_t place) {
    memmove(bytes + place, bytes + place + 1, length - place - 1);
    return length - 1;
}

static void swap_with_next(uint8_t *bytes, size_t length, size_t place) {
    uint8_t byte = bytes[place];
    if (place + 1 == length) return;
    bytes[place] = bytes[place + 1];
    bytes[place + 1] = byte;
}

/* Mostly a line end, which is a blank line behind one. */
static size_t with_one_more(uint8_t *bytes, size_t length) {
    bytes[length] = one_in(2) ? '\n' : telling_byte();
    return length + 1;
}

static size_t damaged_once(uint8_t *bytes, size_t length) {
    if (length == 0 || one_in(6)) return with_one_more(bytes, length);
    size_t place = some_place(length);
    switch (below(5)) {
    case 0: bytes[place] = telling_byte(); return length;
    case 1: return with_byte_at(bytes, length, place);
    case 2: return without_byte_at(bytes, length, place);
    case 3: swap_with_next(bytes, length, place); return length;
    default: return one_in(3) ? place : length;
    }
}

size_t damaged(uint8_t bytes[MOST_FILE_BYTES], size_t length) {
    for (unsigned times = 1 + below(3); times > 0; times--) length = damaged_once(bytes, length);
    return length;
}

/* ---- entries to write */

static int32_t some_volume(void) {
    if (one_in(2)) return (int32_t)ONE_OF(0, 1, -1, 5, 999, -999, 1000, -1000, 9999, 10000, -100000, 99999999, -99999999);
    return (int32_t)between(-GHENDUFIKA_MOST_VOLUME, GHENDUFIKA_MOST_VOLUME);
}

static void spoil_an_entry(ghendufika_entry *entry) {
    if (one_in(2)) entry->period = (uint8_t)ONE_OF(100, 101, 128, 199, 255);
    else entry->volume = (int32_t)ONE_OF(100000000, -100000000, 2147483647, GHENDUFIKA_MARK, 134217728);
}

ghendufika_spreadsheet some_spreadsheet(void) {
    ghendufika_spreadsheet some;
    fill_with_chance(&some, sizeof some);
    some.count = (uint8_t)(one_in(8) ? ONE_OF(51, 52, 64, 255) : one_in(4) ? ONE_OF(48, 49, 50, 50) : below(6));
    for (unsigned entry = 0; entry < some.count && entry < GHENDUFIKA_MOST_ENTRIES; entry++)
        some.entries[entry] = (ghendufika_entry){(uint8_t)(one_in(3) ? ONE_OF(0, 1, 9, 10, 99) : below(100)), some_volume()};
    if (one_in(5) && some.count > 0 && some.count <= GHENDUFIKA_MOST_ENTRIES)
        spoil_an_entry(&some.entries[one_in(2) ? some.count - 1u : below(some.count)]);
    return some;
}

/* ---- the second program's */

struct spreadsheet told_spreadsheet(const ghendufika_spreadsheet *spreadsheet) {
    struct spreadsheet told = {.count = spreadsheet->count};
    for (unsigned entry = 0; entry < MOST_ENTRIES; entry++)
        told.entry[entry] = (struct entry){spreadsheet->entries[entry].period, spreadsheet->entries[entry].volume};
    return told;
}

bool is_as_second(const ghendufika_spreadsheet *spreadsheet, const struct spreadsheet *second) {
    if (spreadsheet->count != second->count) return false;
    for (unsigned k = 0; k < MOST_ENTRIES; k++)
        if (spreadsheet->entries[k].period != second->entry[k].period || spreadsheet->entries[k].volume != second->entry[k].volume) return false;
    return true;
}

/* Spreadsheets (document 02, A5): read, and written, each against the second program; and what must hold between the two without it. */
#include "exports.h"

#include "called.h"
#include "chance.h"
#include "files.h"
#include "lending.h"
#include "numbers.h"

#include <string.h>

static uint8_t made[MOST_FILE_BYTES];

/* A few bytes of the alphabet that the rules name, or any at all. */
static size_t some_short_string(void) {
    static const uint8_t named[] = {'p', 'e', 'm', '0', '1', '9', '-', '.', '"', ',', '\r', '\n', '\t', 127, 128};
    size_t length = below(24);
    fill_with_chance(made, length);
    for (size_t k = 0; k < length && !one_in(8); k++) made[k] = named[below(sizeof named)];
    return length;
}

/* Right as often as damaged; the refusals come of the second. */
static size_t some_spreadsheet_bytes(void) {
    if (one_in(10)) return some_short_string();
    size_t length = some_file(made);
    return one_in(2) ? length : damaged(made, length);
}

static ghendufika_spreadsheet_read read_lent(void) {
    ask("ghendufika_read_spreadsheet", SAY_BYTES);
    ghendufika_spreadsheet_read read = ghendufika_read_spreadsheet(asked.bytes, asked.length);
    note(&seen_read_spreadsheet, read.answer);
    if (read.answer != DONE) note(&seen_refused_at, read.place == asked.length);
    return read;
}

void try_read_spreadsheet(void) {
    struct spreadsheet told;
    size_t place;
    lend_bytes(made, some_spreadsheet_bytes());
    enum answer expected = read_spreadsheet(made, asked.length, &told, &place);
    ghendufika_spreadsheet_read read = read_lent();
    must(read.answer == expected, "the answer to reading a spreadsheet is the second program's");
    must(read.place == place, "the place at which a spreadsheet was decided is the second program's");
    must(is_as_second(&read.spreadsheet, &told), "the entries of a spreadsheet are the second program's, and zero past the count and with a refusal");
}

static ghendufika_spreadsheet_written write_lent(const ghendufika_spreadsheet *spreadsheet, size_t room) {
    asked.spreadsheet = *spreadsheet;
    asked.room[0] = room;
    uint8_t *out = lend_buffer(0, room);
    ask("ghendufika_write_spreadsheet", SAY_SPREADSHEET | SAY_ROOM);
    ghendufika_spreadsheet_written written = ghendufika_write_spreadsheet(*spreadsheet, out, room);
    note(&seen_write_spreadsheet, written.answer);
    return written;
}

/* None, that of the header alone, its own, or one more or less. */
static size_t some_room(size_t whole) {
    if (one_in(3)) return one_in(2) ? below(MOST_SPREADSHEET_BYTES + 8) : (size_t)ONE_OF(0, 1, 10, 11, 12);
    return whole + (size_t)ONE_OF(0, 0, 1, 5, whole > 0 ? -1 : 0);
}

void try_write_spreadsheet(void) {
    uint8_t text[MOST_SPREADSHEET_BYTES];
    size_t whole, length;
    ghendufika_spreadsheet spreadsheet = some_spreadsheet();
    struct spreadsheet told = told_spreadsheet(&spreadsheet);
    write_spreadsheet(&told, text, sizeof text, &whole);
    size_t room = some_room(whole);
    enum answer expected = write_spreadsheet(&told, text, room < sizeof text ? room : sizeof text, &length);
    ghendufika_spreadsheet_written written = write_lent(&spreadsheet, room);
    must(written.answer == expected, "entries are refused to be written as a spreadsheet by 23 and 24, in this order");
    must(written.length == length, "the length of a spreadsheet is the second program's, and 0 with a refusal");
    check_buffer(0, length);
    must(memcmp(buffers[0].part.to_read, text, length) == 0, "a spreadsheet is written as the second program writes it");
}

/* ---- laws */

static bool same_spreadsheet(const ghendufika_spreadsheet *one, const ghendufika_spreadsheet *other) {
    struct spreadsheet told = told_spreadsheet(other);
    return is_as_second(one, &told);
}

/* However a file spells its entries, what is written of them reads as they did. */
void law_spreadsheet_that_was_written_reads_back(void) {
    lend_bytes(made, some_file(made));
    ghendufika_spreadsheet_read read = read_lent();
    if (read.answer != DONE) return;
    ghendufika_spreadsheet_written written = write_lent(&read.spreadsheet, MOST_SPREADSHEET_BYTES);
    must(written.answer == DONE, "what was read can be written");
    lend_bytes(buffers[0].part.to_read, written.length);
    ghendufika_spreadsheet_read back = read_lent();
    must(back.answer == DONE && back.place == written.length && same_spreadsheet(&back.spreadsheet, &read.spreadsheet),
         "a spreadsheet that was written reads back to the same entries");
}

/* "at the first byte .. by which no valid file can begin so": what is behind that byte is not looked at. */
void law_refusal_at_a_byte_is_decided_by_what_comes_before(void) {
    lend_bytes(made, damaged(made, some_file(made)));
    ghendufika_spreadsheet_read read = read_lent();
    if (read.place == asked.length) return;
    size_t behind = below(20);
    fill_with_chance(made + read.place + 1, behind);
    lend_bytes(made, read.place + 1 + behind);
    ghendufika_spreadsheet_read other = read_lent();
    must(other.answer == read.answer && other.place == read.place, "a refusal at a byte is the same whatever is behind it");
}

/* The beginning of a valid file is one itself, or is refused at its end. */
void law_beginning_of_a_spreadsheet_is_refused_at_its_end_alone(void) {
    lend_bytes(made, some_file(made));
    if (read_lent().answer != DONE) return;
    lend_bytes(made, below((uint32_t)asked.length + 1));
    must(read_lent().place == asked.length, "the beginning of a valid spreadsheet is refused at its end, if at all");
}

/* count WHO JOB TIMES: does one job of reading so often and little else, for a counter of instructions (instructions, beside this file). WHO is ours or C;
 * JOB is refusal, length, whole, fields, run or nothing, or of spreadsheets read, written, refused or header. What else it does is the same for every number
 * of times, so the difference of two is the job's and, but for run, that of a turn of the loop, which nothing does alone. Leaves with 2 where it was called
 * wrongly, with 1 where the job was not done. */
#include "inputs.h"
#include "twin.h"

#include <stdlib.h>
#include <string.h>

enum { SLOTS = 4, PLACES = SLOTS * GHENDUFIKA_PLACES_A_DAY, MOST_TIMES = 100 };

static uint32_t held[SLOTS];
static int32_t side1[PLACES], side2[PLACES];
static uint8_t answers[MOST_TIMES], places[MOST_TIMES];
static ghendufika_message_read last;

/* One message, by one of the questions: what each gives shows whether it was refused. */
static bool ours_refuses(const uint8_t *bytes, size_t length) { return ghendufika_message_refusal(bytes, length) != 0; }
static bool twin_refuses(const uint8_t *bytes, size_t length) { return twin_message_refusal(bytes, length) != 0; }
static bool ours_is_empty(const uint8_t *bytes, size_t length) { return ghendufika_message_length(bytes, length) == 0; }
static bool twin_is_empty(const uint8_t *bytes, size_t length) { return twin_message_length(bytes, length) == 0; }

static bool ours_reads_none(const uint8_t *bytes, size_t length) {
    last = ghendufika_read_message(bytes, length);
    return last.answer != 0;
}

static bool twin_reads_none(const uint8_t *bytes, size_t length) {
    last = twin_read_message(bytes, length);
    return last.answer != 0;
}

static bool no_entries(int64_t (*field)(const uint8_t *, size_t, uint32_t), const uint8_t *bytes, size_t length) {
    int64_t all = 0;
    for (uint32_t k = 0; k <= GHENDUFIKA_FIELD_COUNT; k++) all |= field(bytes, length, k);
    for (uint32_t k = 0; k < GHENDUFIKA_MOST_ENTRIES; k++) {
        all |= field(bytes, length, GHENDUFIKA_FIELD_PERIOD(k));
        all |= field(bytes, length, GHENDUFIKA_FIELD_VOLUME(k));
    }
    return all == 0;
}

static bool ours_has_no_fields(const uint8_t *bytes, size_t length) { return no_entries(ghendufika_message_field, bytes, length); }
static bool twin_has_no_fields(const uint8_t *bytes, size_t length) { return no_entries(twin_message_field, bytes, length); }
static bool nothing(const uint8_t *bytes, size_t length) { return bytes == NULL && length == 0; }

typedef struct {
    const char *name;
    bool (*fails[2])(const uint8_t *, size_t);
} question;

static const question questions[] = {{"refusal", {twin_refuses, ours_refuses}},
                                     {"length", {twin_is_empty, ours_is_empty}},
                                     {"whole", {twin_reads_none, ours_reads_none}},
                                     {"fields", {twin_has_no_fields, ours_has_no_fields}},
                                     {"nothing", {nothing, nothing}}};

static bool run_fails(bool ours, ghendufika_book book, const uint8_t *bytes, size_t length, size_t messages) {
    ghendufika_applied_all done = ours ? ghendufika_apply_all(book, bytes, length, held, SLOTS, side1, PLACES, side2, PLACES, answers, MOST_TIMES, places, MOST_TIMES)
                                       : twin_apply_all(book, bytes, length, held, SLOTS, side1, PLACES, side2, PLACES, answers, MOST_TIMES, places, MOST_TIMES);
    return done.answer != 0 || done.done != messages;
}

static int ask(const question *q, bool ours, const run_of_messages *run, size_t times) {
    size_t one = run->length / run->messages;
    bool failed = false;
    for (size_t k = 0; k < times; k++) failed |= q->fails[ours](run->bytes + k * one, run->length - k * one);
    return failed ? 1 : 0;
}

/* ---- spreadsheets, of which there are as many as there are times */

_Static_assert((int)MOST_TIMES <= (int)SPREADSHEETS, "there are too few spreadsheets");

static spreadsheets texts;
static ghendufika_spreadsheet sheets[SPREADSHEETS];

static size_t start_of(size_t k) { return k == 0 ? 0 : texts.ends[k - 1]; }

static int read_texts(bool ours, bool refused, size_t times) {
    ghendufika_spreadsheet_read (*read)(const uint8_t *, size_t) = ours ? ghendufika_read_spreadsheet : twin_read_spreadsheet;
    bool failed = false;
    for (size_t k = 0; k < times; k++) failed |= (read(texts.bytes + start_of(k), texts.ends[k] - start_of(k)).answer != 0) != refused;
    return failed ? 1 : 0;
}

static int write_sheets(bool ours, size_t times) {
    ghendufika_spreadsheet_written (*write)(ghendufika_spreadsheet, uint8_t *, size_t) = ours ? ghendufika_write_spreadsheet : twin_write_spreadsheet;
    uint8_t text[GHENDUFIKA_MOST_SPREADSHEET_BYTES];
    bool failed = false;
    for (size_t k = 0; k < SPREADSHEETS; k++) sheets[k] = twin_read_spreadsheet(texts.bytes + start_of(k), texts.ends[k] - start_of(k)).spreadsheet;
    for (size_t k = 0; k < times; k++) failed |= write(sheets[k], text, sizeof text).answer != 0;
    return failed ? 1 : 0;
}

/* A job of spreadsheets, or 2 where there is none of that name. */
static int count_spreadsheets(const char *job, bool ours, size_t times) {
    bool refused = strcmp(job, "refused") == 0;
    if (refused) write_refused_spreadsheets(&texts, GHENDUFIKA_MOST_ENTRIES);
    else write_spreadsheets(&texts, strcmp(job, "header") == 0 ? 0 : GHENDUFIKA_MOST_ENTRIES);
    if (strcmp(job, "written") == 0) return write_sheets(ours, times);
    return refused || strcmp(job, "read") == 0 || strcmp(job, "header") == 0 ? read_texts(ours, refused, times) : 2;
}

int main(int argc, char **argv) {
    if (argc != 4 || atoi(argv[3]) < 1 || atoi(argv[3]) > MOST_TIMES) return 2;
    bool ours = strcmp(argv[1], "ours") == 0;
    if (!ours && strcmp(argv[1], "C") != 0) return 2;
    size_t times = (size_t)atoi(argv[3]);
    ghendufika_setup setup = setup_of(SLOTS, 1);
    setup.codes[0] = 2; /* a day of 50 periods */
    ghendufika_opened opened = ghendufika_open(setup, held, SLOTS, side1, PLACES, side2, PLACES);
    run_of_messages run = full_notifications(&setup, MOST_TIMES);
    if (opened.answer != 0) return 1;
    if (strcmp(argv[2], "run") == 0) return run_fails(ours, opened.book, run.bytes, run.length / run.messages * times, times) ? 1 : 0;
    for (size_t k = 0; k < sizeof questions / sizeof *questions; k++)
        if (strcmp(argv[2], questions[k].name) == 0) return ask(&questions[k], ours, &run, times);
    return count_spreadsheets(argv[2], ours, times);
}

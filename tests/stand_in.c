/* What the Python programs of examples/ ask of the archive, answered by the independent program of reference/: on a machine whose Python cannot load the
 * archive's x86-64 code this stands in for it, so that they themselves are tested everywhere. One book at a time, the one that was opened last. It has
 * the spreadsheets too (document 02, A5), so that a program on them can be tried without the archive. */
#include "ghendufika.h"
#include "reference.h"
#include "spreadsheet.h"

#include <string.h>

static struct book standing;

static void write_tables(uint32_t *held, int32_t *side1, int32_t *side2) {
    size_t row = standing.setup.days * (size_t)MOST_PERIODS;
    for (unsigned slot = 0; slot < standing.slots; slot++) {
        const struct identifier *one = &standing.slot[slot];
        held[slot] = one->held ? 1 + one->originator * 65536u + one->reference : 0;
        memcpy(side1 + slot * row, standing.side[0][slot], row * sizeof side1[0]);
        memcpy(side2 + slot * row, standing.side[1][slot], row * sizeof side2[0]);
    }
}

/* ---- setups, with the calendar and without it */

static ghendufika_setup setup_given(const struct setup *setup) {
    ghendufika_setup given = {.first = (uint16_t)setup->first_day, .days = (uint8_t)setup->days, .accounts = (uint8_t)setup->accounts,
                              .authorisations = (uint8_t)setup->authorisations};
    for (unsigned day = 0; day < setup->days; day++) given.codes[day] = (uint8_t)setup->day_code[day];
    for (unsigned k = 0; k < setup->authorisations; k++) {
        const struct authorisation *row = &setup->authorisation[k];
        given.rows[k] = (ghendufika_authorisation){(uint8_t)row->agent[0], (uint8_t)row->agent[1], (uint8_t)row->account[0], (uint8_t)row->account[1],
                                                   (uint16_t)row->key, (uint16_t)row->first_day, (uint16_t)row->last_day, (uint8_t)row->type};
    }
    return given;
}

/* Of more days or authorisations than there can be, which is refused, those that there is room for. */
static struct setup setup_told(const ghendufika_setup *setup) {
    struct setup told = {.first_day = setup->first, .days = setup->days, .accounts = setup->accounts, .authorisations = setup->authorisations};
    for (unsigned day = 0; day < setup->days && day < MOST_DAYS; day++) told.day_code[day] = setup->codes[day];
    for (unsigned k = 0; k < setup->authorisations && k < MOST_AUTHORISATIONS; k++) {
        const ghendufika_authorisation *row = &setup->rows[k];
        told.authorisation[k] = (struct authorisation){{row->agent1, row->agent2}, {row->account1, row->account2}, row->key, row->first, row->last, row->amendment};
    }
    return told;
}

typedef enum answer reading(const uint8_t *bytes, size_t length, struct setup *setup, size_t *used);
typedef enum answer opening(struct book *book, const struct setup *setup, unsigned slots);

static ghendufika_setup_read read_by(reading *reader, const uint8_t *bytes, size_t length, size_t slots, size_t lent1, size_t lent2) {
    ghendufika_setup_read read = {0};
    struct setup setup;
    read.answer = (uint8_t)reader(bytes, length, &setup, &read.length);
    if (read.answer != 0) return read;
    if (lent1 != slots * setup.days * MOST_PERIODS || lent2 != lent1) return (ghendufika_setup_read){.answer = 17};
    read.setup = setup_given(&setup);
    return read;
}

static ghendufika_opened open_by(opening *opener, const ghendufika_setup *setup, uint32_t *held, size_t slots, int32_t *side1, int32_t *side2) {
    struct setup told = setup_told(setup);
    ghendufika_opened opened = {.answer = (uint8_t)opener(&standing, &told, (unsigned)slots)};
    if (opened.answer != 0) return opened;
    opened.book.setup = *setup;
    write_tables(held, side1, side2);
    return opened;
}

ghendufika_setup_read ghendufika_read_setup(const uint8_t *bytes, size_t length, size_t slots, size_t lent1, size_t lent2) {
    return read_by(read_setup, bytes, length, slots, lent1, lent2);
}

ghendufika_setup_read ghendufika_read_setup_checked(const uint8_t *bytes, size_t length, size_t slots, size_t lent1, size_t lent2) {
    return read_by(read_checked_setup, bytes, length, slots, lent1, lent2);
}

ghendufika_opened ghendufika_open(ghendufika_setup setup, uint32_t *held, size_t slots, int32_t *side1, size_t lent1, int32_t *side2, size_t lent2) {
    (void)lent1, (void)lent2;
    return open_by(open_book, &setup, held, slots, side1, side2);
}

ghendufika_opened ghendufika_open_checked(ghendufika_setup setup, uint32_t *held, size_t slots, int32_t *side1, size_t lent1, int32_t *side2, size_t lent2) {
    (void)lent1, (void)lent2;
    return open_by(open_checked_book, &setup, held, slots, side1, side2);
}

ghendufika_opened_packed ghendufika_open_packed_checked(const uint8_t *bytes, size_t length, uint32_t *held, size_t slots, int32_t *side1, size_t lent1, int32_t *side2,
                                                        size_t lent2) {
    ghendufika_setup_read read = read_by(read_checked_setup, bytes, length, slots, lent1, lent2);
    if (read.answer != 0) return (ghendufika_opened_packed){.answer = read.answer};
    ghendufika_opened opened = open_by(open_checked_book, &read.setup, held, slots, side1, side2);
    return (ghendufika_opened_packed){.answer = opened.answer, .length = read.length, .book = opened.book};
}

/* ---- the calendar */

ghendufika_measured ghendufika_day_length(uint32_t day) {
    unsigned periods;
    uint8_t answer = (uint8_t)calendar_length(day, &periods);
    return (ghendufika_measured){answer, (uint8_t)periods};
}

ghendufika_coded ghendufika_code_of_day(uint32_t day) {
    unsigned code;
    uint8_t answer = (uint8_t)calendar_code(day, &code);
    return (ghendufika_coded){answer, (uint8_t)code};
}

ghendufika_numbered ghendufika_day_of_date(uint32_t year, uint32_t month, uint32_t day) {
    unsigned number;
    uint8_t answer = (uint8_t)day_of_date(year, month, day, &number);
    return (ghendufika_numbered){answer, (uint16_t)number};
}

ghendufika_dated ghendufika_date_of_day(uint32_t day) {
    struct date date;
    uint8_t answer = (uint8_t)date_of_day(day, &date);
    return (ghendufika_dated){answer, {(uint16_t)date.year, (uint8_t)date.month, (uint8_t)date.day}};
}

ghendufika_proposed ghendufika_propose_codes(uint32_t first, uint32_t days) {
    unsigned code[MOST_DAYS];
    ghendufika_proposed proposed = {.answer = (uint8_t)propose_codes(first, days, code)};
    for (unsigned day = 0; day < MOST_DAYS; day++) proposed.codes[day] = (uint8_t)code[day];
    return proposed;
}

/* ---- messages: of the fields those that say what was wrong with an entry */

size_t ghendufika_message_length(const uint8_t *bytes, size_t length) {
    struct message message;
    size_t used;
    read_message(bytes, length, &message, &used);
    return used;
}

static int64_t entry_field(const struct notification *notification, uint32_t field) {
    uint32_t entry = field % 100;
    if (entry >= notification->count) return 0;
    if (field == GHENDUFIKA_FIELD_PERIOD(entry)) return notification->entry[entry].period;
    return field == GHENDUFIKA_FIELD_VOLUME(entry) ? notification->entry[entry].volume : 0;
}

int64_t ghendufika_message_field(const uint8_t *bytes, size_t length, uint32_t field) {
    struct message message;
    size_t used;
    if (read_message(bytes, length, &message, &used) != DONE || message.kind != NOTIFICATION) return 0;
    switch (field) {
    case GHENDUFIKA_FIELD_FIRST_DAY: return message.notification.first_day;
    case GHENDUFIKA_FIELD_LAST_DAY: return message.notification.last_day;
    case GHENDUFIKA_FIELD_COUNT: return message.notification.count;
    default: return entry_field(&message.notification, field);
    }
}

/* ---- spreadsheets */

ghendufika_spreadsheet_read ghendufika_read_spreadsheet(const uint8_t *bytes, size_t length) {
    ghendufika_spreadsheet_read read = {0};
    struct spreadsheet spreadsheet;
    read.answer = (uint8_t)read_spreadsheet(bytes, length, &spreadsheet, &read.place);
    read.spreadsheet.count = (uint8_t)spreadsheet.count;
    for (unsigned entry = 0; entry < spreadsheet.count; entry++)
        read.spreadsheet.entries[entry] = (ghendufika_entry){(uint8_t)spreadsheet.entry[entry].period, spreadsheet.entry[entry].volume};
    return read;
}

ghendufika_spreadsheet_written ghendufika_write_spreadsheet(ghendufika_spreadsheet spreadsheet, uint8_t *out, size_t room) {
    ghendufika_spreadsheet_written written = {0};
    struct spreadsheet told = {.count = spreadsheet.count};
    for (unsigned entry = 0; entry < MOST_ENTRIES; entry++)
        told.entry[entry] = (struct entry){spreadsheet.entries[entry].period, spreadsheet.entries[entry].volume};
    written.answer = (uint8_t)write_spreadsheet(&told, out, room, &written.length);
    return written;
}

/* ---- calls and questions */

/* The place of an entry at fault is a notification's alone. */
static uint8_t obey(const struct message *message, uint8_t *place) {
    struct acceptance acceptance;
    *place = 0;
    if (message->kind == GATE) return (uint8_t)close_gate(&standing);
    if (message->kind == NULLIFICATION) return (uint8_t)nullify(&standing, &message->nullification);
    uint8_t answer = (uint8_t)notify(&standing, &message->notification, &acceptance);
    *place = (uint8_t)acceptance.place;
    return answer;
}

ghendufika_applied_all ghendufika_apply_all(ghendufika_book book, const uint8_t *bytes, size_t length, uint32_t *held, size_t slots, int32_t *side1, size_t lent1,
                                            int32_t *side2, size_t lent2, uint8_t *answers, size_t room, uint8_t *places, size_t places_room) {
    ghendufika_applied_all all = {.book = book};
    bool readable = true;
    while (readable && all.used < length && all.done < room && all.done < places_room) {
        struct message message;
        size_t used;
        uint8_t answer = (uint8_t)read_message(bytes + all.used, length - all.used, &message, &used), place = 0;
        readable = answer == 0;
        answers[all.done] = readable ? obey(&message, &place) : answer;
        places[all.done++] = place;
        all.used += used;
    }
    (void)slots, (void)lent1, (void)lent2;
    all.book.closed = (uint16_t)standing.gates_closed;
    write_tables(held, side1, side2);
    return all;
}

ghendufika_figured ghendufika_figures(ghendufika_book book, const uint32_t *held, size_t slots, const int32_t *side1, size_t lent1, const int32_t *side2,
                                      size_t lent2, uint32_t account, uint32_t day) {
    struct day_figures figures;
    (void)book, (void)held, (void)slots, (void)side1, (void)lent1, (void)side2, (void)lent2;
    uint8_t answer = (uint8_t)ask_day_figures(&standing, account, day, &figures);
    return (ghendufika_figured){answer, {figures.sold, figures.bought, figures.net}};
}

uint8_t ghendufika_day_marks(ghendufika_book book, const uint32_t *held, size_t slots, const int32_t *side1, size_t lent1, const int32_t *side2, size_t lent2,
                             uint32_t originator, uint32_t reference, uint32_t account, uint32_t day, uint8_t *cases, size_t case_room, double *firsts,
                             size_t first_room, double *seconds, size_t second_room) {
    uint8_t answer = 0;
    (void)held, (void)slots, (void)side1, (void)lent1, (void)side2, (void)lent2, (void)case_room, (void)first_room, (void)second_room;
    for (unsigned period = 1; answer == 0 && period <= day_length(&standing.setup, day - book.setup.first); period++) {
        struct mark mark;
        answer = (uint8_t)ask_mark(&standing, originator, reference, account, day, period, &mark);
        cases[period - 1] = (uint8_t)mark.mark_case;
        firsts[period - 1] = mark.first;
        seconds[period - 1] = mark.second;
    }
    return answer;
}

/* The exports that pack and unpack structs, and opening from a packed setup. They are compiled where the header has them. */
#include "exports.h"

#include "called.h"
#include "chance.h"
#include "lending.h"
#include "numbers.h"
#include "packing.h"
#include "second.h"

#include <string.h>


static uint8_t made[MOST_BYTES];
static const ghendufika_book no_book;

/* ---- messages by value */

static bool same_entries(const ghendufika_entry *one, const ghendufika_entry *other) {
    for (unsigned entry = 0; entry < GHENDUFIKA_MOST_ENTRIES; entry++)
        if (one[entry].period != other[entry].period || one[entry].volume != other[entry].volume) return false;
    return true;
}

static bool same_notification(const ghendufika_notification *one, const ghendufika_notification *other) {
    return one->authorisation == other->authorisation && one->agent == other->agent && one->key == other->key && one->originator == other->originator
        && one->reference == other->reference && one->first == other->first && one->last == other->last && one->count == other->count
        && same_entries(one->entries, other->entries);
}

static bool same_message(const ghendufika_message *one, const ghendufika_message *other) {
    return one->kind == other->kind && one->nullification.account == other->nullification.account
        && one->nullification.other == other->nullification.other && one->nullification.first == other->nullification.first
        && same_notification(&one->notification, &other->notification);
}

static ghendufika_message message_of_second(const struct message *m) {
    ghendufika_message ours = {0};
    const struct notification *n = &m->notification;
    ours.kind = (uint8_t)m->kind;
    ours.notification = (ghendufika_notification){(uint8_t)n->authorisation, (uint8_t)n->agent, (uint16_t)n->key, (uint8_t)n->originator,
                                                  (uint16_t)n->reference, (uint16_t)n->first_day, (uint16_t)n->last_day, (uint8_t)n->count, {{0, 0}}};
    for (unsigned entry = 0; entry < MOST_ENTRIES; entry++)
        ours.notification.entries[entry] = (ghendufika_entry){(uint8_t)n->entry[entry].period, n->entry[entry].volume};
    ours.nullification = (ghendufika_nullification){(uint8_t)m->nullification.account[0], (uint8_t)m->nullification.account[1], (uint16_t)m->nullification.first_day};
    return ours;
}

static ghendufika_message_written write_to(const ghendufika_message *message, size_t room) {
    asked.kind = message->kind;
    asked.notification = message->notification;
    asked.nullification.account = message->nullification.account;
    asked.nullification.other = message->nullification.other;
    asked.nullification.first = message->nullification.first;
    asked.room[0] = room;
    uint8_t *out = lend_buffer(0, room);
    ask("ghendufika_write_message", SAY_KIND | SAY_NOTIFICATION | SAY_NULLIFICATION | SAY_ROOM);
    ghendufika_message_written written = ghendufika_write_message(*message, out, room);
    note(&seen_write_message, written.answer);
    return written;
}

void try_read_message(void) {
    struct message told = {0};
    size_t used;
    lend_bytes(made, some_message_bytes(&model, made));
    enum answer expected = read_message(made, asked.length, &told, &used);
    ask("ghendufika_read_message", SAY_BYTES);
    ghendufika_message_read read = ghendufika_read_message(asked.bytes, asked.length);
    note(&seen_read_message, read.answer);
    must(read.answer == expected, "the answer to reading a message is the second program's");
    must(read.length == used, "the length of a message that is read is the second program's, and 0 with a refusal");
    ghendufika_message wanted = message_of_second(&told);
    must(same_message(&read.message, &wanted), "the message that is read is the second program's, and all zero with a refusal");
    if (read.answer != DONE) return;
    ghendufika_message_written written = write_to(&read.message, used);
    must(written.answer == DONE && written.length == used && memcmp(buffers[0].part.to_read, made, used) == 0, "a message that was read is written as it was");
}

/* Document 01: "23: a value does not fit its field, or more than 50 entries to write", with the widths of "Packed messages". */
static bool notification_fits(const ghendufika_notification *n) {
    if (n->authorisation > 63 || n->originator > 63 || n->count > 50) return false;
    for (unsigned entry = 0; entry < n->count; entry++)
        if (n->entries[entry].period > 63 || n->entries[entry].volume < -(1 << 27) || n->entries[entry].volume >= 1 << 27) return false;
    return true;
}

static bool message_fits(const ghendufika_message *m) {
    switch (m->kind) {
    case GHENDUFIKA_GATE: return true;
    case GHENDUFIKA_NOTIFICATION: return notification_fits(&m->notification);
    case GHENDUFIKA_NULLIFICATION: return m->nullification.account <= 63 && m->nullification.other <= 63;
    default: return false;
    }
}

/* "a message of kind 3 gives 20 first"; "after these 23, then 24". */
static unsigned writing_expected(const ghendufika_message *m, size_t room, size_t *length) {
    *length = 0;
    if (m->kind == 3) return 20;
    if (!message_fits(m)) return 23;
    struct message told = {m->kind, told_notification(&m->notification), told_nullification(&m->nullification)};
    size_t whole = pack_message(&told, made);
    if (room < whole) return 24;
    *length = whole;
    return 0;
}

/* What its kind lacks and what is past its count is no part of it, and comes back as zero. */
static ghendufika_message settled(const ghendufika_message *m) {
    ghendufika_message kept = {0};
    kept.kind = m->kind;
    if (m->kind == GHENDUFIKA_NULLIFICATION) kept.nullification = m->nullification;
    if (m->kind != GHENDUFIKA_NOTIFICATION) return kept;
    kept.notification = m->notification;
    for (unsigned entry = m->notification.count; entry < GHENDUFIKA_MOST_ENTRIES; entry++) kept.notification.entries[entry] = (ghendufika_entry){0, 0};
    return kept;
}

static ghendufika_message some_message(void) {
    ghendufika_message m = {0};
    m.kind = (uint8_t)ONE_OF(0, 1, 1, 1, 1, 2, 2, 3, 4, 255);
    m.notification = some_notification(&model);
    m.nullification = some_nullification(&model);
    if (one_in(12)) m.notification.entries[0] = (ghendufika_entry){(uint8_t)ONE_OF(63, 64, 1), (int32_t)ONE_OF(134217727, 134217728, -134217728, -134217729)};
    return m;
}

void try_write_message(void) {
    size_t length, whole;
    ghendufika_message message = some_message();
    writing_expected(&message, SIZE_MAX, &whole);
    size_t room = one_in(3) ? below(230) : whole + (size_t)ONE_OF(0, 0, 1, 5, whole > 0 ? -1 : 0);
    unsigned expected = writing_expected(&message, room, &length);
    ghendufika_message_written written = write_to(&message, room);
    must(written.answer == expected, "a message is refused to be written by 20, 23 and 24, in this order");
    must(written.length == length, "the length that is written is that of the layout, and 0 with a refusal");
    check_buffer(0, length);
    must(memcmp(buffers[0].part.to_read, made, length) == 0, "a message is written as the second program's packing lays it out");
    if (expected != DONE) return;
    ask("ghendufika_read_message", SAY_KIND | SAY_NOTIFICATION | SAY_NULLIFICATION | SAY_ROOM);
    ghendufika_message_read read = ghendufika_read_message(buffers[0].part.to_read, room);
    note(&seen_read_message, read.answer);
    ghendufika_message wanted = settled(&message);
    must(read.answer == DONE && read.length == length && same_message(&read.message, &wanted), "a message that was written reads back");
}

/* ---- setups */

/* 17 with the lent lengths aside, and 18, are those of opening; a setup that passes them fits its fields. */
static unsigned setup_writing_expected(const struct setup *told, size_t room, size_t *length) {
    *length = 0;
    enum answer wrong = open_book(&second, told, 1);
    if (wrong != DONE) return wrong;
    size_t whole = pack_setup(told, made);
    if (room < whole) return 24;
    *length = whole;
    return 0;
}

static void check_setup_reads_back(const struct setup *told, size_t length) {
    size_t places = (size_t)told->days * GHENDUFIKA_PLACES_A_DAY;
    ask("ghendufika_read_setup", SAY_SETUP | SAY_ROOM);
    ghendufika_setup_read read = ghendufika_read_setup(buffers[0].part.to_read, buffers[0].part.length, 1, places, places);
    note(&seen_read_setup, read.answer);
    ghendufika_setup wanted = setup_of_second(told);
    must(read.answer == DONE && read.length == length && same_setup(&read.setup, &wanted), "a setup that was written reads back");
}

void try_write_setup(void) {
    size_t length;
    asked.setup = right_setup();
    if (one_in(3)) spoil_setup(&asked.setup);
    struct setup told = told_setup(&asked.setup);
    asked.room[0] = one_in(3) ? below(100) : (34 + 2u * asked.setup.days + 78u * (asked.setup.authorisations % 65u) + 7) / 8 + (size_t)ONE_OF(0, 0, -1, 1, 9);
    unsigned expected = setup_writing_expected(&told, asked.room[0], &length);
    uint8_t *out = lend_buffer(0, asked.room[0]);
    ask("ghendufika_write_setup", SAY_SETUP | SAY_ROOM);
    ghendufika_setup_written written = ghendufika_write_setup(asked.setup, out, asked.room[0]);
    note(&seen_write_setup, written.answer);
    must(written.answer == expected, "a setup is refused to be written by 17, 18 and 24, in this order");
    must(written.length == length, "the length of a setup that is written is that of the layout, and 0 with a refusal");
    check_buffer(0, length);
    must(memcmp(buffers[0].part.to_read, made, length) == 0, "a setup is written as the second program's packing lays it out");
    if (expected == DONE) check_setup_reads_back(&told, length);
}

/* ---- opening from bytes */

/* A packed setup opened as it is, or held against the calendar. */
struct packed_opening {
    const char *name;
    struct seen *seen;
    size_t (*some_bytes)(uint8_t bytes[MOST_BYTES]);
    setup_reader *read_by_second;
    enum answer (*open_by_second)(struct book *book, const struct setup *setup, unsigned slots);
    ghendufika_opened_packed (*open)(const uint8_t *bytes, size_t length, uint32_t *held, size_t slots, int32_t *side1, size_t lent1, int32_t *side2, size_t lent2);
};

static void try_packed_opening(const struct packed_opening *opening) {
    struct setup setup = {0};
    size_t used;
    lend_bytes(made, opening->some_bytes(made));
    ghendufika_setup days_alone = {.days = (uint8_t)(asked.length > 2 ? made[2] >> 4 : 1)};
    make_tables_for(&days_alone);
    asked.slots = before.slots;
    asked.lent1 = before.lent1;
    asked.lent2 = before.lent2;
    struct handed handed = {made, asked.length, before.slots, before.lent1, before.lent2};
    enum answer expected = setup_expected(opening->read_by_second, &handed, &setup, &used);
    if (expected == DONE) expected = opening->open_by_second(&second, &setup, (unsigned)before.slots);
    ask(opening->name, SAY_BYTES | SAY_LENGTHS);
    ghendufika_opened_packed opened = opening->open(asked.bytes, asked.length, TABLES_TO_CHANGE);
    note(opening->seen, opened.answer);
    must(opened.answer == expected, "the answer to opening a packed setup is the second program's reading, and then its opening");
    must(opened.length == used, "the length of a setup that is opened is the second program's, and 0 with a refusal");
    ghendufika_book wanted = no_book;
    if (expected == DONE) wanted.setup = setup_of_second(&setup);
    must(same_book(&opened.book, &wanted), "the book opened has the setup that was packed and no gate closed; it is all zero with a refusal");
    check_tables(opened.answer);
}

void try_open_packed(void) {
    try_packed_opening(&(const struct packed_opening){"ghendufika_open_packed", &seen_open_packed, some_setup_bytes, read_setup, open_book, ghendufika_open_packed});
}

void try_open_packed_checked(void) {
    try_packed_opening(&(const struct packed_opening){"ghendufika_open_packed_checked", &seen_open_packed_checked, some_calendar_setup_bytes, read_checked_setup,
                                                      open_checked_book, ghendufika_open_packed_checked});
}

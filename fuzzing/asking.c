/* Questions about message bytes, and reading a setup. Bytes are lent read-only. */
#include "exports.h"

#include "called.h"
#include "chance.h"
#include "lending.h"
#include "numbers.h"
#include "second.h"

static uint8_t made[MOST_BYTES];

/* Some message bytes, lent; the second program's reading of them. */
static enum answer read_by_second(struct message *message, size_t *used) {
    *message = (struct message){0};
    lend_bytes(made, some_message_bytes(&model, made));
    return read_message(made, asked.length, message, used);
}

void try_message_refusal(void) {
    struct message message;
    size_t used;
    enum answer expected = read_by_second(&message, &used);
    ask("ghendufika_message_refusal", SAY_BYTES);
    uint8_t answer = ghendufika_message_refusal(asked.bytes, asked.length);
    note(&seen_message_refusal, answer);
    must(answer == expected, "the refusal of a message is the second program's");
}

void try_message_length(void) {
    struct message message;
    size_t used;
    read_by_second(&message, &used);
    ask("ghendufika_message_length", SAY_BYTES);
    size_t length = ghendufika_message_length(asked.bytes, asked.length);
    note(&seen_message_length, length != 0);
    must(length == used, "the length of a message is the second program's, and 0 with a refusal");
}

static int64_t notification_field(const struct notification *n, uint32_t field) {
    switch (field) {
    case GHENDUFIKA_FIELD_AUTHORISATION: return n->authorisation;
    case GHENDUFIKA_FIELD_AGENT: return n->agent;
    case GHENDUFIKA_FIELD_KEY: return n->key;
    case GHENDUFIKA_FIELD_ORIGINATOR: return n->originator;
    case GHENDUFIKA_FIELD_REFERENCE: return n->reference;
    case GHENDUFIKA_FIELD_FIRST_DAY: return n->first_day;
    case GHENDUFIKA_FIELD_LAST_DAY: return n->last_day;
    case GHENDUFIKA_FIELD_COUNT: return n->count;
    }
    for (unsigned entry = 0; entry < n->count; entry++) {
        if (field == GHENDUFIKA_FIELD_PERIOD(entry)) return n->entry[entry].period;
        if (field == GHENDUFIKA_FIELD_VOLUME(entry)) return n->entry[entry].volume;
    }
    return 0;
}

static int64_t nullification_field(const struct nullification *x, uint32_t field) {
    switch (field) {
    case GHENDUFIKA_FIELD_FIRST_DAY: return x->first_day;
    case GHENDUFIKA_FIELD_ACCOUNT: return x->account[0];
    case GHENDUFIKA_FIELD_OTHER_ACCOUNT: return x->account[1];
    default: return 0;
    }
}

/* "Entry places past the count, and fields its kind lacks ... read as zero"; "an unknown field is zero". */
static int64_t field_of(const struct message *message, uint32_t field) {
    if (field == GHENDUFIKA_FIELD_KIND) return message->kind;
    if (message->kind == NOTIFICATION) return notification_field(&message->notification, field);
    if (message->kind == NULLIFICATION) return nullification_field(&message->nullification, field);
    return 0;
}

static uint32_t some_field(void) {
    switch (below(6)) {
    case 0: return 100 + below(52);
    case 1: return 200 + below(52);
    case 2: return one_in(4) ? (uint32_t)chance() : (uint32_t)ONE_OF(11, 99, 150, 199, 250, 255, 256, 300, 65536, UINT32_MAX);
    default: return below(12);
    }
}

void try_message_field(void) {
    struct message message;
    size_t used;
    enum answer refused = read_by_second(&message, &used);
    asked.field = one_in(2) ? some_field() : (uint32_t)ONE_OF(100, 101, 200, 201) + below(3);
    ask("ghendufika_message_field", SAY_BYTES | SAY_FIELD);
    int64_t value = ghendufika_message_field(asked.bytes, asked.length, asked.field);
    note(&seen_message_field, value != 0);
    must(value == (refused == DONE ? field_of(&message, asked.field) : 0), "a field is the second program's, and 0 with a refusal");
}

/* Lent lengths for a setup of so many days: mostly right, else near to it, or so large that a product would run over 64 bits. */
static void some_lengths(size_t days) {
    static const size_t huge[] = {SIZE_MAX, (size_t)1 << 63, ((size_t)1 << 63) + 1, SIZE_MAX / 50 + 1, (size_t)1 << 32};
    asked.slots = one_in(10) ? (size_t)ONE_OF(0, 257, 300, 256, 1) : (size_t)between(1, 20);
    if (one_in(30)) asked.slots = huge[below(5)];
    asked.lent1 = asked.lent2 = asked.slots * days * GHENDUFIKA_PLACES_A_DAY;
    if (one_in(20)) asked.lent1 = one_in(4) ? huge[below(5)] : asked.lent1 + (size_t)ONE_OF(1, -1, 50, -50);
    if (one_in(20)) asked.lent2 = one_in(4) ? huge[below(5)] : asked.lent2 + (size_t)ONE_OF(1, -1, 50, -50);
}

/* Reading a setup as it is, or held against the calendar. */
struct reading {
    const char *name;
    struct seen *seen;
    size_t (*some_bytes)(uint8_t bytes[MOST_BYTES]);
    setup_reader *by_second;
    ghendufika_setup_read (*read)(const uint8_t *bytes, size_t length, size_t slots, size_t lent1, size_t lent2);
};

static void try_reading(const struct reading *reading) {
    struct setup setup;
    size_t used;
    lend_bytes(made, reading->some_bytes(made));
    some_lengths(asked.length > 2 ? made[2] >> 4 : 1);
    struct handed handed = {made, asked.length, asked.slots, asked.lent1, asked.lent2};
    enum answer expected = setup_expected(reading->by_second, &handed, &setup, &used);
    ask(reading->name, SAY_BYTES | SAY_LENGTHS);
    ghendufika_setup_read read = reading->read(asked.bytes, asked.length, asked.slots, asked.lent1, asked.lent2);
    note(reading->seen, read.answer);
    must(read.answer == expected, "the answer to a packed setup is the second program's");
    must(read.length == used, "the length of a setup is the second program's, and 0 with a refusal");
    ghendufika_setup wanted = {0};
    if (expected == DONE) wanted = setup_of_second(&setup);
    must(same_setup(&read.setup, &wanted), "the setup read is the second program's, and all zero with a refusal");
}

void try_read_setup(void) {
    try_reading(&(const struct reading){"ghendufika_read_setup", &seen_read_setup, some_setup_bytes, read_setup, ghendufika_read_setup});
}

void try_read_setup_checked(void) {
    try_reading(&(const struct reading){"ghendufika_read_setup_checked", &seen_read_setup_checked, some_calendar_setup_bytes, read_checked_setup,
                                        ghendufika_read_setup_checked});
}

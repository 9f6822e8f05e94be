/* Laws that join several exports; they need no second program. */
#include "exports.h"

#include "called.h"
#include "chance.h"
#include "lending.h"
#include "numbers.h"
#include "second.h"

#include <string.h>

static uint8_t made[MOST_BYTES];

/* What a first call left, for a second way to the same. */
static struct tables left;

static void keep_what_is_left(const ghendufika_book *book) {
    left.book = *book;
    memcpy(left.held, lent.held.to_read, lent.held.length);
    memcpy(left.side1, lent.side1.to_read, lent.side1.length);
    memcpy(left.side2, lent.side2.to_read, lent.side2.length);
}

static void check_what_is_left(const ghendufika_book *book, const char *law) {
    must(same_book(book, &left.book), law);
    must(memcmp(left.held, lent.held.to_read, lent.held.length) == 0 && memcmp(left.side1, lent.side1.to_read, lent.side1.length) == 0
         && memcmp(left.side2, lent.side2.to_read, lent.side2.length) == 0, law);
}

/* ---- the position */

static int64_t total_of(unsigned account) {
    asked.account = account;
    ask("ghendufika_total", SAY_TABLES | SAY_ACCOUNT | SAY_DAY | SAY_PERIOD);
    ghendufika_totalled totalled = ghendufika_total(before.book, TABLES_TO_READ, asked.account, asked.day, asked.period);
    note(&seen_total, totalled.answer);
    return totalled.kwh;
}

void law_totals_of_all_accounts_come_to_zero(void) {
    int64_t sum = 0;
    lend_model();
    asked.day = some_day(&model);
    asked.period = some_period(&model, asked.day);
    for (unsigned account = 0; account < before.book.setup.accounts; account++) sum += total_of(account);
    must(sum == 0, "the totals of all accounts come to zero in every period");
}

void law_day_totals_are_the_totals(void) {
    int64_t kwh[GHENDUFIKA_PLACES_A_DAY] = {0};
    lend_model();
    asked.day = some_day(&model);
    asked.account = some_account(&model);
    asked.room[0] = GHENDUFIKA_PLACES_A_DAY;
    ask("ghendufika_day_totals", SAY_TABLES | SAY_ACCOUNT | SAY_DAY | SAY_ROOM);
    uint8_t answer = ghendufika_day_totals(before.book, TABLES_TO_READ, asked.account, asked.day, kwh, GHENDUFIKA_PLACES_A_DAY);
    note(&seen_day_totals, answer);
    for (unsigned k = 0; k < 3; k++) {
        asked.period = (uint32_t)between(1, GHENDUFIKA_PLACES_A_DAY);
        int64_t total = total_of(asked.account); /* 0 with a refusal: then the day was refused, or it has no such period */
        must(kwh[asked.period - 1] == total, "a day's totals are the single totals");
    }
}

static uint8_t marks_for(unsigned account, uint8_t *cases, double *firsts, double *seconds) {
    asked.account = account;
    asked.room[0] = asked.room[1] = asked.room[2] = GHENDUFIKA_PLACES_A_DAY;
    ask("ghendufika_day_marks", SAY_TABLES | SAY_IDENTIFIER | SAY_ACCOUNT | SAY_DAY | SAY_ROOM);
    uint8_t answer = ghendufika_day_marks(before.book, TABLES_TO_READ, asked.originator, asked.reference, asked.account, asked.day, cases,
                                          GHENDUFIKA_PLACES_A_DAY, firsts, GHENDUFIKA_PLACES_A_DAY, seconds, GHENDUFIKA_PLACES_A_DAY);
    note(&seen_day_marks, answer);
    return answer;
}

/* Where zero is negated it stays positive zero. */
static bool is_negated(double one, double other) {
    double negated = one == 0.0 ? 0.0 : -one;
    return memcmp(&negated, &other, sizeof other) == 0;
}

void law_two_accounts_see_negated_marks(void) {
    uint8_t cases[2][GHENDUFIKA_PLACES_A_DAY] = {{0}};
    double firsts[2][GHENDUFIKA_PLACES_A_DAY] = {{0}}, seconds[2][GHENDUFIKA_PLACES_A_DAY] = {{0}};
    lend_model();
    asked.day = some_day(&model);
    some_identifier(&before, &asked.originator, &asked.reference);
    const ghendufika_authorisation *pair = &before.book.setup.rows[asked.originator % MOST_ROWS];
    uint8_t one = marks_for(pair->account1, cases[0], firsts[0], seconds[0]), other = marks_for(pair->account2, cases[1], firsts[1], seconds[1]);
    must(one == other, "the two accounts of a pair get the same answer to the same day of marks");
    must(memcmp(cases[0], cases[1], sizeof cases[0]) == 0, "the two accounts of a pair see the same cases");
    for (unsigned p = 0; p < GHENDUFIKA_PLACES_A_DAY; p++)
        must(is_negated(firsts[0][p], firsts[1][p]) && is_negated(seconds[0][p], seconds[1][p]), "the two accounts of a pair see negated figures");
}

/* ---- packed messages */

static int64_t field(uint32_t which) {
    asked.field = which;
    ask("ghendufika_message_field", SAY_BYTES | SAY_FIELD);
    int64_t value = ghendufika_message_field(asked.bytes, asked.length, which);
    note(&seen_message_field, value != 0);
    return value;
}

static ghendufika_notification notification_by_questions(void) {
    ghendufika_notification n;
    fill_with_chance(&n, sizeof n); /* entries past the count are no part of it */
    n.authorisation = (uint8_t)field(GHENDUFIKA_FIELD_AUTHORISATION);
    n.agent = (uint8_t)field(GHENDUFIKA_FIELD_AGENT);
    n.key = (uint16_t)field(GHENDUFIKA_FIELD_KEY);
    n.originator = (uint8_t)field(GHENDUFIKA_FIELD_ORIGINATOR);
    n.reference = (uint16_t)field(GHENDUFIKA_FIELD_REFERENCE);
    n.first = (uint16_t)field(GHENDUFIKA_FIELD_FIRST_DAY);
    n.last = (uint16_t)field(GHENDUFIKA_FIELD_LAST_DAY);
    n.count = (uint8_t)field(GHENDUFIKA_FIELD_COUNT);
    for (unsigned entry = 0; entry < n.count && entry < GHENDUFIKA_MOST_ENTRIES; entry++) {
        n.entries[entry].period = (uint8_t)field(GHENDUFIKA_FIELD_PERIOD(entry));
        n.entries[entry].volume = (int32_t)field(GHENDUFIKA_FIELD_VOLUME(entry));
    }
    return n;
}

static ghendufika_notified notify_by_questions(void) {
    asked.notification = notification_by_questions();
    ask("ghendufika_notify", SAY_TABLES | SAY_BYTES | SAY_NOTIFICATION);
    ghendufika_notified notified = ghendufika_notify(before.book, asked.notification, TABLES_TO_CHANGE);
    note(&seen_notify, notified.answer);
    return notified;
}

static uint8_t nullify_by_questions(void) {
    asked.nullification.account = (uint32_t)field(GHENDUFIKA_FIELD_ACCOUNT);
    asked.nullification.other = (uint32_t)field(GHENDUFIKA_FIELD_OTHER_ACCOUNT);
    asked.nullification.first = (uint32_t)field(GHENDUFIKA_FIELD_FIRST_DAY);
    ask("ghendufika_nullify", SAY_TABLES | SAY_BYTES | SAY_NULLIFICATION);
    uint8_t answer = ghendufika_nullify(before.book, asked.nullification.account, asked.nullification.other, asked.nullification.first, HELD_TO_READ, SIDES_TO_CHANGE);
    note(&seen_nullify, answer);
    return answer;
}

static uint8_t gate_by_questions(ghendufika_book *book) {
    ask("ghendufika_close_gate", SAY_TABLES);
    ghendufika_gated gated = ghendufika_close_gate(before.book, TABLES_TO_READ);
    note(&seen_close_gate, gated.answer);
    *book = gated.book;
    return gated.answer;
}

static uint8_t refusal_by_questions(void) {
    ask("ghendufika_is_sound", SAY_TABLES);
    bool sound = ghendufika_is_sound(before.book, TABLES_TO_READ);
    note(&seen_is_sound, sound);
    if (!sound) return 1;
    ask("ghendufika_message_refusal", SAY_BYTES);
    uint8_t refusal = ghendufika_message_refusal(asked.bytes, asked.length);
    note(&seen_message_refusal, refusal);
    return refusal;
}

/* The message done by what the questions about the book and its bytes say; kind, slot and place are a notification's alone. */
static ghendufika_notified do_by_questions(ghendufika_book *book) {
    ghendufika_notified done = {.answer = refusal_by_questions()};
    if (done.answer != 0) return done;
    switch (field(GHENDUFIKA_FIELD_KIND)) {
    case GHENDUFIKA_GATE: done.answer = gate_by_questions(book); return done;
    case GHENDUFIKA_NOTIFICATION: return notify_by_questions();
    default: done.answer = nullify_by_questions(); return done;
    }
}

static size_t length_by_question(size_t from) {
    ask("ghendufika_message_length", SAY_BYTES);
    size_t length = ghendufika_message_length(asked.bytes + from, asked.length - from);
    note(&seen_message_length, length != 0);
    return length;
}

static ghendufika_applied apply_lent_bytes(const ghendufika_book *book, size_t from) {
    ask("ghendufika_apply", SAY_TABLES | SAY_BYTES);
    ghendufika_applied applied = ghendufika_apply(*book, asked.bytes + from, asked.length - from, TABLES_TO_CHANGE);
    note(&seen_apply, applied.answer);
    return applied;
}

void law_apply_is_questions_and_a_call_by_struct(void) {
    lend_model();
    lend_bytes(made, some_message_bytes(&model, made));
    ghendufika_applied applied = apply_lent_bytes(&before.book, 0);
    keep_what_is_left(&applied.book);
    lend_before();
    ghendufika_book book = before.book;
    ghendufika_notified done = do_by_questions(&book);
    must(done.answer == applied.answer, "a packed message is answered as its questions and the call by struct");
    must(done.kind == applied.kind && done.slot == applied.slot, "a packed message has the kind and the slot of the call by struct");
    must(done.place == applied.place, "a packed message has the place of the call by struct");
    check_what_is_left(&book, "a packed message leaves what its questions and the call by struct leave");
    must(applied.length == (applied.answer == 0 ? length_by_question(0) : 0), "a packed message that is accepted takes the length that the question gives");
}

void law_apply_all_is_apply_one_by_one(void) {
    uint8_t answers[64], places[64];
    lend_model();
    if (!sound_book(&second)) return; /* a run is refused as a whole there, and gives no answers */
    lend_bytes(made, some_messages_bytes(&model, made));
    asked.room[0] = below(sizeof answers + 1);
    asked.room[1] = below(sizeof places + 1);
    ask("ghendufika_apply_all", SAY_TABLES | SAY_BYTES | SAY_ROOM);
    ghendufika_applied_all run = ghendufika_apply_all(before.book, asked.bytes, asked.length, TABLES_TO_CHANGE, answers, asked.room[0], places, asked.room[1]);
    note(&seen_apply_all, run.answer);
    must(run.done <= asked.room[0] && run.done <= asked.room[1] && run.used <= asked.length,
         "a run gives no more answers and places than there is room, and uses no more bytes than there are");
    keep_what_is_left(&run.book);
    lend_before();
    ghendufika_book book = before.book;
    size_t used = 0;
    for (size_t k = 0; k < run.done; k++) {
        ghendufika_applied one = apply_lent_bytes(&book, used);
        must(one.answer == answers[k], "a run answers as its messages one by one");
        must(one.place == places[k], "a run gives the places of its messages one by one");
        book = one.book;
        used += one.answer == 0 ? one.length : length_by_question(used); /* 0 where it is unreadable */
    }
    must(used == run.used, "a run uses the bytes of its messages");
    check_what_is_left(&book, "a run leaves what its messages one by one leave");
}

/* ---- the calendar */

static ghendufika_coded code_by_question(uint32_t day) {
    asked.day = day;
    ask("ghendufika_code_of_day", SAY_DAY);
    ghendufika_coded coded = ghendufika_code_of_day(day);
    note(&seen_code_of_day, coded.answer);
    return coded;
}

/* The setup's days asked one by one: 27 where the calendar lacks one of them, else 28 where one has another code. */
static uint8_t answer_by_codes(const ghendufika_setup *setup) {
    uint8_t answer = 0;
    for (unsigned place = 0; place < setup->days; place++) {
        ghendufika_coded coded = code_by_question(setup->first + place);
        if (coded.answer != 0) return coded.answer;
        if (coded.code != setup->codes[place]) answer = GHENDUFIKA_CODE_DISAGREES;
    }
    return answer;
}

static ghendufika_setup_read read_for_two_slots(bool checked) {
    ask(checked ? "ghendufika_read_setup_checked" : "ghendufika_read_setup", SAY_BYTES | SAY_LENGTHS);
    ghendufika_setup_read read = checked ? ghendufika_read_setup_checked(asked.bytes, asked.length, asked.slots, asked.lent1, asked.lent2)
                                         : ghendufika_read_setup(asked.bytes, asked.length, asked.slots, asked.lent1, asked.lent2);
    note(checked ? &seen_read_setup_checked : &seen_read_setup, read.answer);
    return read;
}

void law_checked_setup_is_held_against_the_codes(void) {
    lend_bytes(made, some_calendar_setup_bytes(made));
    asked.slots = 2;
    asked.lent1 = asked.lent2 = asked.slots * (asked.length > 2 ? made[2] >> 4 : 1) * GHENDUFIKA_PLACES_A_DAY;
    ghendufika_setup_read unchecked = read_for_two_slots(false), checked = read_for_two_slots(true);
    if (unchecked.answer == GHENDUFIKA_PADDING_BIT) { /* what its codes are is not shown */
        must(checked.answer == GHENDUFIKA_PADDING_BIT || checked.answer == GHENDUFIKA_NOT_IN_CALENDAR || checked.answer == GHENDUFIKA_CODE_DISAGREES,
             "a padding bit is refused in a checked setup too, after the calendar");
        return;
    }
    uint8_t expected = unchecked.answer == 0 ? answer_by_codes(&unchecked.setup) : unchecked.answer;
    must(checked.answer == expected, "a checked setup is refused as an unchecked one, and then as the codes of its days say");
    if (expected != 0) return;
    must(checked.length == unchecked.length && same_setup(&checked.setup, &unchecked.setup), "a checked setup is read as an unchecked one");
}

static void check_date_has_its_day(uint32_t day) {
    ask("ghendufika_date_of_day", SAY_DAY);
    ghendufika_dated dated = ghendufika_date_of_day(day);
    note(&seen_date_of_day, dated.answer);
    asked.date.year = dated.date.year;
    asked.date.month = dated.date.month;
    asked.date.day = dated.date.day;
    ask("ghendufika_day_of_date", SAY_DAY | SAY_DATE);
    ghendufika_numbered numbered = ghendufika_day_of_date(dated.date.year, dated.date.month, dated.date.day);
    note(&seen_day_of_date, numbered.answer);
    must(numbered.answer == dated.answer && (dated.answer != 0 || numbered.day == day), "the date of a day has that day, and zeros are no date");
}

void law_days_asked_apart_agree(void) {
    static const uint8_t lengths[] = {46, 48, 50};
    ghendufika_coded coded = code_by_question(some_calendar_day() % (LATEST_DAY + 1));
    asked.days = 1;
    ask("ghendufika_day_length", SAY_DAY);
    ghendufika_measured measured = ghendufika_day_length(asked.day);
    note(&seen_day_length, measured.answer);
    must(measured.answer == coded.answer && measured.periods == (coded.answer == 0 ? lengths[coded.code % 3] : 0), "a day's length is that of its code");
    ask("ghendufika_propose_codes", SAY_DAY | SAY_DAYS);
    ghendufika_proposed proposed = ghendufika_propose_codes(asked.day, asked.days);
    note(&seen_propose_codes, proposed.answer);
    must(proposed.answer == coded.answer && proposed.codes[0] == coded.code, "the code proposed for one day is the day's");
    check_date_has_its_day(asked.day);
}

/* What changes a book: opening, gates, notifications, nullifications, packed messages. Tables that a call may only read are lent read-only. */
#include "exports.h"

#include "called.h"
#include "chance.h"
#include "lending.h"
#include "numbers.h"
#include "second.h"

#include <string.h>

static uint8_t made[MOST_BYTES];

static const ghendufika_book no_book;

/* ---- opening */

void make_tables_for(const ghendufika_setup *setup) {
    size_t slots = slots_for_a_book(setup->days), places = slots * setup->days * GHENDUFIKA_PLACES_A_DAY;
    before.book = no_book;
    before.slots = before.lent1 = before.lent2 = 0;
    resize_tables(&before, slots, places, places);
    if (one_in(12)) resize_tables(&before, (size_t)ONE_OF(0, 257, 300, (int64_t)slots - 1, (int64_t)slots + 1), places, places);
    if (one_in(24)) resize_tables(&before, slots, places + (size_t)ONE_OF(1, 50, 100), places);
    if (one_in(24)) resize_tables(&before, slots, places, places == 0 ? 1 : places - (size_t)ONE_OF(1, 50));
    if (one_in(24)) resize_tables(&before, slots, below(50), below(50));
    fill_with_chance(before.held, before.slots * sizeof before.held[0]);
    fill_with_chance(before.side1, before.lent1 * sizeof before.side1[0]);
    fill_with_chance(before.side2, before.lent2 * sizeof before.side2[0]);
    lend_before();
}

/* "Opening closes no gate, holds no identifier and sets every place to the mark." */
static bool is_empty_book(void) {
    const uint32_t *held = lent_held();
    const int32_t *side1 = lent_side1(), *side2 = lent_side2();
    for (size_t slot = 0; slot < before.slots; slot++)
        if (held[slot] != 0) return false;
    for (size_t place = 0; place < before.lent1; place++)
        if (side1[place] != GHENDUFIKA_MARK || side2[place] != GHENDUFIKA_MARK) return false;
    return true;
}

/* Opening a setup as it is, or held against the calendar. */
struct opening {
    const char *name;
    struct seen *seen;
    ghendufika_setup (*some_setup)(void);
    enum answer (*by_second)(struct book *book, const struct setup *setup, unsigned slots);
    ghendufika_opened (*open)(ghendufika_setup setup, uint32_t *held, size_t slots, int32_t *side1, size_t lent1, int32_t *side2, size_t lent2);
};

static void try_opening(const struct opening *opening) {
    asked.setup = opening->some_setup();
    if (one_in(4)) spoil_setup(&asked.setup);
    if (one_in(12)) spoil_setup(&asked.setup);
    make_tables_for(&asked.setup);
    bool fit = lengths_fit(before.slots, asked.setup.days, before.lent1, before.lent2);
    struct setup told = told_setup(&asked.setup);
    enum answer expected = opening->by_second(&second, &told, fit ? (unsigned)before.slots : 0);

    ask(opening->name, SAY_SETUP | SAY_TABLES);
    ghendufika_opened opened = opening->open(asked.setup, TABLES_TO_CHANGE);
    note(opening->seen, opened.answer);
    must(opened.answer == expected, "the answer to opening is the second program's");
    check_tables(opened.answer);
    if (opened.answer != DONE) {
        must(same_book(&opened.book, &no_book), "a refused opening gives a book of zeros");
        return;
    }
    must(opened.book.closed == 0 && same_setup(&opened.book.setup, &asked.setup), "the opened book has the setup, and no gate closed");
    must(is_empty_book(), "an opened book holds nothing");
    if (model.slots > 0 && !one_in(16)) return; /* the episode goes on with the book that it has come to */
    model.slots = before.slots; /* a large book is taken too */
    adopt(&opened.book);
    accepted.count = 255;
}

void try_open(void) { try_opening(&(const struct opening){"ghendufika_open", &seen_open, right_setup, open_book, ghendufika_open}); }

void try_open_checked(void) {
    try_opening(&(const struct opening){"ghendufika_open_checked", &seen_open_checked, calendar_setup, open_checked_book, ghendufika_open_checked});
}

/* ---- soundness and gates */

void try_is_sound(void) {
    lend_model();
    ask("ghendufika_is_sound", SAY_TABLES);
    bool sound = ghendufika_is_sound(before.book, TABLES_TO_READ);
    note(&seen_is_sound, sound);
    must(sound == sound_book(&second), "a book is sound where the second program says so");
}

void try_close_gate(void) {
    lend_model();
    enum answer expected = close_gate(&second);
    ask("ghendufika_close_gate", SAY_TABLES);
    ghendufika_gated gated = ghendufika_close_gate(before.book, TABLES_TO_READ);
    note(&seen_close_gate, gated.answer);
    must(gated.answer == expected, "the answer to a gate is the second program's");
    must(gated.book.closed == before.book.closed + (expected == DONE), "a gate closes one more, and a refused one none");
    must(same_setup(&gated.book.setup, &before.book.setup), "a gate leaves the setup");
    if (expected == DONE && one_in(2)) adopt(&gated.book);
}

/* ---- entries at fault (document 02, A3) */

/* Where the entry named lies: 0 the first, 1 one between, 2 the last, 3 past the 50th. A first one that is also the last is the first. */
static unsigned where_in(unsigned place, unsigned count) {
    if (place >= GHENDUFIKA_MOST_ENTRIES) return 3;
    return place == 0 ? 0 : place + 1 == count ? 2 : 1;
}

static bool has_place(unsigned answer) { return answer == PERIODS_WRONG || answer == VOLUME_OUT_OF_RANGE; }

/* Whether other entries have volumes out of range: 1 before the one named, 2 behind it, 3 both. Before it they are there with 10 alone. */
static unsigned volumes_beside(const struct notification *told, unsigned place) {
    unsigned beside = 0;
    for (unsigned entry = 0; entry < told->count && entry < MOST_ENTRIES; entry++) {
        int32_t volume = told->entry[entry].volume;
        if (entry != place && (volume < LOWEST_VOLUME || volume > HIGHEST_VOLUME)) beside |= entry < place ? 1 : 2;
    }
    return beside;
}

static void check_place(unsigned place, const struct notification *told, unsigned answer, unsigned expected) {
    must(place == expected, "the place of the entry at fault is the second program's");
    must(has_place(answer) || place == 0, "no answer but 10 and 11 has a place");
    if (!has_place(answer)) return;
    note(&seen_fault, where_in(place, told->count));
    note(&seen_volumes_beside, volumes_beside(told, place));
}

/* ---- calls by struct */

/* Soundness is kept: what was accepted is a sound book again. */
static void check_still_sound(const ghendufika_book *book) {
    if (!one_in(4)) return;
    must(sound_book(&second), "an accepted call keeps the book sound, says the second program");
    must(ghendufika_is_sound(*book, TABLES_TO_READ), "an accepted call keeps the book sound");
}

void try_notify(void) {
    lend_model();
    asked.notification = some_notification(&model);
    struct notification told = told_notification(&asked.notification);
    struct acceptance acceptance;
    enum answer expected = notify(&second, &told, &acceptance);

    ask("ghendufika_notify", SAY_TABLES | SAY_NOTIFICATION);
    ghendufika_notified notified = ghendufika_notify(before.book, asked.notification, TABLES_TO_CHANGE);
    note(&seen_notify, notified.answer);
    must(notified.answer == expected, "the answer to a notification is the second program's");
    note(&seen_kind, notified.kind);
    must(notified.kind == (expected == DONE ? 1u + acceptance.kind : 0u), "the kind is the second program's, and 0 with a refusal");
    must(notified.slot == (expected == DONE ? acceptance.slot : 0u), "the slot is the second program's, and 0 with a refusal");
    check_place(notified.place, &told, expected, acceptance.place);
    check_tables(notified.answer);
    if (expected != DONE) return;
    check_closed_places();
    check_still_sound(&before.book);
    accepted = asked.notification;
    adopt(&before.book);
}

void try_nullify(void) {
    lend_model();
    ghendufika_nullification some = some_nullification(&model);
    asked.nullification.account = widened(some.account);
    asked.nullification.other = widened(some.other);
    asked.nullification.first = widened(some.first);
    struct nullification told = {{asked.nullification.account, asked.nullification.other}, asked.nullification.first};
    enum answer expected = nullify(&second, &told);

    ask("ghendufika_nullify", SAY_TABLES | SAY_NULLIFICATION);
    uint8_t answer = ghendufika_nullify(before.book, asked.nullification.account, asked.nullification.other, asked.nullification.first, HELD_TO_READ, SIDES_TO_CHANGE);
    note(&seen_nullify, answer);
    must(answer == expected, "the answer to a nullification is the second program's");
    check_tables(answer);
    if (expected != DONE) return;
    check_closed_places();
    check_still_sound(&before.book);
    if (one_in(3)) adopt(&before.book); /* not always, or little would stand */
}

/* ---- packed messages */

/* What a message of a run is answered, and the place of its entry at fault, which a notification alone can have. */
struct word { uint8_t answer, place; };

static struct word by_second(enum answer answer, unsigned place) { return (struct word){(uint8_t)answer, (uint8_t)place}; }

static struct word do_by_second(const struct message *message) {
    struct acceptance acceptance;
    if (message->kind == GATE) return by_second(close_gate(&second), 0);
    if (message->kind == NULLIFICATION) return by_second(nullify(&second, &message->nullification), 0);
    enum answer answer = notify(&second, &message->notification, &acceptance);
    if (has_place(answer)) note(&seen_run_fault, where_in(acceptance.place, message->notification.count));
    return by_second(answer, acceptance.place);
}

/* A message of a run: its bytes are used where the book refuses it, too. */
static struct word next_by_second(const uint8_t *bytes, size_t length, size_t *used) {
    struct message message;
    enum answer unreadable = read_message(bytes, length, &message, used);
    return unreadable != DONE ? by_second(unreadable, 0) : do_by_second(&message);
}

static void check_book_after(const ghendufika_book *book, bool changed) {
    must(same_setup(&book->setup, &before.book.setup), "packed messages leave the setup");
    must(book->closed == (changed ? second.gates_closed : before.book.closed), "the gates closed are the second program's, and as they came with a refusal");
}

static void check_applied_place(unsigned place, unsigned answer, unsigned expected) {
    struct message message;
    size_t used;
    must(place == expected, "the place of a packed notification's entry at fault is the second program's");
    must(has_place(answer) || place == 0, "no answer but 10 and 11 has a place");
    if (has_place(answer) && read_message(made, asked.length, &message, &used) == DONE) note(&seen_applied_fault, where_in(place, message.notification.count));
}

void try_apply(void) {
    struct application application;
    lend_model();
    lend_bytes(made, some_message_bytes(&model, made));
    enum answer expected = apply_message(&second, made, asked.length, &application);

    ask("ghendufika_apply", SAY_TABLES | SAY_BYTES);
    ghendufika_applied applied = ghendufika_apply(before.book, asked.bytes, asked.length, TABLES_TO_CHANGE);
    note(&seen_apply, applied.answer);
    note(&seen_applied_kind, applied.kind);
    must(applied.answer == expected, "the answer to a packed message is the second program's: 1, then reading's, then the book's");
    must(applied.length == application.length, "the length is the message's, and 0 with a refusal");
    must(applied.kind == application.kind, "the kind of a packed notification is the second program's, and 0 of other messages and with a refusal");
    must(applied.slot == application.slot, "the slot of a packed notification is the second program's, and 0 of other messages and with a refusal");
    check_applied_place(applied.place, expected, application.place);
    check_book_after(&applied.book, expected == DONE);
    check_tables(applied.answer);
    if (expected != DONE) return;
    check_closed_places();
    check_still_sound(&applied.book);
    adopt(&applied.book);
}

enum { MOST_WORDS = 64 };

/* The run of document 01's calls, by the second program; a book that is not sound refuses it as a whole. */
struct run { enum answer answer; size_t done, used; struct word words[MOST_WORDS]; };

static void run_by_second(size_t length, size_t room, struct run *run) {
    run->done = run->used = 0;
    run->answer = sound_book(&second) ? DONE : NOT_A_SOUND_BOOK;
    while (run->answer == DONE && run->used < length && run->done < room) {
        size_t one;
        run->words[run->done++] = next_by_second(made + run->used, length - run->used, &one);
        run->used += one;
        if (one == 0) break;
    }
}

static void check_words(const uint8_t *answers, const uint8_t *places, const struct run *expected) {
    for (size_t k = 0; k < expected->done; k++) {
        note(&seen_run_answer, answers[k]);
        must(answers[k] == expected->words[k].answer, "the answers of a run are the second program's");
        must(places[k] == expected->words[k].place, "the places of a run are the second program's, and 0 where the answer is not 10 or 11");
    }
    check_buffer(0, expected->done);
    check_buffer(1, expected->done);
}

/* Room for as many answers as places, for more or for fewer: the lesser ends the run. */
static void some_rooms(void) {
    asked.room[0] = one_in(3) ? below(4) : below(MOST_WORDS + 1);
    asked.room[1] = one_in(2) ? asked.room[0] : one_in(3) ? below(4) : below(MOST_WORDS + 1);
}

void try_apply_all(void) {
    struct run expected;
    lend_model();
    lend_bytes(made, some_messages_bytes(&model, made));
    some_rooms();
    uint8_t *answers = lend_buffer(0, asked.room[0]), *places = lend_buffer(1, asked.room[1]);
    run_by_second(asked.length, asked.room[0] < asked.room[1] ? asked.room[0] : asked.room[1], &expected);

    ask("ghendufika_apply_all", SAY_TABLES | SAY_BYTES | SAY_ROOM);
    ghendufika_applied_all run = ghendufika_apply_all(before.book, asked.bytes, asked.length, TABLES_TO_CHANGE, answers, asked.room[0], places, asked.room[1]);
    note(&seen_apply_all, run.answer);
    must(run.answer == expected.answer, "a run is refused exactly where the book is not sound");
    must(run.done == expected.done && run.used == expected.used, "the answers and the bytes of a run are as many as the second program's, and none with a refusal");
    check_words(answers, places, &expected);
    check_book_after(&run.book, expected.answer == DONE);
    check_tables(run.answer);
    if (expected.answer != DONE) return;
    check_closed_places();
    check_still_sound(&run.book);
    adopt(&run.book);
}

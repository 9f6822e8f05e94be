/* Lending; see lending.h. */
#include "lending.h"

#include "chance.h"
#include "second.h"

#include <string.h>

struct lent_tables lent;
struct filled buffers[3];

static struct area held_area, side1_area, side2_area, bytes_area, buffer_areas[3];

void make_areas(void) {
    held_area = guarded_area(sizeof before.held);
    side1_area = guarded_area(sizeof before.side1);
    side2_area = guarded_area(sizeof before.side2);
    bytes_area = guarded_area(MOST_BYTES);
    for (unsigned which = 0; which < 3; which++) buffer_areas[which] = guarded_area(sizeof buffers[which].kept);
}

void lend_before(void) {
    lent.held = lend_part(&held_area, before.slots * sizeof before.held[0], one_in(2));
    lent.side1 = lend_part(&side1_area, before.lent1 * sizeof before.side1[0], one_in(2));
    lent.side2 = lend_part(&side2_area, before.lent2 * sizeof before.side2[0], one_in(2));
    memcpy(lent.held.to_change, before.held, lent.held.length);
    memcpy(lent.side1.to_change, before.side1, lent.side1.length);
    memcpy(lent.side2.to_change, before.side2, lent.side2.length);
}

void lend_model(void) {
    if (one_in(16)) stir(&model);
    copy_tables(&before, &model);
    if (one_in(6)) spoil_tables(&before);
    lend_before();
    tell(&before);
}

const uint32_t *lent_held(void) { return (const uint32_t *)(const void *)lent.held.to_read; }
const int32_t *lent_side1(void) { return (const int32_t *)(const void *)lent.side1.to_read; }
const int32_t *lent_side2(void) { return (const int32_t *)(const void *)lent.side2.to_read; }

bool tables_as_before(void) {
    return memcmp(lent.held.to_change, before.held, lent.held.length) == 0 && memcmp(lent.side1.to_change, before.side1, lent.side1.length) == 0
        && memcmp(lent.side2.to_change, before.side2, lent.side2.length) == 0;
}

bool nothing_beside_tables(void) { return nothing_written_beside(&lent.held) && nothing_written_beside(&lent.side1) && nothing_written_beside(&lent.side2); }

void check_tables(unsigned answer) {
    must(nothing_beside_tables(), "nothing is written beside the lent tables");
    if (answer != 0) must(tables_as_before(), "a refusal leaves the tables as they were");
    else must(holds_as_second(lent_held(), lent_side1(), lent_side2()), "the tables end as the second program's");
}

static bool same_closed_places(const struct lent *side, const int32_t *side_before) {
    const ghendufika_setup *setup = &before.book.setup;
    unsigned closed = before.book.closed;
    for (size_t slot = 0; slot < before.slots; slot++)
        for (unsigned day = 0; day < setup->days; day++) {
            unsigned gates_before = periods_before_day(setup, day), periods = periods_on(setup, day);
            unsigned shut = closed <= gates_before ? 0 : closed - gates_before < periods ? closed - gates_before : periods;
            size_t start = (slot * setup->days + day) * GHENDUFIKA_PLACES_A_DAY;
            if (memcmp(side->to_read + start * sizeof(int32_t), side_before + start, shut * sizeof(int32_t)) != 0) return false;
        }
    return true;
}

void check_closed_places(void) {
    must(same_closed_places(&lent.side1, before.side1) && same_closed_places(&lent.side2, before.side2), "closed places never change");
}

void adopt(const ghendufika_book *book) {
    enum { SLOTS_THAT_KEEP_IT_QUICK = 16 };
    if (before.slots > SLOTS_THAT_KEEP_IT_QUICK && before.slots > model.slots) return;
    model.book = *book;
    model.slots = before.slots;
    model.lent1 = before.lent1;
    model.lent2 = before.lent2;
    memcpy(model.held, lent.held.to_read, lent.held.length);
    memcpy(model.side1, lent.side1.to_read, lent.side1.length);
    memcpy(model.side2, lent.side2.to_read, lent.side2.length);
}

void lend_bytes(const uint8_t *bytes, size_t length) {
    struct lent part = lend_part(&bytes_area, length, one_in(2));
    memcpy(part.to_change, bytes, length);
    asked.bytes = part.to_read;
    asked.length = length;
}

void *lend_buffer(unsigned which, size_t bytes) {
    struct filled *buffer = &buffers[which];
    buffer->part = lend_part(&buffer_areas[which], bytes, one_in(2));
    fill_with_chance(buffer->kept, bytes);
    memcpy(buffer->part.to_change, buffer->kept, bytes);
    return buffer->part.to_change;
}

void check_buffer(unsigned which, size_t from) {
    const struct filled *buffer = &buffers[which];
    must(nothing_written_beside(&buffer->part), "nothing is written beside a lent buffer");
    must(from >= buffer->part.length || memcmp(buffer->part.to_read + from, buffer->kept + from, buffer->part.length - from) == 0,
         "what a call does not fill of a lent buffer stays as it was");
}

/* Books in ordinary memory; see tables.h. */
#include "tables.h"

#include <string.h>

void copy_tables(struct tables *to, const struct tables *from) {
    to->book = from->book;
    to->slots = from->slots;
    to->lent1 = from->lent1;
    to->lent2 = from->lent2;
    memcpy(to->held, from->held, from->slots * sizeof from->held[0]);
    memcpy(to->side1, from->side1, from->lent1 * sizeof from->side1[0]);
    memcpy(to->side2, from->side2, from->lent2 * sizeof from->side2[0]);
}

static void blank_new_places(int32_t *side, size_t before, size_t after) {
    for (size_t place = before; place < after; place++) side[place] = GHENDUFIKA_MARK;
}

void resize_tables(struct tables *tables, size_t slots, size_t lent1, size_t lent2) {
    if (slots > MOST_LENT_SLOTS) slots = MOST_LENT_SLOTS;
    if (lent1 > MOST_LENT_PLACES) lent1 = MOST_LENT_PLACES;
    if (lent2 > MOST_LENT_PLACES) lent2 = MOST_LENT_PLACES;
    for (size_t slot = tables->slots; slot < slots; slot++) tables->held[slot] = 0;
    blank_new_places(tables->side1, tables->lent1, lent1);
    blank_new_places(tables->side2, tables->lent2, lent2);
    tables->slots = slots;
    tables->lent1 = lent1;
    tables->lent2 = lent2;
}

static bool same_row(const ghendufika_authorisation *one, const ghendufika_authorisation *other) {
    return one->agent1 == other->agent1 && one->agent2 == other->agent2 && one->account1 == other->account1 && one->account2 == other->account2
        && one->key == other->key && one->first == other->first && one->last == other->last && one->amendment == other->amendment;
}

bool same_setup(const ghendufika_setup *one, const ghendufika_setup *other) {
    if (one->first != other->first || one->days != other->days || one->accounts != other->accounts || one->authorisations != other->authorisations) return false;
    if (memcmp(one->codes, other->codes, sizeof one->codes) != 0) return false;
    for (unsigned row = 0; row < MOST_ROWS; row++)
        if (!same_row(&one->rows[row], &other->rows[row])) return false;
    return true;
}

bool same_book(const ghendufika_book *one, const ghendufika_book *other) {
    return one->closed == other->closed && same_setup(&one->setup, &other->setup);
}

unsigned periods_on(const ghendufika_setup *setup, unsigned day_place) {
    static const unsigned lengths[] = {46, 48, 50};
    unsigned code = setup->codes[day_place];
    return code < 3 ? lengths[code] : 0;
}

unsigned periods_before_day(const ghendufika_setup *setup, unsigned day_place) {
    unsigned periods = 0;
    for (unsigned day = 0; day < day_place && day < GHENDUFIKA_MOST_DAYS; day++) periods += periods_on(setup, day);
    return periods;
}

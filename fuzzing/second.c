/* The second program on the same book; see second.h. */
#include "second.h"

#include <string.h>

struct book second;

struct setup told_setup(const ghendufika_setup *setup) {
    struct setup told;
    told.first_day = setup->first;
    told.days = setup->days;
    told.accounts = setup->accounts;
    told.authorisations = setup->authorisations;
    for (unsigned day = 0; day < MOST_DAYS; day++) told.day_code[day] = setup->codes[day];
    for (unsigned row = 0; row < setup->authorisations && row < MOST_AUTHORISATIONS; row++) {
        const ghendufika_authorisation *a = &setup->rows[row];
        told.authorisation[row] = (struct authorisation){{a->agent1, a->agent2}, {a->account1, a->account2}, a->key, a->first, a->last, a->amendment};
    }
    return told;
}

struct notification told_notification(const ghendufika_notification *n) {
    struct notification told = {n->authorisation, n->agent, n->key, n->originator, n->reference, n->first, n->last, n->count, {{0, 0}}};
    for (unsigned entry = 0; entry < n->count && entry < MOST_ENTRIES; entry++)
        told.entry[entry] = (struct entry){n->entries[entry].period, n->entries[entry].volume};
    return told;
}

struct nullification told_nullification(const ghendufika_nullification *nullification) {
    return (struct nullification){{nullification->account, nullification->other}, nullification->first};
}

ghendufika_setup setup_of_second(const struct setup *setup) {
    ghendufika_setup ours = {0};
    ours.first = (uint16_t)setup->first_day;
    ours.days = (uint8_t)setup->days;
    ours.accounts = (uint8_t)setup->accounts;
    ours.authorisations = (uint8_t)setup->authorisations;
    for (unsigned day = 0; day < setup->days; day++) ours.codes[day] = (uint8_t)setup->day_code[day];
    for (unsigned row = 0; row < setup->authorisations; row++) {
        const struct authorisation *a = &setup->authorisation[row];
        ours.rows[row] = (ghendufika_authorisation){(uint8_t)a->agent[0], (uint8_t)a->agent[1], (uint8_t)a->account[0], (uint8_t)a->account[1],
                                                    (uint16_t)a->key, (uint16_t)a->first_day, (uint16_t)a->last_day, (uint8_t)a->type};
    }
    return ours;
}

bool lengths_fit(size_t slots, size_t days, size_t lent1, size_t lent2) {
    if (slots < 1 || slots > MOST_SLOTS || days < 1 || days > MOST_DAYS) return false;
    return lent1 == slots * days * MOST_PERIODS && lent2 == slots * days * MOST_PERIODS;
}

/* "Setup order: under 5 bytes 19, wrong counts, last day above 65,534 or lent lengths 17": the second program knows nothing of lent lengths, and
 * where they are wrong nothing but 19 for the first 5 bytes comes before them, checked or not. The days are bits 16 to 19. */
enum answer setup_expected(setup_reader *reader, const struct handed *handed, struct setup *setup, size_t *used) {
    enum answer answer = reader(handed->bytes, handed->length, setup, used);
    if (handed->length >= 5 && !lengths_fit(handed->slots, handed->bytes[2] >> 4, handed->lent1, handed->lent2)) {
        *used = 0;
        return SETUP_WRONG;
    }
    return answer;
}

static void tell_tables(const struct tables *tables) {
    size_t days = tables->book.setup.days;
    for (size_t slot = 0; slot < tables->slots; slot++) {
        uint32_t entry = tables->held[slot]; /* 0, or one more than the identifier (docs/DECISIONS.md, 23) */
        second.slot[slot] = (struct identifier){entry != 0, entry == 0 ? 0 : (entry - 1) / 65536, entry == 0 ? 0 : (entry - 1) % 65536};
        size_t start = slot * days * MOST_PERIODS, bytes = days * MOST_PERIODS * sizeof(int32_t);
        memcpy(second.side[0][slot], tables->side1 + start, bytes);
        memcpy(second.side[1][slot], tables->side2 + start, bytes);
    }
}

bool tell(const struct tables *tables) {
    bool fit = lengths_fit(tables->slots, tables->book.setup.days, tables->lent1, tables->lent2);
    second.setup = told_setup(&tables->book.setup);
    second.gates_closed = tables->book.closed;
    second.slots = fit ? (unsigned)tables->slots : 0;
    if (fit) tell_tables(tables);
    return fit;
}

bool holds_as_second(const uint32_t *held, const int32_t *side1, const int32_t *side2) {
    size_t days = second.setup.days, bytes = days * MOST_PERIODS * sizeof(int32_t);
    for (size_t slot = 0; slot < second.slots; slot++) {
        const struct identifier *id = &second.slot[slot];
        if (held[slot] != (id->held ? 1 + id->originator * 65536 + id->reference : 0)) return false;
        if (memcmp(second.side[0][slot], side1 + slot * days * MOST_PERIODS, bytes) != 0) return false;
        if (memcmp(second.side[1][slot], side2 + slot * days * MOST_PERIODS, bytes) != 0) return false;
    }
    return true;
}

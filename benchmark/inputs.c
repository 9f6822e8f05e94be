/* Inputs of the benchmark: see inputs.h. Messages are packed by the independent program's packer (reference/packing.h). */
#include "inputs.h"

#include "packing.h"

#include <stdio.h>
#include <stdlib.h>

enum { FIRST_DAY = 9000, NO_END = 65535, GATE_EVERY = 40, NULLIFICATION_EVERY = 97, WRONG_KEY_EVERY = 23 };

static uint64_t state;

/* A fixed sequence of numbers below `bound` (xorshift), so that every start measures the same work. */
static unsigned chance(unsigned bound) {
    state ^= state << 13;
    state ^= state >> 7;
    state ^= state << 17;
    return (unsigned)(state >> 33) % bound;
}

ghendufika_setup setup_of(size_t slots, unsigned days) {
    static const uint8_t codes[] = {1, 0, 1, 1, 2, 1, 1, 1}; /* a short and a long day among plain ones */
    unsigned count = slots > 16 ? 64 : 4;
    ghendufika_setup s = {.first = FIRST_DAY, .days = (uint8_t)days, .accounts = (uint8_t)count, .authorisations = (uint8_t)count};
    for (unsigned d = 0; d < days; d++) s.codes[d] = codes[d];
    for (unsigned a = 0; a < count; a++) {
        ghendufika_authorisation row = {.agent1 = (uint8_t)(2 * a), .agent2 = (uint8_t)(2 * a + 1), .key = (uint16_t)(500 + a), .last = NO_END};
        row.account1 = (uint8_t)(a / 2); /* two authorisations a pair, so that one pair's identifiers come from both */
        row.account2 = (uint8_t)(count - 1 - a / 2);
        if (a % 8 == 7) row.agent2 = row.agent1; /* single notification */
        if (a % 4 == 3) row.amendment = (uint8_t)(1 + a / 4 % 2);
        s.rows[a] = row;
    }
    return s;
}

ghendufika_setup plain_setup_of(size_t slots, unsigned days) {
    ghendufika_setup s = setup_of(slots, days);
    for (unsigned d = 0; d < days; d++) s.codes[d] = GHENDUFIKA_DAY_OF_48;
    return s;
}

static void begin_again(void) { state = 88172645463325252u; }

static run_of_messages room_for(size_t messages) {
    run_of_messages run = {.bytes = malloc(messages * MOST_MESSAGE_BYTES)};
    if (run.bytes == NULL) {
        fprintf(stderr, "bench: no memory\n");
        exit(2);
    }
    begin_again();
    return run;
}

static void append(run_of_messages *run, const struct message *message) {
    run->length += pack_message(message, run->bytes + run->length);
    run->messages++;
}

/* The notice of an identifier, by its slot in a filled book, from one of its two agents. */
static struct message notice(const ghendufika_setup *s, unsigned identifier, unsigned agent, unsigned entries) {
    struct message m = {.kind = NOTIFICATION};
    struct notification *n = &m.notification;
    n->authorisation = n->originator = identifier % s->authorisations;
    n->reference = identifier / s->authorisations;
    n->key = s->rows[n->authorisation].key;
    n->agent = agent == 1 ? s->rows[n->authorisation].agent1 : s->rows[n->authorisation].agent2;
    n->first_day = s->first;
    n->last_day = NO_END;
    n->count = entries;
    for (unsigned e = 0; e < entries; e++) {
        n->entry[e].period = e + 1;
        n->entry[e].volume = (int32_t)(1000 * (e + identifier)) - 60000;
    }
    return m;
}

run_of_messages filling(const ghendufika_setup *s, size_t slots) {
    run_of_messages run = room_for(2 * slots);
    for (unsigned identifier = 0; identifier < slots; identifier++)
        for (unsigned agent = 1; agent <= 2; agent++) {
            struct message m = notice(s, identifier, agent, 48);
            append(&run, &m);
        }
    return run;
}

/* Half of the notices are for one day and a quarter evergreen; half of them give all 48 periods. */
static struct message trade(const ghendufika_setup *s, size_t slots) {
    unsigned entries = chance(2) == 0 ? 48 : 1 + chance(12);
    struct message m = notice(s, chance((unsigned)slots + 1), 1 + chance(2), entries);
    struct notification *n = &m.notification;
    n->first_day = s->first + chance(s->days);
    if (chance(2) == 0) n->last_day = n->first_day;
    else if (chance(2) == 0) n->last_day = n->first_day + chance(3);
    for (unsigned e = 0; e < entries; e++) n->entry[e].volume = (int32_t)chance(200000) - 100000;
    if (n->first_day == n->last_day && s->codes[n->first_day - s->first] == 0 && entries > 46) n->count = 46;
    if (chance(WRONG_KEY_EVERY) == 0) n->key = 1;
    return m;
}

run_of_messages trading(const ghendufika_setup *s, size_t slots, size_t messages) {
    static const struct message gate = {.kind = GATE};
    run_of_messages run = room_for(messages);
    for (size_t k = 1; k <= messages; k++) {
        struct message m = trade(s, slots);
        if (k % NULLIFICATION_EVERY == 0) {
            m = (struct message){.kind = NULLIFICATION};
            unsigned a = chance(s->authorisations);
            m.nullification.account[0] = s->rows[a].account2;
            m.nullification.account[1] = s->rows[a].account1;
            m.nullification.first_day = s->first + chance(s->days);
        }
        append(&run, k % GATE_EVERY == 0 ? &gate : &m);
    }
    return run;
}

/* A notice of one of the first four identifiers, from either agent, with a volume for each of its first periods. */
static struct message notice_of_four(const ghendufika_setup *s, unsigned entries) {
    struct message m = notice(s, chance(4), 1 + chance(2), entries);
    for (unsigned e = 0; e < entries; e++) m.notification.entry[e].volume = (int32_t)chance(2000000) - 1000000;
    return m;
}

run_of_messages full_notifications(const ghendufika_setup *s, size_t messages) {
    run_of_messages run = room_for(messages);
    for (size_t k = 0; k < messages; k++) {
        struct message m = notice_of_four(s, 50);
        m.notification.last_day = m.notification.first_day;
        append(&run, &m);
    }
    return run;
}

run_of_messages refused_notifications(const ghendufika_setup *s, size_t messages) {
    run_of_messages run = room_for(messages);
    for (size_t k = 0; k < messages; k++) {
        struct message m = notice_of_four(s, MOST_ENTRIES);
        struct entry *wrong = &m.notification.entry[k / 2 % MOST_ENTRIES];
        m.notification.last_day = m.notification.first_day;
        if (k % 2 == 0) wrong->period = 0;
        else wrong->volume = HIGHEST_VOLUME + 1;
        append(&run, &m);
    }
    return run;
}

run_of_messages long_notifications(const ghendufika_setup *s, size_t messages) {
    run_of_messages run = room_for(messages);
    for (size_t k = 0; k < messages; k++) {
        struct message m = notice_of_four(s, 48);
        struct notification *n = &m.notification;
        n->first_day = s->first + chance(s->days - 1u);
        if (chance(2) == 0) n->last_day = n->first_day + 1 + chance(s->days - 1u);
        append(&run, &m);
    }
    return run;
}

/* ---- spreadsheets */

static size_t put_entry(char *to, unsigned period, const char *quote, const char *line_end) {
    static const unsigned parts[] = {1, 10, 100, 1000};
    unsigned decimals = chance(4), mwh = chance(100), part = chance(parts[decimals]);
    size_t length = (size_t)sprintf(to, "%s%u%s,%s%s%u", quote, period, quote, quote, chance(3) == 0 ? "-" : "", mwh);
    if (decimals > 0) length += (size_t)sprintf(to + length, ".%0*u", (int)decimals, part);
    return length + (size_t)sprintf(to + length, "%s%s", quote, line_end);
}

void write_spreadsheets(spreadsheets *all, unsigned entries) {
    size_t at = 0;
    begin_again();
    for (unsigned k = 0; k < SPREADSHEETS; k++) {
        const char *quote = k % 4 == 3 ? "\"" : "", *line_end = k % 2 == 0 ? "\n" : "\r\n";
        char *to = (char *)all->bytes;
        at += (size_t)sprintf(to + at, "%speriod%s,%smwh%s%s", quote, quote, quote, quote, line_end);
        for (unsigned period = 1; period <= entries; period++) at += put_entry(to + at, period, quote, line_end);
        all->ends[k] = at;
    }
}

void write_refused_spreadsheets(spreadsheets *all, unsigned entries) {
    write_spreadsheets(all, entries);
    for (unsigned k = 0; k < SPREADSHEETS; k++) all->bytes[all->ends[k] - 1] = 'x';
}

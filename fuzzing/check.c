/* Failing in words; see check.h. */
#define _GNU_SOURCE /* sigaltstack, alarm */
#include "check.h"

#include <signal.h>
#include <stdlib.h>
#include <string.h>
#include <unistd.h>

struct asked asked;
struct tables before;
uint64_t seed, episode, calls;
bool in_words;

#ifdef WITH_FAULTS
enum { SECONDS_FOR_A_CALL = 10 }; /* so that a call that never returns is soon caught */
#else
enum { SECONDS_FOR_A_CALL = 60 };
#endif
enum { PLACES_SAID = 400 };

void ask(const char *name, unsigned parts) {
    asked.name = name;
    asked.parts = parts;
    calls++;
    if (calls % 256 == 0) alarm(SECONDS_FOR_A_CALL); /* not for each call: it is a call of the system */
    if (in_words) say_call(stdout);
}

static void say_setup(FILE *out, const ghendufika_setup *setup) {
    fprintf(out, "  setup: first day %u, days %u, accounts %u, authorisations %u, codes", setup->first, setup->days, setup->accounts, setup->authorisations);
    for (unsigned day = 0; day < setup->days && day < GHENDUFIKA_MOST_DAYS; day++) fprintf(out, " %u", setup->codes[day]);
    fprintf(out, "\n");
    for (unsigned row = 0; row < setup->authorisations && row < MOST_ROWS; row++) {
        const ghendufika_authorisation *a = &setup->rows[row];
        fprintf(out, "  authorisation %u: agents %u %u, accounts %u %u, key %u, days %u to %u, type %u\n", row, a->agent1, a->agent2, a->account1,
                a->account2, a->key, a->first, a->last, a->amendment);
    }
}

static void say_side(FILE *out, const char *name, const int32_t *side, size_t lent) {
    unsigned said = 0;
    size_t days = before.book.setup.days == 0 ? 1 : before.book.setup.days;
    for (size_t place = 0; place < lent && said < PLACES_SAID; place++) {
        if (side[place] == GHENDUFIKA_MARK) continue;
        size_t day = place / GHENDUFIKA_PLACES_A_DAY;
        fprintf(out, "%s%s %zu/%zu/%zu: %d", said % 8 == 0 ? "\n    " : ", ", name, day / days, day % days, place % GHENDUFIKA_PLACES_A_DAY + 1, side[place]);
        said++;
    }
}

static void say_tables(FILE *out) {
    say_setup(out, &before.book.setup);
    fprintf(out, "  gates closed %u, slots %zu, places of side 1 %zu and of side 2 %zu\n  held", before.book.closed, before.slots, before.lent1, before.lent2);
    for (size_t slot = 0; slot < before.slots; slot++)
        if (before.held[slot] == 0) fprintf(out, " none");
        else fprintf(out, " %u/%u", (before.held[slot] - 1) / 65536, (before.held[slot] - 1) % 65536);
    fprintf(out, "\n  stands (slot/day/period):");
    say_side(out, "side 1", before.side1, before.lent1);
    say_side(out, "side 2", before.side2, before.lent2);
    fprintf(out, "\n");
}

static void say_notification(FILE *out) {
    const ghendufika_notification *n = &asked.notification;
    fprintf(out, "  notification: authorisation %u, agent %u, key %u, identifier %u/%u, days %u to %u, entries %u:", n->authorisation, n->agent, n->key,
            n->originator, n->reference, n->first, n->last, n->count);
    for (unsigned entry = 0; entry < n->count && entry < GHENDUFIKA_MOST_ENTRIES; entry++)
        fprintf(out, " %u:%d", n->entries[entry].period, n->entries[entry].volume);
    fprintf(out, "\n");
}

static void say_spreadsheet(FILE *out) {
    const ghendufika_spreadsheet *s = &asked.spreadsheet;
    fprintf(out, "  spreadsheet: entries %u:", s->count);
    for (unsigned entry = 0; entry < s->count && entry < GHENDUFIKA_MOST_ENTRIES; entry++) fprintf(out, " %u:%d", s->entries[entry].period, s->entries[entry].volume);
    fprintf(out, "\n");
}

static void say_bytes(FILE *out) {
    fprintf(out, "  %zu bytes:", asked.length);
    for (size_t k = 0; k < asked.length; k++) fprintf(out, " %02x", asked.bytes[k]);
    fprintf(out, "\n");
}

void say_call(FILE *out) {
    unsigned parts = asked.parts;
    fprintf(out, "seed %llu, episode %llu, call %llu: %s\n", (unsigned long long)seed, (unsigned long long)episode, (unsigned long long)calls, asked.name);
    if (parts & SAY_SETUP) say_setup(out, &asked.setup);
    if (parts & SAY_TABLES) say_tables(out);
    if (parts & SAY_BYTES) say_bytes(out);
    if (parts & SAY_FIELD) fprintf(out, "  field %u\n", asked.field);
    if (parts & SAY_KIND) fprintf(out, "  message kind %u\n", asked.kind);
    if (parts & SAY_NOTIFICATION) say_notification(out);
    if (parts & SAY_SPREADSHEET) say_spreadsheet(out);
    if (parts & SAY_NULLIFICATION)
        fprintf(out, "  nullification: accounts %u and %u from day %u\n", asked.nullification.account, asked.nullification.other, asked.nullification.first);
    if (parts & SAY_LENGTHS) fprintf(out, "  for %zu slots, %zu places of side 1, %zu of side 2\n", asked.slots, asked.lent1, asked.lent2);
    if (parts & SAY_IDENTIFIER) fprintf(out, "  identifier: originator %u, reference %u\n", asked.originator, asked.reference);
    if (parts & SAY_ACCOUNT) fprintf(out, "  account %u\n", asked.account);
    if (parts & SAY_DAY) fprintf(out, "  day %u\n", asked.day);
    if (parts & SAY_DAYS) fprintf(out, "  so many days from it on: %u\n", asked.days);
    if (parts & SAY_DATE) fprintf(out, "  date: year %u, month %u, day %u\n", asked.date.year, asked.date.month, asked.date.day);
    if (parts & SAY_PERIOD) fprintf(out, "  period %u\n", asked.period);
    if (parts & SAY_SIDE) fprintf(out, "  side %u\n", asked.side);
    if (parts & SAY_ROOM) fprintf(out, "  room %zu %zu %zu\n", asked.room[0], asked.room[1], asked.room[2]);
}

_Noreturn void fail(const char *promise) {
    fflush(stdout);
    fprintf(stderr, "fuzz: this does not hold: %s\n", promise);
    say_call(stderr);
    if (!in_words) /* in an episode alone the calls are counted from its beginning */
        fprintf(stderr, "again: ./fuzz %llu %llu, or this episode alone, every call in words: ./fuzz episode %llu %llu\n", (unsigned long long)calls,
                (unsigned long long)seed, (unsigned long long)episode, (unsigned long long)seed);
    exit(1);
}

void must(bool holds, const char *promise) {
    if (!holds) fail(promise);
}

/* What it calls is not allowed in every signal handler. Here it is: the signal comes out of an export, which holds no lock of the C library. */
static void on_fault(int signal_number) {
    if (signal_number == SIGALRM) fail("every call returns (time is over)");
    fail("only what is lent is read, and only what is lent to change is written (the machine stopped the call)");
}

void watch_for_faults(void) {
    static char stack[1 << 16]; /* the call's own stack may be what is broken */
    stack_t other = {.ss_sp = stack, .ss_size = sizeof stack};
    sigaltstack(&other, NULL);
    struct sigaction action = {.sa_handler = on_fault, .sa_flags = SA_ONSTACK};
    const int faults[] = {SIGSEGV, SIGBUS, SIGILL, SIGFPE, SIGALRM};
    for (size_t k = 0; k < sizeof faults / sizeof faults[0]; k++) sigaction(faults[k], &action, NULL);
    alarm(SECONDS_FOR_A_CALL);
}

/* ---- the numbers seen */

enum { MOST_SEEN = 64 };
static struct seen *all_seen[MOST_SEEN];
static size_t seen_count;

static void enter(struct seen *seen) {
    for (const char *next = seen->can_come; *next != '\0';) {
        char *end;
        unsigned long number = strtoul(next, &end, 10);
        if (end == next || number >= MOST_NUMBERS) break;
        seen->possible[number] = true;
        next = end;
    }
    if (seen_count < MOST_SEEN) all_seen[seen_count++] = seen;
}

void expect(struct seen *seen) {
    for (size_t k = 0; k < seen_count; k++)
        if (all_seen[k] == seen) return;
    enter(seen);
}

void note(struct seen *seen, unsigned number) {
    if (number >= MOST_NUMBERS || !seen->possible[number]) fail("the answer is one of the numbers that can come");
    seen->times[number]++;
}

bool print_seen(void) {
    bool all = true;
    for (size_t k = 0; k < seen_count; k++) {
        const struct seen *seen = all_seen[k];
        printf("%-28s", seen->name);
        for (unsigned number = 0; number < MOST_NUMBERS; number++) {
            if (!seen->possible[number]) continue;
            printf(" %u:%llu", number, (unsigned long long)seen->times[number]);
            all = all && seen->times[number] > 0;
        }
        printf("%s%s\n", seen->cannot == NULL ? "" : "   never: ", seen->cannot == NULL ? "" : seen->cannot);
    }
    for (size_t k = 0; k < seen_count; k++)
        for (unsigned number = 0; number < MOST_NUMBERS; number++)
            if (all_seen[k]->possible[number] && all_seen[k]->times[number] == 0) printf("never seen: %u of %s\n", number, all_seen[k]->name);
    return all;
}

/* check_feedback FILE [all | against FEEDBACK]
 * For the operations desk, from a packed setup and messages ("-" is standard input).
 * By itself: what each side of every contract says. Pair by pair, identifier by identifier, day and period: whole kWh as they stand, plus where the
 * first party sells to the second. Places matched at zero are counted and, unless `all` is asked, not listed.
 * Against the central agent's feedback, a file of lines (feedback.h): pair by pair where our book differs from it.
 * Leaves with 0 where every place that states anything matches (or our book has what the feedback has) and every message was done, 1 where not, 2
 * where there is nothing to show. */
#include "against.h"
#include "refusals.h"

#include <inttypes.h>
#include <stdio.h>
#include <stdlib.h>
#include <string.h>

typedef struct {
    int64_t matched_kwh;
    unsigned matched, zero, different, one_side, never; /* places; `zero` are those of `matched` at zero, `never` those not matched whose gate is closed */
    unsigned identifiers;
} totals;

static bool list_all;

static void add(totals *sum, const totals *part) {
    sum->matched_kwh += part->matched_kwh;
    sum->matched += part->matched;
    sum->zero += part->zero;
    sum->different += part->different;
    sum->one_side += part->one_side;
    sum->never += part->never;
    sum->identifiers += part->identifiers;
}

static void print_volume(int32_t kwh) {
    if (kwh == GHENDUFIKA_MARK) printf("  %11s", "nothing");
    else printf("  %11" PRId32, kwh);
}

static void print_place(const story *told, unsigned slot, unsigned day, unsigned period, uint8_t case_number) {
    int32_t side1 = told->side1[place_of(told, slot, day, period)], side2 = told->side2[place_of(told, slot, day, period)];
    const char *when = period <= gates_closed_on(told, day) ? "never agreed: gate closed" : "not agreed yet";
    printf("%10u  %9u  %5u  %6u", originator_of(told, slot), reference_of(told, slot), day, period);
    print_volume(side1);
    print_volume(side2);
    if (case_number == GHENDUFIKA_AGREED) printf("  matched\n");
    else if (case_number == GHENDUFIKA_DISAGREED) printf("  DIFFERENT by %" PRId32 ", %s\n", side1 - side2, when);
    else printf("  ONE SIDE, side %d says nothing, %s\n", side1 == GHENDUFIKA_MARK ? 1 : 2, when);
}

static void count_place(totals *sum, const story *told, unsigned slot, unsigned day, unsigned period, uint8_t case_number) {
    int32_t kwh = told->side1[place_of(told, slot, day, period)];
    sum->one_side += case_number == GHENDUFIKA_ONE_SIDE;
    sum->different += case_number == GHENDUFIKA_DISAGREED;
    sum->never += (case_number == GHENDUFIKA_ONE_SIDE || case_number == GHENDUFIKA_DISAGREED) && period <= gates_closed_on(told, day);
    if (case_number != GHENDUFIKA_AGREED) return;
    sum->matched++;
    sum->zero += kwh == 0;
    sum->matched_kwh += kwh;
}

/* The case of each place is the proved code's; the volumes are read from the lent tables, where they stand. */
static void check_day(totals *sum, const story *told, unsigned slot, unsigned day) {
    unsigned originator = originator_of(told, slot);
    uint8_t cases[GHENDUFIKA_PLACES_A_DAY];
    double firsts[GHENDUFIKA_PLACES_A_DAY], seconds[GHENDUFIKA_PLACES_A_DAY];
    uint8_t account1 = told->book.setup.rows[originator].account1;
    uint8_t answer = ghendufika_day_marks(told->book, LENT(told), originator, reference_of(told, slot), account1, day, cases, GHENDUFIKA_PLACES_A_DAY, firsts,
                                          GHENDUFIKA_PLACES_A_DAY, seconds, GHENDUFIKA_PLACES_A_DAY);
    if (answer != GHENDUFIKA_DONE) {
        fprintf(stderr, "check_feedback: marks refused by %u (%s)\n", answer, words_of(answer));
        exit(NOTHING_SHOWN);
    }
    for (unsigned period = 1; period <= periods_on(told, day); period++) {
        uint8_t case_number = cases[period - 1];
        bool matched_zero = case_number == GHENDUFIKA_AGREED && firsts[period - 1] == 0;
        count_place(sum, told, slot, day, period, case_number);
        if (case_number != GHENDUFIKA_BLANK && (list_all || !matched_zero)) print_place(told, slot, day, period, case_number);
    }
}

/* A pair is first and second party in this order: 11 with 22 and 22 with 11 are two pairs, since plus means another seller. */
static bool is_between(const story *told, unsigned slot, unsigned account1, unsigned account2) {
    if (told->held[slot] == 0) return false;
    const ghendufika_authorisation *row = &told->book.setup.rows[originator_of(told, slot)];
    return row->account1 == account1 && row->account2 == account2;
}

static totals check_pair(const story *told, unsigned account1, unsigned account2) {
    totals sum = {0};
    for (unsigned slot = 0; slot < SLOTS; slot++) sum.identifiers += is_between(told, slot, account1, account2);
    if (sum.identifiers == 0) return sum;
    printf("\nFirst party (side 1): account %u; second party (side 2): account %u; kWh, plus where account %u sells\n", account1, account2, account1);
    printf("originator  reference    day  period       side 1       side 2  standing\n");
    for (unsigned slot = 0; slot < SLOTS; slot++)
        for (unsigned k = 0; k < told->book.setup.days && is_between(told, slot, account1, account2); k++)
            check_day(&sum, told, slot, told->book.setup.first + k);
    printf("accounts %u and %u: matched %" PRId64 " kWh; identifiers %u, places matched %u (%u of them zero), different %u, one side %u\n", account1, account2,
           sum.matched_kwh, sum.identifiers, sum.matched, sum.zero, sum.different, sum.one_side);
    return sum;
}

static void print_messages(const story *told) {
    const ghendufika_setup *setup = &told->book.setup;
    char line[MOST_LINE];
    printf("Days %u to %u, %u accounts, %zu messages\n", setup->first, setup->first + setup->days - 1u, setup->accounts, told->messages);
    for (size_t at = 0; next_refusal(told, &at, line);) printf("  %s\n", line);
    tell_missing(told, line);
    if (!is_complete(told)) printf("INCOMPLETE: %s\n", line);
}

static int check(const story *told) {
    totals sum = {0};
    unsigned pairs = 0;
    for (unsigned account1 = 0; account1 < told->book.setup.accounts; account1++)
        for (unsigned account2 = 0; account2 < told->book.setup.accounts; account2++) {
            totals pair = check_pair(told, account1, account2);
            pairs += pair.identifiers > 0;
            add(&sum, &pair);
        }
    printf("\nin all: pairs %u, identifiers %u, places matched %u (%u of them zero%s), different %u, one side %u\n", pairs, sum.identifiers, sum.matched, sum.zero,
           list_all ? "" : " and not listed", sum.different, sum.one_side);
    unsigned unmatched = sum.different + sum.one_side;
    if (sum.identifiers == 0) printf("Nothing stands: no identifier is held.\n");
    else if (unmatched == 0) printf("Nothing to ask the other side about.\n");
    else printf("Only matched places count. Not agreed yet, to be cleared: %u; never agreed, gate closed: %u\n", unmatched - sum.never, sum.never);
    return unmatched == 0 && is_complete(told) ? ALL_SHOWN : NOT_ALL_SHOWN;
}

static int show(const story *told, const feedback *said) {
    char line[MOST_LINE];
    print_messages(told);
    int status = said->count > 0 ? hold_against(told, said) : check(told);
    if (is_complete(told)) return status;
    tell_missing(told, line);
    printf("INCOMPLETE: messages are missing in these figures, see above\n");
    fprintf(stderr, "check_feedback: INCOMPLETE: %s\n", line);
    return status;
}

int main(int argc, char **argv) {
    static story told;
    static const char use[] = "use: check_feedback FILE [all | against FEEDBACK]\n"
                              "What both sides of every contract say, from a packed setup and messages in FILE (- is standard input); `all` lists zeros too.\n"
                              "Against FEEDBACK, lines of identifier, side, day, period and kWh: where our book differs from it.\n"
                              "Leaves with 0 where nothing differs and nothing is missing, 1 where something does or is, 2 where nothing is shown.\n";
    bool against = argc == 4 && strcmp(argv[2], "against") == 0;
    feedback said = {NULL, 0};
    list_all = argc == 3 && strcmp(argv[2], "all") == 0;
    if (argc == 2 && strcmp(argv[1], "--help") == 0) {
        fputs(use, stdout);
        return leave("check_feedback", ALL_SHOWN);
    }
    if (argc != 2 && !list_all && !against) {
        fputs(use, stderr);
        return NOTHING_SHOWN;
    }
    int status = NOTHING_SHOWN;
    if (!read_story(argv[1], &told)) {
        printf("Nothing to show: %s\n", told.trouble);
        fprintf(stderr, "check_feedback: nothing to show: %s\n", told.trouble);
    } else if (!against || read_feedback(argv[3], &said)) status = show(&told, &said);
    free(said.places);
    forget_story(&told);
    return leave("check_feedback", status);
}

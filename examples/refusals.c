/* The words for what was refused; see refusals.h. */
#include "refusals.h"

#include <stdio.h>
#include <string.h>

/* A notification of several days names the periods of a plain day (document 01, "What a notification does"). */
enum { PERIODS_OVER_SEVERAL_DAYS = 48 };

/* The longest reason has some 80 characters; before it stand two message numbers. */
enum { MOST_REASON = 160 };

void tell_missing(const story *told, char line[MOST_LINE]) {
    int used = 0;
    line[0] = '\0';
    if (told->refused > 0) used = snprintf(line, MOST_LINE, "%zu of %zu messages REFUSED", told->refused, told->messages);
    if (is_cut_short(told))
        snprintf(line + used, MOST_LINE - (size_t)used, "%sfrom message %zu on UNREADABLE, %zu bytes missing", used > 0 ? "; " : "", told->messages, told->unread);
}

static int64_t field_of(const story *told, size_t message, uint32_t field) {
    return ghendufika_message_field(told->packed.bytes + told->starts[message], told->packed.length - told->starts[message], field);
}

/* Which entry it is, is the book's word; how its period is wrong is seen: it is 0, or not above the one before, and else too high for its days. */
static void tell_period(const story *told, size_t message, uint32_t entry, char *words, size_t room) {
    unsigned period = (unsigned)field_of(told, message, GHENDUFIKA_FIELD_PERIOD(entry));
    unsigned before = entry == 0 ? 0 : (unsigned)field_of(told, message, GHENDUFIKA_FIELD_PERIOD(entry - 1));
    unsigned first = (unsigned)field_of(told, message, GHENDUFIKA_FIELD_FIRST_DAY), last = (unsigned)field_of(told, message, GHENDUFIKA_FIELD_LAST_DAY);
    if (period == 0) snprintf(words, room, "period 0, and the first is 1");
    else if (period <= before) snprintf(words, room, "period %u after period %u", period, before);
    else if (first == last) snprintf(words, room, "period %u on a day of %u", period, periods_on(told, first));
    else snprintf(words, room, "period %u, and over several days the last is %d", period, PERIODS_OVER_SEVERAL_DAYS);
}

static void tell_volume(const story *told, size_t message, uint32_t entry, char *words, size_t room) {
    long long kwh = field_of(told, message, GHENDUFIKA_FIELD_VOLUME(entry));
    snprintf(words, room, "%lld kWh, and the most is %d either way", kwh, GHENDUFIKA_MOST_VOLUME);
}

/* The number and its words; where one entry was at fault, which it was and what it says. People count entries from 1. */
static void tell_reason(const story *told, size_t message, char reason[MOST_REASON]) {
    uint8_t answer = told->answers[message];
    uint32_t entry = told->entries_at_fault[message];
    if (answer != GHENDUFIKA_PERIOD_WRONG && answer != GHENDUFIKA_VOLUME_WRONG) {
        snprintf(reason, MOST_REASON, "%u: %s", answer, words_of(answer));
        return;
    }
    unsigned count = (unsigned)field_of(told, message, GHENDUFIKA_FIELD_COUNT);
    size_t used = (size_t)snprintf(reason, MOST_REASON, "%u, entry %u of %u: ", answer, entry + 1, count);
    if (answer == GHENDUFIKA_PERIOD_WRONG) tell_period(told, message, entry, reason + used, MOST_REASON - used);
    else tell_volume(told, message, entry, reason + used, MOST_REASON - used);
}

/* From message `at` on, all in a row that have this reason, word for word, so that nothing is lost where they share a line. */
static size_t end_of_row(const story *told, size_t at, const char *reason) {
    char next[MOST_REASON];
    for (; at < told->messages && told->answers[at] != GHENDUFIKA_DONE; at++) {
        tell_reason(told, at, next);
        if (strcmp(next, reason) != 0) break;
    }
    return at;
}

bool next_refusal(const story *told, size_t *at, char line[MOST_LINE]) {
    char reason[MOST_REASON];
    while (*at < told->messages && told->answers[*at] == GHENDUFIKA_DONE) ++*at;
    if (*at == told->messages) return false;
    size_t first = *at + 1; /* messages are numbered from 1 */
    tell_reason(told, *at, reason);
    *at = end_of_row(told, *at, reason);
    if (is_cut_short(told) && first == told->messages) snprintf(line, MOST_LINE, "message %zu could not be read, by %s", first, reason);
    else if (*at == first) snprintf(line, MOST_LINE, "message %zu refused by %s", first, reason);
    else snprintf(line, MOST_LINE, "messages %zu to %zu refused by %s", first, *at, reason);
    return true;
}

const char *words_of(uint8_t answer) {
    static const char *const words[] = {
        "done", "the tables handed in are not a sound book", "every gate is closed", "authorisation number unknown",
        "key wrong, or agent is neither of its two", "authorisation not in force on the current day",
        "originator is neither this authorisation nor an expired one of the same accounts", "last day before first day",
        "last day before the current day", "first day after the book's last day", "a period is 0 or too high, or periods do not strictly rise",
        "a volume out of range", "a replacement, and the type is additional", "an additional, and the type is replacement",
        "identifier not held and every slot held", "account not in the book, not in the pair, or the two equal", "no such day number, period or side",
        "setup counts, day code, last day or lent lengths wrong", "an authorisation row wrong", "bytes end too soon", "message kind 3",
        "more than 50 entries", "a padding bit is 1", "a value does not fit its field, or more than 50 entries to write", "no room for what is to be written",
        "identifier not held", "an account total beyond 99,999,999,999 either way", "day or date not in 2000 to 2099", "code disagrees with the calendar",
        "not well-formed CSV", "the header is not period,mwh, or a record has not two fields",
        "a field is not a period of one or two digits, or not a number of MWh", "more than 50 entries in a spreadsheet"};
    return answer < sizeof words / sizeof words[0] ? words[answer] : "unknown";
}

/* bars FILE ACCOUNT DAY OUT.svg
 * An account's day as bars in an SVG file, and as a report on standard output, from a packed setup and messages ("-" is standard input). Every
 * figure is the proved code's, seen from the account: sold is up and bought is down, whichever side of a contract the account sits on. What was
 * refused or could not be read stands in both, and in the exit status: 0 where all the story has is shown, 1 where a message is missing, 2 where
 * nothing is shown. The file then says why, so that no older picture is believed. */
#include "picture.h"
#include "refusals.h"

#include <errno.h>
#include <stdio.h>
#include <string.h>

/* ---- the report */

static const char *signed_mwh(bool stands, double mwh, char text[32]) {
    snprintf(text, 32, !stands ? "nothing" : mwh == 0 ? "0.000" : "%+.3f", mwh);
    return text;
}

static void report_messages(const story *told) {
    char line[MOST_LINE];
    size_t unreadable = is_cut_short(told);
    printf("%zu messages: %zu done, %zu refused, %zu unreadable\n", told->messages, told->messages - told->refused - unreadable, told->refused, unreadable);
    for (size_t at = 0; next_refusal(told, &at, line);) printf("  %s\n", line);
    tell_missing(told, line);
    if (!is_complete(told)) printf("INCOMPLETE: %s\n", line);
}

static void report_bar(const view *seen, const identifier *one, unsigned period) {
    const bar *shown = &one->bars[period - 1];
    char name[16], own[32], other[32];
    snprintf(name, sizeof name, "%u/%u", one->originator, one->reference);
    printf("%6u  %-6s  %10s  %4u  %-17s  %13s  %13s\n", period, is_closed(seen, period) ? "closed" : "open", name, one->other,
           standing_words[shown->standing], signed_mwh(shown->standing != OTHER_ONLY, shown->own, own),
           signed_mwh(shown->standing != OWN_ONLY, shown->other, other));
}

/* What is not agreed while the gate is open may still be; where it is closed nothing can be agreed any more. */
static void report_not_agreed(const view *seen, const char *words, int closed) {
    printf("%s: %u disagreed, %u this account only, %u the other only\n", words, seen->volumes[DISAGREED][closed], seen->volumes[OWN_ONLY][closed],
           seen->volumes[OTHER_ONLY][closed]);
}

static void report(const view *seen) {
    printf("Account %u on day %u (%s): %u periods, %u gates closed\n", seen->account, seen->day, date_of(seen->day), seen->periods, seen->closed);
    report_messages(seen->told);
    printf("Sold %.3f MWh, bought %.3f MWh, net %.3f MWh; only agreed volumes count\n\n", seen->figures.sold, seen->figures.bought, seen->figures.net);
    printf("MWh, plus is sold by account %u, minus is bought\n", seen->account);
    printf("period  gate    identifier  with  what stands         this account      the other\n");
    for (unsigned period = 1; period <= seen->periods; period++)
        for (unsigned i = 0; i < seen->count; i++)
            if (!is_zero(&seen->seen[i].bars[period - 1])) report_bar(seen, &seen->seen[i], period);
    printf("agreed: %u\n", seen->volumes[AGREED][0] + seen->volumes[AGREED][1]);
    report_not_agreed(seen, "not agreed yet, gate open", 0);
    report_not_agreed(seen, "never agreed, gate closed", 1);
    printf("at zero, not listed: %u agreed, %u this account only, %u the other only\n", seen->zeros[AGREED], seen->zeros[OWN_ONLY], seen->zeros[OTHER_ONLY]);
    if (!is_complete(seen->told)) printf("INCOMPLETE: messages are missing in these figures, see above\n");
}

/* ---- the program */

/* What was asked, taken into the view; the trouble where there is nothing to show. */
static void see(char **argv, story *told, view *seen) {
    char *trouble = told->trouble;
    if (!is_number(argv[2], UINT8_MAX, &seen->account)) snprintf(trouble, MOST_LINE, "%.100s is no account: a number from 0 to %u", argv[2], UINT8_MAX);
    else if (!is_number(argv[3], UINT16_MAX, &seen->day)) snprintf(trouble, MOST_LINE, "%.100s is no day: a number from 0 to %u", argv[3], UINT16_MAX);
    else if (read_story(argv[1], told)) {
        uint8_t answer = look(seen);
        if (answer != GHENDUFIKA_DONE) snprintf(trouble, MOST_LINE, "question refused by %u (%s)", answer, words_of(answer));
    }
}

static int show(const char *path, const view *seen) {
    const char *trouble = seen->told->trouble;
    char line[MOST_LINE];
    bool written = write_picture(path, seen, trouble);
    if (!written) fprintf(stderr, "bars: %s cannot be written: %s; if a picture stands there it is an older one\n", path, strerror(errno));
    if (trouble[0] != '\0') {
        printf("Nothing to show: %s\n", trouble);
        fprintf(stderr, "bars: nothing to show: %s\n", trouble);
        return NOTHING_SHOWN;
    }
    report(seen);
    tell_missing(seen->told, line);
    if (!is_complete(seen->told)) fprintf(stderr, "bars: INCOMPLETE: %s\n", line);
    return !written ? NOTHING_SHOWN : is_complete(seen->told) ? ALL_SHOWN : NOT_ALL_SHOWN;
}

static bool ends_in(const char *text, const char *ending) {
    return strlen(text) >= strlen(ending) && strcmp(text + strlen(text) - strlen(ending), ending) == 0;
}

int main(int argc, char **argv) {
    static story told;
    static view seen = {.told = &told};
    static const char use[] = "use: bars FILE ACCOUNT DAY OUT.svg\n"
                              "The bars of an account's day in OUT.svg and a report, from a packed setup and messages in FILE (- is standard input).\n"
                              "Leaves with 0 where everything is shown, 1 where a message was refused or unreadable, 2 where nothing is shown.\n";
    if (argc == 2 && strcmp(argv[1], "--help") == 0) {
        fputs(use, stdout);
        return leave("bars", ALL_SHOWN);
    }
    /* Another ending may be that of a file that is no picture, and would be lost. */
    if (argc != 5 || !ends_in(argv[4], ".svg")) {
        fputs(use, stderr);
        return NOTHING_SHOWN;
    }
    see(argv, &told, &seen);
    int status = show(argv[4], &seen);
    forget_story(&told);
    return leave("bars", status);
}

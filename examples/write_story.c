/* write_story NAME: the packed stories of this folder, on standard output. They are packed by the independent program's packing.c, not by the code
 * that reads them. Two have one day 100 of 48 periods, three have three days with a clock change on the second; authorisation 0 has agents 7 and 9 for
 * accounts 11, the first party, and 22, the second. No account has the number of its side, so that who takes one for the other is seen. */
#include "packing.h"

#include <stdio.h>
#include <string.h>

/* Day codes, by the periods of such a day. */
enum { DAY_OF_46, DAY_OF_48, DAY_OF_50 };

static void write_setup(const struct setup *setup) {
    uint8_t bytes[MOST_SETUP_BYTES];
    fwrite(bytes, 1, pack_setup(setup, bytes), stdout);
}

/* One identifier, of the authorisation itself; volumes in kWh, plus where the first party of the authorisation sells. */
static void notify_days(unsigned authorisation, unsigned agent, unsigned key, unsigned reference, unsigned first_day, unsigned last_day, unsigned count,
                        const struct entry *entries) {
    struct message message = {.kind = NOTIFICATION};
    uint8_t bytes[MOST_MESSAGE_BYTES];
    message.notification = (struct notification){.authorisation = authorisation, .agent = agent, .key = key, .originator = authorisation,
                                                 .reference = reference, .first_day = first_day, .last_day = last_day, .count = count};
    memcpy(message.notification.entry, entries, count * sizeof entries[0]);
    fwrite(bytes, 1, pack_message(&message, bytes), stdout);
}

static void notify_day(unsigned authorisation, unsigned agent, unsigned key, unsigned reference, unsigned count, const struct entry *entries) {
    notify_days(authorisation, agent, key, reference, 100, 100, count, entries);
}

/* Accounts 11 and 22 say the same of a contract. */
static void agree_days(unsigned reference, unsigned first_day, unsigned last_day, unsigned count, const struct entry *entries) {
    notify_days(0, 9, 500, reference, first_day, last_day, count, entries);
    notify_days(0, 7, 500, reference, first_day, last_day, count, entries);
}

static void close_gates(unsigned count) {
    struct message gate = {.kind = GATE};
    uint8_t bytes[MOST_MESSAGE_BYTES];
    for (unsigned k = 0; k < count; k++) fwrite(bytes, 1, pack_message(&gate, bytes), stdout);
}

/* The user's story: his client, account 22, is the second party and sells 5 MWh in period 35. Agent 9 says so for him, agent 7 for the first party. */
static void write_period_35(void) {
    static const struct setup setup = {.first_day = 100, .days = 1, .accounts = 23, .authorisations = 1, .day_code = {DAY_OF_48},
                                       .authorisation = {{{7, 9}, {11, 22}, 500, 0, EVERGREEN, TYPE_BOTH}}};
    static const struct entry sold[] = {{35, -5000}};
    write_setup(&setup);
    notify_day(0, 9, 500, 1, 1, sold);
    notify_day(0, 7, 500, 1, 1, sold);
}

/* A day with everything a bar can be, seen from account 22: it buys from 11 as second party (0/1, where the two disagree in periods 2, 30 and 31),
 * sells to 33 as first party (1/1, agreed), sells more at noon (1/2, which 33 has not confirmed: its key was wrong) and is said by 33 to buy in the
 * evening (1/3). */
static void write_busy_day(void) {
    static const struct setup setup = {.first_day = 100, .days = 1, .accounts = 34, .authorisations = 2, .day_code = {DAY_OF_48},
                                       .authorisation = {{{7, 9}, {11, 22}, 500, 0, EVERGREEN, TYPE_BOTH}, {{9, 13}, {22, 33}, 600, 0, EVERGREEN, TYPE_BOTH}}};
    struct entry bought[48], said_otherwise[48], sold[24], noon[8], evening[6];
    for (unsigned k = 0; k < 48; k++) bought[k] = said_otherwise[k] = (struct entry){k + 1, 2000 + 250 * (int32_t)(k % 24 < 12 ? k % 12 : 12 - k % 12)};
    said_otherwise[1].volume = 0;
    said_otherwise[29].volume = 6500;
    said_otherwise[30].volume = -1500;
    for (unsigned k = 0; k < 24; k++) sold[k] = (struct entry){k + 15, 3500 + 100 * (int32_t)k};
    for (unsigned k = 0; k < 8; k++) noon[k] = (struct entry){k + 22, 2000};
    for (unsigned k = 0; k < 6; k++) evening[k] = (struct entry){k + 40, -3000};
    write_setup(&setup);
    notify_day(0, 7, 500, 1, 48, bought);
    notify_day(0, 9, 500, 1, 48, said_otherwise);
    notify_day(1, 9, 600, 1, 24, sold);
    notify_day(1, 13, 600, 1, 24, sold);
    notify_day(1, 9, 600, 2, 8, noon);
    notify_day(1, 13, 601, 2, 8, noon);
    notify_day(1, 13, 600, 3, 6, evening);
    close_gates(12);
}

static void write_setup_around(unsigned day, unsigned day_code) {
    struct setup setup = {.first_day = day - 1, .days = 3, .accounts = 23, .authorisations = 1, .day_code = {DAY_OF_48, day_code, DAY_OF_48},
                          .authorisation = {{{7, 9}, {11, 22}, 500, 0, EVERGREEN, TYPE_BOTH}}};
    write_setup(&setup);
}

/* A day whose clock changes between the plain day before it and the plain day after, seen from account 22. It sells at night without an end (0/1), each
 * half hour another volume, so that one sees which is dropped or given twice; it buys from 07:00 to 19:00 of all three days (0/2), periods 15 to 38 of
 * a plain day; and it sells in period 35 of the changed day alone (0/3), which is that day's own period 35. */
static void write_clock_change(unsigned day, unsigned day_code) {
    static const struct entry night[] = {{1, -1000}, {2, -2000}, {3, -3000}, {4, -4000}, {5, -5000}, {6, -6000}, {48, -7000}};
    static const struct entry period_35[] = {{35, -5000}};
    struct entry from_7_to_19[24];
    for (unsigned k = 0; k < 24; k++) from_7_to_19[k] = (struct entry){k + 15, 4000};
    write_setup_around(day, day_code);
    agree_days(1, day - 1, EVERGREEN, 7, night);
    agree_days(2, day - 1, day + 1, 24, from_7_to_19);
    agree_days(3, day, day, 1, period_35);
}

/* Sunday 26 March 2000, without an hour from 01:00 to 02:00. */
enum { SPRING_DAY = 85 };
static void write_spring_day(void) { write_clock_change(SPRING_DAY, DAY_OF_46); }

/* Sunday 29 October 2000, with two hours from 01:00 to 02:00. */
static void write_autumn_day(void) { write_clock_change(302, DAY_OF_50); }

/* What is sold in each of so many periods in a row. */
static void sell_in_a_row(unsigned first_day, unsigned last_day, unsigned reference, unsigned first_period, unsigned count) {
    struct entry sold[MOST_ENTRIES];
    for (unsigned k = 0; k < count; k++) sold[k] = (struct entry){first_period + k, -5000};
    notify_days(0, 9, 500, reference, first_day, last_day, count, sold);
}

/* Both sides notify a sale on the spring day. Then account 22's agent is refused for an entry, again and again: a plain day's 48 periods for the Sunday,
 * which has 46; the 50 of a long day for all three days; periods counted from 0; a period behind a later one; and volumes in Wh, which he sends once more
 * as they are. */
static void write_wrong_entries(void) {
    static const struct entry period_35[] = {{35, -5000}};
    static const struct entry out_of_order[] = {{10, -5000}, {14, -5000}, {12, -5000}, {16, -5000}, {18, -5000}};
    static const struct entry in_watt_hours[] = {{20, -60000000}, {21, -120000000}, {22, -60000000}};
    write_setup_around(SPRING_DAY, DAY_OF_46);
    agree_days(1, SPRING_DAY, SPRING_DAY, 1, period_35);
    sell_in_a_row(SPRING_DAY, SPRING_DAY, 2, 1, 48);
    sell_in_a_row(SPRING_DAY - 1, SPRING_DAY + 1, 3, 1, 50);
    sell_in_a_row(SPRING_DAY, SPRING_DAY, 4, 0, 24);
    notify_days(0, 9, 500, 5, SPRING_DAY, SPRING_DAY, 5, out_of_order);
    for (int sent = 0; sent < 2; sent++) notify_days(0, 9, 500, 6, SPRING_DAY, SPRING_DAY, 3, in_watt_hours);
}

int main(int argc, char **argv) {
    static const char use[] = "use: write_story period_35|busy_day|spring_day|autumn_day|wrong_entries\nOne of the packed stories of examples/, on standard output.\n";
    const char *name = argc == 2 ? argv[1] : "";
    if (strcmp(name, "--help") == 0) fputs(use, stdout);
    else if (strcmp(name, "period_35") == 0) write_period_35();
    else if (strcmp(name, "busy_day") == 0) write_busy_day();
    else if (strcmp(name, "spring_day") == 0) write_spring_day();
    else if (strcmp(name, "autumn_day") == 0) write_autumn_day();
    else if (strcmp(name, "wrong_entries") == 0) write_wrong_entries();
    else {
        fputs(use, stderr);
        return 2;
    }
    if (fflush(stdout) == 0 && !ferror(stdout)) return 0;
    perror("write_story: standard output cannot be written");
    return 2;
}

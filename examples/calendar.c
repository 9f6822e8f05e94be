/* calendar YEAR | YEAR MONTH DAY | day NUMBER | propose YEAR MONTH DAY DAYS | typed YEAR MONTH DAY CODES | check FILE
 * The settlement calendar of document 02, A2, for the desk that sets up a book, so that nobody types a plain day for October again. The days of a year
 * when the clocks change; a date's day, and a day number's date; the codes of some days, and a book opened with them; codes that somebody typed, or those
 * of a packed setup ("-" is standard input), held against the calendar before a book is opened with them. All that is known of a day is the proved
 * code's, but for the name of its weekday.
 * What the calendar refuses stands on standard output, with the day that it is refused for, and in the exit status: 0 where all is well, 1 where the
 * calendar refuses (27, 28), 2 where there is nothing to show. */
#include "refusals.h"

#include <errno.h>
#include <stdarg.h>
#include <stdio.h>
#include <stdlib.h>
#include <string.h>

enum { ALL_WELL = ALL_SHOWN, CALENDAR_REFUSES = 1, MOST_DATE = 32 };

/* Tables to lend; there is no story in it. */
static story lent;

/* ---- saying */

/* What is refused is said where the reader looks, and on standard error to those that look at nothing else. */
static void say(const char *format, ...) {
    va_list words;
    va_start(words, format);
    vprintf(format, words);
    va_end(words);
    putchar('\n');
    fputs("calendar: ", stderr);
    va_start(words, format);
    vfprintf(stderr, format, words);
    va_end(words);
    fputc('\n', stderr);
}

/* All is well, or the calendar refuses. With any other answer there is no setup whose days could be shown. */
static bool is_of_calendar(uint8_t answer) { return answer == GHENDUFIKA_DONE || answer == GHENDUFIKA_NOT_IN_CALENDAR || answer == GHENDUFIKA_CODE_DISAGREES; }

static int refuse_setup(uint8_t answer) {
    say("Nothing to show: setup refused by %u (%s)", answer, words_of(answer));
    return NOTHING_SHOWN;
}

/* ---- days */

/* A date has no weekday, but day 0 is a Saturday (document 02, A2). */
static void write_date(uint32_t day, ghendufika_date date, char words[MOST_DATE]) {
    static const char *const weekdays[] = {"Saturday", "Sunday", "Monday", "Tuesday", "Wednesday", "Thursday", "Friday"};
    static const char *const months[] = {"January", "February", "March",     "April",   "May",      "June",
                                         "July",    "August",   "September", "October", "November", "December"};
    snprintf(words, MOST_DATE, "%s %u %s %u", weekdays[day % 7], date.day, months[date.month - 1], date.year);
}

static void print_heading(const char *more) { printf("%5s  %-27s  %7s  %4s%s\n", "day", "date", "periods", "code", more); }

/* What the calendar says of a day; its line is left open. */
static void print_day(uint32_t day) {
    char words[MOST_DATE];
    ghendufika_dated dated = ghendufika_date_of_day(day);
    if (dated.answer != GHENDUFIKA_DONE) {
        printf("%5u  %-27s  %7s  %4s", day, "not in the calendar", "-", "-");
        return;
    }
    write_date(day, dated.date, words);
    printf("%5u  %-27s  %7u  %4u", day, words, ghendufika_day_length(day).periods, ghendufika_code_of_day(day).code);
}

static void print_days(unsigned first, unsigned days) {
    print_heading("");
    for (unsigned k = 0; k < days; k++) {
        print_day(first + k);
        putchar('\n');
    }
}

/* Beside what the calendar says, the code that a setup has for the day. */
static void print_given_day(uint32_t day, uint8_t given) {
    ghendufika_coded coded = ghendufika_code_of_day(day);
    print_day(day);
    printf("  %5u", given);
    if (coded.answer != GHENDUFIKA_DONE) printf("  NOT IN THE CALENDAR");
    else if (coded.code != given) printf("  DISAGREES: by the calendar %u", coded.code);
    putchar('\n');
}

static void print_codes(const char *whose, unsigned first, unsigned days, const uint8_t *codes) {
    printf("Days %u to %u, codes %s: ", first, first + days - 1, whose);
    for (unsigned k = 0; k < days; k++) printf("%u", codes[k]);
    putchar('\n');
}

/* ---- books */

static int tell_opening(uint8_t answer) {
    if (answer == GHENDUFIKA_DONE) {
        printf("OPENED: a book of these days, checked against the calendar\n");
        return ALL_WELL;
    }
    say("NOT OPENED: setup refused by %u (%s)", answer, words_of(answer));
    return CALENDAR_REFUSES;
}

/* The days of a setup that was checked, and what became of it. */
static int show_setup(const ghendufika_setup *setup, uint8_t answer) {
    print_codes("as given", setup->first, setup->days, setup->codes);
    print_heading("  given");
    for (unsigned k = 0; k < setup->days; k++) print_given_day(setup->first + k, setup->codes[k]);
    return tell_opening(answer);
}

/* As small as a setup can be: two accounts, and one authorisation between them that has no end. */
static ghendufika_setup small_setup(unsigned first) {
    ghendufika_setup setup = {.first = (uint16_t)first, .accounts = GHENDUFIKA_FEWEST_ACCOUNTS, .authorisations = 1};
    setup.rows[0] = (ghendufika_authorisation){.agent1 = 7, .agent2 = 9, .account1 = 0, .account2 = 1, .key = 500, .first = (uint16_t)first,
                                               .last = GHENDUFIKA_EVERGREEN, .amendment = GHENDUFIKA_TYPE_BOTH};
    return setup;
}

static uint8_t open_checked(ghendufika_setup setup) {
    lent.lent = places_of_days(setup.days);
    return ghendufika_open_checked(setup, LENT(&lent)).answer;
}

/* ---- arguments */

/* Numbers go to the calendar as they are, whole: it is the calendar that has no year 67,536. */
static bool take_numbers(char **texts, unsigned count, unsigned *numbers) {
    static const char *const names[] = {"year", "month", "day", "number of days"};
    for (unsigned k = 0; k < count; k++)
        if (!is_number(texts[k], UINT32_MAX, &numbers[k])) {
            say("Nothing to show: %s is no %s: a number from 0 to %u", texts[k], names[k], UINT32_MAX);
            return false;
        }
    return true;
}

static bool find_day(unsigned year, unsigned month, unsigned day, unsigned *number) {
    ghendufika_numbered found = ghendufika_day_of_date(year, month, day);
    *number = found.day;
    if (found.answer != GHENDUFIKA_DONE) say("NOT IN THE CALENDAR: year %u, month %u, day %u, by %u (%s)", year, month, day, found.answer, words_of(found.answer));
    return found.answer == GHENDUFIKA_DONE;
}

/* A digit a day. What a setup has no room for is no code of it, and more days than its field can say are as many too many. */
static bool take_codes(const char *text, ghendufika_setup *setup) {
    size_t days = strlen(text);
    if (strspn(text, "0123456789") != days) {
        say("Nothing to show: %s are no codes: a digit a day", text);
        return false;
    }
    setup->days = days < UINT8_MAX ? (uint8_t)days : UINT8_MAX;
    for (size_t k = 0; k < days && k < GHENDUFIKA_MOST_DAYS; k++) setup->codes[k] = (uint8_t)(text[k] - '0');
    return true;
}

/* ---- what can be asked */

static int show_year(char **arguments) {
    unsigned year, first, last;
    if (!take_numbers(arguments, 1, &year)) return NOTHING_SHOWN;
    if (!find_day(year, 1, 1, &first) || !find_day(year, 12, 31, &last)) return CALENDAR_REFUSES;
    printf("Days of %u when the clocks change, of days %u to %u\n", year, first, last);
    print_heading("");
    for (unsigned day = first; day <= last; day++)
        if (ghendufika_code_of_day(day).code != GHENDUFIKA_DAY_OF_48) {
            print_day(day);
            putchar('\n');
        }
    return ALL_WELL;
}

static int show_date(char **arguments) {
    unsigned date[3], day;
    if (!take_numbers(arguments, 3, date)) return NOTHING_SHOWN;
    if (!find_day(date[0], date[1], date[2], &day)) return CALENDAR_REFUSES;
    print_days(day, 1);
    return ALL_WELL;
}

static int show_day(char **arguments) {
    unsigned day;
    if (!is_number(arguments[0], UINT32_MAX, &day)) {
        say("Nothing to show: %s is no day: a number from 0 to %u", arguments[0], UINT32_MAX);
        return NOTHING_SHOWN;
    }
    uint8_t answer = ghendufika_date_of_day(day).answer;
    if (answer == GHENDUFIKA_DONE) print_days(day, 1);
    else say("NOT IN THE CALENDAR: day %u, by %u (%s)", day, answer, words_of(answer));
    return answer == GHENDUFIKA_DONE ? ALL_WELL : CALENDAR_REFUSES;
}

static int propose(char **arguments) {
    unsigned asked[4], first;
    if (!take_numbers(arguments, 4, asked)) return NOTHING_SHOWN;
    if (!find_day(asked[0], asked[1], asked[2], &first)) return CALENDAR_REFUSES;
    unsigned days = asked[3];
    ghendufika_proposed proposed = ghendufika_propose_codes(first, days);
    if (!is_of_calendar(proposed.answer)) return refuse_setup(proposed.answer);
    if (proposed.answer != GHENDUFIKA_DONE) {
        print_days(first, days);
        say("NO CODES: refused by %u (%s)", proposed.answer, words_of(proposed.answer));
        return CALENDAR_REFUSES;
    }
    ghendufika_setup setup = small_setup(first);
    setup.days = (uint8_t)days;
    memcpy(setup.codes, proposed.codes, sizeof setup.codes);
    uint8_t answer = open_checked(setup);
    if (!is_of_calendar(answer)) return refuse_setup(answer);
    print_codes("by the calendar", first, days, proposed.codes);
    print_days(first, days);
    return tell_opening(answer);
}

static int open_typed(char **arguments) {
    unsigned date[3], first;
    if (!take_numbers(arguments, 3, date)) return NOTHING_SHOWN;
    if (!find_day(date[0], date[1], date[2], &first)) return CALENDAR_REFUSES;
    ghendufika_setup setup = small_setup(first);
    if (!take_codes(arguments[3], &setup)) return NOTHING_SHOWN;
    uint8_t answer = open_checked(setup);
    return is_of_calendar(answer) ? show_setup(&setup, answer) : refuse_setup(answer);
}

/* A refusal gives no setup, so the day that it is for is seen by reading without the check. */
static int check_setup(const input *all) {
    lent.lent = places_for(all);
    ghendufika_opened_packed opened = ghendufika_open_packed_checked(all->bytes, all->length, LENT(&lent));
    if (opened.answer == GHENDUFIKA_DONE) return show_setup(&opened.book.setup, opened.answer);
    if (!is_of_calendar(opened.answer)) return refuse_setup(opened.answer);
    ghendufika_setup_read read = ghendufika_read_setup(all->bytes, all->length, SLOTS, lent.lent, lent.lent);
    if (read.answer == GHENDUFIKA_DONE) return show_setup(&read.setup, opened.answer);
    printf("Its days cannot be shown: without the calendar it is refused by %u (%s)\n", read.answer, words_of(read.answer));
    return tell_opening(opened.answer);
}

static int check_file(char **arguments) {
    input all = {NULL, 0};
    int status = NOTHING_SHOWN;
    if (read_file(arguments[0], &all)) status = check_setup(&all);
    else say("Nothing to show: %s cannot be read: %s", arguments[0], strerror(errno));
    free(all.bytes);
    return status;
}

/* ---- the program */

static const char use[] = "use: calendar YEAR                           the days of a year when the clocks change\n"
                          "     calendar YEAR MONTH DAY                 a date's day number, periods and code\n"
                          "     calendar day NUMBER                     the same of a day number\n"
                          "     calendar propose YEAR MONTH DAY DAYS    the codes of so many days from a date on, and a checked book opened with them\n"
                          "     calendar typed YEAR MONTH DAY CODES     a checked book opened with codes that were typed, a digit a day, as 1121\n"
                          "     calendar check FILE                     the same with the packed setup of FILE (- is standard input)\n"
                          "Leaves with 0 where all is well, 1 where the calendar refuses, by 27 or 28, 2 where there is nothing to show.\n";

static int show_use(char **arguments) {
    (void)arguments;
    fputs(use, stdout);
    return ALL_WELL;
}

/* A question begins with its word, and a year or a date has none. */
typedef struct {
    const char *word;
    int arguments;
    int (*answer)(char **arguments);
} question;

static const question questions[] = {{"--help", 0, show_use}, {"day", 1, show_day}, {"propose", 4, propose}, {"typed", 4, open_typed}, {"check", 1, check_file}};

int main(int argc, char **argv) {
    question asked = argc == 2 ? (question){"", 1, show_year} : (question){"", 3, show_date};
    int before = 1; /* what stands before the arguments */
    for (size_t k = 0; k < sizeof questions / sizeof questions[0]; k++)
        if (argc > 1 && strcmp(argv[1], questions[k].word) == 0) {
            asked = questions[k];
            before = 2;
        }
    if (argc == before + asked.arguments) return leave("calendar", asked.answer(argv + before));
    fputs(use, stderr);
    return NOTHING_SHOWN;
}

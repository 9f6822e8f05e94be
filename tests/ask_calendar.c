/* What the independent program of reference/ answers of the calendar, in numbers, for expect_calendar.py. Every line begins with the answer number.
 *   ask_calendar date YEAR MONTH DAY     .. and the day's number
 *   ask_calendar days FIRST DAYS         a line a day: .. its number, and the year, month, day, periods and code that the calendar has for it
 *   ask_calendar codes FIRST DAYS        .. and the eight places of the codes that are proposed
 *   ask_calendar open FIRST CODES        .. of opening a checked book of two accounts with these codes, a digit a day
 *   ask_calendar setup FILE              .. of a packed setup, checked; then without the check: answer, first day, days and the codes, as one word */
#include "reference.h"

#include <stdio.h>
#include <stdlib.h>
#include <string.h>

static uint32_t number(const char *text) { return (uint32_t)strtoul(text, NULL, 10); }

static void ask_date(char **asked) {
    unsigned day;
    enum answer answer = day_of_date(number(asked[0]), number(asked[1]), number(asked[2]), &day);
    printf("%d %u\n", (int)answer, day);
}

/* The three questions about a day have to be refused together. */
static void ask_day(uint32_t day) {
    struct date date;
    unsigned periods, code;
    enum answer answer = date_of_day(day, &date);
    if (calendar_length(day, &periods) != answer || calendar_code(day, &code) != answer) {
        fprintf(stderr, "ask_calendar: day %u has a date, a length or a code, but not all of them\n", day);
        exit(2);
    }
    printf("%d %u %u %u %u %u %u\n", (int)answer, day, date.year, date.month, date.day, periods, code);
}

static void ask_days(char **asked) {
    for (uint32_t k = 0; k < number(asked[1]); k++) ask_day(number(asked[0]) + k);
}

static void ask_codes(char **asked) {
    unsigned code[MOST_DAYS];
    printf("%d", (int)propose_codes(number(asked[0]), number(asked[1]), code));
    for (unsigned k = 0; k < MOST_DAYS; k++) printf(" %u", code[k]);
    printf("\n");
}

static void ask_opening(char **asked) {
    static struct book book;
    struct setup setup = {.first_day = number(asked[0]), .days = (unsigned)strlen(asked[1]), .accounts = 2, .authorisations = 1,
                          .authorisation = {{{7, 9}, {0, 1}, 500, number(asked[0]), EVERGREEN, TYPE_BOTH}}};
    for (unsigned k = 0; k < setup.days && k < MOST_DAYS; k++) setup.day_code[k] = (unsigned)(asked[1][k] - '0');
    printf("%d\n", (int)open_checked_book(&book, &setup, MOST_SLOTS));
}

/* Only its setup is asked about, and that is no longer. */
static void ask_setup(char **asked) {
    uint8_t bytes[1024];
    struct setup setup;
    size_t used;
    FILE *file = fopen(asked[0], "rb");
    if (file == NULL) {
        perror(asked[0]);
        exit(2);
    }
    size_t length = fread(bytes, 1, sizeof bytes, file);
    fclose(file);
    printf("%d", (int)read_checked_setup(bytes, length, &setup, &used));
    printf(" %d", (int)read_setup(bytes, length, &setup, &used));
    printf(" %u %u ", setup.first_day, setup.days);
    for (unsigned k = 0; k < setup.days; k++) printf("%u", setup.day_code[k]);
    printf("\n");
}

int main(int argc, char **argv) {
    static const struct {
        const char *word;
        int arguments;
        void (*ask)(char **asked);
    } questions[] = {{"date", 3, ask_date}, {"days", 2, ask_days}, {"codes", 2, ask_codes}, {"open", 2, ask_opening}, {"setup", 1, ask_setup}};
    for (size_t k = 0; k < sizeof questions / sizeof questions[0]; k++)
        if (argc == 2 + questions[k].arguments && strcmp(argv[1], questions[k].word) == 0) {
            questions[k].ask(argv + 2);
            return 0;
        }
    fputs("use: ask_calendar date YEAR MONTH DAY | days FIRST DAYS | codes FIRST DAYS | open FIRST CODES | setup FILE\n", stderr);
    return 2;
}

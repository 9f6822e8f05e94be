/* What the calendar says of days and dates (document 02, A2); checked setups are beside the unchecked ones. Nothing is lent. */
#include "exports.h"

#include "called.h"
#include "chance.h"
#include "generate.h"
#include "numbers.h"
#include "second.h"

void try_day_length(void) {
    unsigned periods = 0;
    asked.day = widened(some_calendar_day());
    enum answer expected = calendar_length(asked.day, &periods);
    ask("ghendufika_day_length", SAY_DAY);
    ghendufika_measured measured = ghendufika_day_length(asked.day);
    note(&seen_day_length, measured.answer);
    must(measured.answer == expected, "the answer to a day's length is the second program's");
    must(measured.periods == (expected == DONE ? periods : 0), "a day's length is the second program's, and 0 with a refusal");
}

void try_code_of_day(void) {
    unsigned code = 0;
    asked.day = widened(some_calendar_day());
    enum answer expected = calendar_code(asked.day, &code);
    ask("ghendufika_code_of_day", SAY_DAY);
    ghendufika_coded coded = ghendufika_code_of_day(asked.day);
    note(&seen_code_of_day, coded.answer);
    must(coded.answer == expected, "the answer to a day's code is the second program's");
    if (expected == DONE) note(&seen_code, coded.code);
    must(coded.code == (expected == DONE ? code : 0), "a day's code is the second program's, and 0 with a refusal");
}

void try_day_of_date(void) {
    unsigned number = 0;
    some_date(&asked.date.year, &asked.date.month, &asked.date.day);
    enum answer expected = day_of_date(asked.date.year, asked.date.month, asked.date.day, &number);
    ask("ghendufika_day_of_date", SAY_DATE);
    ghendufika_numbered numbered = ghendufika_day_of_date(asked.date.year, asked.date.month, asked.date.day);
    note(&seen_day_of_date, numbered.answer);
    must(numbered.answer == expected, "the answer to a date is the second program's");
    must(numbered.day == (expected == DONE ? number : 0), "the day of a date is the second program's, and 0 with a refusal");
}

void try_date_of_day(void) {
    struct date date = {0, 0, 0};
    asked.day = widened(some_calendar_day());
    enum answer expected = date_of_day(asked.day, &date);
    if (expected != DONE) date = (struct date){0, 0, 0};
    ask("ghendufika_date_of_day", SAY_DAY);
    ghendufika_dated dated = ghendufika_date_of_day(asked.day);
    note(&seen_date_of_day, dated.answer);
    must(dated.answer == expected, "the answer to a day's date is the second program's");
    must(dated.date.year == date.year && dated.date.month == date.month && dated.date.day == date.day,
         "the date of a day is the second program's, and all zero with a refusal");
}

/* Also a last day that is right when the sum of first day and days is cut to 32 bits. */
static void some_days_to_propose(void) {
    asked.day = widened(some_calendar_day());
    asked.days = widened((uint32_t)(one_in(8) ? ONE_OF(0, 9, 255) : between(1, MOST_DAYS)));
    if (one_in(30)) asked.day = LATEST_DAY - below(MOST_DAYS + 1);
    if (one_in(30)) asked.day = UINT32_MAX - below(MOST_DAYS);
}

void try_propose_codes(void) {
    unsigned code[MOST_DAYS] = {0};
    some_days_to_propose();
    enum answer expected = propose_codes(asked.day, asked.days, code);
    ask("ghendufika_propose_codes", SAY_DAY | SAY_DAYS);
    ghendufika_proposed proposed = ghendufika_propose_codes(asked.day, asked.days);
    note(&seen_propose_codes, proposed.answer);
    must(proposed.answer == expected, "the answer to a proposal is the second program's");
    for (unsigned day = 0; day < MOST_DAYS; day++)
        must(proposed.codes[day] == (expected == DONE ? code[day] : 0), "the codes proposed are the second program's, and zero past the days and with a refusal");
}

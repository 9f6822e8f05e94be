/* The calendar of document 02's A2 through the exports, held against the second program: every day, date and proposal of codes, and setups with every
 * combination of what can be wrong with one, read and opened, checked and unchecked, so that the order of the answers is held too. */
#include "ghendufika.h"
#include "packing.h"
#include "second.h"

#include <stdio.h>
#include <stdlib.h>
#include <string.h>

enum { LAST_DAY = GHENDUFIKA_LAST_CALENDAR_DAY };

/* ---- what is asked, and how often each answer came */

enum export {
    DAY_LENGTH, CODE_OF_DAY, DATE_OF_DAY, DAY_OF_DATE, PROPOSE_CODES,
    READ_SETUP, READ_SETUP_CHECKED, OPEN, OPEN_CHECKED, OPEN_PACKED, OPEN_PACKED_CHECKED, EXPORTS
};

#define ANSWER(number) (UINT32_C(1) << (number))
#define OF_A_DAY (ANSWER(0) | ANSWER(27))
#define OF_OPENING (ANSWER(0) | ANSWER(17) | ANSWER(18))
#define OF_READING (OF_OPENING | ANSWER(19) | ANSWER(22))
#define OF_CHECKING (ANSWER(27) | ANSWER(28))

static struct {
    const char *name;
    uint32_t must_come;
    unsigned long times[32];
} counted[EXPORTS] = {
    [DAY_LENGTH] = {"day_length", OF_A_DAY, {0}},
    [CODE_OF_DAY] = {"code_of_day", OF_A_DAY, {0}},
    [DATE_OF_DAY] = {"date_of_day", OF_A_DAY, {0}},
    [DAY_OF_DATE] = {"day_of_date", OF_A_DAY, {0}},
    [PROPOSE_CODES] = {"propose_codes", OF_A_DAY | ANSWER(17), {0}},
    [READ_SETUP] = {"read_setup", OF_READING, {0}},
    [READ_SETUP_CHECKED] = {"read_setup_checked", OF_READING | OF_CHECKING, {0}},
    [OPEN] = {"open", OF_OPENING, {0}},
    [OPEN_CHECKED] = {"open_checked", OF_OPENING | OF_CHECKING, {0}},
    [OPEN_PACKED] = {"open_packed", OF_READING, {0}},
    [OPEN_PACKED_CHECKED] = {"open_packed_checked", OF_READING | OF_CHECKING, {0}},
};

static struct { enum export export; uint32_t numbers[3]; } asked;

static void ask(enum export export, uint32_t one, uint32_t two, uint32_t three) {
    asked.export = export;
    asked.numbers[0] = one, asked.numbers[1] = two, asked.numbers[2] = three;
}

/* What can be wrong with a setup, in the order in which a checked reading answers it. */
enum wrong { HEAD_ENDS, COUNT_WRONG, LAST_DAY_WRONG, LENT_WRONG, BYTES_END, CODE_THREE, ROW_IS_WRONG, DAY_OUTSIDE, CODE_IS_ANOTHER, PADDING_SET, WRONGS };

static const struct { const char *words; unsigned answer; } wrongs[WRONGS] = {
    {"the bytes end in the head", 19}, {"a count", 17}, {"the last day", 17}, {"lent lengths", 17}, {"the bytes end too soon", 19},
    {"a code 3", 17}, {"a row", 18}, {"a day outside the calendar", 27}, {"a code that is not the calendar's", 28}, {"a padding bit", 22},
};

/* For a setup the third number says what is wrong with it. */
static void must(bool holds, const char *promise) {
    if (holds) return;
    fprintf(stderr, "calendar: ghendufika_%s of %u, %u", counted[asked.export].name, asked.numbers[0], asked.numbers[1]);
    if (asked.export < READ_SETUP) fprintf(stderr, ", %u", asked.numbers[2]);
    for (unsigned what = 0; asked.export >= READ_SETUP && what < WRONGS; what++)
        if (asked.numbers[2] >> what & 1) fprintf(stderr, ", wrong: %s", wrongs[what].words);
    fprintf(stderr, ": this does not hold: %s\n", promise);
    exit(1);
}

static void answers_as_second(unsigned answer, unsigned expected) {
    must(answer == expected, "the answer is the second program's");
    must(answer < 32 && (counted[asked.export].must_come >> answer & 1) != 0, "the answer is one that can come");
    counted[asked.export].times[answer]++;
}

/* Every answer that must come has come; the line that is printed. */
static bool print_counted(void) {
    bool all = true;
    unsigned long calls = 0;
    printf("calendar:");
    for (unsigned export = 0; export < EXPORTS; export++) {
        printf("%s %s", export == 0 ? "" : ";", counted[export].name);
        for (unsigned answer = 0; answer < 32; answer++) {
            if ((counted[export].must_come >> answer & 1) == 0) continue;
            printf(" %u:%lu", answer, counted[export].times[answer]);
            calls += counted[export].times[answer];
            all = all && counted[export].times[answer] > 0;
        }
    }
    printf(": %lu calls, %s\n", calls, all ? "each as the second program answers" : "and an answer that must come never came");
    return all;
}

/* ---- days */

static void day_has_its_length(uint32_t day) {
    unsigned periods = 0;
    enum answer expected = calendar_length(day, &periods);
    ask(DAY_LENGTH, day, 0, 0);
    ghendufika_measured measured = ghendufika_day_length(day);
    answers_as_second(measured.answer, expected);
    must(measured.periods == (expected == DONE ? periods : 0), "the periods are the second program's, and 0 with a refusal");
}

static void day_has_its_code(uint32_t day) {
    unsigned code = 0;
    enum answer expected = calendar_code(day, &code);
    ask(CODE_OF_DAY, day, 0, 0);
    ghendufika_coded coded = ghendufika_code_of_day(day);
    answers_as_second(coded.answer, expected);
    must(coded.code == (expected == DONE ? code : 0), "the code is the second program's, and 0 with a refusal");
}

static bool is_date(ghendufika_date date, unsigned year, unsigned month, unsigned day) { return date.year == year && date.month == month && date.day == day; }

static void day_has_its_date(uint32_t day) {
    struct date date = {0, 0, 0};
    enum answer expected = date_of_day(day, &date);
    if (expected != DONE) date = (struct date){0, 0, 0};
    ask(DATE_OF_DAY, day, 0, 0);
    ghendufika_dated dated = ghendufika_date_of_day(day);
    answers_as_second(dated.answer, expected);
    must(is_date(dated.date, date.year, date.month, date.day), "the date is the second program's, and all zero with a refusal");
    ghendufika_numbered back = ghendufika_day_of_date(dated.date.year, dated.date.month, dated.date.day);
    must(back.answer == dated.answer && back.day == (expected == DONE ? day : 0), "from a day to its date and back is the day");
}

/* Past the last day of 16 bits, also numbers that are a day of the calendar when they are cut. */
static const uint32_t far_numbers[] = {65536, 65536 + 85, 65536 + 100, 65536 + 302, 131072, UINT32_C(1) << 31, (UINT32_C(1) << 31) + 85,
                                       UINT32_MAX - 85, UINT32_MAX - 7, UINT32_MAX - 6, UINT32_MAX - 1, UINT32_MAX};
enum { FAR_NUMBERS = sizeof far_numbers / sizeof far_numbers[0] };

static void try_day(uint32_t day) {
    day_has_its_length(day);
    day_has_its_code(day);
    day_has_its_date(day);
}

static void try_every_day(void) {
    for (uint32_t day = 0; day <= 65535; day++) try_day(day);
    for (unsigned k = 0; k < FAR_NUMBERS; k++) try_day(far_numbers[k]);
}

/* A2's own words, without the second program: "the 200 clock-change days from 2000 to 2099, the last Sunday of March (46) and of October (50)"; "day 85
 * is the first short day, day 302 the first long one, day 0 is a Saturday". Both months have 31 days. */
static void clocks_change_on_last_sundays(void) {
    unsigned days[3] = {0, 0, 0}, first[3] = {0, 0, 0};
    for (uint32_t day = 0; day <= LAST_DAY; day++) {
        ghendufika_date date = ghendufika_date_of_day(day).date;
        bool last_sunday = day % 7 == 1 && date.day > 31 - 7;
        unsigned code = ghendufika_code_of_day(day).code;
        ask(CODE_OF_DAY, day, 0, 0);
        must(code == (last_sunday && date.month == 3 ? 0 : last_sunday && date.month == 10 ? 2 : 1), "the clocks change on the last Sundays of March and October");
        if (days[code]++ == 0) first[code] = day;
    }
    must(days[0] == 100 && days[2] == 100, "there are 200 clock-change days");
    must(first[0] == 85 && first[2] == 302, "day 85 is the first short day and day 302 the first long one");
}

/* ---- dates */

static void try_date(uint32_t year, uint32_t month, uint32_t day) {
    unsigned number = 0;
    enum answer expected = day_of_date(year, month, day, &number);
    ask(DAY_OF_DATE, year, month, day);
    ghendufika_numbered numbered = ghendufika_day_of_date(year, month, day);
    answers_as_second(numbered.answer, expected);
    must(numbered.day == (expected == DONE ? number : 0), "the day is the second program's, and 0 with a refusal");
    if (expected != DONE) return;
    ghendufika_dated back = ghendufika_date_of_day(numbered.day);
    must(back.answer == 0 && is_date(back.date, year, month, day), "from a date to its day and back is the date");
}

static void try_every_date(void) {
    for (uint32_t year = 1999; year <= 2101; year++)
        for (uint32_t month = 0; month <= 14; month++)
            for (uint32_t day = 0; day <= 33; day++) {
                try_date(year, month, day);
                try_date(year + 65536, month, day);
                try_date(year, month + 256, day);
                try_date(year, month, day + 256);
            }
}

static void try_far_dates(void) {
    static const uint32_t good[] = {2000, 2024, 1, 2, 12, 28, 65536 + 2024, 65536 + 2, 256 + 2, 0};
    enum { GOOD = sizeof good / sizeof good[0], ALL = GOOD + FAR_NUMBERS };
    for (unsigned k = 0; k < ALL * ALL * ALL; k++) {
        unsigned which[3] = {k % ALL, k / ALL % ALL, k / ALL / ALL};
        uint32_t numbers[3];
        for (unsigned n = 0; n < 3; n++) numbers[n] = which[n] < GOOD ? good[which[n]] : far_numbers[which[n] - GOOD];
        try_date(numbers[0], numbers[1], numbers[2]);
    }
}

/* ---- proposals */

static void try_proposal(uint32_t first, uint32_t days) {
    unsigned code[MOST_DAYS] = {0};
    enum answer expected = propose_codes(first, days, code);
    ask(PROPOSE_CODES, first, days, 0);
    ghendufika_proposed proposed = ghendufika_propose_codes(first, days);
    answers_as_second(proposed.answer, expected);
    for (unsigned place = 0; place < MOST_DAYS; place++)
        must(proposed.codes[place] == (expected == DONE ? code[place] : 0), "the codes are the second program's, and zero past the days and with a refusal");
}

static void try_every_proposal(void) {
    static const uint32_t days[] = {0, 1, 2, 3, 4, 5, 6, 7, 8, 9, 255, 256, 257, UINT32_MAX};
    for (unsigned k = 0; k < sizeof days / sizeof days[0]; k++) {
        for (uint32_t first = 0; first <= 65535; first++) try_proposal(first, days[k]);
        for (unsigned n = 0; n < FAR_NUMBERS; n++) try_proposal(far_numbers[n], days[k]);
    }
}

/* ---- setups with something wrong */

#define WRONG(what) (1u << (what))
#define OF_THE_BYTES (WRONG(HEAD_ENDS) | WRONG(BYTES_END) | WRONG(PADDING_SET))
#define OF_THE_CALENDAR (WRONG(DAY_OUTSIDE) | WRONG(CODE_IS_ANOTHER))

static unsigned answer_to_the_first(unsigned wrong) {
    for (unsigned what = 0; what < WRONGS; what++)
        if (wrong & WRONG(what)) return wrongs[what].answer;
    return 0;
}

/* A setup as it is handed in, by struct and packed, and the lengths of the tables that are lent. */
struct tried {
    unsigned wrong; /* what is */
    ghendufika_setup setup;
    uint8_t bytes[MOST_SETUP_BYTES + 2];
    struct handed handed;
};

/* Which of several ways: seeded, so that every run tries the same. */
static unsigned any(unsigned below) {
    static uint32_t state = 20000101;
    state = state * 1664525u + 1013904223u;
    return (state >> 8) % below;
}

/* Authorisations may begin and end after 2099. What is past the days and the rows is no part of the setup. */
static ghendufika_setup right_setup(uint32_t first, unsigned days) {
    static const uint16_t row_days[3][2] = {{0, GHENDUFIKA_EVERGREEN}, {0, 40000}, {50000, 65534}};
    ghendufika_setup setup;
    memset(&setup, 3, sizeof setup);
    setup.first = (uint16_t)first;
    setup.days = (uint8_t)days;
    setup.accounts = (uint8_t)(2 + any(3));
    setup.authorisations = (uint8_t)(1 + any(2));
    if ((1 + days + 3u * setup.authorisations) % 4 == 0) setup.authorisations++; /* else it has no padding */
    for (unsigned row = 0; row < setup.authorisations; row++)
        setup.rows[row] = (ghendufika_authorisation){7, (uint8_t)(7 + 2 * any(2)), 0, 1, 500, row_days[row][0], row_days[row][1], (uint8_t)any(3)};
    return setup;
}

/* The calendar's codes, as the second program has them; on a day that it lacks any. */
static void give_codes(ghendufika_setup *setup) {
    for (unsigned place = 0; place < setup->days; place++) {
        unsigned code = 0;
        setup->codes[place] = (uint8_t)(calendar_code(setup->first + place, &code) == DONE ? code : any(3));
    }
}

/* The last of the days is outside, or all of them, or some. */
static void move_outside(ghendufika_setup *setup) {
    unsigned inside[] = {setup->days - 1u, 0, any(setup->days)};
    setup->first = (uint16_t)(any(8) == 0 ? 65535u - setup->days : LAST_DAY + 1 - inside[any(3)]);
}

/* Of one day that the calendar has; where it has none no code is another. */
static void change_a_code(ghendufika_setup *setup) {
    unsigned inside = setup->first > LAST_DAY ? 0 : LAST_DAY + 1 - setup->first;
    if (inside == 0) return;
    uint8_t *code = &setup->codes[any(inside < setup->days ? inside : setup->days)];
    *code = (uint8_t)((*code + 1 + any(2)) % 3);
}

static void spoil_a_row(ghendufika_setup *setup) {
    ghendufika_authorisation *row = &setup->rows[any(setup->authorisations)];
    switch (any(5)) {
    case 0: row->account1 = setup->accounts; break;
    case 1: row->account2 = setup->accounts; break;
    case 2: row->account2 = row->account1; break;
    case 3: row->first = 60000, row->last = 59999; break;
    default: row->amendment = 3; break;
    }
}

static void spoil_a_count(ghendufika_setup *setup) {
    switch (any(6)) {
    case 0: setup->days = 0; break;
    case 1: setup->days = 9; break;
    case 2: setup->accounts = 1; break;
    case 3: setup->accounts = 65; break;
    case 4: setup->authorisations = 0; break;
    default: setup->authorisations = 65; break;
    }
}

static void spoil_setup(ghendufika_setup *setup, unsigned wrong) {
    if (wrong & WRONG(DAY_OUTSIDE)) move_outside(setup);
    give_codes(setup);
    if (wrong & WRONG(CODE_IS_ANOTHER)) change_a_code(setup);
    if (wrong & WRONG(CODE_THREE)) setup->codes[any(setup->days)] = 3;
    if (wrong & WRONG(ROW_IS_WRONG)) spoil_a_row(setup);
    if (wrong & WRONG(LAST_DAY_WRONG)) setup->first = (uint16_t)(65535u - any(setup->days));
    if (wrong & WRONG(COUNT_WRONG)) spoil_a_count(setup);
}

static void give_lengths(struct handed *handed, unsigned days, bool wrong) {
    size_t slots = 1 + any(2);
    if (wrong && any(6) == 0) slots = days == 1 && any(2) ? 257 : 0; /* no book's, though the lengths agree; 257 for one day alone, to be quick */
    handed->slots = slots;
    handed->lent1 = handed->lent2 = slots * days * GHENDUFIKA_PLACES_A_DAY;
    if (!wrong || slots == 0 || slots == 257) return;
    size_t *length[] = {&handed->lent1, &handed->lent2, &handed->slots};
    *length[any(3)] += any(2) ? 1 : (size_t)GHENDUFIKA_PLACES_A_DAY;
}

static void pack(struct tried *tried) {
    struct setup told = told_setup(&tried->setup);
    memset(tried->bytes, 0xA5, sizeof tried->bytes);
    size_t whole = pack_setup(&told, tried->bytes);
    unsigned padding = padding_of_setup(&told);
    tried->handed.length = whole + any(3); /* bytes that follow are the messages' */
    if (tried->wrong & WRONG(PADDING_SET) && padding > 0) tried->bytes[whole - 1] |= (uint8_t)(1u << any(padding));
    if (tried->wrong & WRONG(BYTES_END)) tried->handed.length = any(2) || whole == 5 ? 5 : whole - 1; /* the head is whole */
    if (tried->wrong & WRONG(HEAD_ENDS)) tried->handed.length = any(5);
    tried->handed.bytes = tried->bytes;
}

static void make(struct tried *tried, uint32_t first, unsigned days, unsigned wrong) {
    tried->wrong = wrong;
    tried->setup = right_setup(first, days);
    spoil_setup(&tried->setup, wrong);
    give_lengths(&tried->handed, tried->setup.days, (wrong & WRONG(LENT_WRONG)) != 0);
    pack(tried);
}

/* ---- setups: read and opened */

/* What any of the six gives; reading gives no book, and its setup stands here. */
struct given {
    unsigned answer;
    size_t length; /* 0 by struct */
    ghendufika_book book;
};

static struct tables lent, filled; /* as the call left them; as they were before it */

#define TABLES lent.held, handed->slots, lent.side1, handed->lent1, lent.side2, handed->lent2

static void fill_tables(const struct handed *handed) {
    static bool is_filled;
    if (!is_filled) memset(&filled, 0x5A, sizeof filled);
    is_filled = true;
    memcpy(lent.held, filled.held, (handed->slots + 1) * sizeof lent.held[0]);
    memcpy(lent.side1, filled.side1, (handed->lent1 + 1) * sizeof lent.side1[0]);
    memcpy(lent.side2, filled.side2, (handed->lent2 + 1) * sizeof lent.side2[0]);
}

/* One place past each is looked at too. */
static bool tables_are_untouched(const struct handed *handed) {
    return memcmp(lent.held, filled.held, (handed->slots + 1) * sizeof lent.held[0]) == 0
        && memcmp(lent.side1, filled.side1, (handed->lent1 + 1) * sizeof lent.side1[0]) == 0
        && memcmp(lent.side2, filled.side2, (handed->lent2 + 1) * sizeof lent.side2[0]) == 0;
}

static bool only_lent_places_changed(const struct handed *handed) {
    return lent.held[handed->slots] == filled.held[0] && lent.side1[handed->lent1] == filled.side1[0] && lent.side2[handed->lent2] == filled.side2[0];
}

static struct given read_by_archive(bool checked, const struct handed *handed) {
    ghendufika_setup_read read = checked ? ghendufika_read_setup_checked(handed->bytes, handed->length, handed->slots, handed->lent1, handed->lent2)
                                         : ghendufika_read_setup(handed->bytes, handed->length, handed->slots, handed->lent1, handed->lent2);
    return (struct given){read.answer, read.length, {.setup = read.setup}};
}

static struct given open_by_archive(bool checked, const struct tried *tried) {
    const struct handed *handed = &tried->handed;
    ghendufika_opened opened = checked ? ghendufika_open_checked(tried->setup, TABLES) : ghendufika_open(tried->setup, TABLES);
    return (struct given){opened.answer, 0, opened.book};
}

static struct given open_packed_by_archive(bool checked, const struct handed *handed) {
    ghendufika_opened_packed opened = checked ? ghendufika_open_packed_checked(handed->bytes, handed->length, TABLES)
                                              : ghendufika_open_packed(handed->bytes, handed->length, TABLES);
    return (struct given){opened.answer, opened.length, opened.book};
}

static struct given by_archive(enum export export, const struct tried *tried) {
    switch (export) {
    case READ_SETUP: case READ_SETUP_CHECKED: return read_by_archive(export == READ_SETUP_CHECKED, &tried->handed);
    case OPEN: case OPEN_CHECKED: return open_by_archive(export == OPEN_CHECKED, tried);
    default: return open_packed_by_archive(export == OPEN_PACKED_CHECKED, &tried->handed);
    }
}

/* Its tables are its own: lent lengths that do not fit are told to it as no slot, which is 17 too. */
static struct given open_by_second(bool checked, const ghendufika_setup *setup, const struct handed *handed) {
    struct setup told = told_setup(setup);
    unsigned slots = lengths_fit(handed->slots, setup->days, handed->lent1, handed->lent2) ? (unsigned)handed->slots : 0;
    struct given given = {.answer = checked ? open_checked_book(&second, &told, slots) : open_book(&second, &told, slots)};
    if (given.answer == DONE) given.book.setup = *setup;
    return given;
}

static struct given read_by_second(bool checked, const struct handed *handed) {
    struct given given = {0};
    struct setup setup;
    given.answer = setup_expected(checked ? read_checked_setup : read_setup, handed, &setup, &given.length);
    if (given.answer == DONE) given.book.setup = setup_of_second(&setup);
    return given;
}

static bool is_checked(enum export export) { return export == READ_SETUP_CHECKED || export == OPEN_CHECKED || export == OPEN_PACKED_CHECKED; }
static bool is_by_struct(enum export export) { return export == OPEN || export == OPEN_CHECKED; }
static bool only_reads(enum export export) { return export == READ_SETUP || export == READ_SETUP_CHECKED; }

static struct given by_second(enum export export, const struct tried *tried) {
    if (is_by_struct(export)) return open_by_second(is_checked(export), &tried->setup, &tried->handed);
    struct given given = read_by_second(is_checked(export), &tried->handed);
    if (given.answer == DONE && !only_reads(export)) given.answer = open_by_second(is_checked(export), &given.book.setup, &tried->handed).answer;
    return given;
}

static void check_tables(enum export export, const struct tried *tried, unsigned answer) {
    if (answer != DONE || only_reads(export)) {
        must(tables_are_untouched(&tried->handed), "what is refused or only read leaves the tables as they were");
        return;
    }
    must(holds_as_second(lent.held, lent.side1, lent.side2), "what is opened empties the tables, as the second program's");
    must(only_lent_places_changed(&tried->handed), "nothing is written past the tables");
}

static struct given try_export(enum export export, const struct tried *tried) {
    unsigned wrong = tried->wrong;
    if (is_by_struct(export)) wrong &= ~OF_THE_BYTES;
    if (!is_checked(export)) wrong &= ~OF_THE_CALENDAR;
    ask(export, tried->setup.first, tried->setup.days, tried->wrong);
    struct given expected = by_second(export, tried);
    fill_tables(&tried->handed);
    struct given given = by_archive(export, tried);
    answers_as_second(given.answer, expected.answer);
    must(given.answer == answer_to_the_first(wrong), "the first thing that is wrong gives the answer");
    must(given.length == expected.length, "the length is the second program's, and 0 with a refusal");
    must(same_book(&given.book, &expected.book), "the setup is the second program's and no gate is closed; with a refusal all is zero");
    check_tables(export, tried, given.answer);
    return given;
}

static void try_unchecked_and_checked(enum export unchecked, enum export checked, const struct tried *tried) {
    struct given one = try_export(unchecked, tried);
    static struct tables left;
    memcpy(left.side1, lent.side1, tried->handed.lent1 * sizeof left.side1[0]);
    memcpy(left.side2, lent.side2, tried->handed.lent2 * sizeof left.side2[0]);
    memcpy(left.held, lent.held, tried->handed.slots * sizeof left.held[0]);
    struct given other = try_export(checked, tried);
    if (other.answer != DONE) return;
    must(one.answer == DONE && one.length == other.length && same_book(&one.book, &other.book), "what is accepted is what the unchecked export gives");
    must(memcmp(left.side1, lent.side1, tried->handed.lent1 * sizeof left.side1[0]) == 0
             && memcmp(left.side2, lent.side2, tried->handed.lent2 * sizeof left.side2[0]) == 0
             && memcmp(left.held, lent.held, tried->handed.slots * sizeof left.held[0]) == 0,
         "what is accepted leaves the tables as the unchecked export does");
}

static void try_combination(uint32_t first, unsigned days, unsigned wrong) {
    static struct tried tried;
    make(&tried, first, days, wrong);
    try_unchecked_and_checked(READ_SETUP, READ_SETUP_CHECKED, &tried);
    try_unchecked_and_checked(OPEN_PACKED, OPEN_PACKED_CHECKED, &tried);
    if ((wrong & OF_THE_BYTES) == 0) try_unchecked_and_checked(OPEN, OPEN_CHECKED, &tried);
}

/* Where nothing is wrong but what the calendar's answers stand between, several ways of it, since there they meet. */
static void try_every_combination(uint32_t first, unsigned days) {
    for (unsigned wrong = 0; wrong < 1u << WRONGS; wrong++) {
        unsigned ways = (wrong & ~(OF_THE_CALENDAR | WRONG(ROW_IS_WRONG) | WRONG(PADDING_SET))) == 0 ? 8 : 1;
        for (unsigned way = 0; way < ways; way++) try_combination(first, days, wrong);
    }
}

static uint32_t clock_change(unsigned year, unsigned month, unsigned length) {
    unsigned day = 0, periods = 0;
    if (day_of_date(year, month, 25, &day) != DONE) exit(1);
    while (calendar_length(day, &periods) == DONE && periods != length) day++;
    return day;
}

/* Books of 1 to 8 days over both clock changes of several years, and at both ends of the calendar. */
static void try_every_setup(void) {
    static const unsigned years[] = {2000, 2001, 2024, 2026, 2099};
    for (unsigned days = 1; days <= MOST_DAYS; days++) {
        for (unsigned k = 0; k < sizeof years / sizeof years[0]; k++) {
            try_every_combination(clock_change(years[k], 3, 46) - any(days), days);
            try_every_combination(clock_change(years[k], 10, 50) - any(days), days);
        }
        try_every_combination(0, days);
        try_every_combination(LAST_DAY + 1 - days, days);
    }
}

/* ---- what the desk is to be spared */

/* Whatever is proposed is accepted, and with one of its codes changed it is not. */
static void proposals_are_accepted(void) {
    static struct tried tried;
    for (uint32_t first = 0; first <= LAST_DAY; first++) {
        unsigned most = LAST_DAY + 1 - first < MOST_DAYS ? LAST_DAY + 1 - first : MOST_DAYS, days = 1 + any(most);
        tried.wrong = any(2) ? WRONG(CODE_IS_ANOTHER) : 0;
        tried.setup = right_setup(first, days);
        memcpy(tried.setup.codes, ghendufika_propose_codes(first, days).codes, days);
        if (tried.wrong) change_a_code(&tried.setup);
        give_lengths(&tried.handed, days, false);
        pack(&tried);
        try_export(READ_SETUP_CHECKED, &tried);
    }
}

/* "The desk still types day codes and once typed a plain day for October." 27 October 2024 is day 9,066, by hand. */
static void a_plain_day_typed_for_october(void) {
    static struct tried tried;
    uint32_t day = ghendufika_day_of_date(2024, 10, 27).day;
    ask(DAY_OF_DATE, 2024, 10, 27);
    must(day == 9066 && ghendufika_day_length(day).periods == 50, "27 October 2024 is day 9,066, of 50 periods");
    make(&tried, day, 1, 0);
    const struct handed *handed = &tried.handed;
    tried.setup.codes[0] = GHENDUFIKA_DAY_OF_48;
    ask(OPEN_CHECKED, day, 1, 0);
    must(ghendufika_open(tried.setup, TABLES).answer == GHENDUFIKA_DONE, "nobody asked for the calendar");
    must(ghendufika_open_checked(tried.setup, TABLES).answer == GHENDUFIKA_CODE_DISAGREES, "a plain day typed for October is told");
    tried.setup.codes[0] = ghendufika_propose_codes(day, 1).codes[0];
    must(ghendufika_open_checked(tried.setup, TABLES).answer == GHENDUFIKA_DONE, "the code that is proposed is accepted");
}

int main(void) {
    try_every_day();
    clocks_change_on_last_sundays();
    try_every_date();
    try_far_dates();
    try_every_proposal();
    a_plain_day_typed_for_october();
    proposals_are_accepted();
    try_every_setup();
    return print_counted() ? 0 : 1;
}

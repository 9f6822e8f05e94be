/* The table of exports and laws; see exports.h. */
#include "exports.h"

#include "chance.h"
#include "numbers.h"

struct seen seen_message_refusal = {.name = "message_refusal", .can_come = "0 19 20 21 22"};
struct seen seen_message_length = {.name = "message_length: 0, 1 some", .can_come = "0 1"};
struct seen seen_message_field = {.name = "message_field: 0, 1 other", .can_come = "0 1"};
struct seen seen_read_setup = {.name = "read_setup", .can_come = "0 17 18 19 22"};
struct seen seen_open = {.name = "open", .can_come = "0 17 18"};
struct seen seen_is_sound = {.name = "is_sound: 1 yes", .can_come = "0 1"};
struct seen seen_close_gate = {.name = "close_gate", .can_come = "0 1 2"};
struct seen seen_notify = {.name = "notify", .can_come = "0 1 2 3 4 5 6 7 8 9 10 11 12 13 14"};
struct seen seen_kind = {.name = "notify: kind", .can_come = "0 1 2 3"};
/* 0 the first entry, 1 one between, 2 the last, 3 the 51st; and volumes out of range besides, 1 before that entry, 2 behind it, 3 both (changing.c). */
struct seen seen_fault = {.name = "notify: where at fault", .can_come = "0 1 2 3"};
struct seen seen_volumes_beside = {.name = "notify: volumes wrong beside", .can_come = "0 1 2 3"};
struct seen seen_nullify = {.name = "nullify", .can_come = "0 1 2 9 15"};
struct seen seen_apply = {.name = "apply", .can_come = "0 1 2 3 4 5 6 7 8 9 10 11 12 13 14 15 19 20 21 22"};
struct seen seen_applied_kind = {.name = "apply: kind", .can_come = "0 1 2 3"};
struct seen seen_applied_fault = {.name = "apply: where at fault", .can_come = "0 1 2",
                                  .cannot = "3 (of more than 50 entries a packed message is refused by 21)"};
struct seen seen_apply_all = {.name = "apply_all", .can_come = "0 1"};
struct seen seen_run_answer = {.name = "apply_all: its messages", .can_come = "0 2 3 4 5 6 7 8 9 10 11 12 13 14 15 19 20 21 22",
                               .cannot = "1 (the run is refused as a whole)"};
struct seen seen_run_fault = {.name = "apply_all: where at fault", .can_come = "0 1 2", .cannot = "3 (as apply)"};
struct seen seen_total = {.name = "total", .can_come = "0 1 15 16", .cannot = "26 (256 slots of 99,999,999 come to 25,599,999,744)"};
struct seen seen_day_totals = {.name = "day_totals", .can_come = "0 1 15 16 24", .cannot = "26 (as total)"};
struct seen seen_figures = {.name = "figures", .can_come = "0 1 15 16"};
struct seen seen_row_refusal = {.name = "row_refusal", .can_come = "0 1 16 25"};
struct seen seen_day_marks = {.name = "day_marks", .can_come = "0 1 15 16 24 25"};
struct seen seen_case = {.name = "day_marks, mark: case", .can_come = "0 1 2 3"};

struct seen seen_read_message = {.name = "read_message", .can_come = "0 19 20 21 22"};
struct seen seen_write_message = {.name = "write_message", .can_come = "0 20 23 24"};
struct seen seen_write_setup = {.name = "write_setup", .can_come = "0 17 18 24", .cannot = "23 (what passes 17 and 18 fits its fields)"};
struct seen seen_open_packed = {.name = "open_packed", .can_come = "0 17 18 19 22"};
struct seen seen_mark = {.name = "mark", .can_come = "0 1 15 16 25"};
struct seen seen_row = {.name = "row", .can_come = "0 1 16 25"};

struct seen seen_day_length = {.name = "day_length", .can_come = "0 27"};
struct seen seen_code_of_day = {.name = "code_of_day", .can_come = "0 27"};
struct seen seen_code = {.name = "code_of_day: code", .can_come = "0 1 2"};
struct seen seen_day_of_date = {.name = "day_of_date", .can_come = "0 27"};
struct seen seen_date_of_day = {.name = "date_of_day", .can_come = "0 27"};
struct seen seen_propose_codes = {.name = "propose_codes", .can_come = "0 17 27"};
struct seen seen_read_setup_checked = {.name = "read_setup_checked", .can_come = "0 17 18 19 22 27 28"};
struct seen seen_open_checked = {.name = "open_checked", .can_come = "0 17 18 27 28"};
struct seen seen_open_packed_checked = {.name = "open_packed_checked", .can_come = "0 17 18 19 22 27 28"};

struct seen seen_read_spreadsheet = {.name = "read_spreadsheet", .can_come = "0 29 30 31 32"};
struct seen seen_refused_at = {.name = "read_spreadsheet: 1 at end", .can_come = "0 1"};
struct seen seen_write_spreadsheet = {.name = "write_spreadsheet", .can_come = "0 23 24"};

void expect_numbers(void) {
    struct seen *rows[] = {&seen_message_refusal, &seen_message_length, &seen_message_field, &seen_read_setup, &seen_open, &seen_is_sound,
                           &seen_close_gate, &seen_notify, &seen_kind, &seen_fault, &seen_volumes_beside, &seen_nullify, &seen_apply, &seen_applied_kind, &seen_applied_fault,
                           &seen_apply_all, &seen_run_answer, &seen_run_fault, &seen_total,
                           &seen_day_totals, &seen_figures, &seen_row_refusal, &seen_day_marks, &seen_case,
                           &seen_read_message, &seen_write_message, &seen_write_setup, &seen_open_packed, &seen_mark, &seen_row,
                           &seen_day_length, &seen_code_of_day, &seen_code, &seen_day_of_date, &seen_date_of_day, &seen_propose_codes,
                           &seen_read_setup_checked, &seen_open_checked, &seen_open_packed_checked,
                           &seen_read_spreadsheet, &seen_refused_at, &seen_write_spreadsheet,
    };
    for (size_t k = 0; k < sizeof rows / sizeof rows[0]; k++) expect(rows[k]);
}

static const struct {
    unsigned weight;
    void (*try_it)(void);
} table[] = {
    {4, try_message_refusal},
    {4, try_message_length},
    {6, try_message_field},
    {4, try_read_setup},
    {1, try_open},
    {6, try_is_sound},
    {4, try_close_gate},
    {16, try_notify},
    {6, try_nullify},
    {10, try_apply},
    {5, try_apply_all},
    {6, try_total},
    {4, try_day_totals},
    {4, try_figures},
    {5, try_row_refusal},
    {5, try_day_marks},
    {4, try_read_message},
    {5, try_write_message},
    {1, try_write_setup},
    {1, try_open_packed},
    {6, try_mark},
    {5, try_row},
    {1, try_day_length},
    {1, try_code_of_day},
    {3, try_day_of_date},
    {2, try_date_of_day},
    {2, try_propose_codes},
    {4, try_read_setup_checked},
    {1, try_open_checked},
    {2, try_open_packed_checked},
    {5, try_read_spreadsheet},
    {4, try_write_spreadsheet},
    {1, law_totals_of_all_accounts_come_to_zero},
    {1, law_two_accounts_see_negated_marks},
    {2, law_apply_is_questions_and_a_call_by_struct},
    {1, law_apply_all_is_apply_one_by_one},
    {1, law_day_totals_are_the_totals},
    {2, law_checked_setup_is_held_against_the_codes},
    {1, law_days_asked_apart_agree},
    {1, law_spreadsheet_that_was_written_reads_back},
    {1, law_refusal_at_a_byte_is_decided_by_what_comes_before},
    {1, law_beginning_of_a_spreadsheet_is_refused_at_its_end_alone},
};

enum { LINES = sizeof table / sizeof table[0] };

void try_one(void) {
    unsigned all = 0, line = 0;
    for (unsigned k = 0; k < LINES; k++) all += table[k].weight;
    for (unsigned left = below(all); left >= table[line].weight; line++) left -= table[line].weight;
    table[line].try_it();
}

/* Every export of include/ghendufika.h, each with a function that tries it once; and laws that join several. A new export is a `try_` function, its
 * numbers, and a line in the table of exports.c. */
#ifndef EXPORTS_H
#define EXPORTS_H

#include <stddef.h>

/* asking.c: about message bytes, and reading a setup */
void try_message_refusal(void);
void try_message_length(void);
void try_message_field(void);
void try_read_setup(void);
void try_read_setup_checked(void);

/* changing.c: what changes a book */
void try_open(void);
void try_open_checked(void);
void try_is_sound(void);
void try_close_gate(void);
void try_notify(void);
void try_nullify(void);
void try_apply(void);
void try_apply_all(void);

/* showing.c: what a book shows */
void try_total(void);
void try_day_totals(void);
void try_figures(void);
void try_row_refusal(void);
void try_day_marks(void);

/* packing_exports.c and showing.c: where the header has them */
void try_read_message(void);
void try_write_message(void);
void try_write_setup(void);
void try_open_packed(void);
void try_open_packed_checked(void);
void try_mark(void);
void try_row(void);

/* calendar.c: days and dates */
void try_day_length(void);
void try_code_of_day(void);
void try_day_of_date(void);
void try_date_of_day(void);
void try_propose_codes(void);

/* spreadsheet.c: files of entries, and laws of these */
void try_read_spreadsheet(void);
void try_write_spreadsheet(void);
void law_spreadsheet_that_was_written_reads_back(void);
void law_refusal_at_a_byte_is_decided_by_what_comes_before(void);
void law_beginning_of_a_spreadsheet_is_refused_at_its_end_alone(void);

/* laws.c */
void law_totals_of_all_accounts_come_to_zero(void);
void law_two_accounts_see_negated_marks(void);
void law_apply_is_questions_and_a_call_by_struct(void);
void law_apply_all_is_apply_one_by_one(void);
void law_day_totals_are_the_totals(void);
void law_checked_setup_is_held_against_the_codes(void);
void law_days_asked_apart_agree(void);

void expect_numbers(void); /* enters every row of the table of numbers seen */
void try_one(void);        /* one line of the table, by its weight */

#endif

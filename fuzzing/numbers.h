/* The numbers that can come from each export: document 01, "Answer numbers" and its order, document 02's A2, A3 and A5, and the header. */
#ifndef NUMBERS_H
#define NUMBERS_H

#include "check.h"

extern struct seen seen_message_refusal, seen_message_length, seen_message_field, seen_read_setup, seen_open, seen_is_sound, seen_close_gate, seen_notify,
    seen_kind, seen_fault, seen_volumes_beside, seen_nullify, seen_apply, seen_applied_kind, seen_applied_fault, seen_run_fault, seen_apply_all, seen_run_answer, seen_total, seen_day_totals, seen_figures, seen_row_refusal, seen_day_marks,
    seen_case, seen_read_message, seen_write_message, seen_write_setup, seen_open_packed, seen_mark, seen_row, seen_day_length, seen_code_of_day,
    seen_code, seen_day_of_date, seen_date_of_day, seen_propose_codes, seen_read_setup_checked, seen_open_checked, seen_open_packed_checked,
    seen_read_spreadsheet, seen_refused_at, seen_write_spreadsheet;

#endif

/* Each export with the faults that are tried on it; see faults.h. Compiled only into the program of `./fuzz faults`. */
#define FAULTS_THEMSELVES
#include "faults.h"

#include <string.h>

const char *fault = "none";

const char *const fault_names[] = {
    "padding_bit_is_ignored", "byte_past_the_message_is_read", "byte_before_the_message_is_read", "unreadable_message_has_a_length",
    "entry_past_the_count_is_shown", "lent_length_of_side_two_is_not_tested", "refused_setup_is_shown", "opening_leaves_a_place",
    "refused_opening_gives_the_setup", "one_gate_too_many_is_sound", "table_lent_to_read_is_written", "refused_gate_closes",
    "refused_notification_changes_a_place", "refused_notification_takes_a_slot", "key_is_not_tested", "closed_places_are_rewritten",
    "entry_past_the_count_refuses", "number_that_cannot_come", "call_never_returns", "refused_nullification_changes_a_place",
    "nullification_leaves_side_two", "place_before_the_table_is_written", "unreadable_message_takes_a_byte", "refused_gate_message_closes",
    "run_loses_its_last_answer", "answer_past_the_run_is_written", "account_two_is_taken_for_account_one", "refused_total_is_one",
    "total_past_the_buffer_is_written", "day_of_50_loses_its_last_total", "net_is_the_difference_of_two_floats", "side_three_has_a_row",
    "zero_is_negative_zero", "two_figures_in_the_other_order", "third_buffer_is_not_tested",
    "entry_past_the_count_is_read", "byte_behind_a_written_message_is_changed", "refused_writing_changes_the_buffer", "period_64_is_written",
    "setup_is_written_with_padding_of_ones", "refused_packed_opening_takes_a_slot", "mark_is_shown_as_account_ones", "refused_mark_is_one_side",
    "row_starts_a_place_late", "refused_row_has_a_length",
    "account_of_a_total_is_cut_to_8_bits", "day_of_a_total_is_cut_to_16_bits", "period_of_a_total_is_cut_to_8_bits",
    "account_of_totals_is_cut_to_8_bits", "day_of_figures_is_cut_to_16_bits", "account_of_figures_is_cut_to_16_bits",
    "originator_of_a_mark_is_cut_to_8_bits", "reference_of_a_mark_is_cut_to_16_bits", "reference_is_folded_into_the_originator",
    "account_of_a_mark_is_cut_to_8_bits", "day_of_marks_is_cut_to_16_bits", "side_of_a_row_is_cut_to_8_bits", "row_of_a_folded_identifier_is_held",
    "nullified_account_is_cut_to_8_bits", "day_of_a_nullification_is_cut_to_16_bits",
    "refused_message_has_a_length", "refused_message_has_a_kind", "kind_of_a_packed_notification_is_lost", "slot_of_a_packed_notification_is_lost",
    "gate_has_a_kind", "reading_comes_before_soundness", "short_day_shows_its_own_period_3", "long_day_has_zero_in_5_and_6",
    "clocks_change_a_week_early", "day_of_a_code_is_cut_to_16_bits", "year_of_a_date_is_cut_to_16_bits", "thirtieth_of_february_is_a_day",
    "day_after_2099_has_a_date", "day_past_those_proposed_has_a_code", "disagreeing_code_comes_before_the_calendar",
    "padding_bit_comes_before_a_disagreeing_code", "disagreeing_code_changes_a_place", "checked_opening_does_not_ask_the_calendar",
    "entries_are_counted_from_one", "place_is_missing", "last_entry_at_fault_is_named", "earlier_of_two_that_do_not_rise_is_named",
    "entry_before_a_high_period_is_named", "volume_before_a_wrong_period_is_named", "fifty_first_entry_is_named_as_the_fiftieth",
    "fifty_first_entry_comes_before_the_others", "refused_key_has_a_place", "accepted_notification_has_a_place",
    "place_of_a_packed_notification_is_lost", "accepted_packed_message_has_a_place", "unreadable_message_has_a_place",
    "places_of_a_run_are_lost", "place_is_carried_on_in_a_run", "answers_and_places_change_their_buffers", "place_past_the_run_is_written",
    "place_past_the_buffer_is_written", "run_goes_on_past_the_room_for_places", "run_stops_one_before_the_room_for_places", "refused_run_writes_a_place",
    "byte_past_the_spreadsheet_is_read", "quote_never_closed_comes_before_a_bad_number", "half_a_number_comes_before_a_third_field",
    "line_end_after_50_records_is_one_too_many", "blank_line_after_50_records_is_one_too_many", "letter_after_50_records_is_one_too_many",
    "fifty_first_record_is_left_out", "carriage_return_alone_ends_a_line", "carriage_return_ends_the_file", "tab_is_a_space", "delete_is_text",
    "blank_last_line_is_left_out", "quoted_header_is_refused", "period_0_is_refused", "bytes_of_a_spreadsheet_are_counted_from_one",
    "end_of_a_spreadsheet_is_its_last_byte", "accepted_spreadsheet_has_no_place", "refused_spreadsheet_has_an_entry",
    "entry_past_those_of_a_spreadsheet_is_read", "minus_below_one_mwh_is_lost", "kwh_are_cut_from_a_float",
    "refused_spreadsheet_changes_the_buffer", "end_of_a_string_is_written_behind_a_spreadsheet", "byte_past_the_room_is_written",
    "room_comes_before_what_does_not_fit", "period_100_is_written", "entry_past_the_count_is_not_written", "fifty_first_entry_is_not_written",
    "point_is_written_as_a_comma", "refused_spreadsheet_has_a_length",
    NULL
};

static bool is(const char *name) { return strcmp(fault, name) == 0; }

uint8_t faulty_message_refusal(const uint8_t *bytes, size_t length) {
    volatile uint8_t looked_at = 0;
    if (is("byte_past_the_message_is_read")) looked_at = bytes[length];
    if (is("byte_before_the_message_is_read")) looked_at = *(bytes - 1);
    (void)looked_at;
    uint8_t answer = ghendufika_message_refusal(bytes, length);
    return is("padding_bit_is_ignored") && answer == 22 ? 0 : answer;
}

size_t faulty_message_length(const uint8_t *bytes, size_t length) {
    size_t taken = ghendufika_message_length(bytes, length);
    return is("unreadable_message_has_a_length") && taken == 0 ? length : taken;
}

int64_t faulty_message_field(const uint8_t *bytes, size_t length, uint32_t field) {
    int64_t count = ghendufika_message_field(bytes, length, GHENDUFIKA_FIELD_COUNT);
    if (is("entry_past_the_count_is_shown") && count > 0 && field == GHENDUFIKA_FIELD_PERIOD((uint32_t)count)) field--;
    return ghendufika_message_field(bytes, length, field);
}

ghendufika_setup_read faulty_read_setup(const uint8_t *bytes, size_t length, size_t slots, size_t lent1, size_t lent2) {
    ghendufika_setup_read read = ghendufika_read_setup(bytes, length, slots, lent1, is("lent_length_of_side_two_is_not_tested") ? lent1 : lent2);
    if (is("refused_setup_is_shown") && read.answer == 18) read.setup.rows[63].key = 1;
    return read;
}

ghendufika_opened faulty_open(ghendufika_setup setup, uint32_t *held, size_t slots, int32_t *side1, size_t lent1, int32_t *side2, size_t lent2) {
    ghendufika_opened opened = ghendufika_open(setup, held, slots, side1, lent1, side2, lent2);
    if (is("opening_leaves_a_place") && opened.answer == 0) side2[lent2 - 1] = 0;
    if (is("refused_opening_gives_the_setup") && opened.answer != 0) opened.book.setup = setup;
    return opened;
}

bool faulty_is_sound(ghendufika_book book, const uint32_t *held, size_t slots, const int32_t *side1, size_t lent1, const int32_t *side2, size_t lent2) {
    bool sound = ghendufika_is_sound(book, held, slots, side1, lent1, side2, lent2);
    if (is("table_lent_to_read_is_written") && slots > 0) *(volatile uint32_t *)held = held[0];
    if (is("one_gate_too_many_is_sound") && !sound && book.closed > 0) {
        book.closed--;
        sound = ghendufika_is_sound(book, held, slots, side1, lent1, side2, lent2);
    }
    return sound;
}

ghendufika_gated faulty_close_gate(ghendufika_book book, const uint32_t *held, size_t slots, const int32_t *side1, size_t lent1, const int32_t *side2, size_t lent2) {
    ghendufika_gated gated = ghendufika_close_gate(book, held, slots, side1, lent1, side2, lent2);
    if (is("refused_gate_closes") && gated.answer == 2) gated.book.closed++;
    return gated;
}

/* A1: the periods, on side 1, of the first day of this code that a notification of several days has just written whole; NULL where there is none. */
static int32_t *written_day(const ghendufika_book *book, const ghendufika_notification *n, ghendufika_notified notified, int32_t *side1, uint8_t code) {
    static const unsigned lengths[] = {46, 48, 50};
    if (notified.answer != 0 || n->first == n->last || n->agent != book->setup.rows[n->authorisation].agent1) return NULL;
    unsigned gates = 0;
    for (unsigned d = 0; d < book->setup.days; gates += lengths[book->setup.codes[d]], d++) {
        unsigned day = book->setup.first + d;
        bool open = book->closed <= gates && n->first <= day && day <= n->last;
        if (book->setup.codes[d] == code && open) return side1 + ((size_t)notified.slot * book->setup.days + d) * 50;
    }
    return NULL;
}

static int32_t own_period_3(const ghendufika_notification *n) {
    for (unsigned e = 0; e < n->count; e++)
        if (n->entries[e].period == 3) return n->entries[e].volume;
    return 0;
}

static void misplace(const ghendufika_book *book, const ghendufika_notification *n, ghendufika_notified notified, int32_t *side1) {
    int32_t *short_day = written_day(book, n, notified, side1, GHENDUFIKA_DAY_OF_46);
    int32_t *long_day = written_day(book, n, notified, side1, GHENDUFIKA_DAY_OF_50);
    if (is("short_day_shows_its_own_period_3") && short_day != NULL) short_day[2] = own_period_3(n);
    if (is("long_day_has_zero_in_5_and_6") && long_day != NULL) long_day[4] = long_day[5] = 0;
}

/* A3: which entry is at fault. Of a notification that was refused by 10 or 11, so that a single day is a day of the book. */
static unsigned highest_period(const ghendufika_book *book, const ghendufika_notification *n) {
    static const unsigned lengths[] = {46, 48, 50};
    return n->first == n->last ? lengths[book->setup.codes[n->first - book->setup.first]] : 48;
}

static bool is_wrong_volume(const ghendufika_entry *entry) { return entry->volume > GHENDUFIKA_MOST_VOLUME || entry->volume < -GHENDUFIKA_MOST_VOLUME; }

static bool is_at_fault(const ghendufika_notification *n, unsigned entry, uint8_t answer, unsigned highest) {
    unsigned period = n->entries[entry].period, before = entry == 0 ? 0 : n->entries[entry - 1].period;
    return answer == GHENDUFIKA_VOLUME_WRONG ? is_wrong_volume(&n->entries[entry]) : period <= before || period > highest;
}

static uint8_t last_at_fault(const ghendufika_notification *n, ghendufika_notified notified, unsigned highest) {
    unsigned last = notified.place;
    if (n->count > GHENDUFIKA_MOST_ENTRIES) return GHENDUFIKA_MOST_ENTRIES;
    for (unsigned entry = last; entry < n->count; entry++)
        if (is_at_fault(n, entry, notified.answer, highest)) last = entry;
    return (uint8_t)last;
}

static uint8_t first_wrong_volume(const ghendufika_notification *n, uint8_t place) {
    for (uint8_t entry = 0; entry < place && entry < GHENDUFIKA_MOST_ENTRIES; entry++)
        if (is_wrong_volume(&n->entries[entry])) return entry;
    return place;
}

static uint8_t misnamed(const ghendufika_book *book, const ghendufika_notification *n, ghendufika_notified notified) {
    unsigned highest = highest_period(book, n);
    uint8_t place = notified.place;
    bool by_period = notified.answer == GHENDUFIKA_PERIOD_WRONG, past = place == GHENDUFIKA_MOST_ENTRIES;
    unsigned period = past ? 0 : n->entries[place].period;
    if (is("entries_are_counted_from_one")) return (uint8_t)(place + 1);
    if (is("place_is_missing")) return 0;
    if (is("last_entry_at_fault_is_named")) return last_at_fault(n, notified, highest);
    if (is("earlier_of_two_that_do_not_rise_is_named") && by_period && !past && place > 0 && period > 0 && period <= highest) return (uint8_t)(place - 1);
    if (is("entry_before_a_high_period_is_named") && by_period && place > 0 && period > highest) return (uint8_t)(place - 1);
    if (is("volume_before_a_wrong_period_is_named") && by_period) return first_wrong_volume(n, place);
    if (is("fifty_first_entry_is_named_as_the_fiftieth") && past) return (uint8_t)(place - 1);
    if (is("fifty_first_entry_comes_before_the_others") && by_period && n->count > GHENDUFIKA_MOST_ENTRIES) return GHENDUFIKA_MOST_ENTRIES;
    return place;
}

static uint8_t faulty_place(const ghendufika_book *book, const ghendufika_notification *n, ghendufika_notified notified) {
    if (notified.answer == GHENDUFIKA_PERIOD_WRONG || notified.answer == GHENDUFIKA_VOLUME_WRONG) return misnamed(book, n, notified);
    if (is("refused_key_has_a_place") && notified.answer == GHENDUFIKA_KEY_OR_AGENT_WRONG) return 1;
    if (is("accepted_notification_has_a_place") && notified.answer == 0 && n->count > 1) return (uint8_t)(n->count - 1);
    return notified.place;
}

ghendufika_notified faulty_notify(ghendufika_book book, ghendufika_notification notification, uint32_t *held, size_t slots, int32_t *side1, size_t lent1, int32_t *side2, size_t lent2) {
    if (is("key_is_not_tested") && notification.authorisation < book.setup.authorisations && notification.authorisation < 64)
        notification.key = book.setup.rows[notification.authorisation].key;
    if (is("closed_places_are_rewritten") && book.closed == 1) book.closed = 0;
    for (volatile unsigned turns = 0; is("call_never_returns") && notification.count == 3;) turns = turns + 1;
    bool past = notification.count < 50 && notification.entries[notification.count].volume > 99999999;
    ghendufika_notified notified = ghendufika_notify(book, notification, held, slots, side1, lent1, side2, lent2);
    if (is("entry_past_the_count_refuses") && notified.answer == 14 && past) notified.answer = 11;
    if (is("number_that_cannot_come") && notified.answer == 14) notified.answer = 15;
    if (is("refused_notification_changes_a_place") && notified.answer == 13) side1[lent1 - 1] ^= 1;
    if (is("refused_notification_takes_a_slot") && notified.answer == 12) held[slots - 1]++;
    misplace(&book, &notification, notified, side1);
    notified.place = faulty_place(&book, &notification, notified);
    return notified;
}

uint8_t faulty_nullify(ghendufika_book book, uint32_t account, uint32_t other, uint32_t first, const uint32_t *held, size_t slots, int32_t *side1, size_t lent1, int32_t *side2, size_t lent2) {
    if (is("nullified_account_is_cut_to_8_bits")) account = (uint8_t)account;
    if (is("day_of_a_nullification_is_cut_to_16_bits")) first = (uint16_t)first;
    static int32_t kept[300 * 8 * 50];
    memcpy(kept, side2, lent2 * sizeof kept[0]);
    uint8_t answer = ghendufika_nullify(book, account, other, first, held, slots, side1, lent1, side2, lent2);
    if (is("nullification_leaves_side_two")) memcpy(side2, kept, lent2 * sizeof kept[0]);
    if (is("refused_nullification_changes_a_place") && answer == 9) side2[0] = 0;
    if (is("place_before_the_table_is_written")) *(side1 - 1) = 0;
    return answer;
}

ghendufika_applied faulty_apply(ghendufika_book book, const uint8_t *bytes, size_t length, uint32_t *held, size_t slots, int32_t *side1, size_t lent1, int32_t *side2, size_t lent2) {
    ghendufika_applied applied = ghendufika_apply(book, bytes, length, held, slots, side1, lent1, side2, lent2);
    uint8_t unreadable = ghendufika_message_refusal(bytes, length);
    if (is("unreadable_message_takes_a_byte") && applied.answer == 22) applied.length = 1;
    if (is("refused_gate_message_closes") && applied.answer == 2) applied.book.closed++;
    if (is("refused_message_has_a_length") && applied.answer != 0) applied.length = ghendufika_message_length(bytes, length);
    if (is("refused_message_has_a_kind") && applied.answer == 14) applied.kind = 1;
    if (is("kind_of_a_packed_notification_is_lost")) applied.kind = 0;
    if (is("slot_of_a_packed_notification_is_lost")) applied.slot = 0;
    if (is("gate_has_a_kind") && applied.answer == 0 && applied.length == 1) applied.kind = 1;
    if (is("place_of_a_packed_notification_is_lost")) applied.place = 0;
    if (is("accepted_packed_message_has_a_place") && applied.answer == 0 && applied.length > 16) applied.place = 1;
    if (is("unreadable_message_has_a_place") && applied.answer == GHENDUFIKA_TOO_MANY_ENTRIES) applied.place = GHENDUFIKA_MOST_ENTRIES;
    if (is("reading_comes_before_soundness") && applied.answer == 1 && unreadable != 0) applied.answer = unreadable;
    return applied;
}

/* A3: faults of a run's places, when it has been done. */
static void misplace_in_run(const ghendufika_applied_all *run, uint8_t *answers, uint8_t *places, size_t places_room) {
    for (size_t k = 0; k < run->done; k++) {
        uint8_t answer = answers[k];
        if (is("places_of_a_run_are_lost")) places[k] = 0;
        if (is("place_is_carried_on_in_a_run") && k > 0 && answer != GHENDUFIKA_PERIOD_WRONG && answer != GHENDUFIKA_VOLUME_WRONG) places[k] = places[k - 1];
        if (is("answers_and_places_change_their_buffers")) answers[k] = places[k], places[k] = answer;
    }
    if (is("place_past_the_run_is_written") && run->done < places_room) places[run->done] ^= 1;
    if (is("place_past_the_buffer_is_written")) *(volatile uint8_t *)(places + places_room) = 0;
    if (is("refused_run_writes_a_place") && run->answer != 0 && places_room > 0) places[0] ^= 1;
}

ghendufika_applied_all faulty_apply_all(ghendufika_book book, const uint8_t *bytes, size_t length, uint32_t *held, size_t slots, int32_t *side1, size_t lent1, int32_t *side2, size_t lent2, uint8_t *answers, size_t room, uint8_t *places, size_t places_room) {
    uint8_t own_places[64]; /* as many as the harness has room for; so what goes on too far is seen by what it gives, and does no harm */
    bool goes_on = is("run_goes_on_past_the_room_for_places") && places_room < room;
    if (is("run_stops_one_before_the_room_for_places") && places_room > 0) places_room--;
    ghendufika_applied_all run = ghendufika_apply_all(book, bytes, length, held, slots, side1, lent1, side2, lent2, answers, room, goes_on ? own_places : places, goes_on ? sizeof own_places : places_room);
    if (goes_on) memcpy(places, own_places, run.done < places_room ? run.done : places_room);
    if (is("run_loses_its_last_answer") && run.done == 5) run.done--;
    if (is("answer_past_the_run_is_written") && run.done < room) answers[run.done] ^= 1;
    misplace_in_run(&run, answers, places, places_room);
    return run;
}

ghendufika_totalled faulty_total(ghendufika_book book, const uint32_t *held, size_t slots, const int32_t *side1, size_t lent1, const int32_t *side2, size_t lent2, uint32_t account, uint32_t day, uint32_t period) {
    if (is("account_of_a_total_is_cut_to_8_bits")) account = (uint8_t)account;
    if (is("day_of_a_total_is_cut_to_16_bits")) day = (uint16_t)day;
    if (is("period_of_a_total_is_cut_to_8_bits")) period = (uint8_t)period;
    ghendufika_totalled totalled = ghendufika_total(book, held, slots, side1, lent1, side2, lent2, account, day, period);
    if (is("account_two_is_taken_for_account_one") && totalled.kwh < 0) totalled.kwh = -totalled.kwh;
    if (is("refused_total_is_one") && totalled.answer == 16) totalled.kwh = 1;
    return totalled;
}

uint8_t faulty_day_totals(ghendufika_book book, const uint32_t *held, size_t slots, const int32_t *side1, size_t lent1, const int32_t *side2, size_t lent2, uint32_t account, uint32_t day, int64_t *kwh, size_t room) {
    if (is("account_of_totals_is_cut_to_8_bits")) account = (uint8_t)account;
    uint8_t answer = ghendufika_day_totals(book, held, slots, side1, lent1, side2, lent2, account, day, kwh, room);
    if (is("total_past_the_buffer_is_written") && answer == 24) *(volatile int64_t *)(kwh + room) = 0;
    if (is("day_of_50_loses_its_last_total") && answer == 0 && room >= 50 && book.setup.codes[(day - book.setup.first) & 7] == 2) kwh[49] = 0;
    return answer;
}

ghendufika_figured faulty_figures(ghendufika_book book, const uint32_t *held, size_t slots, const int32_t *side1, size_t lent1, const int32_t *side2, size_t lent2, uint32_t account, uint32_t day) {
    if (is("day_of_figures_is_cut_to_16_bits")) day = (uint16_t)day;
    if (is("account_of_figures_is_cut_to_16_bits")) account = (uint16_t)account;
    ghendufika_figured figured = ghendufika_figures(book, held, slots, side1, lent1, side2, lent2, account, day);
    if (is("net_is_the_difference_of_two_floats")) figured.day.net = figured.day.sold - figured.day.bought;
    return figured;
}

uint8_t faulty_row_refusal(ghendufika_book book, const uint32_t *held, size_t slots, const int32_t *side1, size_t lent1, const int32_t *side2, size_t lent2, uint32_t originator, uint32_t reference, uint32_t day, uint32_t side) {
    if (is("side_three_has_a_row") && side == 3) side = 2;
    if (is("side_of_a_row_is_cut_to_8_bits")) side = (uint8_t)side;
    return ghendufika_row_refusal(book, held, slots, side1, lent1, side2, lent2, originator, reference, day, side);
}

uint8_t faulty_day_marks(ghendufika_book book, const uint32_t *held, size_t slots, const int32_t *side1, size_t lent1, const int32_t *side2, size_t lent2, uint32_t originator, uint32_t reference, uint32_t account, uint32_t day, uint8_t *cases, size_t case_room, double *firsts, size_t first_room, double *seconds, size_t second_room) {
    if (is("third_buffer_is_not_tested") && second_room == 49) second_room = 50;
    if (is("day_of_marks_is_cut_to_16_bits")) day = (uint16_t)day;
    uint8_t answer = ghendufika_day_marks(book, held, slots, side1, lent1, side2, lent2, originator, reference, account, day, cases, case_room, firsts, first_room, seconds, second_room);
    for (unsigned p = 0; answer == 0 && p < 46; p++) {
        double first = firsts[p];
        if (is("zero_is_negative_zero") && cases[p] == 2 && first == 0.0) firsts[p] = -0.0;
        if (is("two_figures_in_the_other_order") && cases[p] == 3) {
            firsts[p] = seconds[p];
            seconds[p] = first;
        }
    }
    return answer;
}


ghendufika_message_read faulty_read_message(const uint8_t *bytes, size_t length) {
    ghendufika_message_read read = ghendufika_read_message(bytes, length);
    if (is("entry_past_the_count_is_read") && read.message.kind == 1 && read.message.notification.count < 50) read.message.notification.entries[49].period = 1;
    return read;
}

ghendufika_message_written faulty_write_message(ghendufika_message message, uint8_t *out, size_t room) {
    if (is("period_64_is_written") && message.notification.entries[0].period == 64) message.notification.entries[0].period = 0;
    ghendufika_message_written written = ghendufika_write_message(message, out, room);
    if (is("byte_behind_a_written_message_is_changed") && written.answer == 0 && written.length < room) out[written.length] ^= 1;
    if (is("refused_writing_changes_the_buffer") && written.answer == 24 && room > 0) out[room - 1] ^= 1;
    return written;
}

ghendufika_setup_written faulty_write_setup(ghendufika_setup setup, uint8_t *out, size_t room) {
    ghendufika_setup_written written = ghendufika_write_setup(setup, out, room);
    unsigned bits = 34u + 2u * setup.days + 78u * setup.authorisations;
    if (is("setup_is_written_with_padding_of_ones") && written.answer == 0 && bits % 8 != 0) out[written.length - 1] |= 1;
    return written;
}

ghendufika_opened_packed faulty_open_packed(const uint8_t *bytes, size_t length, uint32_t *held, size_t slots, int32_t *side1, size_t lent1, int32_t *side2, size_t lent2) {
    ghendufika_opened_packed opened = ghendufika_open_packed(bytes, length, held, slots, side1, lent1, side2, lent2);
    if (is("refused_packed_opening_takes_a_slot") && opened.answer == 22) held[0] ^= 1;
    return opened;
}

/* The identifier of the entry 1 + originator * 65,536 + reference, worked out in 32 bits. */
static void fold(uint32_t *originator, uint32_t *reference) {
    uint32_t entry = *originator * 65536u + *reference;
    *originator = entry / 65536;
    *reference = entry % 65536;
}

ghendufika_marked faulty_mark(ghendufika_book book, const uint32_t *held, size_t slots, const int32_t *side1, size_t lent1, const int32_t *side2, size_t lent2, uint32_t originator, uint32_t reference, uint32_t account, uint32_t day, uint32_t period) {
    if (is("originator_of_a_mark_is_cut_to_8_bits")) originator = (uint8_t)originator;
    if (is("reference_of_a_mark_is_cut_to_16_bits")) reference = (uint16_t)reference;
    if (is("account_of_a_mark_is_cut_to_8_bits")) account = (uint8_t)account;
    if (is("reference_is_folded_into_the_originator")) fold(&originator, &reference);
    ghendufika_marked marked = ghendufika_mark(book, held, slots, side1, lent1, side2, lent2, originator, reference, account, day, period);
    if (is("mark_is_shown_as_account_ones") && originator < 64 && book.setup.rows[originator].account2 == account && marked.first != 0.0) marked.first = -marked.first;
    if (is("refused_mark_is_one_side") && marked.answer == 16) marked.bar = 1;
    return marked;
}

ghendufika_row_place faulty_row(ghendufika_book book, const uint32_t *held, size_t slots, const int32_t *side1, size_t lent1, const int32_t *side2, size_t lent2, uint32_t originator, uint32_t reference, uint32_t day, uint32_t side) {
    if (is("row_of_a_folded_identifier_is_held")) fold(&originator, &reference);
    ghendufika_row_place place = ghendufika_row(book, held, slots, side1, lent1, side2, lent2, originator, reference, day, side);
    if (is("row_starts_a_place_late") && place.answer == 0) place.start++;
    if (is("refused_row_has_a_length") && place.answer == 16) place.length = 48;
    return place;
}

/* ---- the calendar (A2) */

ghendufika_measured faulty_day_length(uint32_t day) {
    ghendufika_measured measured = ghendufika_day_length(day);
    ghendufika_measured a_week_on = ghendufika_day_length(day + 7);
    return is("clocks_change_a_week_early") && measured.answer == 0 && a_week_on.answer == 0 ? a_week_on : measured;
}

ghendufika_coded faulty_code_of_day(uint32_t day) {
    return ghendufika_code_of_day(is("day_of_a_code_is_cut_to_16_bits") ? (uint16_t)day : day);
}

ghendufika_numbered faulty_day_of_date(uint32_t year, uint32_t month, uint32_t day) {
    if (is("year_of_a_date_is_cut_to_16_bits")) year = (uint16_t)year;
    if (is("thirtieth_of_february_is_a_day") && month == 2 && day == 30) month = 3, day = 1;
    return ghendufika_day_of_date(year, month, day);
}

ghendufika_dated faulty_date_of_day(uint32_t day) {
    ghendufika_dated dated = ghendufika_date_of_day(day);
    if (is("day_after_2099_has_a_date") && day == GHENDUFIKA_LAST_CALENDAR_DAY + 1) dated = (ghendufika_dated){0, {2100, 1, 1}};
    return dated;
}

ghendufika_proposed faulty_propose_codes(uint32_t first, uint32_t days) {
    ghendufika_proposed proposed = ghendufika_propose_codes(first, days);
    if (is("day_past_those_proposed_has_a_code") && proposed.answer == 0 && days < 8) proposed.codes[days] = ghendufika_code_of_day(first + days).code;
    return proposed;
}

/* Whether the first day is in the calendar and its code another. From the bytes, since a refused setup is not shown: the code is bits 34 and 35. */
static bool first_code_disagrees(const uint8_t *bytes) {
    ghendufika_coded coded = ghendufika_code_of_day((uint32_t)bytes[0] << 8 | bytes[1]);
    return coded.answer == 0 && coded.code != (bytes[4] >> 4 & 3);
}

ghendufika_setup_read faulty_read_setup_checked(const uint8_t *bytes, size_t length, size_t slots, size_t lent1, size_t lent2) {
    ghendufika_setup_read read = ghendufika_read_setup_checked(bytes, length, slots, lent1, lent2);
    uint8_t unchecked = ghendufika_read_setup(bytes, length, slots, lent1, lent2).answer;
    if (is("disagreeing_code_comes_before_the_calendar") && read.answer == 27 && first_code_disagrees(bytes)) read.answer = 28;
    if (is("padding_bit_comes_before_a_disagreeing_code") && read.answer == 28) read.answer = unchecked == 22 ? 22 : 28;
    return read;
}

ghendufika_opened faulty_open_checked(ghendufika_setup setup, uint32_t *held, size_t slots, int32_t *side1, size_t lent1, int32_t *side2, size_t lent2) {
    ghendufika_opened opened = ghendufika_open_checked(setup, held, slots, side1, lent1, side2, lent2);
    if (is("disagreeing_code_changes_a_place") && opened.answer == 28) side2[lent2 - 1] ^= 1;
    return opened;
}

ghendufika_opened_packed faulty_open_packed_checked(const uint8_t *bytes, size_t length, uint32_t *held, size_t slots, int32_t *side1, size_t lent1, int32_t *side2, size_t lent2) {
    if (is("checked_opening_does_not_ask_the_calendar")) return ghendufika_open_packed(bytes, length, held, slots, side1, lent1, side2, lent2);
    return ghendufika_open_packed_checked(bytes, length, held, slots, side1, lent1, side2, lent2);
}

/* ---- spreadsheets (A5) */

typedef ghendufika_spreadsheet_read spreadsheet_read;

static bool is_byte(const uint8_t *bytes, size_t length, size_t place, uint8_t byte) { return place < length && bytes[place] == byte; }

static bool quotes_are_odd(const uint8_t *bytes, size_t length) {
    bool odd = false;
    for (size_t k = 0; k < length; k++) odd ^= bytes[k] == '"';
    return odd;
}

/* A file that is judged by another one: a byte, where it stands, is taken for another one. */
static spreadsheet_read with_byte_for(const uint8_t *bytes, size_t length, uint8_t byte, uint8_t other) {
    uint8_t taken[8192];
    for (size_t k = 0; k < length; k++) taken[k] = bytes[k] == byte ? other : bytes[k];
    return ghendufika_read_spreadsheet(taken, length);
}

static bool behind_50_records(const uint8_t *bytes, size_t place) {
    spreadsheet_read before = ghendufika_read_spreadsheet(bytes, place);
    return before.answer == 0 && before.spreadsheet.count == GHENDUFIKA_MOST_ENTRIES && is_byte(bytes, place, place - 1, '\n');
}

static const spreadsheet_read none_read;

static spreadsheet_read refused(uint8_t answer, size_t place) {
    spreadsheet_read read = none_read;
    read.answer = answer;
    read.place = place;
    return read;
}

/* Another number, or another place, than that of the first byte by which no valid file can begin so. */
static spreadsheet_read misjudged(const uint8_t *bytes, size_t length, spreadsheet_read read) {
    uint8_t answer = read.answer;
    size_t place = read.place;
    bool at_a_byte = place < length;
    if (is("quote_never_closed_comes_before_a_bad_number") && answer == 31 && quotes_are_odd(bytes, length)) return refused(29, length);
    if (is("half_a_number_comes_before_a_third_field") && answer == 30 && place > 0 && is_byte(bytes, length, place, ',') && bytes[place - 1] == '.') return refused(31, place);
    if (is("line_end_after_50_records_is_one_too_many") && answer == 0 && place > 0 && behind_50_records(bytes, place)) return refused(32, place - 1);
    if (is("blank_line_after_50_records_is_one_too_many") && answer == 30 && is_byte(bytes, length, place, '\n') && behind_50_records(bytes, place)) return refused(32, place);
    if (is("letter_after_50_records_is_one_too_many") && answer == 31 && at_a_byte && place > 0 && behind_50_records(bytes, place)) return refused(32, place);
    if (is("fifty_first_record_is_left_out") && answer == 32) return ghendufika_read_spreadsheet(bytes, place);
    if (is("bytes_of_a_spreadsheet_are_counted_from_one") && at_a_byte) read.place++;
    if (is("end_of_a_spreadsheet_is_its_last_byte") && answer != 0 && !at_a_byte && length > 0) read.place--;
    if (is("accepted_spreadsheet_has_no_place") && answer == 0) read.place = 0;
    return read;
}

/* Bytes that are read as others are, or left out. */
static spreadsheet_read misread(const uint8_t *bytes, size_t length, spreadsheet_read read) {
    size_t place = read.place;
    bool behind_return = read.answer == 29 && place > 0 && bytes[place - 1] == '\r';
    bool ends_in_two = length > 1 && bytes[length - 1] == '\n' && bytes[length - 2] == '\n';
    if (is("carriage_return_alone_ends_a_line") && behind_return && place < length) return with_byte_for(bytes, length, '\r', '\n');
    if (is("carriage_return_ends_the_file") && behind_return && place == length) return ghendufika_read_spreadsheet(bytes, length - 1);
    if (is("tab_is_a_space")) return with_byte_for(bytes, length, '\t', ' ');
    if (is("delete_is_text")) return with_byte_for(bytes, length, 127, '~');
    if (is("blank_last_line_is_left_out") && ends_in_two) return ghendufika_read_spreadsheet(bytes, length - 1);
    if (is("quoted_header_is_refused") && is_byte(bytes, length, 0, '"')) return refused(30, 0);
    return read;
}

static void misread_entry(ghendufika_entry *entry) {
    if (is("minus_below_one_mwh_is_lost") && entry->volume > -1000 && entry->volume < 0) entry->volume = -entry->volume;
    if (is("kwh_are_cut_from_a_float")) entry->volume = (int32_t)(entry->volume / 1000.0 * 1000.0);
}

static spreadsheet_read with_wrong_entries(spreadsheet_read read) {
    unsigned count = read.spreadsheet.count;
    if (is("refused_spreadsheet_has_an_entry") && read.answer == 31) read.spreadsheet.entries[0].period = 1;
    if (is("entry_past_those_of_a_spreadsheet_is_read") && read.answer == 0 && count < GHENDUFIKA_MOST_ENTRIES) read.spreadsheet.entries[count].volume = 1;
    for (unsigned k = 0; k < count; k++) {
        if (is("period_0_is_refused") && read.spreadsheet.entries[k].period == 0) return refused(31, read.place);
        misread_entry(&read.spreadsheet.entries[k]);
    }
    return read;
}

ghendufika_spreadsheet_read faulty_read_spreadsheet(const uint8_t *bytes, size_t length) {
    volatile uint8_t looked_at = 0;
    if (is("byte_past_the_spreadsheet_is_read")) looked_at = bytes[length];
    (void)looked_at;
    spreadsheet_read read = ghendufika_read_spreadsheet(bytes, length);
    return with_wrong_entries(misjudged(bytes, length, misread(bytes, length, read)));
}

/* What does not fit made to fit, or the other way round. */
static void misfit(ghendufika_spreadsheet *spreadsheet) {
    if (is("fifty_first_entry_is_not_written") && spreadsheet->count == 51) spreadsheet->count = 50;
    if (spreadsheet->count == 0 || spreadsheet->count >= GHENDUFIKA_MOST_ENTRIES) return;
    ghendufika_entry *last = &spreadsheet->entries[spreadsheet->count - 1];
    if (is("period_100_is_written") && last->period == 100) last->period = 99;
    if (is("entry_past_the_count_is_not_written") && last[1].period > 99) last->period = last[1].period;
}

ghendufika_spreadsheet_written faulty_write_spreadsheet(ghendufika_spreadsheet spreadsheet, uint8_t *out, size_t room) {
    misfit(&spreadsheet);
    ghendufika_spreadsheet_written written = ghendufika_write_spreadsheet(spreadsheet, out, room);
    size_t length = written.length;
    if (is("refused_spreadsheet_changes_the_buffer") && written.answer == 24 && room > 0) out[0] ^= 1;
    if (is("end_of_a_string_is_written_behind_a_spreadsheet") && written.answer == 0 && length < room) out[length] = 0;
    if (is("byte_past_the_room_is_written") && written.answer == 0) *(volatile uint8_t *)(out + room) = 0;
    if (is("room_comes_before_what_does_not_fit") && written.answer == 23 && room < 11) written.answer = 24;
    if (is("point_is_written_as_a_comma") && length > 11) out[length - 5] = ',';
    if (is("refused_spreadsheet_has_a_length") && written.answer == 24) written.length = room;
    return written;
}

/* The proved code against its twin in C, in one run: `bench` prints nanoseconds and ratios, `bench ratios` ratios alone, for an emulator, whose times say
 * nothing. Every round does the same work with both, in turns, and holds what they answered and left in the tables against each other: a difference
 * ends the program. The best of the rounds counts, since noise only adds. Compiled with EARLIER it does the same with a third, the proved code of an
 * earlier commit, whose exports are linked under other names (../bench). */
#include "inputs.h"
#include "twin.h"

#include <stdio.h>
#include <stdlib.h>
#include <string.h>
#include <time.h>

enum { MOST_PLACES = GHENDUFIKA_MOST_SLOTS * GHENDUFIKA_MOST_DAYS * GHENDUFIKA_PLACES_A_DAY, MOST_MESSAGES = 10000, MOST_RESULTS = 256 };
enum { DAYS_OF_CALENDAR = GHENDUFIKA_LAST_CALENDAR_DAY + 1 };

static int rounds = 60;
static bool ratios_only;

/* ---- who does the work */

typedef struct {
    uint8_t (*message_refusal)(const uint8_t *, size_t);
    size_t (*message_length)(const uint8_t *, size_t);
    int64_t (*message_field)(const uint8_t *, size_t, uint32_t);
    ghendufika_message_read (*read_message)(const uint8_t *, size_t);
    bool (*is_sound)(ghendufika_book, const uint32_t *, size_t, const int32_t *, size_t, const int32_t *, size_t);
    ghendufika_applied (*apply)(ghendufika_book, const uint8_t *, size_t, uint32_t *, size_t, int32_t *, size_t, int32_t *, size_t);
    ghendufika_applied_all (*apply_all)(ghendufika_book, const uint8_t *, size_t, uint32_t *, size_t, int32_t *, size_t, int32_t *, size_t, uint8_t *, size_t, uint8_t *, size_t);
    ghendufika_totalled (*total)(ghendufika_book, const uint32_t *, size_t, const int32_t *, size_t, const int32_t *, size_t, uint32_t, uint32_t, uint32_t);
    uint8_t (*day_totals)(ghendufika_book, const uint32_t *, size_t, const int32_t *, size_t, const int32_t *, size_t, uint32_t, uint32_t, int64_t *, size_t);
    ghendufika_figured (*figures)(ghendufika_book, const uint32_t *, size_t, const int32_t *, size_t, const int32_t *, size_t, uint32_t, uint32_t);
    ghendufika_measured (*day_length)(uint32_t);
    ghendufika_spreadsheet_read (*read_spreadsheet)(const uint8_t *, size_t);
    ghendufika_spreadsheet_written (*write_spreadsheet)(ghendufika_spreadsheet, uint8_t *, size_t);
    ghendufika_opened (*open)(ghendufika_setup, uint32_t *, size_t, int32_t *, size_t, int32_t *, size_t);
    ghendufika_opened (*open_checked)(ghendufika_setup, uint32_t *, size_t, int32_t *, size_t, int32_t *, size_t);
} calls;

#define CALLS(prefix)                                                                                                                                  \
    {prefix##message_refusal, prefix##message_length, prefix##message_field, prefix##read_message, prefix##is_sound, prefix##apply, prefix##apply_all, \
     prefix##total,           prefix##day_totals,     prefix##figures,       prefix##day_length,   prefix##read_spreadsheet,                           \
     prefix##write_spreadsheet, prefix##open,         prefix##open_checked}

static const calls proved = CALLS(ghendufika_), plain = CALLS(twin_);

#ifdef EARLIER
/* An export of the earlier commit takes and gives what it does now. */
#define AS_NOW(name) extern __typeof__(ghendufika_##name) earlier_ghendufika_##name
AS_NOW(message_refusal);
AS_NOW(message_length);
AS_NOW(message_field);
AS_NOW(read_message);
AS_NOW(is_sound);
AS_NOW(apply);
AS_NOW(apply_all);
AS_NOW(total);
AS_NOW(day_totals);
AS_NOW(figures);
AS_NOW(day_length);
AS_NOW(read_spreadsheet);
AS_NOW(write_spreadsheet);
AS_NOW(open);
AS_NOW(open_checked);
static const calls earlier = CALLS(earlier_ghendufika_);
#endif

/* One of those that do the work: its calls, its tables and what it was answered. */
typedef struct {
    _Alignas(64) const calls *with; /* aligned, so that the tables of all lie alike */
    ghendufika_book book;
    uint32_t held[GHENDUFIKA_MOST_SLOTS];
    int32_t side1[MOST_PLACES], side2[MOST_PLACES];
    uint8_t answers[MOST_MESSAGES], places[MOST_MESSAGES];
    int64_t results[MOST_RESULTS];
    double figures[3];
    uint8_t lengths[DAYS_OF_CALENDAR];       /* of days or of messages */
    ghendufika_message_read read;            /* the last message of a run */
    ghendufika_spreadsheet_read spreadsheet; /* the last one read */
    uint8_t text[GHENDUFIKA_MOST_SPREADSHEET_BYTES];
    const char *name; /* of its column */
} worker;

static worker workers[] = {
    {.name = "ours", .with = &proved},
    {.name = "C", .with = &plain},
#ifdef EARLIER
    {.name = "before", .with = &earlier},
#endif
};

enum { OURS, TWIN, BEFORE, WORKERS = sizeof workers / sizeof *workers }; /* without EARLIER there is none at BEFORE */

static worker fresh = {.with = &proved}; /* how all of them begin a round */
static size_t slots, lent;
static run_of_messages run;
static spreadsheets texts;
static ghendufika_spreadsheet written_before[SPREADSHEETS]; /* what the texts were read as, to be written again */

#define TABLES(w) (w)->held, slots, (w)->side1, lent, (w)->side2, lent

static void give_up(const char *why) {
    fprintf(stderr, "bench: %s\n", why);
    exit(1);
}

/* ---- the same in all */

static bool same_row(const ghendufika_authorisation *a, const ghendufika_authorisation *b) {
    return a->agent1 == b->agent1 && a->agent2 == b->agent2 && a->account1 == b->account1 && a->account2 == b->account2 && a->key == b->key && a->first == b->first &&
           a->last == b->last && a->amendment == b->amendment;
}

/* Field by field, for bytes between fields may differ. */
static bool same_book(const ghendufika_book *a, const ghendufika_book *b) {
    const ghendufika_setup *s = &a->setup, *t = &b->setup;
    bool same = a->closed == b->closed && s->first == t->first && s->days == t->days && s->accounts == t->accounts && s->authorisations == t->authorisations;
    for (int d = 0; d < 8; d++) same = same && s->codes[d] == t->codes[d];
    for (int k = 0; k < 64; k++) same = same && same_row(&s->rows[k], &t->rows[k]);
    return same;
}

static bool same_head(const ghendufika_notification *a, const ghendufika_notification *b) {
    return a->authorisation == b->authorisation && a->agent == b->agent && a->key == b->key && a->originator == b->originator && a->reference == b->reference &&
           a->first == b->first && a->last == b->last && a->count == b->count;
}

/* Every entry, those past the count too, which are zero. */
static bool same_reading(const ghendufika_message_read *a, const ghendufika_message_read *b) {
    const ghendufika_message *m = &a->message, *n = &b->message;
    bool same = a->answer == b->answer && a->length == b->length && m->kind == n->kind && same_head(&m->notification, &n->notification);
    for (unsigned k = 0; k < GHENDUFIKA_MOST_ENTRIES; k++) {
        const ghendufika_entry *e = &m->notification.entries[k], *f = &n->notification.entries[k];
        same = same && e->period == f->period && e->volume == f->volume;
    }
    return same && m->nullification.account == n->nullification.account && m->nullification.other == n->nullification.other &&
           m->nullification.first == n->nullification.first;
}

static bool same_entries(const ghendufika_spreadsheet *a, const ghendufika_spreadsheet *b) {
    bool same = a->count == b->count;
    for (unsigned k = 0; k < GHENDUFIKA_MOST_ENTRIES; k++)
        same = same && a->entries[k].period == b->entries[k].period && a->entries[k].volume == b->entries[k].volume;
    return same;
}

static bool same_spreadsheet(const ghendufika_spreadsheet_read *a, const ghendufika_spreadsheet_read *b) {
    return a->answer == b->answer && a->place == b->place && same_entries(&a->spreadsheet, &b->spreadsheet);
}

static bool same_tables(const worker *a, const worker *b) {
    return memcmp(a->held, b->held, slots * sizeof *a->held) == 0 && memcmp(a->side1, b->side1, lent * sizeof *a->side1) == 0 &&
           memcmp(a->side2, b->side2, lent * sizeof *a->side2) == 0;
}

static bool same_answers(const worker *a, const worker *b) {
    return memcmp(a->answers, b->answers, sizeof a->answers) == 0 && memcmp(a->places, b->places, sizeof a->places) == 0 &&
           memcmp(a->results, b->results, sizeof a->results) == 0 && memcmp(a->figures, b->figures, sizeof a->figures) == 0 &&
           memcmp(a->lengths, b->lengths, sizeof a->lengths) == 0 && memcmp(a->text, b->text, sizeof a->text) == 0;
}

static void stop_at_difference(const char *job, const worker *other) {
    fprintf(stderr, "bench: %s: %s and %s differ, so their times say nothing\n", job, workers[OURS].name, other->name);
    exit(1);
}

static void hold_against_each_other(const char *job) {
    const worker *ours = &workers[OURS];
    for (const worker *other = ours + 1; other < workers + WORKERS; other++)
        if (!same_book(&ours->book, &other->book) || !same_tables(ours, other) || !same_answers(ours, other) || !same_reading(&ours->read, &other->read) ||
            !same_spreadsheet(&ours->spreadsheet, &other->spreadsheet))
            stop_at_difference(job, other);
}

static void begin(worker *w) {
    w->book = fresh.book;
    memcpy(w->held, fresh.held, slots * sizeof *w->held);
    memcpy(w->side1, fresh.side1, lent * sizeof *w->side1);
    memcpy(w->side2, fresh.side2, lent * sizeof *w->side2);
}

/* ---- jobs */

static void ask_refusals(worker *w) {
    size_t at = 0;
    for (size_t k = 0; k < run.messages; k++) {
        w->answers[k] = w->with->message_refusal(run.bytes + at, run.length - at);
        at += run.length / run.messages; /* all messages of this run are of one length */
    }
}

static void ask_lengths(worker *w) {
    size_t at = 0;
    for (size_t k = 0; k < run.messages; k++) {
        size_t length = w->with->message_length(run.bytes + at, run.length - at);
        w->answers[k] = (uint8_t)length;
        at += length;
    }
}

/* Only the last message is kept, since to copy each would be a good part of the time. `check_every_reading` looks at all of them. */
static void read_whole(worker *w) {
    size_t at = 0;
    ghendufika_message_read read = {.answer = 0};
    for (size_t k = 0; k < run.messages; k++) {
        read = w->with->read_message(run.bytes + at, run.length - at);
        w->answers[k] = read.answer;
        w->lengths[k] = (uint8_t)read.length;
        at += read.length;
    }
    w->read = read;
}

/* Its kind, its head and its 50 periods and volumes, each asked apart. */
static void ask_all_fields(worker *w) {
    for (uint32_t field = 0; field <= GHENDUFIKA_FIELD_COUNT; field++) w->results[field] = w->with->message_field(run.bytes, run.length, field);
    for (uint32_t entry = 0; entry < 50; entry++) {
        w->results[100 + entry] = w->with->message_field(run.bytes, run.length, GHENDUFIKA_FIELD_PERIOD(entry));
        w->results[200 + entry] = w->with->message_field(run.bytes, run.length, GHENDUFIKA_FIELD_VOLUME(entry));
    }
}

static void apply_all(worker *w) {
    ghendufika_applied_all done = w->with->apply_all(w->book, run.bytes, run.length, TABLES(w), w->answers, MOST_MESSAGES, w->places, MOST_MESSAGES);
    if (done.answer != 0 || done.done != run.messages || done.used != run.length) give_up("a run was not done to its end");
    w->book = done.book;
}

static void apply_one_by_one(worker *w) {
    size_t at = 0;
    uint64_t kinds_and_slots = 0;
    for (size_t k = 0; k < run.messages; k++) {
        ghendufika_applied done = w->with->apply(w->book, run.bytes + at, run.length - at, TABLES(w));
        w->answers[k] = done.answer;
        w->places[k] = done.place;
        w->book = done.book;
        kinds_and_slots = kinds_and_slots * 1000003 + done.kind * 65536u + done.slot;
        at += done.answer == 0 ? done.length : w->with->message_length(run.bytes + at, run.length - at); /* a refusal gives no length */
    }
    w->results[0] = (int64_t)kinds_and_slots;
}

static void ask_soundness(worker *w) {
    w->results[0] = w->with->is_sound(w->book, TABLES(w));
    if (!w->results[0]) give_up("the book is not sound");
}

static void ask_total(worker *w) {
    ghendufika_totalled total = w->with->total(w->book, TABLES(w), 1, w->book.setup.first, 30);
    w->answers[0] = total.answer;
    w->results[0] = total.kwh;
}

static void ask_day_totals(worker *w) { w->answers[0] = w->with->day_totals(w->book, TABLES(w), 1, w->book.setup.first, w->results, 50); }

static void ask_figures(worker *w) {
    ghendufika_figured figured = w->with->figures(w->book, TABLES(w), 1, w->book.setup.first);
    w->answers[0] = figured.answer;
    w->figures[0] = figured.day.sold;
    w->figures[1] = figured.day.bought;
    w->figures[2] = figured.day.net;
}

/* A refusal would leave a length of 0. */
static void ask_day_lengths(worker *w) {
    for (uint32_t day = 0; day < DAYS_OF_CALENDAR; day++) w->lengths[day] = w->with->day_length(day).periods;
}

/* The setup that the book has is opened again, on its tables. */
static void take_opened(worker *w, ghendufika_opened opened) {
    if (opened.answer != 0) give_up("the setup was refused");
    w->book = opened.book;
}

static void open_again(worker *w) { take_opened(w, w->with->open(w->book.setup, TABLES(w))); }
static void open_again_checked(worker *w) { take_opened(w, w->with->open_checked(w->book.setup, TABLES(w))); }

static size_t start_of(unsigned k) { return k == 0 ? 0 : texts.ends[k - 1]; }

/* Only the last one is kept, as with messages; `check_every_spreadsheet` looks at all of them. */
static void read_spreadsheets(worker *w) {
    ghendufika_spreadsheet_read read = {.answer = 0};
    for (unsigned k = 0; k < SPREADSHEETS; k++) {
        read = w->with->read_spreadsheet(texts.bytes + start_of(k), texts.ends[k] - start_of(k));
        w->answers[k] = read.answer;
        w->results[k] = (int64_t)read.place;
    }
    w->spreadsheet = read;
}

static void write_spreadsheets_again(worker *w) {
    for (unsigned k = 0; k < SPREADSHEETS; k++) {
        ghendufika_spreadsheet_written written = w->with->write_spreadsheet(written_before[k], w->text, sizeof w->text);
        w->answers[k] = written.answer;
        w->results[k] = (int64_t)written.length;
    }
}

/* What any look at every place of the tables costs at least: both sides read once, in order. */
static void read_tables(worker *w) {
    uint32_t all = 0;
    for (size_t k = 0; k < lent; k++) all |= (uint32_t)(w->side1[k] ^ w->side2[k]);
    w->results[0] = all;
}

/* ---- measuring */

/* The processor's time for this program, so that others on the machine do not count while it waits for them. */
static double seconds(void) {
    struct timespec now;
    clock_gettime(CLOCK_PROCESS_CPUTIME_ID, &now);
    return (double)now.tv_sec + 1e-9 * (double)now.tv_nsec;
}

/* A job of one unit is a question: it changes nothing, and is asked often enough that reading the clock does not count. */
enum { TIMES_ASKED = 64 };

static double time_of(void (*job)(worker *), size_t units, worker *w) {
    int times = units == 1 ? TIMES_ASKED : 1;
    begin(w);
    double start = seconds();
    for (int k = 0; k < times; k++) job(w);
    return (seconds() - start) / times;
}

static double lesser(double a, double b) { return a < b ? a : b; }

typedef struct {
    double of[WORKERS]; /* nanoseconds for each of the job's units */
} measured;

/* A round of each first, which is not counted: it brings code and tables into the caches. */
static measured measure(const char *name, void (*job)(worker *), size_t units) {
    measured best;
    for (int w = 0; w < WORKERS; w++) {
        time_of(job, units, &workers[w]);
        best.of[w] = 1e9;
    }
    for (int k = 0; k < rounds; k++) {
        for (int w = 0; w < WORKERS; w++) best.of[w] = lesser(best.of[w], time_of(job, units, &workers[w]));
        hold_against_each_other(name);
    }
    for (int w = 0; w < WORKERS; w++) best.of[w] *= 1e9 / (double)units;
    return best;
}

static double measure_plain_read(void) {
    double best = 1e9;
    time_of(read_tables, 1, &workers[TWIN]);
    for (int k = 0; k < rounds; k++) best = lesser(best, time_of(read_tables, 1, &workers[TWIN]));
    return 1e9 * best;
}

/* ---- printing */

static void print_head(const char *first) {
    printf("%-52s%9s ns%9s ns%9s", first, workers[OURS].name, workers[TWIN].name, "ratio");
    for (int w = BEFORE; w < WORKERS; w++) printf("%9s ns%9s", workers[w].name, "ratio");
    printf("\n");
}

static void print_time(double nanoseconds) {
    if (ratios_only) printf("%12s", "-");
    else printf("%12.1f", nanoseconds);
}

static void print_times(const char *name, double first, double second) {
    printf("%-52s", name);
    print_time(first);
    print_time(second);
    printf("%9.2f", first / second);
}

/* Two times of each, one against the other: a line each. */
static void print_against(const char *const names[], measured first, measured second) {
    for (int w = 0; w < WORKERS; w++) {
        print_times(names[w], first.of[w], second.of[w]);
        printf("\n");
    }
}

static measured print_job(const char *name, void (*job)(worker *), size_t units) {
    measured m = measure(name, job, units);
    print_times(name, m.of[OURS], m.of[TWIN]);
    for (int w = BEFORE; w < WORKERS; w++) {
        print_time(m.of[w]);
        printf("%9.2f", m.of[w] / m.of[TWIN]);
    }
    printf("\n");
    return m;
}

static void print_growth(const char *name, size_t size, void (*job)(worker *), size_t units) {
    char line[64];
    snprintf(line, sizeof line, "%s, %zu", name, size);
    print_job(line, job, units);
}

/* ---- books and runs */

static void take(run_of_messages next) {
    free(run.bytes);
    run = next;
}

/* All begin with this book, opened and, where there is something to fill it, filled. */
static void take_book(ghendufika_setup setup, size_t its_slots, bool filled) {
    slots = its_slots;
    lent = slots * setup.days * GHENDUFIKA_PLACES_A_DAY;
    ghendufika_opened opened = ghendufika_open(setup, TABLES(&fresh));
    if (opened.answer != 0) give_up("the setup was refused");
    fresh.book = opened.book;
    if (!filled) return;
    take(filling(&setup, slots));
    apply_all(&fresh);
}

static void take_traded_book(size_t its_slots, unsigned days, size_t messages) {
    ghendufika_setup setup = setup_of(its_slots, days);
    take_book(setup, its_slots, true);
    take(trading(&setup, slots, messages));
}

static void take_long_notifications(ghendufika_setup setup) {
    take_book(setup, 4, false);
    take(long_notifications(&setup, 1000));
}

/* What a run is made of, as the twin sees it. */
static void print_mixture(const char *name) {
    worker *twin = &workers[TWIN];
    memset(twin_accepted, 0, sizeof twin_accepted);
    begin(twin);
    apply_all(twin);
    printf("%s: %zu messages in %zu bytes; accepted %zu initial, %zu replacements, %zu additional; %d gates closed\n", name, run.messages, run.length, twin_accepted[1],
           twin_accepted[2], twin_accepted[3], twin->book.closed - fresh.book.closed);
}

/* Where all forget a place they agree, so that the run has all of them is asked apart: under 10 and under 11, each at every entry. */
static void check_every_place(void) {
    const worker *ours = &workers[OURS];
    bool seen[2][GHENDUFIKA_MOST_ENTRIES] = {{false}};
    for (size_t k = 0; k < run.messages; k++) {
        bool by_volume = ours->answers[k] == GHENDUFIKA_VOLUME_WRONG;
        if (!by_volume && ours->answers[k] != GHENDUFIKA_PERIOD_WRONG) give_up("a notification with a wrong entry was not refused for it");
        if (ours->places[k] >= GHENDUFIKA_MOST_ENTRIES) give_up("a place is told that no packed notification has");
        seen[by_volume][ours->places[k]] = true;
    }
    for (unsigned entry = 0; entry < GHENDUFIKA_MOST_ENTRIES; entry++)
        if (!seen[0][entry] || !seen[1][entry]) give_up("an entry was never the one at fault");
}

/* Leaves no zeros where the next call has its variables, so that a zero which it forgets to write is seen. */
__attribute__((noinline)) static void dirty_the_stack(void) {
    volatile uint8_t below[4096];
    for (size_t k = 0; k < sizeof below; k++) below[k] = 0xff;
}

static void hold_readings_against_each_other(const uint8_t *bytes, size_t length) {
    const worker *ours = &workers[OURS];
    dirty_the_stack();
    ghendufika_message_read read = ours->with->read_message(bytes, length);
    for (const worker *other = ours + 1; other < workers + WORKERS; other++) {
        dirty_the_stack();
        ghendufika_message_read others = other->with->read_message(bytes, length);
        if (!same_reading(&read, &others)) stop_at_difference("a message read whole", other);
    }
}

/* Each message of the run, and each without its last byte, which is refused and gives zeros. */
static void check_every_reading(void) {
    size_t at = 0;
    for (size_t k = 0; k < run.messages; k++) {
        size_t length = ghendufika_message_length(run.bytes + at, run.length - at);
        if (length == 0) give_up("a message is refused that should be read");
        hold_readings_against_each_other(run.bytes + at, run.length - at);
        hold_readings_against_each_other(run.bytes + at, length - 1);
        at += length;
    }
}

/* Each spreadsheet, read by all of them alike: refused at its last byte, or right to its end. */
static void check_every_spreadsheet(bool refused) {
    for (unsigned k = 0; k < SPREADSHEETS; k++) {
        const uint8_t *text = texts.bytes + start_of(k);
        size_t length = texts.ends[k] - start_of(k);
        dirty_the_stack();
        ghendufika_spreadsheet_read read = workers[OURS].with->read_spreadsheet(text, length);
        if ((read.answer != 0) != refused || read.place != length - refused) give_up("a spreadsheet is read otherwise than it was written");
        written_before[k] = read.spreadsheet;
        for (const worker *other = workers + 1; other < workers + WORKERS; other++) {
            dirty_the_stack();
            ghendufika_spreadsheet_read others = other->with->read_spreadsheet(text, length);
            if (!same_spreadsheet(&read, &others)) stop_at_difference("a spreadsheet", other);
        }
    }
}

/* Each, as all of them write it, and it is read back as it was. */
static void check_every_text(void) {
    for (unsigned k = 0; k < SPREADSHEETS; k++)
        for (const worker *w = workers; w < workers + WORKERS; w++) {
            uint8_t text[GHENDUFIKA_MOST_SPREADSHEET_BYTES];
            ghendufika_spreadsheet_written written = w->with->write_spreadsheet(written_before[k], text, sizeof text);
            ghendufika_spreadsheet_read read = workers[OURS].with->read_spreadsheet(text, written.length);
            if (written.answer != 0 || read.answer != 0 || !same_entries(&read.spreadsheet, &written_before[k]))
                give_up("a spreadsheet is not read as it was written");
        }
}

/* ---- the tables that are printed */

static void print_reading(void) {
    ghendufika_setup setup = setup_of(4, 1);
    setup.codes[0] = 2; /* a day of 50 periods */
    take_book(setup, 4, false);
    take(full_notifications(&setup, 1000));
    print_job("refusal of a 50-entry notification", ask_refusals, run.messages);
    print_job("its length", ask_lengths, run.messages);
    print_job("a 50-entry notification read whole", read_whole, run.messages);
    check_every_reading();
    print_job("all its 109 fields, each asked apart", ask_all_fields, 1);
    print_job("1000 such, read and applied to 4 slots, each", apply_all, run.messages);
    take(refused_notifications(&setup, 1000));
    print_job("1000 such, refused for one entry, each", apply_all, run.messages);
    check_every_place();
}

/* The same messages on two books of as many periods, so that the times differ by what a short and a long day cost. */
static void print_long_notifications(void) {
    take_long_notifications(setup_of(4, 8));
    measured changing = print_job("1000 of 48 entries on days of 46, 48 and 50, each", apply_all, run.messages);
    take_long_notifications(plain_setup_of(4, 8));
    measured unchanging = print_job("the same 1000 on days of 48 only, each", apply_all, run.messages);
    static const char *const names[] = {"  ours, with a short and a long day against without", "  the twin's, with them against without",
                                        "  before, with them against without"};
    print_against(names, changing, unchanging);
}

static void print_runs(void) {
    take_traded_book(16, 2, 1000);
    check_every_reading(); /* here are the other kinds, and notifications of fewer entries */
    print_job("1000 messages, 16 slots of 2 days, each", apply_all, run.messages);
    take_traded_book(256, 8, 1000);
    print_job("1000 messages, 256 slots of 8 days, each", apply_all, run.messages);
    take_traded_book(256, 8, MOST_MESSAGES);
    print_job("10000 messages, 256 slots of 8 days, each", apply_all, run.messages);
}

static void print_questions(void) {
    print_job("soundness of the full book", ask_soundness, 1);
    measured sound = measure("soundness", ask_soundness, 1);
    double once = measure_plain_read();
    measured read = {.of = {0}};
    for (int w = 0; w < WORKERS; w++) read.of[w] = once;
    static const char *const names[] = {"  against a plain read of both sides", "  the twin's, against that plain read", "  before, against that plain read"};
    print_against(names, sound, read);
    print_job("a total of the full book", ask_total, 1);
    print_job("a day's totals of the full book", ask_day_totals, 1);
    print_job("a day's figures of the full book", ask_figures, 1);
}

/* A book of one slot, since to empty the tables of more takes so long that what the check costs is not seen. */
static void print_calendar(void) {
    take_book(plain_setup_of(1, 8), 1, false);
    print_job("length of a day, each day of 2000 to 2099", ask_day_lengths, DAYS_OF_CALENDAR);
    measured unchecked = print_job("opening 1 slot of 8 days", open_again, 1);
    measured checked = print_job("the same, checked against the calendar", open_again_checked, 1);
    static const char *const names[] = {"  ours, checked against unchecked", "  the twin's, checked against unchecked", "  before, checked against unchecked"};
    print_against(names, checked, unchecked);
}

static void print_spreadsheets(void) {
    write_spreadsheets(&texts, GHENDUFIKA_MOST_ENTRIES);
    check_every_spreadsheet(false);
    print_job("a spreadsheet of 50 entries read", read_spreadsheets, SPREADSHEETS);
    check_every_text();
    print_job("50 entries written as a spreadsheet", write_spreadsheets_again, SPREADSHEETS);
    write_refused_spreadsheets(&texts, GHENDUFIKA_MOST_ENTRIES);
    check_every_spreadsheet(true);
    print_job("a spreadsheet of 50 entries refused at its last byte", read_spreadsheets, SPREADSHEETS);
    write_spreadsheets(&texts, 0);
    check_every_spreadsheet(false);
    print_job("a header alone read", read_spreadsheets, SPREADSHEETS);
}

static void print_all_growth(void) {
    static const size_t sizes[] = {1, 16, 64, 256}, lengths[] = {100, 1000, 10000};
    for (int k = 0; k < 4; k++) {
        take_traded_book(sizes[k], 8, 100);
        print_growth("soundness by slots, 8 days", sizes[k], ask_soundness, 1);
    }
    for (int k = 0; k < 4; k++) {
        take_traded_book(sizes[k], 8, 1000);
        print_growth("a message of a run of 1000, by slots", sizes[k], apply_all, run.messages);
    }
    for (int k = 0; k < 3; k++) {
        take_traded_book(256, 8, lengths[k]);
        print_growth("a message of a run on 256 slots, by the run", lengths[k], apply_all, run.messages);
    }
    for (int k = 0; k < 4; k++) {
        take_traded_book(sizes[k], 8, 100);
        print_growth("a message applied by itself, by slots", sizes[k], apply_one_by_one, run.messages);
    }
}

int main(int argc, char **argv) {
    ratios_only = argc > 1 && strcmp(argv[1], "ratios") == 0;
    if (ratios_only) rounds = 5;
    print_head("job");
    print_reading();
    print_long_notifications();
    print_runs();
    print_questions();
    print_calendar();
    print_spreadsheets();
    printf("\n");
    print_head("growth");
    print_all_growth();
    printf("\n");
    take_long_notifications(setup_of(4, 8));
    print_mixture("4 slots of 8 days");
    take_traded_book(16, 2, 1000);
    print_mixture("16 slots of 2 days");
    take_traded_book(256, 8, 1000);
    print_mixture("256 slots of 8 days");
    take_traded_book(256, 8, MOST_MESSAGES);
    print_mixture("256 slots of 8 days");
    free(run.bytes);
    return 0;
}

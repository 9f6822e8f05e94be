/* Reading a story into a book; see story.h. */
#include "refusals.h"

#include <errno.h>
#include <stdio.h>
#include <stdlib.h>
#include <string.h>

static bool read_to_end(FILE *file, size_t most, input *all) {
    size_t room = 1 << 16, got = 1;
    all->length = 0;
    all->bytes = malloc(room);
    while (all->bytes != NULL && got > 0 && all->length <= most) {
        got = fread(all->bytes + all->length, 1, room - all->length, file);
        all->length += got;
        if (all->length == room) {
            uint8_t *larger = realloc(all->bytes, room *= 2);
            if (larger == NULL) free(all->bytes);
            all->bytes = larger;
        }
    }
    if (all->length > most) errno = EFBIG;
    return all->bytes != NULL && !ferror(file) && all->length <= most;
}

bool read_file(const char *path, input *all) { return read_file_up_to(path, SIZE_MAX, all); }

bool read_file_up_to(const char *path, size_t most, input *all) {
    bool standard = path[0] == '-' && path[1] == '\0';
    FILE *file = standard ? stdin : fopen(path, "rb");
    if (file == NULL) return false;
    bool whole = read_to_end(file, most, all);
    int why = errno;
    if (!standard) fclose(file);
    errno = why;
    return whole;
}

size_t places_of_days(size_t days) { return days <= GHENDUFIKA_MOST_DAYS ? SLOTS * days * GHENDUFIKA_PLACES_A_DAY : 0; }

/* Its days are bits 16 to 19. */
size_t places_for(const input *all) { return places_of_days(all->length > 2 ? all->bytes[2] >> 4 : 0); }

static void count_refused(story *told) {
    told->refused = 0;
    for (size_t k = 0; k < told->messages; k++) told->refused += told->answers[k] != GHENDUFIKA_DONE;
    if (is_cut_short(told)) told->refused--;
}

/* A refused message has its length too, and so the next one its start; an unreadable one is the last. */
static bool find_starts(story *told, size_t first) {
    told->starts = malloc((told->messages + 1) * sizeof told->starts[0]);
    if (told->starts == NULL) return false;
    for (size_t k = 0, at = first; k < told->messages; k++) {
        told->starts[k] = at;
        at += ghendufika_message_length(told->packed.bytes + at, told->packed.length - at);
    }
    return true;
}

static bool apply_messages(story *told, size_t first) {
    size_t length = told->packed.length - first;
    /* No message is shorter than a byte, so there is room for every answer. */
    told->answers = malloc(length + 1);
    told->entries_at_fault = malloc(length + 1);
    if (told->answers == NULL || told->entries_at_fault == NULL) return false;
    ghendufika_applied_all applied = ghendufika_apply_all(told->book, told->packed.bytes + first, length, LENT(told), told->answers, length + 1,
                                                          told->entries_at_fault, length + 1);
    if (applied.answer != GHENDUFIKA_DONE) return false;
    told->book = applied.book;
    told->messages = applied.done;
    told->unread = length - applied.used;
    count_refused(told);
    return find_starts(told, first);
}

static bool take_in(story *told) {
    const input *all = &told->packed;
    told->lent = places_for(all);
    ghendufika_setup_read setup = ghendufika_read_setup(all->bytes, all->length, SLOTS, told->lent, told->lent);
    if (setup.answer != GHENDUFIKA_DONE) {
        snprintf(told->trouble, sizeof told->trouble, "setup refused by %u (%s)", setup.answer, words_of(setup.answer));
        return false;
    }
    ghendufika_opened opened = ghendufika_open(setup.setup, LENT(told));
    told->book = opened.book;
    if (opened.answer == GHENDUFIKA_DONE && apply_messages(told, setup.length)) return true;
    snprintf(told->trouble, sizeof told->trouble, "no memory for the answers");
    return false;
}

bool read_story(const char *path, story *told) {
    told->trouble[0] = '\0';
    told->packed = (input){NULL, 0};
    told->answers = told->entries_at_fault = NULL;
    told->starts = NULL;
    told->messages = told->refused = told->unread = 0;
    bool is_read = read_file(path, &told->packed);
    if (!is_read) snprintf(told->trouble, sizeof told->trouble, "%.200s cannot be read: %s", path, strerror(errno));
    return is_read && take_in(told);
}

void forget_story(story *told) {
    free(told->packed.bytes);
    free(told->answers);
    free(told->entries_at_fault);
    free(told->starts);
}

bool is_cut_short(const story *told) {
    uint8_t last = told->messages == 0 ? GHENDUFIKA_DONE : told->answers[told->messages - 1];
    return GHENDUFIKA_BYTES_END_TOO_SOON <= last && last <= GHENDUFIKA_PADDING_BIT;
}

bool is_complete(const story *told) { return told->refused == 0 && !is_cut_short(told); }

unsigned originator_of(const story *told, unsigned slot) { return (told->held[slot] - 1) / 65536; }
unsigned reference_of(const story *told, unsigned slot) { return (told->held[slot] - 1) % 65536; }

unsigned periods_on(const story *told, unsigned day) {
    static const unsigned lengths[] = {46, 48, 50};
    return lengths[told->book.setup.codes[day - told->book.setup.first]];
}

unsigned gates_closed_on(const story *told, unsigned day) {
    unsigned closed = told->book.closed;
    for (unsigned earlier = told->book.setup.first; earlier < day; earlier++) {
        if (closed <= periods_on(told, earlier)) return 0;
        closed -= periods_on(told, earlier);
    }
    return closed < periods_on(told, day) ? closed : periods_on(told, day);
}

size_t place_of(const story *told, unsigned slot, unsigned day, unsigned period) {
    return (slot * told->book.setup.days + (day - told->book.setup.first)) * GHENDUFIKA_PLACES_A_DAY + period - 1;
}

bool is_number(const char *text, unsigned long most, unsigned *number) {
    char *end;
    errno = 0;
    unsigned long value = strtoul(text, &end, 10);
    *number = (unsigned)value;
    return text[0] >= '0' && text[0] <= '9' && *end == '\0' && errno == 0 && value <= most;
}

int leave(const char *program, int status) {
    bool failed = ferror(stdout) != 0;
    if (fclose(stdout) == 0 && !failed) return status;
    fprintf(stderr, "%s: standard output cannot be written: %s\n", program, strerror(errno));
    return NOTHING_SHOWN;
}

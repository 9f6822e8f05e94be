/* Reading the central agent's feedback; see feedback.h. */
#include "feedback.h"
#include "ghendufika.h"

#include <errno.h>
#include <stdio.h>
#include <stdlib.h>
#include <string.h>

enum { LONGEST_LINE = 200 };

int in_order(const stated *one, const stated *other) {
    if (one->originator != other->originator) return one->originator < other->originator ? -1 : 1;
    if (one->reference != other->reference) return one->reference < other->reference ? -1 : 1;
    if (one->side != other->side) return one->side < other->side ? -1 : 1;
    if (one->day != other->day) return one->day < other->day ? -1 : 1;
    return (one->period > other->period) - (one->period < other->period);
}

static int in_order_of_lines(const void *one, const void *other) {
    int order = in_order(one, other);
    if (order != 0) return order;
    size_t line = ((const stated *)one)->line, other_line = ((const stated *)other)->line;
    return (line > other_line) - (line < other_line);
}

/* A whole number from `least` to `most` at the front of the text, which moves behind it and the blanks that follow; or behind it and `end`, where
 * that is no blank. */
static bool take(const char **text, long least, long most, char end, long *number) {
    char *behind;
    const char *digits = **text == '-' ? *text + 1 : *text;
    if (*digits < '0' || *digits > '9') return false;
    errno = 0;
    *number = strtol(*text, &behind, 10);
    size_t gap = end == ' ' ? strspn(behind, " \t\r") : *behind == end;
    *text = behind + gap;
    return errno == 0 && least <= *number && *number <= most && (gap > 0 || (end == ' ' && *behind == '\0'));
}

/* Why the line states no place, or NULL. */
static const char *read_line(const char *text, stated *place) {
    long originator, reference, side, day, period, kwh;
    if (!take(&text, 0, GHENDUFIKA_MOST_AUTHORISATIONS - 1, '/', &originator) || !take(&text, 0, UINT16_MAX, ' ', &reference))
        return "the identifier is no ORIGINATOR/REFERENCE (0 to 63, 0 to 65535)";
    if (!take(&text, 1, 2, ' ', &side)) return "the side is neither 1 nor 2";
    if (!take(&text, 0, GHENDUFIKA_EVERGREEN - 1, ' ', &day)) return "the day is no number from 0 to 65534";
    if (!take(&text, 1, GHENDUFIKA_PLACES_A_DAY, ' ', &period)) return "the period is no number from 1 to 50";
    if (!take(&text, -GHENDUFIKA_MOST_VOLUME, GHENDUFIKA_MOST_VOLUME, ' ', &kwh)) return "the kWh are no whole number from -99999999 to 99999999";
    if (*text != '\0') return "there is more on it than identifier, side, day, period and kWh";
    *place = (stated){(unsigned)originator, (unsigned)reference, (unsigned)side, (unsigned)day, (unsigned)period, (int32_t)kwh, place->line};
    return NULL;
}

static bool keep(feedback *all, size_t *room, const stated *place) {
    if (all->count == *room) {
        size_t larger = *room == 0 ? 1024 : 2 * *room;
        stated *places = realloc(all->places, larger * sizeof *places);
        if (places == NULL) return false;
        all->places = places;
        *room = larger;
    }
    all->places[all->count++] = *place;
    return true;
}

static size_t tell_bad_line(const char *path, size_t line, const char *why) {
    printf("%s, line %zu CANNOT BE READ: %s\n", path, line, why);
    return 1;
}

/* What is wrong with the line as such, or NULL: too long, or without its end, where a file that was cut ends too. A byte 0 becomes a letter that no
 * field has. The text is without the line's end. */
static const char *next_line(FILE *file, int letter, char text[LONGEST_LINE]) {
    size_t length = 0;
    for (; letter != '\n' && letter != EOF; letter = fgetc(file), length++)
        if (length < LONGEST_LINE - 1) text[length] = (char)(letter == '\0' ? '?' : letter);
    text[length < LONGEST_LINE ? length : LONGEST_LINE - 1] = '\0';
    return letter == EOF ? "its end is missing, so the file may be cut" : length >= LONGEST_LINE ? "it is too long" : NULL;
}

/* Gives how many lines cannot be read; `failed` where the file cannot, or there is no memory for it. */
static size_t read_lines(const char *path, FILE *file, feedback *all, bool *failed) {
    char text[LONGEST_LINE];
    size_t bad = 0, room = 0;
    stated place = {.line = 0};
    for (int letter = fgetc(file); !*failed && letter != EOF; letter = fgetc(file)) {
        const char *why = next_line(file, letter, text), *start = text + strspn(text, " \t\r");
        bool says = *start != '\0' && *start != '#';
        place.line++;
        if (why == NULL && says) why = read_line(start, &place);
        if (why != NULL) bad += tell_bad_line(path, place.line, why);
        else if (says) *failed = !keep(all, &room, &place);
    }
    *failed = *failed || ferror(file);
    return bad;
}

/* A place that is stated twice is not decided by the one or the other line. */
static size_t tell_doubles(const char *path, const feedback *all) {
    size_t bad = 0;
    for (size_t k = 1; k < all->count; k++)
        if (in_order(&all->places[k - 1], &all->places[k]) == 0) {
            char why[64];
            snprintf(why, sizeof why, "line %zu states the same place", all->places[k - 1].line);
            bad += tell_bad_line(path, all->places[k].line, why);
        }
    return bad;
}

bool read_feedback(const char *path, feedback *all) {
    *all = (feedback){NULL, 0};
    FILE *file = fopen(path, "r");
    bool failed = file == NULL;
    size_t bad = failed ? 0 : read_lines(path, file, all, &failed);
    int why = errno;
    if (file != NULL) fclose(file);
    if (failed) {
        printf("Nothing was compared: %s cannot be read\n", path);
        fprintf(stderr, "check_feedback: %s cannot be read: %s\n", path, strerror(why));
        return false;
    }
    if (all->count > 0) qsort(all->places, all->count, sizeof all->places[0], in_order_of_lines);
    bad += tell_doubles(path, all);
    if (bad > 0) printf("Nothing was compared: %zu lines of %s cannot be read\n", bad, path);
    else if (all->count == 0) printf("Nothing was compared: %s states nothing\n", path);
    else return true;
    fprintf(stderr, "check_feedback: nothing was compared: %s has %zu lines that cannot be read and %zu that can\n", path, bad, all->count);
    return false;
}

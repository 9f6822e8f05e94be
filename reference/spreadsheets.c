/*
 * Reads and writes spreadsheets (A5), one for each line of standard input:
 *
 *   r BYTES                            BYTES as hexadecimal digits, "-" for none
 *   w ROOM COUNT PERIOD:KWH ..
 *
 * and prints
 *
 *   ANSWER PLACE COUNT PERIOD:KWH ..
 *   ANSWER LENGTH BYTES                of the whole room, which was all "x"
 *
 * It ends with 2 at a line that is neither.
 */
#define _POSIX_C_SOURCE 200809L /* getline */
#include "spreadsheet.h"

#include <stdio.h>
#include <stdlib.h>
#include <string.h>

enum { MOST_ROOM = 4096 };

static _Noreturn void give_up(const char *line)
{
    fprintf(stderr, "spreadsheets: what is this line? %s\n", line);
    exit(2);
}

/* The bytes, in place of the digits that stand for them. */
static size_t take_bytes(char *digits, uint8_t *bytes)
{
    size_t length = 0;
    unsigned byte;

    while (sscanf(digits + 2 * length, "%2x", &byte) == 1)
        bytes[length++] = (uint8_t)byte;
    return length;
}

static void read_line(char *digits)
{
    uint8_t *bytes = (uint8_t *)digits;
    size_t length = take_bytes(digits, bytes);
    struct spreadsheet spreadsheet;
    size_t place;
    enum answer answer = read_spreadsheet(bytes, length, &spreadsheet, &place);

    printf("%d %zu %u", (int)answer, place, spreadsheet.count);
    for (unsigned e = 0; e < spreadsheet.count; e++)
        printf(" %u:%d", spreadsheet.entry[e].period, (int)spreadsheet.entry[e].volume);
    printf("\n");
}

static void write_line(char *numbers)
{
    struct spreadsheet spreadsheet = {0};
    uint8_t bytes[MOST_ROOM];
    size_t room = strtoul(numbers, &numbers, 10);
    size_t written;

    spreadsheet.count = (unsigned)strtoul(numbers, &numbers, 10);
    for (unsigned e = 0; e < MOST_ENTRIES && *numbers == ' '; e++) {
        spreadsheet.entry[e].period = (unsigned)strtoul(numbers, &numbers, 10);
        spreadsheet.entry[e].volume = (int32_t)strtol(numbers + 1, &numbers, 10);
    }
    if (room > MOST_ROOM)
        give_up("more room than there is");
    memset(bytes, 'x', sizeof bytes);

    enum answer answer = write_spreadsheet(&spreadsheet, bytes, room, &written);

    printf("%d %zu ", (int)answer, written);
    for (size_t k = 0; k < room; k++)
        printf("%02x", bytes[k]);
    printf("\n");
}

int main(void)
{
    char *line = NULL;
    size_t room = 0;

    while (getline(&line, &room, stdin) > 0)
        if (strncmp(line, "r ", 2) == 0)
            read_line(line + 2);
        else if (strncmp(line, "w ", 2) == 0)
            write_line(line + 2);
        else
            give_up(line);
    free(line);
    return 0;
}

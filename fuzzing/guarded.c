/* Guard pages; see guarded.h. */
#define _GNU_SOURCE /* memfd_create */
#include "guarded.h"

#include <stdio.h>
#include <stdlib.h>
#include <string.h>
#include <sys/mman.h>
#include <unistd.h>

enum { WATCHED = 64, WATCHED_BYTE = 0xa5 };

static void give_up(const char *why) {
    perror(why);
    exit(2);
}

/* The file's pages in the middle of a stretch of address space that is otherwise closed. */
static uint8_t *view_between_guards(int file, size_t size, size_t page, int protection) {
    uint8_t *stretch = mmap(NULL, size + 2 * page, PROT_NONE, MAP_PRIVATE | MAP_ANONYMOUS, -1, 0);
    if (stretch == MAP_FAILED) give_up("guard pages");
    if (mmap(stretch + page, size, protection, MAP_SHARED | MAP_FIXED, file, 0) == MAP_FAILED) give_up("lent pages");
    return stretch + page;
}

struct area guarded_area(size_t bytes) {
    size_t page = (size_t)sysconf(_SC_PAGESIZE);
    size_t size = (bytes + page - 1) / page * page;
    int file = memfd_create("lent", 0);
    if (file < 0 || ftruncate(file, (off_t)size) != 0) give_up("memory to lend");
    struct area area = {view_between_guards(file, size, page, PROT_READ | PROT_WRITE), view_between_guards(file, size, page, PROT_READ), size};
    close(file);
    return area;
}

struct lent lend_part(const struct area *area, size_t bytes, bool at_the_end) {
    if (bytes > area->size) {
        fprintf(stderr, "an area of %zu bytes cannot lend %zu\n", area->size, bytes);
        exit(2);
    }
    size_t rest = area->size - bytes;
    size_t start = at_the_end ? rest : 0;
    size_t watched = rest < WATCHED ? rest : WATCHED;
    struct lent part = {area->to_change + start, area->to_read + start, bytes, NULL, watched};
    part.watched = at_the_end ? part.to_change - watched : part.to_change + bytes;
    memset(part.watched, WATCHED_BYTE, watched);
    return part;
}

bool nothing_written_beside(const struct lent *part) {
    for (size_t k = 0; k < part->watched_length; k++)
        if (part->watched[k] != WATCHED_BYTE) return false;
    return true;
}

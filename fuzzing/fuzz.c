/* A bounded, seeded attack on the C boundary: random and damaged bytes, tables and arguments to every export of include/ghendufika.h.
 *   fuzz calls COUNT SEED       fuzz seconds COUNT SEED       fuzz episode NUMBER SEED: that one alone, every call in words
 * It ends with 1 at the first thing that does not hold, or where a number that can come was not seen in a million calls or more. */
#define _GNU_SOURCE /* clock_gettime */
#include "chance.h"
#include "exports.h"
#include "lending.h"

#include <errno.h>
#include <stdlib.h>
#include <string.h>
#include <time.h>

#ifdef WITH_FAULTS
#include "faults.h"

/* `fuzz faults`: their names. `fuzz calls COUNT SEED FAULT`: with that one. */
static int print_faults(void) {
    for (size_t k = 0; fault_names[k] != NULL; k++) puts(fault_names[k]);
    return 0;
}

static bool is_a_fault(const char *name) {
    for (size_t k = 0; fault_names[k] != NULL; k++)
        if (strcmp(fault_names[k], name) == 0) return true;
    return strcmp(name, "none") == 0;
}
#endif

enum { MOST_STEPS = 300, CALLS_THAT_SEE_EVERY_NUMBER = 1000000 };

static double seconds_now(void) {
    struct timespec now;
    clock_gettime(CLOCK_MONOTONIC, &now);
    return (double)now.tv_sec + (double)now.tv_nsec / 1e9;
}

/* An episode is a book from its opening on. It depends on the seed and its number alone. */
static void run_episode(void) {
    chance_from(seed * UINT64_C(0x9e3779b97f4a7c15) + episode);
    chance_from(chance());
    model.slots = 0;
    while (model.slots == 0) try_open();
    for (unsigned steps = 1 + below(MOST_STEPS); steps > 0; steps--) try_one();
}

static int finish(double seconds) {
    if (calls == 0) {
        printf("nothing was tried\n");
        return 1;
    }
    bool all = print_seen();
    printf("seed %llu: %llu calls in %llu episodes and %.0f seconds, everything held\n", (unsigned long long)seed, (unsigned long long)calls,
           (unsigned long long)episode, seconds);
    if (all) return 0;
    if (calls < CALLS_THAT_SEE_EVERY_NUMBER) return 0;
    printf("a number that can come was never seen\n");
    return 1;
}

static int wrong_arguments(void) {
    fprintf(stderr, "fuzz calls|seconds|episode NUMBER SEED\n");
    return 2;
}

/* Digits alone, and no more than 64 bits hold. */
static bool read_number(const char *word, uint64_t *number) {
    errno = 0;
    *number = strtoull(word, NULL, 10);
    return word[0] != '\0' && strspn(word, "0123456789") == strlen(word) && errno == 0;
}

int main(int argc, char **argv) {
    uint64_t number;
#ifdef WITH_FAULTS
    if (argc == 2 && strcmp(argv[1], "faults") == 0) return print_faults();
    if (argc == 5 && is_a_fault(argv[4])) fault = argv[--argc];
#endif
    if (argc != 4 || !read_number(argv[2], &number) || !read_number(argv[3], &seed)) return wrong_arguments();
    make_areas();
    watch_for_faults();
    expect_numbers();
    double start = seconds_now();
    if (strcmp(argv[1], "episode") == 0) {
        episode = number;
        in_words = true;
        run_episode();
    } else if (strcmp(argv[1], "seconds") == 0) {
        for (; seconds_now() - start < (double)number; episode++) run_episode();
    } else if (strcmp(argv[1], "calls") == 0) {
        for (; calls < number; episode++) run_episode();
    } else {
        return wrong_arguments();
    }
    return in_words ? 0 : finish(seconds_now() - start);
}

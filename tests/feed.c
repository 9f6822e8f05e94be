/* A slow pipe: standard input to standard output, which is a pipe, in parts. The next part is written only when the reader has taken the one before,
 * so no reading gets more than one part.
 *   feed LEAST MOST SEED [PARTS]: parts of LEAST to MOST bytes, of odd sizes by the seed; all of the input, or so many parts and then its end.
 * It says on standard error how many parts it wrote; a reader that stops early ends it. */
#define _GNU_SOURCE /* ppoll */
#include <errno.h>
#include <poll.h>
#include <signal.h>
#include <stdbool.h>
#include <stdint.h>
#include <stdio.h>
#include <stdlib.h>
#include <string.h>
#include <sys/ioctl.h>
#include <unistd.h>

enum { MOST_BYTES_A_PART = 65536, NANOSECONDS_BETWEEN_LOOKS = 10000 };

static uint64_t state;

static size_t some_size(size_t least, size_t most) {
    state = state * UINT64_C(6364136223846793005) + UINT64_C(1442695040888963407);
    return least + (size_t)(state >> 33) % (most - least + 1);
}

/* False where the reader is gone. */
static bool is_taken(void) {
    int left;
    struct pollfd pipe = {.fd = STDOUT_FILENO};
    while (ioctl(STDOUT_FILENO, FIONREAD, &left) == 0) {
        if (left == 0) return true;
        if (ppoll(&pipe, 1, &(struct timespec){0, NANOSECONDS_BETWEEN_LOOKS}, NULL) > 0) return false;
    }
    perror("feed: standard output is no pipe");
    exit(2);
}

static bool is_written(const uint8_t *bytes, size_t length) {
    while (length > 0) {
        ssize_t some = write(STDOUT_FILENO, bytes, length);
        if (some < 0 && errno == EPIPE) return false;
        if (some < 0) {
            perror("feed");
            exit(2);
        }
        bytes += some;
        length -= (size_t)some;
    }
    return is_taken();
}

int main(int argc, char **argv) {
    static uint8_t bytes[MOST_BYTES_A_PART];
    size_t least = argc > 1 ? strtoull(argv[1], NULL, 10) : 0, most = argc > 2 ? strtoull(argv[2], NULL, 10) : 0;
    unsigned long parts = 0, most_parts = argc > 4 ? strtoul(argv[4], NULL, 10) : (unsigned long)-1;
    if (argc < 4 || argc > 5 || least < 1 || most < least || most > sizeof bytes || most_parts == 0) {
        fprintf(stderr, "feed LEAST MOST SEED [PARTS]\n");
        return 2;
    }
    state = strtoull(argv[3], NULL, 10);
    signal(SIGPIPE, SIG_IGN);
    while (parts < most_parts) {
        size_t length = fread(bytes, 1, some_size(least, most), stdin);
        if (length == 0 || !is_written(bytes, length)) break;
        parts++;
    }
    fprintf(stderr, "%lu\n", parts);
    return 0;
}

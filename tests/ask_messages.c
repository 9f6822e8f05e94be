/* Asks the archive about good, cut and damaged messages through the header, and compares every answer with a reader of its own, which is
 * written from document 01, "Packed messages", and shares nothing with the archive. */
#include "ghendufika.h"

#include <stdio.h>
#include <stdlib.h>
#include <string.h>

/* ---- the reader of its own */

/* `width` bits from bit `at` on, most significant bit first */
static uint64_t bits(const uint8_t *bytes, size_t at, unsigned width) {
    uint64_t value = 0;
    for (unsigned i = 0; i < width; i++) {
        size_t p = at + i;
        value = value << 1 | (bytes[p >> 3] >> (7 - (p & 7)) & 1u);
    }
    return value;
}

static int64_t two_complement_28(uint64_t v) { return v < (1u << 27) ? (int64_t)v : (int64_t)v - (1 << 28); }

struct seen {
    unsigned refusal;
    size_t length;
    unsigned kind;
};

/* "Message order: empty 19, 20, short of the 12 or 4 bytes 19, 21, short of the whole 19, 22." */
static struct seen look(const uint8_t *bytes, size_t length) {
    struct seen s = {0, 0, 0};
    if (length == 0) {
        s.refusal = 19;
        return s;
    }
    unsigned kind = bytes[0] >> 6;
    size_t used;
    if (kind == 3) {
        s.refusal = 20;
        return s;
    }
    if (kind == 0) {
        used = 2;
    } else if (kind == 2) {
        if (length < 4) {
            s.refusal = 19;
            return s;
        }
        used = 30;
    } else {
        if (length < 12) {
            s.refusal = 19;
            return s;
        }
        uint64_t count = bits(bytes, 86, 6);
        if (count > 50) {
            s.refusal = 21;
            return s;
        }
        used = 92 + 34 * (size_t)count;
    }
    size_t whole = (used + 7) / 8;
    if (length < whole) {
        s.refusal = 19;
        return s;
    }
    if (bits(bytes, used, (unsigned)(whole * 8 - used)) != 0) {
        s.refusal = 22;
        return s;
    }
    s.length = whole;
    s.kind = kind;
    return s;
}

static int64_t field_of(const uint8_t *bytes, struct seen s, uint32_t field) {
    static const struct {
        unsigned at, width;
    } head[9] = {{0, 2}, {2, 6}, {8, 8}, {16, 16}, {32, 6}, {38, 16}, {54, 16}, {70, 16}, {86, 6}};
    if (s.refusal != 0) return 0;
    if (field == GHENDUFIKA_FIELD_KIND) return s.kind;
    if (s.kind == GHENDUFIKA_NULLIFICATION) {
        if (field == GHENDUFIKA_FIELD_ACCOUNT) return (int64_t)bits(bytes, 2, 6);
        if (field == GHENDUFIKA_FIELD_OTHER_ACCOUNT) return (int64_t)bits(bytes, 8, 6);
        if (field == GHENDUFIKA_FIELD_FIRST_DAY) return (int64_t)bits(bytes, 14, 16);
        return 0;
    }
    if (s.kind != GHENDUFIKA_NOTIFICATION) return 0;
    if (field <= GHENDUFIKA_FIELD_COUNT) return (int64_t)bits(bytes, head[field].at, head[field].width);
    uint64_t count = bits(bytes, 86, 6);
    if (field >= 100 && field < 100 + count) return (int64_t)bits(bytes, 92 + 34 * (size_t)(field - 100), 6);
    if (field >= 200 && field < 200 + count) return two_complement_28(bits(bytes, 92 + 34 * (size_t)(field - 200) + 6, 28));
    return 0;
}

/* ---- comparing */

static unsigned long asked;

static void differ(const char *what, const uint8_t *bytes, size_t length, long long ours, long long theirs) {
    printf("%s: the archive says %lld, document 01 says %lld, of %zu bytes:", what, ours, theirs, length);
    for (size_t i = 0; i < length; i++) printf(" %02x", bytes[i]);
    printf("\n");
    exit(1);
}

static struct seen compare_short(const uint8_t *bytes, size_t length) {
    struct seen s = look(bytes, length);
    unsigned refusal = ghendufika_message_refusal(bytes, length);
    if (refusal != s.refusal) differ("refusal", bytes, length, refusal, s.refusal);
    asked++;
    return s;
}

static void compare(const uint8_t *bytes, size_t length, int every_field) {
    struct seen s = compare_short(bytes, length);
    size_t taken = ghendufika_message_length(bytes, length);
    if (taken != s.length) differ("length", bytes, length, (long long)taken, (long long)s.length);
    uint32_t step = every_field ? 1 : 17;
    for (uint32_t field = 0; field < 260; field += field < 11 ? 1 : step) {
        int64_t ours = ghendufika_message_field(bytes, length, field), theirs = field_of(bytes, s, field);
        if (ours != theirs) differ("field", bytes, length, ours, theirs);
        asked++;
    }
    if (ghendufika_message_field(bytes, length, UINT32_MAX) != 0) differ("unknown field", bytes, length, 1, 0);
}

static uint64_t state = 88172645463325252u;
static uint32_t any(uint32_t below) {
    state ^= state << 13, state ^= state >> 7, state ^= state << 17;
    return (uint32_t)(state >> 33) % below;
}

static void expect(const char *what, int64_t is, int64_t wanted) {
    if (is != wanted) {
        printf("%s: %lld and not %lld\n", what, (long long)is, (long long)wanted);
        exit(1);
    }
    asked++;
}

/* ---- stories */

/* P13: nullify 0, 1 from 100 packs as 80 04 01 90 */
static void nullify_0_and_1_from_day_100(void) {
    const uint8_t bytes[5] = {0x80, 0x04, 0x01, 0x90, 0xFF}; /* the fifth belongs to the next message */
    expect("refusal", ghendufika_message_refusal(bytes, 5), GHENDUFIKA_DONE);
    expect("length", (int64_t)ghendufika_message_length(bytes, 5), 4);
    expect("kind", ghendufika_message_field(bytes, 5, GHENDUFIKA_FIELD_KIND), GHENDUFIKA_NULLIFICATION);
    expect("account", ghendufika_message_field(bytes, 5, GHENDUFIKA_FIELD_ACCOUNT), 0);
    expect("other account", ghendufika_message_field(bytes, 5, GHENDUFIKA_FIELD_OTHER_ACCOUNT), 1);
    expect("first day", ghendufika_message_field(bytes, 5, GHENDUFIKA_FIELD_FIRST_DAY), 100);
    expect("cut", ghendufika_message_refusal(bytes, 3), GHENDUFIKA_BYTES_END_TOO_SOON);
}

/* P1: agent 7 under authorisation 0 with key 500 gives -5000 for period 1 of day 100, under 0/1 */
static void agent_7_sold_period_1(void) {
    uint8_t bytes[16] = {0x40, 0x07, 0x01, 0xF4, 0x00, 0x00, 0x04, 0x01, 0x90, 0x01, 0x90, 0x10, 0, 0, 0, 0};
    uint32_t volume = (uint32_t)-5000 & 0x0FFFFFFFu; /* the head takes 92 bits; then 6 bits, 000001, and these 28 */
    bytes[12] = (uint8_t)(0x40 | volume >> 22);
    bytes[13] = (uint8_t)(volume >> 14);
    bytes[14] = (uint8_t)(volume >> 6);
    bytes[15] = (uint8_t)(volume << 2);
    expect("refusal", ghendufika_message_refusal(bytes, 16), GHENDUFIKA_DONE);
    expect("length", (int64_t)ghendufika_message_length(bytes, 16), 16);
    expect("agent", ghendufika_message_field(bytes, 16, GHENDUFIKA_FIELD_AGENT), 7);
    expect("key", ghendufika_message_field(bytes, 16, GHENDUFIKA_FIELD_KEY), 500);
    expect("reference", ghendufika_message_field(bytes, 16, GHENDUFIKA_FIELD_REFERENCE), 1);
    expect("first day", ghendufika_message_field(bytes, 16, GHENDUFIKA_FIELD_FIRST_DAY), 100);
    expect("last day", ghendufika_message_field(bytes, 16, GHENDUFIKA_FIELD_LAST_DAY), 100);
    expect("count", ghendufika_message_field(bytes, 16, GHENDUFIKA_FIELD_COUNT), 1);
    expect("period", ghendufika_message_field(bytes, 16, GHENDUFIKA_FIELD_PERIOD(0)), 1);
    expect("volume", ghendufika_message_field(bytes, 16, GHENDUFIKA_FIELD_VOLUME(0)), -5000);
    expect("past the count", ghendufika_message_field(bytes, 16, GHENDUFIKA_FIELD_VOLUME(1)), 0);
    bytes[15] |= 1;
    expect("a padding bit", ghendufika_message_refusal(bytes, 16), GHENDUFIKA_PADDING_BIT);
}

int main(void) {
    uint8_t bytes[256] = {0};
    nullify_0_and_1_from_day_100();
    agent_7_sold_period_1();

    /* every byte string of up to 3 bytes */
    compare(bytes, 0, 1);
    for (unsigned a = 0; a < 256; a++) {
        bytes[0] = (uint8_t)a;
        compare(bytes, 1, 0);
        for (unsigned b = 0; b < 256; b++) {
            bytes[1] = (uint8_t)b;
            compare_short(bytes, 2);
            for (unsigned c = 0; c < 256; c++) {
                bytes[2] = (uint8_t)c;
                compare_short(bytes, 3);
            }
        }
    }

    /* random, cut and damaged longer ones */
    for (unsigned n = 0; n < 6000; n++) {
        size_t length = any(sizeof bytes);
        for (size_t i = 0; i < length; i++) bytes[i] = (uint8_t)any(256);
        if (n % 3 != 0 && length > 12) {
            unsigned count = any(n % 5 == 0 ? 64 : 51); /* a notification, most of them whole and with zero padding */
            bytes[0] = (uint8_t)(0x40 | (bytes[0] & 0x3F));
            bytes[10] = (uint8_t)((bytes[10] & 0xFC) | count >> 4);
            bytes[11] = (uint8_t)(count << 4 | (bytes[11] & 0x0F));
            size_t used = 92 + 34 * count, whole = (used + 7) / 8;
            if (whole <= sizeof bytes) {
                for (size_t i = length; i < whole; i++) bytes[i] = (uint8_t)any(256);
                bytes[whole - 1] = (uint8_t)(bytes[whole - 1] & ~((1u << (whole * 8 - used)) - 1));
                length = n % 7 == 0 ? any((uint32_t)whole + 1) : whole;
            }
        }
        if (n % 11 == 0 && length > 0) bytes[any((uint32_t)length)] ^= (uint8_t)(1u << any(8));
        compare(bytes, length, n % 50 == 0);
    }
    printf("asked about messages: %lu answers compared, none differs\n", asked);
    return 0;
}

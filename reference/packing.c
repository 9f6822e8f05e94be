/* Packing setups and messages into bytes; see packing.h. */
#include "packing.h"

struct written {
    uint8_t *bytes;
    size_t bits;
};

/* "Fields are packed most significant bit first". */
static void put(struct written *out, unsigned width, uint32_t value)
{
    for (unsigned i = width; i-- > 0;) {
        uint8_t *byte = &out->bytes[out->bits / 8];
        unsigned place = 7 - out->bits % 8;

        if (place == 7)
            *byte = 0; /* a new byte begins; its unused bits stay zero */
        *byte = (uint8_t)(*byte | (value >> i & 1u) << place);
        out->bits++;
    }
}

static size_t bytes_of(size_t bits)
{
    return (bits + 7) / 8;
}

static unsigned padding_of(size_t bits)
{
    return (unsigned)(bytes_of(bits) * 8 - bits);
}

static unsigned at_most(unsigned count, unsigned most)
{
    return count < most ? count : most;
}

static size_t bits_of_setup(const struct setup *setup)
{
    return 34 + 2 * (size_t)at_most(setup->days, MOST_DAYS)
        + 78 * (size_t)at_most(setup->authorisations, MOST_AUTHORISATIONS);
}

static size_t bits_of_message(const struct message *message)
{
    switch (message->kind) {
    case NOTIFICATION:
        return 92 + 34 * (size_t)at_most(message->notification.count, MOST_ENTRIES);
    case NULLIFICATION:
        return 30;
    default:
        return 2;
    }
}

static void put_row(struct written *out, const struct authorisation *row)
{
    put(out, 8, row->agent[0]);
    put(out, 8, row->agent[1]);
    put(out, 6, row->account[0]);
    put(out, 6, row->account[1]);
    put(out, 16, row->key);
    put(out, 16, row->first_day);
    put(out, 16, row->last_day);
    put(out, 2, row->type);
}

size_t pack_setup(const struct setup *setup, uint8_t bytes[MOST_SETUP_BYTES])
{
    struct written out = {bytes, 0};

    put(&out, 16, setup->first_day);
    put(&out, 4, setup->days);
    put(&out, 7, setup->accounts);
    put(&out, 7, setup->authorisations);
    for (unsigned d = 0; d < at_most(setup->days, MOST_DAYS); d++)
        put(&out, 2, setup->day_code[d]);
    for (unsigned a = 0; a < at_most(setup->authorisations, MOST_AUTHORISATIONS); a++)
        put_row(&out, &setup->authorisation[a]);
    return bytes_of(out.bits);
}

static void put_notification(struct written *out, const struct notification *n)
{
    put(out, 6, n->authorisation);
    put(out, 8, n->agent);
    put(out, 16, n->key);
    put(out, 6, n->originator);
    put(out, 16, n->reference);
    put(out, 16, n->first_day);
    put(out, 16, n->last_day);
    put(out, 6, n->count);
    for (unsigned e = 0; e < at_most(n->count, MOST_ENTRIES); e++) {
        put(out, 6, n->entry[e].period);
        put(out, 28, (uint32_t)n->entry[e].volume); /* the low 28 bits */
    }
}

size_t pack_message(const struct message *message, uint8_t bytes[MOST_MESSAGE_BYTES])
{
    struct written out = {bytes, 0};

    put(&out, 2, message->kind);
    if (message->kind == NOTIFICATION)
        put_notification(&out, &message->notification);
    if (message->kind == NULLIFICATION) {
        put(&out, 6, message->nullification.account[0]);
        put(&out, 6, message->nullification.account[1]);
        put(&out, 16, message->nullification.first_day);
    }
    return bytes_of(out.bits);
}

unsigned padding_of_setup(const struct setup *setup)
{
    return padding_of(bits_of_setup(setup));
}

unsigned padding_of_message(const struct message *message)
{
    return padding_of(bits_of_message(message));
}

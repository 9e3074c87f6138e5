/* The commands that look, but for the picture. */
#include "box.h"

#include <inttypes.h>
#include <stdio.h>

static bool say_hex(const uint8_t *bytes, size_t length, const word *words) {
    size_t from, to;
    if (!read_number_below(words[1], length + 1, &to) || !read_number_below(words[0], to + 1, &from))
        return false;
    fputs(from == to ? "ok -" : "ok ", stdout);
    for (size_t i = from; i < to; i++)
        printf("%02X", bytes[i]);
    putchar('\n');
    return true;
}

static bool run_ring(box *box, const word *words) {
    return say_hex(box->ring, box->ring_length, words);
}

static bool run_buffer(box *box, const word *words) {
    return say_hex(box->buffer, box->buffer_length, words);
}

/* As in IEEE 802.3. */
static uint32_t crc_32(const uint8_t *bytes, size_t length) {
    uint32_t crc = UINT32_MAX;
    for (size_t i = 0; i < length; i++) {
        crc ^= bytes[i];
        for (int bit = 0; bit < 8; bit++)
            crc = (crc & 1) != 0 ? (crc >> 1) ^ 0xEDB88320 : crc >> 1;
    }
    return ~crc;
}

static bool run_sum(box *box, const word *words) {
    bool of_ring = word_is(words[0], "ring");
    if (!of_ring && !word_is(words[0], "buffer"))
        return false;
    uint32_t sum = of_ring ? crc_32(box->ring, box->ring_length) : crc_32(box->buffer, box->buffer_length);
    printf("ok %08" PRIX32 "\n", sum);
    return true;
}

static bool run_state(box *box, const word *words) {
    (void)words;
    const vt_state *state = &box->state;
    printf("ok %" PRIu64 " %" PRIu64 " %zu w", state->next, state->flush, state->count);
    for (size_t i = 0; i < state->count && i < VT_WRITES; i++)
        printf(" %" PRIu64 ":%u", state->writes[i].number, state->writes[i].phase);
    fputs(" p", stdout);
    for (size_t i = 0; i < VT_PINS; i++) {
        const vt_pin_record *pin = &state->pins[i];
        if (pin->number != 0)
            printf(" %zu:%" PRIu64 ":%" PRIu64 ":%" PRIu32, i, pin->number, pin->mark, pin->node);
    }
    putchar('\n');
    return true;
}

const command looks[] = {
    {"ring", 2, run_ring},   {"buffer", 2, run_buffer}, {"sum", 1, run_sum},
    {"state", 0, run_state}, {"show", 0, show},         {NULL, 0, NULL},
};

/* The picture that `show` draws. */
#include "box.h"

#include <inttypes.h>
#include <stdio.h>
#include <string.h>

#define ROW 16 /* slots on a line */

static const char letters[] = "ABCDEFGHIJKLMNOPQRSTUVWXYZabcdefghijklmnopqrstuvwxyz";
static const char signs[] = "->="; /* for each phase */

typedef struct picture {
    size_t slots;
    size_t used;
    char cells[VT_SLOTS_MOST][2];
    size_t node_count;
    uint32_t nodes[VT_WRITES]; /* in the order of their oldest held write */
} picture;

/* A number of the ring, little-endian. */
static uint32_t number_at(const uint8_t *bytes, size_t count) {
    uint32_t number = 0;
    while (count > 0)
        number = number << 8 | bytes[--count];
    return number;
}

static char letter_of(picture *picture, uint32_t node) {
    size_t order = 0;
    while (order < picture->node_count && picture->nodes[order] != node)
        order++;
    if (order == picture->node_count)
        picture->nodes[picture->node_count++] = node;
    return order < strlen(letters) ? letters[order] : '*';
}

/* The ring is readable and the state fits it, so the writes that the state lists are the ring's entries. */
static void draw(picture *picture, const box *box) {
    const uint8_t *ring = box->ring;
    picture->slots = ring[1];
    picture->used = (picture->slots + ring[3] - ring[2]) % picture->slots;
    picture->node_count = 0;
    memset(picture->cells, '.', sizeof picture->cells);
    size_t slot = ring[2];
    for (size_t i = 0; i < box->state.count; i++) {
        const uint8_t *entry = ring + VT_RING_BYTES(slot);
        char letter = letter_of(picture, number_at(entry + 8, 4));
        size_t left = (24 + number_at(entry + 20, 2) + VT_SLOT - 1) / VT_SLOT;
        for (; left > 0; left--) {
            picture->cells[slot][0] = letter;
            picture->cells[slot][1] = signs[box->state.writes[i].phase];
            slot = (slot + 1) % picture->slots;
        }
    }
}

static void say_slots(const picture *picture) {
    for (size_t slot = 0; slot < picture->slots; slot++) {
        if (slot % ROW == 0)
            printf("  %3zu", slot);
        printf(" %.2s", picture->cells[slot]);
        if (slot % ROW == ROW - 1 || slot == picture->slots - 1)
            putchar('\n');
    }
}

static void say_pin(const vt_pin_record *pin) {
    printf("  pin %" PRIu64 " from %" PRIu64 " for ", pin->number, pin->mark);
    if (pin->node == 0)
        puts("all");
    else
        printf("node %" PRIu32 "\n", pin->node);
}

bool show(box *box, const word *words) {
    (void)words;
    /* Whose turn: refused exactly where the ring isn't readable or the state doesn't fit. */
    if (say_refused(vt_whose_turn(box->ring, box->ring_length, &box->state)))
        return true;
    picture picture;
    draw(&picture, box);
    const vt_state *state = &box->state;
    printf("ok %zu slots, %zu used, next %" PRIu64, picture.slots, picture.used, state->next);
    if (state->flush != 0)
        printf(", flush %" PRIu64 " out", state->flush);
    putchar('\n');
    say_slots(&picture);
    for (size_t i = 0; i < picture.node_count && i < strlen(letters); i++)
        printf("  %c is node %" PRIu32 "\n", letters[i], picture.nodes[i]);
    for (size_t i = 0; i < VT_PINS; i++)
        if (state->pins[i].number != 0)
            say_pin(&state->pins[i]);
    return true;
}

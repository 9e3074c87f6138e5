/* The commands that damage the ring or the state. */
#include "box.h"

#include <stdio.h>

static bool run_poke(box *box, const word *words) {
    size_t place;
    uint8_t byte;
    if (!read_number_below(words[0], box->ring_length, &place) || !read_byte(words[1], &byte))
        return false;
    box->ring[place] = byte;
    puts("ok");
    return true;
}

static bool set_number(box *box, const word *words) {
    uint64_t value;
    if (!read_number(words[1], &value))
        return false;
    if (word_is(words[0], "next"))
        box->state.next = value;
    else if (word_is(words[0], "flush"))
        box->state.flush = value;
    else if (word_is(words[0], "count"))
        box->state.count = value;
    else
        return false;
    puts("ok");
    return true;
}

static bool set_listed(box *box, const word *words) {
    size_t place, phase;
    uint64_t number;
    if (!read_number_below(words[1], VT_WRITES, &place))
        return false;
    if (word_is(words[0], "number") && read_number(words[2], &number))
        box->state.writes[place].number = number;
    else if (word_is(words[0], "phase") && read_number_below(words[2], UINT8_MAX + 1, &phase))
        box->state.writes[place].phase = (uint8_t)phase;
    else
        return false;
    puts("ok");
    return true;
}

static bool set_pin(box *box, const word *words) {
    size_t place;
    vt_pin_record pin;
    if (!word_is(words[0], "pin") || !read_number_below(words[1], VT_PINS, &place) ||
        !read_number(words[2], &pin.number) || !read_number(words[3], &pin.mark) || !read_number_32(words[4], &pin.node))
        return false;
    box->state.pins[place] = pin;
    puts("ok");
    return true;
}

const command damages[] = {
    {"poke", 2, run_poke}, {"set", 2, set_number}, {"set", 3, set_listed}, {"set", 5, set_pin}, {NULL, 0, NULL},
};

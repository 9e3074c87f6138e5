/* The twelve calls, each as a command. */
#include "box.h"

#include <inttypes.h>
#include <stdio.h>
#include <string.h>

static uint8_t given[MOST_BYTES]; /* the bytes that a command brings */

bool say_refused(vt_answer answer) {
    if (answer.refusal != VT_OK)
        printf("refused %" PRIu32 "\n", answer.refusal);
    return answer.refusal != VT_OK;
}

static bool say_done(vt_answer answer) {
    if (!say_refused(answer))
        puts("ok");
    return true;
}

static bool say_value(vt_answer answer) {
    if (!say_refused(answer))
        printf("ok %" PRIu64 "\n", answer.value);
    return true;
}

static bool run_make(box *box, const word *words) {
    size_t length;
    if (!read_number_below(words[0], MOST_BYTES + 1, &length))
        return false;
    box->ring_length = length;
    memset(box->ring, BLANK, length);
    return say_done(vt_make(box->ring, length, &box->state));
}

static bool run_reopen(box *box, const word *words) {
    (void)words;
    return say_value(vt_reopen(box->ring, box->ring_length, &box->state));
}

static bool run_write(box *box, const word *words) {
    uint32_t node, handle, offset;
    size_t length;
    if (!read_number_32(words[0], &node) || !read_number_32(words[1], &handle) || !read_number_32(words[2], &offset) ||
        !read_bytes(words[3], given, &length))
        return false;
    return say_value(vt_write(box->ring, box->ring_length, &box->state, node, handle, offset, given, length));
}

static bool run_pin(box *box, const word *words) {
    uint32_t node;
    if (!read_number_32(words[0], &node))
        return false;
    return say_value(vt_pin(box->ring, box->ring_length, &box->state, node));
}

static bool run_unpin(box *box, const word *words) {
    uint64_t number;
    if (!read_number(words[0], &number))
        return false;
    return say_done(vt_unpin(box->ring, box->ring_length, &box->state, number));
}

static void blank_buffer(box *box, size_t length) {
    box->buffer_length = length;
    memset(box->buffer, BLANK, length);
}

static bool run_fill(box *box, const word *words) {
    uint64_t pin, fetched;
    uint32_t node, offset;
    size_t length, brought;
    if (!read_number(words[0], &pin) || !read_number_32(words[1], &node) || !read_number_32(words[2], &offset) ||
        !read_number_below(words[3], MOST_BYTES + 1, &length) || !read_number(words[4], &fetched) ||
        !read_bytes(words[5], given, &brought) || brought > length)
        return false;
    blank_buffer(box, length);
    memcpy(box->buffer, given, brought);
    return say_value(
        vt_fill(box->ring, box->ring_length, &box->state, pin, node, offset, fetched, box->buffer, length));
}

static bool run_end(box *box, const word *words) {
    uint32_t node;
    if (!read_number_32(words[0], &node))
        return false;
    return say_value(vt_cached_end(box->ring, box->ring_length, &box->state, node));
}

static bool run_flush(box *box, const word *words) {
    uint32_t node;
    size_t length;
    if (!read_number_32(words[0], &node) || !read_number_below(words[1], MOST_BYTES + 1, &length))
        return false;
    blank_buffer(box, length);
    vt_answer answer = vt_start(box->ring, box->ring_length, &box->state, node, box->buffer, length);
    if (say_refused(answer))
        return true;
    if (answer.value == 0)
        puts("nothing");
    else
        printf("ok %" PRIu64 " %" PRIu64 "\n", answer.value, answer.length);
    return true;
}

static bool run_report(box *box, const word *words) {
    uint64_t number;
    bool good = word_is(words[1], "good");
    if (!read_number(words[0], &number) || (!good && !word_is(words[1], "bad")))
        return false;
    return say_done(vt_report(box->ring, box->ring_length, &box->state, number, good));
}

static bool run_ticket(box *box, const word *words) {
    (void)words;
    return say_value(vt_take_ticket(box->ring, box->ring_length, &box->state));
}

static bool run_ask(box *box, const word *words) {
    uint64_t ticket;
    uint32_t node;
    if (!read_number(words[0], &ticket) || !read_number_32(words[1], &node))
        return false;
    return say_value(vt_ask_ticket(box->ring, box->ring_length, &box->state, ticket, node));
}

static bool run_turn(box *box, const word *words) {
    (void)words;
    return say_value(vt_whose_turn(box->ring, box->ring_length, &box->state));
}

const command calls[] = {
    {"make", 1, run_make},     {"reopen", 0, run_reopen}, {"write", 4, run_write}, {"pin", 1, run_pin},
    {"unpin", 1, run_unpin},   {"fill", 6, run_fill},     {"end", 1, run_end},     {"flush", 2, run_flush},
    {"report", 2, run_report}, {"ticket", 0, run_ticket}, {"ask", 2, run_ask},     {"turn", 0, run_turn},
    {NULL, 0, NULL},
};

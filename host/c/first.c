/* The smallest host: a ring in plain memory, one write, and its way to shore. */
#include "vibetorch.h"

#include <inttypes.h>
#include <stdio.h>

static uint8_t ring[VT_RING_BYTES(18)];
static uint8_t sheet[VT_SHEET_MOST];
static vt_state state;

/* Prints the step, or why it was refused. */
static int step(const char *what, vt_answer answer) {
    if (answer.refusal != VT_OK)
        printf("%s: refused %" PRIu32 "\n", what, answer.refusal);
    else
        printf("%s: %" PRIu64 "\n", what, answer.value);
    return answer.refusal == VT_OK;
}

int main(void) {
    const uint8_t bytes[] = {'N'};
    if (!step("make", vt_make(ring, sizeof ring, &state)) ||
        !step("write", vt_write(ring, sizeof ring, &state, 7, 3, 2, bytes, sizeof bytes)) ||
        !step("turn", vt_whose_turn(ring, sizeof ring, &state)))
        return 1;
    vt_answer flush = vt_start(ring, sizeof ring, &state, 7, sheet, sizeof sheet);
    if (!step("flush", flush))
        return 1;
    printf("the sheet to send is %" PRIu64 " bytes\n", flush.length);
    return step("report", vt_report(ring, sizeof ring, &state, flush.value, true)) ? 0 : 1;
}

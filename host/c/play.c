/* A host in C that plays a bench script (docs/SCRIPT.md) from standard input: the same bytes in, the same bytes out as the
 * bench program and the second program. */
#include "box.h"

#include <stdio.h>

#define LONGEST_LINE 300000
#define MOST_WORDS 7 /* of a command; a line of more words is none */

/* The structs are the library's: without padding at the front, and each place where the library looks for it. */
_Static_assert(sizeof(size_t) == 8, "a length is 8 bytes");
_Static_assert(sizeof(vt_listed) == 16 && offsetof(vt_listed, phase) == 8, "a listed write");
_Static_assert(sizeof(vt_pin_record) == 24 && offsetof(vt_pin_record, mark) == 8 && offsetof(vt_pin_record, node) == 16,
               "a pin record");
_Static_assert(sizeof(vt_state) == 8 + 8 + 8 + 254 * 16 + 16 * 24, "the state");
_Static_assert(offsetof(vt_state, flush) == 8 && offsetof(vt_state, count) == 16 && offsetof(vt_state, writes) == 24 &&
                   offsetof(vt_state, pins) == 24 + 254 * 16,
               "the state's fields");
_Static_assert(sizeof(vt_answer) == 24 && offsetof(vt_answer, value) == 8 && offsetof(vt_answer, length) == 16,
               "an answer");
_Static_assert(offsetof(vt_changed, answer) == sizeof(vt_state), "a state and an answer");
_Static_assert(VT_SHEET_MOST == 131336 && VT_RING_BYTES(VT_SLOTS_MOST) == 65296, "sizes");

static box the_box;
static uint8_t line[LONGEST_LINE];

/* Splits the line at each space; 0 where a word is empty or there are too many. */
static size_t split(size_t length, word words[MOST_WORDS]) {
    size_t count = 0, start = 0;
    for (size_t i = 0; i <= length; i++) {
        if (i < length && line[i] != ' ')
            continue;
        if (i == start || count == MOST_WORDS)
            return 0;
        words[count].at = line + start;
        words[count++].length = i - start;
        start = i + 1;
    }
    return count;
}

static bool run_of(const command *list, const word *words, size_t count) {
    for (; list->name != NULL; list++)
        if (list->words == count - 1 && word_is(words[0], list->name))
            return list->run(&the_box, words + 1);
    return false;
}

static bool run(size_t length) {
    word words[MOST_WORDS];
    size_t count = split(length, words);
    return count > 0 &&
           (run_of(calls, words, count) || run_of(looks, words, count) || run_of(damages, words, count));
}

static bool is_skipped(size_t length) {
    if (length > 0 && line[0] == '#')
        return true;
    size_t spaces = 0;
    while (spaces < length && line[spaces] == ' ')
        spaces++;
    return spaces == length;
}

/* Reads a line and tells its length, which may be more than was kept. False: the input is at its end. */
static bool read_line(size_t *length) {
    int byte = getchar();
    if (byte == EOF)
        return false;
    for (*length = 0; byte != EOF && byte != '\n'; byte = getchar()) {
        if (*length < LONGEST_LINE)
            line[*length] = (uint8_t)byte;
        *length += 1;
    }
    return true;
}

int main(void) {
    size_t length;
    for (size_t count = 1; read_line(&length); count++) {
        if (length > LONGEST_LINE)
            printf("? %zu too long\n", count);
        else if (!is_skipped(length) && !run(length))
            printf("? %zu\n", count);
    }
    if (ferror(stdin) || fflush(stdout) != 0) {
        perror("play");
        return 1;
    }
    return 0;
}

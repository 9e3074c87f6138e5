/* What a script works on: a ring, a state and a buffer; and its three kinds of commands. */
#ifndef BOX_H
#define BOX_H

#include "vibetorch.h"
#include "words.h"

/* Before the first line the ring and the buffer are no bytes and every number of the state is 0. */
typedef struct box {
    vt_state state;
    size_t ring_length;
    size_t buffer_length;
    uint8_t ring[MOST_BYTES];
    uint8_t buffer[MOST_BYTES];
} box;

#define BLANK 0xAA /* every byte of a new ring or buffer */

/* A command: its name, the count of words behind it, and what runs it on them. That answers on standard output and gives
 * true, or gives false: with these words, this is no command, and nothing was changed. */
typedef struct command {
    const char *name;
    size_t words;
    bool (*run)(box *box, const word *words);
} command;

/* Each ends with a command without a name. */
extern const command calls[];
extern const command looks[];
extern const command damages[];

/* Writes the line `refused N`, if the call was refused. */
bool say_refused(vt_answer answer);

bool show(box *box, const word *words);

#endif

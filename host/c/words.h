/* The words of a script line. */
#ifndef WORDS_H
#define WORDS_H

#include <stdbool.h>
#include <stddef.h>
#include <stdint.h>

#define MOST_BYTES 140000 /* the most bytes that a word can stand for, and the longest buffer */

typedef struct word {
    const uint8_t *at;
    size_t length;
} word;

bool word_is(word w, const char *text);

/* These give false where the word isn't of the kind, and then what they point to means nothing. */
bool read_number(word w, uint64_t *number);
bool read_number_32(word w, uint32_t *number);
bool read_number_below(word w, uint64_t bound, size_t *number);
bool read_byte(word w, uint8_t *byte);
/* `bytes` leads to MOST_BYTES bytes. */
bool read_bytes(word w, uint8_t *bytes, size_t *length);

#endif

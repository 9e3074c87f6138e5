#include "words.h"

#include <string.h>

bool word_is(word w, const char *text) {
    return w.length == strlen(text) && memcmp(w.at, text, w.length) == 0;
}

bool read_number(word w, uint64_t *number) {
    *number = 0;
    for (size_t i = 0; i < w.length; i++) {
        if (w.at[i] < '0' || w.at[i] > '9')
            return false;
        uint64_t digit = w.at[i] - '0';
        if (*number > (UINT64_MAX - digit) / 10)
            return false;
        *number = *number * 10 + digit;
    }
    return w.length > 0;
}

bool read_number_32(word w, uint32_t *number) {
    uint64_t wide;
    if (!read_number(w, &wide) || wide > UINT32_MAX)
        return false;
    *number = (uint32_t)wide;
    return true;
}

bool read_number_below(word w, uint64_t bound, size_t *number) {
    uint64_t wide;
    if (!read_number(w, &wide) || wide >= bound)
        return false;
    *number = (size_t)wide;
    return true;
}

/* 16 or more: no hex digit. */
static unsigned digit_of(uint8_t letter) {
    if (letter >= '0' && letter <= '9')
        return letter - '0';
    if (letter >= 'A' && letter <= 'F')
        return letter - 'A' + 10;
    if (letter >= 'a' && letter <= 'f')
        return letter - 'a' + 10;
    return 16;
}

bool read_byte(word w, uint8_t *byte) {
    if (w.length != 2)
        return false;
    unsigned high = digit_of(w.at[0]), low = digit_of(w.at[1]);
    *byte = (uint8_t)(high * 16 + low);
    return high < 16 && low < 16;
}

/* BBxCOUNT */
static bool read_repeated(word w, uint8_t *bytes, size_t *length) {
    uint8_t byte;
    word value = {w.at, 2}, count = {w.at + 3, w.length - 3};
    if (!read_byte(value, &byte) || !read_number_below(count, MOST_BYTES + 1, length))
        return false;
    memset(bytes, byte, *length);
    return true;
}

bool read_bytes(word w, uint8_t *bytes, size_t *length) {
    *length = 0;
    if (word_is(w, "-"))
        return true;
    if (w.length > 2 && w.at[2] == 'x')
        return read_repeated(w, bytes, length);
    if (w.length == 0 || w.length % 2 != 0 || w.length / 2 > MOST_BYTES)
        return false;
    for (size_t i = 0; i < w.length / 2; i++) {
        word pair = {w.at + 2 * i, 2};
        if (!read_byte(pair, &bytes[i]))
            return false;
    }
    *length = w.length / 2;
    return true;
}

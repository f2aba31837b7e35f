/* Shared by the C tests: places that are filled before a call and compared after it, and what their lines are read with. */
#ifndef LENT_H
#define LENT_H

#include <stddef.h>
#include <stdint.h>

/* what a place holds before a call */
static inline uint64_t filled(size_t i) { return UINT64_C(0xa5a5000000000000) + i; }

static inline void fill(uint64_t *places, size_t n) {
    size_t i;
    for (i = 0; i < n; i++) places[i] = filled(i);
}

/* whether the places from a first one on are as they were filled */
static inline int kept(const uint64_t *places, size_t first, size_t n) {
    size_t i;
    for (i = first; i < n; i++)
        if (places[i] != filled(i)) return 0;
    return 1;
}

/* a digit's number, or -1 */
static inline int hex(int c) { return c >= '0' && c <= '9' ? c - '0' : c >= 'a' && c <= 'f' ? c - 'a' + 10 : -1; }

/* reads the digits of at most `most` bytes at *s, or - for none, and moves *s behind them; 0, if they are no bytes */
static inline int read_bytes(const char **s, uint8_t *bytes, size_t most, size_t *length) {
    *length = 0;
    if (**s == '-') return ++*s, 1;
    for (; hex(**s) >= 0; *s += 2) {
        if (hex((*s)[1]) < 0 || *length == most) return 0;
        bytes[(*length)++] = (uint8_t)(hex((*s)[0]) * 16 + hex((*s)[1]));
    }
    return *length > 0;
}

/* writes the digits of bytes, or - for none, and the end of the text; gives where that stands */
static inline char *write_bytes(char *to, const uint8_t *bytes, size_t length) {
    size_t i;
    if (length == 0) *to++ = '-';
    for (i = 0; i < length; i++) {
        *to++ = "0123456789abcdef"[bytes[i] / 16];
        *to++ = "0123456789abcdef"[bytes[i] % 16];
    }
    *to = '\0';
    return to;
}

/* reads a mark and a decimal number behind it at *s and moves *s behind them; 0, if they are not there or it needs more than 64 bits */
static inline int read_number(const char **s, char mark, uint64_t *n) {
    if (**s != mark || (*s)[1] < '0' || (*s)[1] > '9') return 0;
    for (++*s, *n = 0; **s >= '0' && **s <= '9'; ++*s) {
        uint64_t digit = (uint64_t)(**s - '0');
        if (*n > (UINT64_MAX - digit) / 10) return 0;
        *n = *n * 10 + digit;
    }
    return 1;
}

#endif

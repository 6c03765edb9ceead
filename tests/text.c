/* Checks text through include/trace.h against a plain second reading of RFC 3629, one character after the other. Strings
 * of border bytes stand at every offset of longer text, so that they meet every place of a block and both ends; then
 * text that is drawn and damaged. Prints `ok`, or the first bytes on which the two differ. */
#include "trace.h"

#include <stdio.h>
#include <string.h>

#define COUNT(array) (sizeof(array) / sizeof(array)[0])
#define LONGEST 70

struct range {
    uint8_t low;
    uint8_t high;
};

#define TAIL {0x80, 0xbf}

/* RFC 3629, section 4: how many bytes a character of the line has, and the range of each. */
static const struct {
    size_t bytes;
    struct range range[4];
} lines[] = {
    {1, {{0x00, 0x7f}}},
    {2, {{0xc2, 0xdf}, TAIL}},
    {3, {{0xe0, 0xe0}, {0xa0, 0xbf}, TAIL}},
    {3, {{0xe1, 0xec}, TAIL, TAIL}},
    {3, {{0xed, 0xed}, {0x80, 0x9f}, TAIL}},
    {3, {{0xee, 0xef}, TAIL, TAIL}},
    {4, {{0xf0, 0xf0}, {0x90, 0xbf}, TAIL, TAIL}},
    {4, {{0xf1, 0xf3}, TAIL, TAIL, TAIL}},
    {4, {{0xf4, 0xf4}, {0x80, 0x8f}, TAIL, TAIL}},
};

/* Both ends of each range, and their neighbours. */
static const uint8_t borders[] = {0x00, 0x7f, 0x80, 0x8f, 0x90, 0x9f, 0xa0, 0xbf, 0xc0, 0xc1, 0xc2, 0xdf,
                                  0xe0, 0xe1, 0xec, 0xed, 0xee, 0xef, 0xf0, 0xf1, 0xf3, 0xf4, 0xf5, 0xff};

/* Characters that the longer text is made of. */
static const char *const around[] = {"a", "\xc3\xa9", "\xe2\x82\xac", "\xf0\x9f\x8f\x8d"};

/* The number of bytes of the character at the beginning, or 0. */
static size_t character(const uint8_t *bytes, size_t length)
{
    for (size_t line = 0; line < COUNT(lines); line++) {
        size_t i = 0;
        while (i < lines[line].bytes && i < length && lines[line].range[i].low <= bytes[i] &&
               bytes[i] <= lines[line].range[i].high)
            i++;
        if (i == lines[line].bytes)
            return i;
    }
    return 0;
}

static uint64_t is_text(const uint8_t *bytes, size_t length)
{
    while (length > 0) {
        size_t n = character(bytes, length);
        if (n == 0)
            return 0;
        bytes += n;
        length -= n;
    }
    return 1;
}

static int differs(const uint8_t *bytes, size_t length)
{
    if (aglimtaq_is_utf8(bytes, length) == is_text(bytes, length))
        return 0;
    printf("aglimtaq_is_utf8 gives %u for", (unsigned)aglimtaq_is_utf8(bytes, length));
    for (size_t i = 0; i < length; i++)
        printf(" %02x", (unsigned)bytes[i]);
    printf("\n");
    return 1;
}

/* The string of border bytes with this number, of so many bytes. */
static void border_string(unsigned long number, size_t bytes, uint8_t *out)
{
    for (size_t i = 0; i < bytes; i++) {
        out[i] = borders[number % COUNT(borders)];
        number /= COUNT(borders);
    }
}

/* A string in text that is made of one character again and again, at each offset. */
static int differs_within(const char *one, const uint8_t *string, size_t bytes, size_t length)
{
    uint8_t text[LONGEST];
    size_t size = strlen(one);
    for (size_t at = 0; at + bytes <= length; at++) {
        for (size_t i = 0; i < length; i++)
            text[i] = i < length - length % size ? (uint8_t)one[i % size] : 'a';
        memcpy(text + at, string, bytes);
        if (differs(text, length))
            return 1;
    }
    return 0;
}

/* All strings of one and two border bytes, in text of several lengths. */
static int short_differ(void)
{
    static const size_t lengths[] = {4, 17, 18, 19, 20, 21, 32, 34, 35, 36, 51, 52};
    unsigned long strings = 1;
    for (size_t bytes = 1; bytes <= 2; bytes++) {
        strings *= COUNT(borders);
        for (unsigned long number = 0; number < strings; number++) {
            uint8_t string[2];
            border_string(number, bytes, string);
            for (size_t n = 0; n < COUNT(lengths) * COUNT(around); n++)
                if (differs_within(around[n % COUNT(around)], string, bytes, lengths[n / COUNT(around)]))
                    return 1;
        }
    }
    return 0;
}

/* All strings of four border bytes: alone, and once within ASCII, at an offset that changes, cut anywhere after it. */
static int long_differ(void)
{
    unsigned long strings = COUNT(borders) * COUNT(borders) * COUNT(borders) * COUNT(borders);
    for (unsigned long number = 0; number < strings; number++) {
        uint8_t text[LONGEST];
        size_t at = number % (LONGEST - 4);
        memset(text, 'a', LONGEST);
        border_string(number, 4, text + at);
        if (differs(text + at, 4) || differs(text, LONGEST - number % (LONGEST - at - 3)))
            return 1;
    }
    return 0;
}

/* Numbers that look random and are the same in every run. */
static uint64_t drawn(void)
{
    static uint64_t state = 88172645463325252u;
    state ^= state << 13;
    state ^= state >> 7;
    state ^= state << 17;
    return state >> 16;
}

/* Text of any length, half the time with one byte altered; cut anywhere. */
static int drawn_differ(void)
{
    for (size_t i = 0; i < 1000000; i++) {
        uint8_t text[LONGEST + 4];
        size_t length = 0, most = drawn() % LONGEST;
        while (length < most) {
            const char *one = around[drawn() % COUNT(around)];
            memcpy(text + length, one, strlen(one));
            length += strlen(one);
        }
        if (length > 0 && drawn() % 2)
            text[drawn() % length] = borders[drawn() % COUNT(borders)];
        if (differs(text, length) || differs(text, length - drawn() % (length + 1)))
            return 1;
    }
    return 0;
}

int main(void)
{
    if (differs(borders, 0) || short_differ() || long_differ() || drawn_differ())
        return 1;
    printf("ok\n");
    return 0;
}

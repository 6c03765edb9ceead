/* What test programs in C share: positions and readings compared, numbers that look random, and the frames of a trace
 * found by docs/FORMAT.md. A program that includes this has `expect`, which says what differs. */
#ifndef AGLIMTAQ_TESTS_PLAIN_H
#define AGLIMTAQ_TESTS_PLAIN_H

#include "trace.h"

#include <string.h>

static void expect(const char *what, uint64_t is, uint64_t should);

static void same_position(const char *what, const struct aglimtaq_position *is, const struct aglimtaq_position *should)
{
    if (memcmp(is, should, sizeof *is) == 0)
        return;
    expect(what, is->at, should->at);
    expect(what, is->form, should->form);
    expect(what, is->pending, should->pending);
    expect(what, is->start, should->start);
    expect(what, is->stated, should->stated);
    expect(what, is->filled, should->filled);
}

static void same_reading(const char *what, const struct aglimtaq_reading *is, const struct aglimtaq_reading *should)
{
    if (memcmp(is, should, sizeof *is) == 0)
        return;
    expect(what, is->answer, should->answer);
    expect(what, is->number, should->number);
    expect(what, is->start, should->start);
    expect(what, is->end, should->end);
    expect(what, is->type, should->type);
    for (size_t i = 0; i < 3; i++)
        expect(what, is->numbers[i], should->numbers[i]);
    expect(what, is->bytes_start, should->bytes_start);
    expect(what, is->bytes_end, should->bytes_end);
}

/* Numbers that look random and are the same in every run: xorshift by Marsaglia, 64 bits. */
static uint64_t random_number(void)
{
    static uint64_t x = 0x123456789abcdef;
    x ^= x << 13;
    x ^= x >> 7;
    x ^= x << 17;
    return x;
}

static size_t below(size_t bound)
{
    return (size_t)((random_number() >> 16) % bound);
}

/* A reading without a type, numbers and bytes. */
static struct aglimtaq_reading answer_of(uint64_t answer, uint64_t number, uint64_t start, uint64_t end)
{
    const struct aglimtaq_reading r = {answer, number, start, end, 0, {0, 0, 0}, 0, 0};
    return r;
}

/* How many bytes the record wants that these begin with. */
static uint64_t wanted(const uint8_t *bytes, uint64_t there)
{
    static const uint8_t widths[4] = {0, 1, 2, 4};
    uint64_t length = 0;
    uint8_t width;
    if (there == 0)
        return 1;
    width = widths[bytes[0] % 4];
    if (there < 1u + width)
        return 1u + width;
    for (size_t i = width; i > 0; i--)
        length = length << 8 | bytes[i];
    return 1 + width + length;
}

/* Where the trailer before an offset leads; the largest number, where that is before the first byte. */
static uint64_t led_to(const uint8_t *bytes, uint64_t at)
{
    uint64_t before = 0;
    if (bytes[at - 1] == 0 && at < 5)
        return UINT64_MAX;
    for (size_t i = 2; i <= 5 && bytes[at - 1] == 0; i++)
        before = before << 8 | bytes[at - i];
    before += bytes[at - 1] == 0 ? 5u : 1u + bytes[at - 1];
    return before > at ? UINT64_MAX : at - before;
}

/* What is framed at an offset of the first n bytes, by docs/FORMAT.md: SHOWN, start and end; or the answer without. */
static struct aglimtaq_reading framed_next(const uint8_t *bytes, uint64_t length, uint64_t at)
{
    uint64_t size;
    if (at > length)
        return answer_of(AGLIMTAQ_REFUSED, AGLIMTAQ_BEYOND_END, 0, 0);
    if (at == length)
        return answer_of(AGLIMTAQ_FINISHED, 0, 0, 0);
    size = wanted(bytes + at, length - at);
    if (size > length - at)
        return answer_of(AGLIMTAQ_UNFINISHED, size, 0, 0);
    return answer_of(AGLIMTAQ_SHOWN, 0, at, at + size);
}

static struct aglimtaq_reading framed_previous(const uint8_t *bytes, uint64_t length, uint64_t at)
{
    uint64_t start;
    if (at > length)
        return answer_of(AGLIMTAQ_REFUSED, AGLIMTAQ_BEYOND_END, 0, 0);
    if (at == 0)
        return answer_of(AGLIMTAQ_FINISHED, 0, 0, 0);
    start = led_to(bytes, at);
    if (start == UINT64_MAX)
        return answer_of(AGLIMTAQ_REFUSED, AGLIMTAQ_NO_START, 0, 0);
    if (wanted(bytes + start, at - start) != at - start)
        return answer_of(AGLIMTAQ_REFUSED, AGLIMTAQ_ENDS_DIFFER, 0, 0);
    return answer_of(AGLIMTAQ_SHOWN, 0, start, at);
}

#endif

/* Writes records through include/trace.h, refused ones among them, and reads them forwards and backwards. Each
 * number is compared with what is expected here. Prints `ok`, or what differs. */
#include "trace.h"

#include <stdio.h>
#include <string.h>

#define ROOM 110
#define AFTER 16 /* bytes after the lent ones, which stay as they are */
#define COUNT(array) (sizeof(array) / sizeof(array)[0])

/* A write call: the record, its bytes, what is to be answered, and how many bytes the record has. */
struct call {
    struct aglimtaq_record record;
    const void *bytes;
    size_t length;
    uint64_t answer;
    uint64_t size;
};

static uint8_t zeros[65523];

static const struct call calls[] = {
    {{AGLIMTAQ_MAGIC, {0, 0, 0}}, "", 0, 0, 8},
    {{AGLIMTAQ_INSTRUCTION, {0x1000, 0, 0}}, "\x90\xc3", 2, 0, 13},
    {{AGLIMTAQ_CALL_BEGIN, {0x1000, 0, 0}}, "a\0b", 3, AGLIMTAQ_BAD_NAME, 0},
    {{AGLIMTAQ_CALL_BEGIN, {0x1000, 0, 0}}, "\xed\xa0\x80", 3, AGLIMTAQ_BAD_NAME, 0},
    {{AGLIMTAQ_CALL_BEGIN, {0x1000, 0, 0}}, "123456789012345678901234567890123", 33, AGLIMTAQ_BAD_NAME, 0},
    {{AGLIMTAQ_CALL_BEGIN, {0x1000, 0, 0}}, "\xe2\x82\xac", 3, 0, 44},
    {{AGLIMTAQ_NO_TYPE, {0, 0, 0}}, "", 0, AGLIMTAQ_NOT_A_RECORD, 0},
    {{AGLIMTAQ_ARCH, {0, 0, 0}}, "", 0, AGLIMTAQ_NOT_A_RECORD, 0},
    {{28, {0, 0, 0}}, "", 0, AGLIMTAQ_NOT_A_RECORD, 0},
    {{AGLIMTAQ_REG_WRITE_NATIVE, {65536, 0, 0}}, "", 0, AGLIMTAQ_NOT_A_RECORD, 0},
    {{AGLIMTAQ_REG_WRITE_NATIVE, {65535, 0, 0}}, "\x2a\0", 2, 0, 7},
    {{AGLIMTAQ_UNKNOWN_META, {11, 0, 0}}, "", 0, AGLIMTAQ_TAKEN_TAG, 0},
    {{AGLIMTAQ_UNKNOWN_FILE_META, {0, 0, 0}}, "", 0, AGLIMTAQ_TAKEN_TAG, 0},
    {{AGLIMTAQ_REGISTER_NAME_MAP, {2, 0, 0}}, "\0\0\2r0", 5, AGLIMTAQ_SHORT_LIST, 0},
    {{AGLIMTAQ_MAP, {0x2000, 0, 0}}, "", 0, 0, 18},
    {{AGLIMTAQ_MEM_WRITE, {0x2000, 0, 0}}, zeros, sizeof zeros, AGLIMTAQ_NO_ROOM, 0},
    {{AGLIMTAQ_INTERRUPT, {3, 258, 0}}, "", 0, 0, 15},
    {{AGLIMTAQ_OPERAND_UNCERTAIN, {0, 0, 0}}, "", 0, 0, 4},
    {{AGLIMTAQ_CALL_MODELED_OPS_END, {0, 0, 0}}, "", 0, AGLIMTAQ_NO_ROOM, 0},
};

static uint8_t out[ROOM + AFTER];
static int wrong;

static void expect(const char *what, size_t which, uint64_t is, uint64_t due)
{
    if (is != due) {
        printf("%s, call %u: %llu, not %llu\n", what, (unsigned)which, (unsigned long long)is,
               (unsigned long long)due);
        wrong = 1;
    }
}

/* One call at an offset. It alters no byte outside the record that it writes. */
static uint64_t write_one(size_t which, uint64_t at)
{
    const struct call *call = &calls[which];
    uint8_t before[sizeof out];
    struct aglimtaq_position position = AGLIMTAQ_AT(at, AGLIMTAQ_LE64);
    memcpy(before, out, sizeof out);
    uint64_t answer = aglimtaq_write(out, ROOM, &position, &call->record, call->bytes, call->length);
    expect("the answer of writing", which, answer, call->answer);
    expect("the position after", which, position.at, at + call->size);
    expect("the form after", which, position.form, AGLIMTAQ_LE64);
    expect("bytes altered before", which, memcmp(before, out, at) != 0, 0);
    expect("bytes altered after", which,
           memcmp(before + at + call->size, out + at + call->size, sizeof out - at - call->size) != 0, 0);
    return at + call->size;
}

/* The record of a call, as it was read. Numbers that its type does not have are 0 in the call too. */
static void same_record(const char *way, size_t which, uint64_t at, const struct aglimtaq_reading *r)
{
    const struct call *call = &calls[which];
    expect(way, which, r->answer, AGLIMTAQ_SHOWN);
    expect(way, which, r->number, 0);
    expect(way, which, r->start, at);
    expect(way, which, r->end, at + call->size);
    expect(way, which, r->type, call->record.type);
    for (size_t i = 0; i < 3; i++)
        expect(way, which, r->numbers[i], call->record.numbers[i]);
    expect(way, which, r->bytes_end - r->bytes_start, call->length);
    if (r->bytes_end <= sizeof out && r->bytes_end - r->bytes_start == call->length)
        expect(way, which, memcmp(out + r->bytes_start, call->bytes, call->length) != 0, 0);
}

static void read_forwards(uint64_t end)
{
    struct aglimtaq_position position = AGLIMTAQ_AT(0, AGLIMTAQ_LE64);
    struct aglimtaq_reading r;
    uint64_t at = 0;
    for (size_t i = 0; i < COUNT(calls); i++) {
        if (calls[i].answer != 0)
            continue;
        aglimtaq_read_next(out, end, &position, &r);
        same_record("read forwards", i, at, &r);
        at += calls[i].size;
        expect("the position forwards", i, position.at, at);
    }
    aglimtaq_read_next(out, end, &position, &r);
    expect("the end forwards", COUNT(calls), r.answer, AGLIMTAQ_FINISHED);
    expect("the end forwards", COUNT(calls), position.at, end);
    expect("the form forwards", COUNT(calls), position.form, AGLIMTAQ_LE64);
}

static void read_backwards(uint64_t end)
{
    struct aglimtaq_position position = AGLIMTAQ_AT(end, AGLIMTAQ_LE64);
    struct aglimtaq_reading r;
    uint64_t at = end;
    for (size_t i = COUNT(calls); i-- > 0;) {
        if (calls[i].answer != 0)
            continue;
        at -= calls[i].size;
        aglimtaq_read_previous(out, end, &position, &r);
        same_record("read backwards", i, at, &r);
        expect("the position backwards", i, position.at, at);
    }
    aglimtaq_read_previous(out, end, &position, &r);
    expect("the end backwards", 0, r.answer, AGLIMTAQ_FINISHED);
    expect("the end backwards", 0, position.at, 0);
    expect("the form backwards", 0, position.form, AGLIMTAQ_LE64);
}

/* The last record has four bytes. First one of them is cut off; then the position is beyond the end. */
static void read_refused(uint64_t end)
{
    struct aglimtaq_position cut = AGLIMTAQ_AT(end - 4, AGLIMTAQ_LE64), beyond = AGLIMTAQ_AT(end + 1, AGLIMTAQ_LE64);
    struct aglimtaq_reading r;
    aglimtaq_read_next(out, end - 1, &cut, &r);
    expect("a cut record", COUNT(calls), r.answer, AGLIMTAQ_UNFINISHED);
    expect("a cut record's number", COUNT(calls), r.number, 4);
    expect("a cut record's position", COUNT(calls), cut.at, end - 4);
    aglimtaq_read_next(out, end, &beyond, &r);
    expect("beyond the end", COUNT(calls), r.answer, AGLIMTAQ_REFUSED);
    expect("beyond the end", COUNT(calls), r.number, AGLIMTAQ_BEYOND_END);
    expect("the position beyond the end", COUNT(calls), beyond.at, end + 1);
    aglimtaq_read_previous(out, end, &beyond, &r);
    expect("beyond the end, backwards", COUNT(calls), r.answer, AGLIMTAQ_REFUSED);
    expect("beyond the end, backwards", COUNT(calls), r.number, AGLIMTAQ_BEYOND_END);
    expect("the position beyond the end, backwards", COUNT(calls), beyond.at, end + 1);
}

/* A call beyond the lent bytes, and one whose name is bad as well: 8 comes first. */
static void write_beyond(void)
{
    struct aglimtaq_position beyond = AGLIMTAQ_AT(ROOM + 1, AGLIMTAQ_LE64);
    uint64_t answer = aglimtaq_write(out, ROOM, &beyond, &calls[0].record, calls[0].bytes, calls[0].length);
    expect("written beyond the end", 0, answer, AGLIMTAQ_BEYOND_END);
    expect("the position, beyond the end", 0, beyond.at, ROOM + 1);
    answer = aglimtaq_write(out, ROOM, &beyond, &calls[2].record, calls[2].bytes, calls[2].length);
    expect("written beyond the end", 2, answer, AGLIMTAQ_BEYOND_END);
}

int main(void)
{
    uint64_t end = 0;
    memset(out, 0xee, sizeof out);
    for (size_t i = 0; i < COUNT(calls); i++)
        end = write_one(i, end);
    expect("the end of all", COUNT(calls), end, 109);
    write_beyond();
    read_forwards(end);
    read_backwards(end);
    read_refused(end);
    if (!wrong)
        printf("ok\n");
    return wrong;
}

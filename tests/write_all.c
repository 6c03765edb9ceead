/* Writes lists of records by aglimtaq_write_all of include/trace.h, refused ones among them, and goes on after each
 * refusal. What is expected stands here, made by hand from the format. Prints `ok`, or what differs. */
#include "trace.h"

#include <stdio.h>
#include <string.h>

#define COUNT 6
#define BEFORE 3 /* lent bytes before the first record */
#define ROOM (BEFORE + 64)
#define AFTER 16 /* bytes after the lent ones */
#define LONG 65523

/* The calls that are accepted. The Interrupt takes two bytes, which its type ignores. */
static const struct aglimtaq_call good[COUNT] = {
    {AGLIMTAQ_MAGIC, {0, 0, 0}, 0},
    {AGLIMTAQ_INSTRUCTION, {0x1000, 0, 0}, 2},
    {AGLIMTAQ_INTERRUPT, {3, 258, 0}, 2},
    {AGLIMTAQ_MAP, {0x2000, 0, 0}, 0},
    {AGLIMTAQ_REG_WRITE_NATIVE, {7, 0, 0}, 1},
    {AGLIMTAQ_OPERAND_UNCERTAIN, {0, 0, 0}, 0},
};
static const uint8_t slices[5] = {0x90, 0xc3, 'z', 'z', 0x2a};

/* Their records. */
static const uint8_t records[64] = {
    0xf1, 0x06, 0x65, 0x78, 0x00, 0x3c, 0x7f, 0x07,
    0x21, 0x0b, 0x00, 0x10, 0, 0, 0, 0, 0, 0, 0x90, 0xc3, 0x0c,
    0x39, 0x0d, 0x03, 0, 0, 0, 0x02, 0x01, 0, 0, 0, 0, 0, 0, 0x0e,
    0x13, 0x0d, 0, 0, 0, 0x00, 0x20, 0, 0, 0, 0, 0, 0, 0x0d, 0, 0, 0, 0,
    0x55, 0x04, 0x07, 0x00, 0x2a, 0x05,
    0x31, 0x02, 0x06, 0x03,
};

/* How many bytes the first n records have, and how many bytes their calls take. */
static const uint64_t ends[COUNT + 1] = {0, 8, 21, 36, 54, 60, 64};
static const uint64_t taken[COUNT + 1] = {0, 0, 2, 4, 4, 5, 5};

/* A call that is refused, how many of its bytes are there, and the refusal. */
struct bad {
    struct aglimtaq_call call;
    const void *bytes;
    size_t there;
    uint64_t answer;
};

static uint8_t zeros[LONG];

static const struct bad refused[] = {
    {{AGLIMTAQ_CALL_BEGIN, {0x1000, 0, 0}, 3}, "a\0b", 3, AGLIMTAQ_BAD_NAME},
    {{AGLIMTAQ_CALL_BEGIN, {0x1000, 0, 0}, 3}, "\xed\xa0\x80", 3, AGLIMTAQ_BAD_NAME},
    {{AGLIMTAQ_UNKNOWN_META, {11, 0, 0}, 0}, "", 0, AGLIMTAQ_TAKEN_TAG},
    {{AGLIMTAQ_REGISTER_NAME_MAP, {2, 0, 0}, 5}, "\0\0\2r0", 5, AGLIMTAQ_SHORT_LIST},
    {{AGLIMTAQ_MEM_WRITE, {0x2000, 0, 0}, LONG}, zeros, LONG, AGLIMTAQ_NO_ROOM},
    {{AGLIMTAQ_NO_TYPE, {0, 0, 0}, 0}, "", 0, AGLIMTAQ_NOT_A_RECORD},
    {{AGLIMTAQ_ARCH, {0, 0, 0}, 4}, "arch", 4, AGLIMTAQ_NOT_A_RECORD},
    {{28, {0, 0, 0}, 0}, "", 0, AGLIMTAQ_NOT_A_RECORD},
    {{AGLIMTAQ_REG_WRITE_NATIVE, {65536, 0, 0}, 1}, "r", 1, AGLIMTAQ_NOT_A_RECORD},
    {{AGLIMTAQ_INSTRUCTION, {0x1000, 0, 0}, 2}, "i", 1, AGLIMTAQ_NOT_A_RECORD},
    {{AGLIMTAQ_INSTRUCTION, {0x1000, 0, 0}, UINT64_MAX}, "i", 1, AGLIMTAQ_NOT_A_RECORD},
    {{AGLIMTAQ_PC, {0x1000, 0, 0}, 1}, "", 0, AGLIMTAQ_NOT_A_RECORD},
    {{AGLIMTAQ_CALL_BEGIN, {0x1000, 0, 0}, 4}, "a\0b", 3, AGLIMTAQ_NOT_A_RECORD},
};

/* What is handed over: calls, and their bytes. */
struct list {
    const struct aglimtaq_call *calls;
    size_t count;
    const uint8_t *bytes;
    size_t length;
};

static const struct list all_good = {good, COUNT, slices, sizeof slices};

static uint8_t out[ROOM + AFTER];
static struct aglimtaq_position position; /* as the last list left it */
static struct aglimtaq_all all;
static int wrong;

static void expect(const char *what, const char *of, size_t which, uint64_t is, uint64_t due)
{
    if (is != due) {
        printf("%s, %u, %s: %llu, not %llu\n", what, (unsigned)which, of, (unsigned long long)is,
               (unsigned long long)due);
        wrong = 1;
    }
}

static void fresh(void)
{
    memset(out, 0xee, sizeof out);
}

static void write_list(const char *what, size_t which, struct list list, size_t room, uint64_t at, uint64_t due)
{
    uint64_t answer;
    position.at = at;
    position.form = AGLIMTAQ_LE64;
    all.records = all.bytes = 12345;
    answer = aglimtaq_write_all(out, room, &position, list.calls, list.count, list.bytes, list.length, &all);
    expect(what, "the answer", which, answer, due);
    expect(what, "the form", which, position.form, AGLIMTAQ_LE64);
}

/* What must be left: the first n good records, of which the last list wrote all but `before`. */
static void left(const char *what, size_t which, size_t before, size_t n)
{
    uint8_t due[sizeof out];
    memset(due, 0xee, sizeof due);
    memcpy(due + BEFORE, records, ends[n]);
    expect(what, "bytes that differ", which, memcmp(due, out, sizeof out) != 0, 0);
    expect(what, "the position", which, position.at, BEFORE + ends[n]);
    expect(what, "the records", which, all.records, n - before);
    expect(what, "the bytes taken", which, all.bytes, taken[n] - taken[before]);
}

/* After n good records: the rest, by what the list before left. */
static void go_on(const char *what, size_t which, size_t n)
{
    struct list rest;
    if (all.records > COUNT || all.bytes > sizeof slices || position.at > ROOM)
        return;
    rest.calls = good + all.records;
    rest.count = COUNT - all.records;
    rest.bytes = slices + all.bytes;
    rest.length = sizeof slices - all.bytes;
    write_list(what, which, rest, ROOM, position.at, 0);
    left(what, which, n, COUNT);
}

/* The good calls by one call, and each by a call of its own: the same bytes and position. */
static void write_good(void)
{
    uint8_t by_all[sizeof out];
    struct aglimtaq_position one = AGLIMTAQ_AT(BEFORE, AGLIMTAQ_LE64);
    fresh();
    write_list("all", 0, all_good, ROOM, BEFORE, 0);
    left("all", 0, 0, COUNT);
    memcpy(by_all, out, sizeof out);
    fresh();
    for (size_t i = 0; i < COUNT; i++) {
        struct aglimtaq_record record = {good[i].type, {0, 0, 0}};
        memcpy(record.numbers, good[i].numbers, sizeof record.numbers);
        expect("one by one", "the answer", i,
               aglimtaq_write(out, ROOM, &one, &record, slices + taken[i], good[i].length), 0);
    }
    expect("one by one", "the position", COUNT, one.at, position.at);
    expect("one by one", "bytes that differ", COUNT, memcmp(by_all, out, sizeof out) != 0, 0);
}

/* The call `which` of those that are refused, after n good ones and before the others. */
static void write_refused(size_t which, size_t n)
{
    static uint8_t bytes[sizeof slices + LONG];
    struct aglimtaq_call calls[COUNT + 1];
    const struct bad *bad = &refused[which];
    struct list list = {calls, COUNT + 1, bytes, taken[n] + bad->there};
    memcpy(calls, good, n * sizeof *good);
    calls[n] = bad->call;
    memcpy(calls + n + 1, good + n, (COUNT - n) * sizeof *good);
    memcpy(bytes, slices, taken[n]);
    memcpy(bytes + taken[n], bad->bytes, bad->there);
    if (bad->there == bad->call.length) {
        memcpy(bytes + list.length, slices + taken[n], sizeof slices - taken[n]);
        list.length += sizeof slices - taken[n];
    }
    fresh();
    write_list("refused", which, list, ROOM, BEFORE, bad->answer);
    left("refused", which, 0, n);
    go_on("after the refused", which, n);
}

/* Every room that is too small: the position is beyond its end, or a record does not fit. */
static void write_in_less(size_t room)
{
    size_t n = 0;
    while (BEFORE + ends[n + 1] <= room)
        n++;
    fresh();
    write_list("less room", room, all_good, room, BEFORE, room < BEFORE ? AGLIMTAQ_BEYOND_END : AGLIMTAQ_NO_ROOM);
    left("less room", room, 0, n);
    go_on("after less room", room, n);
}

/* Fewer bytes than the calls take. */
static void write_of_less(size_t length)
{
    struct list list = {good, COUNT, slices, length};
    size_t n = 0;
    while (taken[n + 1] <= length)
        n++;
    fresh();
    write_list("fewer bytes", length, list, ROOM, BEFORE, AGLIMTAQ_NOT_A_RECORD);
    left("fewer bytes", length, 0, n);
    go_on("after fewer bytes", length, n);
}

/* No calls: nothing is refused, wherever the position is. */
static void write_none(void)
{
    static const size_t positions[] = {0, BEFORE, ROOM, ROOM + 1};
    const struct list none = {good, 0, slices, sizeof slices};
    for (size_t i = 0; i < sizeof positions / sizeof *positions; i++) {
        fresh();
        write_list("none", i, none, ROOM, positions[i], 0);
        expect("none", "the position", i, position.at, positions[i]);
        position.at = BEFORE;
        left("none", i, 0, 0);
    }
}

/* Beyond the end. A call that is not a record comes before that. */
static void write_beyond(void)
{
    static const size_t positions[] = {ROOM + 1, SIZE_MAX};
    static const struct aglimtaq_call arch = {AGLIMTAQ_ARCH, {0, 0, 0}, 0};
    const struct list none_good = {&arch, 1, slices, sizeof slices};
    for (size_t i = 0; i < 2; i++) {
        fresh();
        write_list("beyond", i, all_good, ROOM, positions[i], AGLIMTAQ_BEYOND_END);
        expect("beyond", "the position", i, position.at, positions[i]);
        position.at = BEFORE;
        left("beyond", i, 0, 0);
        write_list("no record beyond", i, none_good, ROOM, positions[i], AGLIMTAQ_NOT_A_RECORD);
        expect("no record beyond", "the position", i, position.at, positions[i]);
    }
}

int main(void)
{
    write_good();
    for (size_t which = 0; which < sizeof refused / sizeof *refused; which++)
        for (size_t n = 0; n <= COUNT; n++)
            write_refused(which, n);
    for (size_t room = 0; room < ROOM; room++)
        write_in_less(room);
    for (size_t length = 0; length < sizeof slices; length++)
        write_of_less(length);
    write_none();
    write_beyond();
    if (!wrong)
        printf("ok\n");
    return wrong;
}

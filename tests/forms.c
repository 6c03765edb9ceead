/* Writes and reads records through include/trace.h in each of the four address forms. The bytes that are expected
 * stand here, made by hand from documents 01 and 02. Prints `ok`, or what differs. */
#include "trace.h"

#include <stdio.h>
#include <string.h>

#define FORMS 4
#define LARGEST 4294967295u
#define WIDE 4294967296u
#define ROOM 256
#define AFTER 16 /* bytes after the lent ones, which stay as they are */
#define COUNT(array) (sizeof(array) / sizeof(array)[0])

/* A record, the bytes that it is written with, and its bytes in each form. */
struct example {
    struct aglimtaq_record record;
    const void *bytes;
    size_t length;
    struct {
        size_t size;
        uint8_t bytes[20];
    } due[FORMS];
};

static const struct example examples[] = {
    {{AGLIMTAQ_PC, {0x12345678, 0, 0}}, "", 0,
     {{11, {0x25, 0x09, 0x78, 0x56, 0x34, 0x12, 0, 0, 0, 0, 0x0a}},
      {11, {0x25, 0x09, 0, 0, 0, 0, 0x12, 0x34, 0x56, 0x78, 0x0a}},
      {7, {0x25, 0x05, 0x78, 0x56, 0x34, 0x12, 0x06}},
      {7, {0x25, 0x05, 0x12, 0x34, 0x56, 0x78, 0x06}}}},
    {{AGLIMTAQ_INSTRUCTION, {0x12345678, 0, 0}}, "\x90\xc3", 2,
     {{13, {0x21, 0x0b, 0x78, 0x56, 0x34, 0x12, 0, 0, 0, 0, 0x90, 0xc3, 0x0c}},
      {13, {0x21, 0x0b, 0, 0, 0, 0, 0x12, 0x34, 0x56, 0x78, 0x90, 0xc3, 0x0c}},
      {9, {0x21, 0x07, 0x78, 0x56, 0x34, 0x12, 0x90, 0xc3, 0x08}},
      {9, {0x21, 0x07, 0x12, 0x34, 0x56, 0x78, 0x90, 0xc3, 0x08}}}},
    {{AGLIMTAQ_MEM_READ, {0x12345678, 0, 0}}, "\x2a", 1,
     {{12, {0x81, 0x0a, 0x78, 0x56, 0x34, 0x12, 0, 0, 0, 0, 0x2a, 0x0b}},
      {12, {0x81, 0x0a, 0, 0, 0, 0, 0x12, 0x34, 0x56, 0x78, 0x2a, 0x0b}},
      {8, {0x81, 0x06, 0x78, 0x56, 0x34, 0x12, 0x2a, 0x07}},
      {8, {0x81, 0x06, 0x12, 0x34, 0x56, 0x78, 0x2a, 0x07}}}},
    {{AGLIMTAQ_MEM_WRITE, {0x12345678, 0, 0}}, "\1\2\3", 3,
     {{14, {0x85, 0x0c, 0x78, 0x56, 0x34, 0x12, 0, 0, 0, 0, 1, 2, 3, 0x0d}},
      {14, {0x85, 0x0c, 0, 0, 0, 0, 0x12, 0x34, 0x56, 0x78, 1, 2, 3, 0x0d}},
      {10, {0x85, 0x08, 0x78, 0x56, 0x34, 0x12, 1, 2, 3, 0x09}},
      {10, {0x85, 0x08, 0x12, 0x34, 0x56, 0x78, 1, 2, 3, 0x09}}}},
    {{AGLIMTAQ_MAP, {0x12345678, 0, 0}}, "\xaa\xbb", 2,
     {{20, {0x13, 0x0f, 0, 0, 0, 0x78, 0x56, 0x34, 0x12, 0, 0, 0, 0, 0xaa, 0xbb, 0x0f, 0, 0, 0, 0}},
      {20, {0x13, 0x0f, 0, 0, 0, 0, 0, 0, 0, 0x12, 0x34, 0x56, 0x78, 0xaa, 0xbb, 0x0f, 0, 0, 0, 0}},
      {16, {0x13, 0x0b, 0, 0, 0, 0x78, 0x56, 0x34, 0x12, 0xaa, 0xbb, 0x0b, 0, 0, 0, 0}},
      {16, {0x13, 0x0b, 0, 0, 0, 0x12, 0x34, 0x56, 0x78, 0xaa, 0xbb, 0x0b, 0, 0, 0, 0}}}},
    {{AGLIMTAQ_UNMAP, {0x12345678, 0x9abc, 0}}, "", 0,
     {{19, {0x1d, 0x11, 0x78, 0x56, 0x34, 0x12, 0, 0, 0, 0, 0xbc, 0x9a, 0, 0, 0, 0, 0, 0, 0x12}},
      {19, {0x1d, 0x11, 0, 0, 0, 0, 0x12, 0x34, 0x56, 0x78, 0, 0, 0, 0, 0, 0, 0x9a, 0xbc, 0x12}},
      {11, {0x1d, 0x09, 0x78, 0x56, 0x34, 0x12, 0xbc, 0x9a, 0, 0, 0x0a}},
      {11, {0x1d, 0x09, 0x12, 0x34, 0x56, 0x78, 0, 0, 0x9a, 0xbc, 0x0a}}}},
    /* The largest that four bytes hold. */
    {{AGLIMTAQ_UNMAP, {LARGEST, LARGEST, 0}}, "", 0,
     {{19, {0x1d, 0x11, 255, 255, 255, 255, 0, 0, 0, 0, 255, 255, 255, 255, 0, 0, 0, 0, 0x12}},
      {19, {0x1d, 0x11, 0, 0, 0, 0, 255, 255, 255, 255, 0, 0, 0, 0, 255, 255, 255, 255, 0x12}},
      {11, {0x1d, 0x09, 255, 255, 255, 255, 255, 255, 255, 255, 0x0a}},
      {11, {0x1d, 0x09, 255, 255, 255, 255, 255, 255, 255, 255, 0x0a}}}},
    /* A tick, and an address inside Meta: no form, and more than four bytes hold. */
    {{AGLIMTAQ_INTERRUPT, {3, 0x102030405060708, 0}}, "", 0,
     {{15, {0x39, 0x0d, 3, 0, 0, 0, 8, 7, 6, 5, 4, 3, 2, 1, 0x0e}},
      {15, {0x39, 0x0d, 3, 0, 0, 0, 8, 7, 6, 5, 4, 3, 2, 1, 0x0e}},
      {15, {0x39, 0x0d, 3, 0, 0, 0, 8, 7, 6, 5, 4, 3, 2, 1, 0x0e}},
      {15, {0x39, 0x0d, 3, 0, 0, 0, 8, 7, 6, 5, 4, 3, 2, 1, 0x0e}}}},
    {{AGLIMTAQ_CALL_END, {0x102030405060708, 0, 0}}, "", 0,
     {{12, {0x31, 0x0a, 5, 8, 7, 6, 5, 4, 3, 2, 1, 0x0b}},
      {12, {0x31, 0x0a, 5, 8, 7, 6, 5, 4, 3, 2, 1, 0x0b}},
      {12, {0x31, 0x0a, 5, 8, 7, 6, 5, 4, 3, 2, 1, 0x0b}},
      {12, {0x31, 0x0a, 5, 8, 7, 6, 5, 4, 3, 2, 1, 0x0b}}}},
};

/* Where an address or an Unmap length is among a type's numbers. */
static const struct {
    uint64_t type;
    size_t number;
} places[] = {
    {AGLIMTAQ_PC, 0},  {AGLIMTAQ_INSTRUCTION, 0}, {AGLIMTAQ_MEM_READ, 0}, {AGLIMTAQ_MEM_WRITE, 0},
    {AGLIMTAQ_MAP, 0}, {AGLIMTAQ_UNMAP, 0},       {AGLIMTAQ_UNMAP, 1},
};

/* A record read in another form than it was written in; by the rules of the form that it is read in. */
static const struct {
    uint64_t form;
    size_t size;
    uint8_t bytes[20];
    struct aglimtaq_reading due;
} others[] = {
    /* Four bytes of an address where eight are wanted: too few, or what follows the address counts as its rest. */
    {AGLIMTAQ_LE64, 7, {0x25, 0x05, 0x78, 0x56, 0x34, 0x12, 0x06}, {1, 4, 0, 7, 0, {0, 0, 0}, 0, 0}},
    {AGLIMTAQ_BE64, 7, {0x25, 0x05, 0x12, 0x34, 0x56, 0x78, 0x06}, {1, 4, 0, 7, 0, {0, 0, 0}, 0, 0}},
    {AGLIMTAQ_LE64, 10, {0x85, 0x08, 0x78, 0x56, 0x34, 0x12, 1, 2, 3, 0x09}, {1, 4, 0, 10, 0, {0, 0, 0}, 0, 0}},
    {AGLIMTAQ_LE64, 11, {0x1d, 0x09, 0x78, 0x56, 0x34, 0x12, 0xbc, 0x9a, 0, 0, 0x0a},
     {1, 4, 0, 11, 0, {0, 0, 0}, 0, 0}},
    {AGLIMTAQ_LE64, 12, {0x21, 0x0a, 0x78, 0x56, 0x34, 0x12, 1, 2, 3, 4, 5, 0x0b},
     {0, 0, 0, 12, AGLIMTAQ_INSTRUCTION, {0x0403020112345678, 0, 0}, 10, 11}},
    {AGLIMTAQ_BE64, 12, {0x21, 0x0a, 0x12, 0x34, 0x56, 0x78, 1, 2, 3, 4, 5, 0x0b},
     {0, 0, 0, 12, AGLIMTAQ_INSTRUCTION, {0x1234567801020304, 0, 0}, 10, 11}},
    /* Eight bytes where four are wanted: the other four are contents, the length of an Unmap, or passed over. */
    {AGLIMTAQ_LE32, 11, {0x25, 0x09, 0x78, 0x56, 0x34, 0x12, 0, 0, 0, 0, 0x0a},
     {0, 0, 0, 11, AGLIMTAQ_PC, {0x12345678, 0, 0}, 0, 0}},
    {AGLIMTAQ_BE32, 11, {0x25, 0x09, 0, 0, 0, 0, 0x12, 0x34, 0x56, 0x78, 0x0a},
     {0, 0, 0, 11, AGLIMTAQ_PC, {0, 0, 0}, 0, 0}},
    {AGLIMTAQ_LE32, 13, {0x21, 0x0b, 0x78, 0x56, 0x34, 0x12, 0, 0, 0, 0, 0x90, 0xc3, 0x0c},
     {0, 0, 0, 13, AGLIMTAQ_INSTRUCTION, {0x12345678, 0, 0}, 6, 12}},
    {AGLIMTAQ_BE32, 19, {0x1d, 0x11, 0, 0, 0, 0, 0x12, 0x34, 0x56, 0x78, 0, 0, 0, 0, 0, 0, 0x9a, 0xbc, 0x12},
     {0, 0, 0, 19, AGLIMTAQ_UNMAP, {0, 0x12345678, 0}, 0, 0}},
    /* The other byte order. */
    {AGLIMTAQ_BE64, 11, {0x25, 0x09, 0x78, 0x56, 0x34, 0x12, 0, 0, 0, 0, 0x0a},
     {0, 0, 0, 11, AGLIMTAQ_PC, {0x7856341200000000, 0, 0}, 0, 0}},
    {AGLIMTAQ_BE32, 7, {0x25, 0x05, 0x78, 0x56, 0x34, 0x12, 0x06},
     {0, 0, 0, 7, AGLIMTAQ_PC, {0x78563412, 0, 0}, 0, 0}},
};

static const uint64_t no_forms[] = {4, 257, WIDE, UINT64_MAX};

static const uint8_t no_bytes[1];
static uint8_t out[ROOM + AFTER];
static uint8_t due[ROOM + AFTER];
static int wrong;

static void expect(const char *what, uint64_t form, size_t which, uint64_t is, uint64_t should)
{
    if (is != should) {
        printf("%s, form %llu, %u: %llu, not %llu\n", what, (unsigned long long)form, (unsigned)which,
               (unsigned long long)is, (unsigned long long)should);
        wrong = 1;
    }
}

static void fresh(void)
{
    memset(out, 0xee, sizeof out);
    memset(due, 0xee, sizeof due);
}

static void same_output(const char *what, uint64_t form, size_t which)
{
    expect(what, form, which, memcmp(out, due, sizeof out) != 0, 0);
}

/* Every field of a reading. */
static void same_reading(const char *what, uint64_t form, size_t which, const struct aglimtaq_reading *is,
                         const struct aglimtaq_reading *should)
{
    expect(what, form, which, is->answer, should->answer);
    expect(what, form, which, is->number, should->number);
    expect(what, form, which, is->start, should->start);
    expect(what, form, which, is->end, should->end);
    expect(what, form, which, is->type, should->type);
    for (size_t i = 0; i < 3; i++)
        expect(what, form, which, is->numbers[i], should->numbers[i]);
    expect(what, form, which, is->bytes_start, should->bytes_start);
    expect(what, form, which, is->bytes_end, should->bytes_end);
}

/* Writes the examples one after the other; returns the end. */
static uint64_t write_examples(uint64_t form)
{
    struct aglimtaq_position position = AGLIMTAQ_AT(0, form);
    uint64_t end = 0;
    fresh();
    for (size_t i = 0; i < COUNT(examples); i++) {
        const struct example *e = &examples[i];
        memcpy(due + end, e->due[form].bytes, e->due[form].size);
        end += e->due[form].size;
        expect("written", form, i, aglimtaq_write(out, ROOM, &position, &e->record, e->bytes, e->length), 0);
        expect("the position after writing", form, i, position.at, end);
        expect("the form after writing", form, i, position.form, form);
        same_output("bytes written that differ", form, i);
    }
    return end;
}

/* The same by one call. */
static void write_list(uint64_t form, uint64_t end)
{
    struct aglimtaq_position position = AGLIMTAQ_AT(0, form);
    struct aglimtaq_call calls[COUNT(examples)];
    struct aglimtaq_all all = {12345, 12345};
    uint8_t bytes[20];
    size_t taken = 0;
    for (size_t i = 0; i < COUNT(examples); i++) {
        calls[i].type = examples[i].record.type;
        memcpy(calls[i].numbers, examples[i].record.numbers, sizeof calls[i].numbers);
        calls[i].length = examples[i].length;
        memcpy(bytes + taken, examples[i].bytes, examples[i].length);
        taken += examples[i].length;
    }
    memset(out, 0xee, sizeof out);
    expect("a list", form, 0, aglimtaq_write_all(out, ROOM, &position, calls, COUNT(calls), bytes, taken, &all), 0);
    expect("the position after a list", form, 0, position.at, end);
    expect("the form after a list", form, 0, position.form, form);
    expect("records of a list", form, 0, all.records, COUNT(calls));
    expect("bytes of a list", form, 0, all.bytes, taken);
    same_output("bytes of a list that differ", form, 0);
}

/* What must be read of an example that starts at an offset: its bytes are the last before the trailer. */
static struct aglimtaq_reading shown(const struct example *e, uint64_t form, uint64_t at)
{
    struct aglimtaq_reading r = {AGLIMTAQ_SHOWN, 0, at, at + e->due[form].size, e->record.type, {0, 0, 0}, 0, 0};
    memcpy(r.numbers, e->record.numbers, sizeof r.numbers);
    if (e->length > 0) {
        r.bytes_end = r.end - (e->record.type == AGLIMTAQ_MAP ? 5 : 1);
        r.bytes_start = r.bytes_end - e->length;
    }
    return r;
}

static void read_examples(uint64_t form, uint64_t end)
{
    struct aglimtaq_position forth = AGLIMTAQ_AT(0, form), back = AGLIMTAQ_AT(end, form);
    struct aglimtaq_reading r, should;
    for (size_t i = 0; i < COUNT(examples); i++) {
        should = shown(&examples[i], form, forth.at);
        memset(&r, 0xa5, sizeof r);
        aglimtaq_read_next(out, end, &forth, &r);
        same_reading("read forwards", form, i, &r, &should);
        expect("the position forwards", form, i, forth.at, should.end);
    }
    for (size_t i = COUNT(examples); i-- > 0;) {
        should = shown(&examples[i], form, back.at - examples[i].due[form].size);
        memset(&r, 0xa5, sizeof r);
        aglimtaq_read_previous(out, end, &back, &r);
        same_reading("read backwards", form, i, &r, &should);
        expect("the position backwards", form, i, back.at, should.start);
    }
    aglimtaq_read_next(out, end, &forth, &r);
    expect("the end forwards", form, 0, r.answer, AGLIMTAQ_FINISHED);
    aglimtaq_read_previous(out, end, &back, &r);
    expect("the end backwards", form, 0, r.answer, AGLIMTAQ_FINISHED);
    expect("the form forwards", form, 0, forth.form, form);
    expect("the form backwards", form, 0, back.form, form);
    same_output("bytes altered by reading", form, 0);
}

static void walk_examples(uint64_t form, uint64_t end)
{
    uint64_t counts[8], sizes[64];
    struct aglimtaq_end e = {12345, 12345, 12345};
    aglimtaq_walk(out, end, form, counts, sizes, &e);
    expect("walked forwards", form, 0, counts[0], COUNT(examples));
    expect("the walk's end", form, 0, e.position, end);
    expect("the walk's refusal", form, 0, e.refused, 0);
    aglimtaq_walk_back(out, end, form, counts, sizes, &e);
    expect("walked backwards", form, 0, counts[0], COUNT(examples));
    expect("the end of the walk backwards", form, 0, e.position, 0);
    expect("the refusal of the walk backwards", form, 0, e.refused, 0);
}

/* One call that is refused, or accepted: the answer, and that no byte and no position is altered where refused. */
static void write_one(const char *what, size_t which, struct aglimtaq_position position, size_t room,
                      const struct aglimtaq_record *record, uint64_t answer)
{
    struct aglimtaq_position before = position;
    fresh();
    expect(what, position.form, which, aglimtaq_write(out, room, &position, record, no_bytes, 0), answer);
    expect("the form kept", before.form, which, position.form, before.form);
    if (answer != 0) {
        expect("the position kept", before.form, which, position.at, before.at);
        same_output("bytes altered by what is refused", before.form, which);
    }
}

/* An address or an Unmap length that four bytes do not hold, in each place; 8 comes before it, 9 after it.
 * tests/long.c has it before 10. */
static void wide(uint64_t form)
{
    const struct aglimtaq_position start = AGLIMTAQ_AT(0, form), beyond = AGLIMTAQ_AT(ROOM + 1, form);
    const int four = form >= AGLIMTAQ_LE32;
    for (size_t i = 0; i < COUNT(places); i++) {
        struct aglimtaq_record record = {places[i].type, {0, 0, 0}};
        uint64_t *number = &record.numbers[places[i].number];
        *number = LARGEST;
        write_one("the largest in four bytes", i, start, ROOM, &record, 0);
        *number = WIDE;
        write_one("one more", i, start, ROOM, &record, four ? AGLIMTAQ_WIDE_ADDRESS : 0);
        *number = UINT64_MAX;
        write_one("the largest", i, start, ROOM, &record, four ? AGLIMTAQ_WIDE_ADDRESS : 0);
        write_one("8 before 14", i, beyond, ROOM, &record, AGLIMTAQ_BEYOND_END);
        write_one("14 before 9", i, start, 0, &record, four ? AGLIMTAQ_WIDE_ADDRESS : AGLIMTAQ_NO_ROOM);
    }
}

/* A number that the type does not have is ignored, and one without a form may have more than four bytes. */
static void ignored(uint64_t form)
{
    static const struct aglimtaq_record records[] = {
        {AGLIMTAQ_PC, {1, WIDE, WIDE}},         {AGLIMTAQ_MAP, {1, WIDE, WIDE}},
        {AGLIMTAQ_UNMAP, {1, 1, WIDE}},         {AGLIMTAQ_MEM_WRITE, {1, WIDE, WIDE}},
        {AGLIMTAQ_INTERRUPT, {1, WIDE, WIDE}},  {AGLIMTAQ_INSTRUCTION_COUNT, {WIDE, 0, 0}},
        {AGLIMTAQ_CALL_BEGIN, {WIDE, 0, 0}},    {AGLIMTAQ_MEMORY_ALLOCATED, {WIDE, 1, 0}},
        {AGLIMTAQ_MEMORY_FREED, {WIDE, 1, 0}},  {AGLIMTAQ_MEMORY_REALLOCATED, {WIDE, WIDE, 1}},
        {AGLIMTAQ_CALL_END, {WIDE, 0, 0}},      {AGLIMTAQ_ADDRESS_DEPENDENCY_EDGE, {WIDE, 0, 0}},
        {AGLIMTAQ_PROCESS_ID, {WIDE, 0, 0}},
    };
    const struct aglimtaq_position start = AGLIMTAQ_AT(0, form);
    for (size_t i = 0; i < COUNT(records); i++)
        write_one("a number without a form", i, start, ROOM, &records[i], 0);
}

/* Each record in another form than it was written in, forwards, backwards and by parse. */
static void read_others(void)
{
    struct aglimtaq_reading r, should;
    for (size_t i = 0; i < COUNT(others); i++) {
        const uint64_t form = others[i].form, size = others[i].size;
        struct aglimtaq_position forth = AGLIMTAQ_AT(0, form), back = AGLIMTAQ_AT(size, form);
        uint8_t bytes[sizeof others[i].bytes];
        memcpy(bytes, others[i].bytes, sizeof bytes);
        memset(&r, 0xa5, sizeof r);
        aglimtaq_read_next(bytes, size, &forth, &r);
        same_reading("another form, forwards", form, i, &r, &others[i].due);
        expect("the position in another form, forwards", form, i, forth.at, size);
        memset(&r, 0xa5, sizeof r);
        aglimtaq_read_previous(bytes, size, &back, &r);
        same_reading("another form, backwards", form, i, &r, &others[i].due);
        expect("the position in another form, backwards", form, i, back.at, 0);
        should = others[i].due;
        should.answer = should.number == 0 ? AGLIMTAQ_SHOWN : AGLIMTAQ_REFUSED;
        should.end = 0;
        memset(&r, 0xa5, sizeof r);
        aglimtaq_parse(bytes, size, 0, form, &r);
        same_reading("another form, parsed", form, i, &r, &should);
        expect("bytes altered in another form", form, i, memcmp(bytes, others[i].bytes, sizeof bytes) != 0, 0);
    }
}

/* Whole traces in another form than they were written in: every record is framed, and nothing is altered. */
static void walk_others(uint64_t form, uint64_t end)
{
    uint64_t counts[8], sizes[64];
    struct aglimtaq_end e;
    for (uint64_t other = 0; other < FORMS; other++) {
        /* Of those with addresses in four bytes, none has the content that eight take. Two have no form. */
        const uint64_t refused = form >= AGLIMTAQ_LE32 && other < AGLIMTAQ_LE32 ? COUNT(examples) - 2 : 0;
        aglimtaq_walk(out, end, other, counts, sizes, &e);
        expect("refused in another form", other, form, counts[AGLIMTAQ_SHORT_CONTENT], refused);
        expect("shown in another form", other, form, counts[0], COUNT(examples) - refused);
        expect("the end in another form", other, form, e.position, end);
        aglimtaq_walk_back(out, end, other, counts, sizes, &e);
        expect("refused in another form, backwards", other, form, counts[AGLIMTAQ_SHORT_CONTENT], refused);
        expect("the end in another form, backwards", other, form, e.position, 0);
        same_output("bytes altered in another form", other, form);
    }
}

/* A form that is none of the four, in reading: at 0, at the end, beyond it; with bytes and without. */
static void read_no_form(uint64_t form)
{
    static const uint64_t at[] = {0, 11, 12, UINT64_MAX};
    const struct aglimtaq_reading should = {AGLIMTAQ_REFUSED, AGLIMTAQ_NOT_A_FORM, 0, 0, 0, {0, 0, 0}, 0, 0};
    const uint8_t *bytes = examples[0].due[0].bytes;
    struct aglimtaq_reading r;
    for (size_t i = 0; i < 2 * COUNT(at); i++) {
        const size_t length = i % 2 == 0 ? 11 : 0;
        struct aglimtaq_position position = AGLIMTAQ_AT(at[i / 2], form);
        memset(&r, 0xa5, sizeof r);
        aglimtaq_read_next(bytes, length, &position, &r);
        same_reading("no form, forwards", form, i, &r, &should);
        memset(&r, 0xa5, sizeof r);
        aglimtaq_read_previous(bytes, length, &position, &r);
        same_reading("no form, backwards", form, i, &r, &should);
        expect("the position without a form", form, i, position.at, at[i / 2]);
        expect("the form that is none", form, i, position.form, form);
        memset(&r, 0xa5, sizeof r);
        aglimtaq_parse(bytes, length, (size_t)at[i / 2], form, &r);
        same_reading("no form, parsed", form, i, &r, &should);
    }
}

typedef void walker(const uint8_t *, size_t, uint64_t, uint64_t *, uint64_t *, struct aglimtaq_end *);

/* A walk touches its end alone. */
static void walk_no_form(uint64_t form, walker *walk)
{
    uint64_t counts[8], sizes[64], kept[64];
    struct aglimtaq_end e = {12345, 12345, 12345};
    memset(counts, 0xa5, sizeof counts);
    memset(sizes, 0xa5, sizeof sizes);
    memset(kept, 0xa5, sizeof kept);
    walk(examples[0].due[0].bytes, 11, form, counts, sizes, &e);
    expect("no form, counts altered", form, 0, memcmp(counts, kept, sizeof counts) != 0, 0);
    expect("no form, sizes altered", form, 0, memcmp(sizes, kept, sizeof sizes) != 0, 0);
    expect("no form, the end", form, 0, e.position, 0);
    expect("no form, the number wanted", form, 0, e.wanted, 0);
    expect("no form, the refusal of a walk", form, 0, e.refused, AGLIMTAQ_NOT_A_FORM);
}

/* The same in writing: a good record, no record, beyond the end, without room; and lists, one of them empty. */
static void write_no_form(uint64_t form)
{
    static const struct aglimtaq_record good = {AGLIMTAQ_PC, {1, 0, 0}}, none = {AGLIMTAQ_NO_TYPE, {0, 0, 0}};
    static const struct aglimtaq_call calls[] = {{AGLIMTAQ_PC, {1, 0, 0}, 0}, {AGLIMTAQ_NO_TYPE, {0, 0, 0}, 1}};
    const struct aglimtaq_position start = AGLIMTAQ_AT(0, form), beyond = AGLIMTAQ_AT(ROOM + 1, form);
    write_one("no form", 0, start, ROOM, &good, AGLIMTAQ_NOT_A_FORM);
    write_one("no form and no record", 0, start, ROOM, &none, AGLIMTAQ_NOT_A_FORM);
    write_one("no form beyond the end", 0, beyond, ROOM, &good, AGLIMTAQ_NOT_A_FORM);
    write_one("no form and no room", 0, start, 0, &good, AGLIMTAQ_NOT_A_FORM);
    fresh();
    for (size_t i = 0; i < 6; i++) {
        struct aglimtaq_position position = i % 2 == 0 ? start : beyond;
        const uint64_t at = position.at;
        struct aglimtaq_all all = {12345, 12345};
        uint64_t answer = aglimtaq_write_all(out, ROOM, &position, calls + (i > 3), i > 1, no_bytes, 0, &all);
        expect("no form, a list", form, i, answer, AGLIMTAQ_NOT_A_FORM);
        expect("no form, records", form, i, all.records, 12345);
        expect("no form, bytes", form, i, all.bytes, 12345);
        expect("no form, the position", form, i, position.at, at);
        expect("no form, the form", form, i, position.form, form);
        same_output("no form, bytes altered", form, i);
    }
}

int main(void)
{
    for (uint64_t form = 0; form < FORMS; form++) {
        uint64_t end = write_examples(form);
        read_examples(form, end);
        walk_examples(form, end);
        walk_others(form, end);
        write_list(form, end);
        wide(form);
        ignored(form);
    }
    read_others();
    for (size_t i = 0; i < COUNT(no_forms); i++) {
        read_no_form(no_forms[i]);
        walk_no_form(no_forms[i], aglimtaq_walk);
        walk_no_form(no_forms[i], aglimtaq_walk_back);
        write_no_form(no_forms[i]);
    }
    if (!wrong)
        printf("ok\n");
    return wrong;
}

/* Writes contents of the greatest length, 4,294,967,290 bytes, through include/trace.h, reads them forwards and
 * backwards, and has one byte more refused: MemWrite and Map, in each address form. Takes 9 GB of memory. Prints a line
 * for each, or what differs. */
#include "trace.h"

#include <inttypes.h>
#include <stdio.h>
#include <stdlib.h>
#include <string.h>

#define CONTENT 4294967290u
#define FRAME (CONTENT + (size_t)10) /* with the first byte, four length bytes and a trailer of five */
#define BEFORE 3 /* lent bytes before the record */
#define AFTER 16 /* bytes after the lent ones, which stay as they are */
#define ADDRESS 0x12345678u
#define COUNT(array) (sizeof(array) / sizeof(array)[0])

static const struct {
    const char *name;
    uint64_t type;
    uint8_t first; /* the kind, and the low bits of four length bytes */
} types[] = {{"MemWrite", AGLIMTAQ_MEM_WRITE, 0x87}, {"Map", AGLIMTAQ_MAP, 0x13}};

static const struct {
    const char *name;
    size_t width;
    uint8_t bytes[8];
} forms[] = {
    {"LE64", 8, {0x78, 0x56, 0x34, 0x12, 0, 0, 0, 0}},
    {"BE64", 8, {0, 0, 0, 0, 0x12, 0x34, 0x56, 0x78}},
    {"LE32", 4, {0x78, 0x56, 0x34, 0x12}},
    {"BE32", 4, {0x12, 0x34, 0x56, 0x78}},
};

static const uint8_t length_bytes[4] = {0xff, 0xff, 0xff, 0xff};
static const uint8_t trailer[5] = {0xff, 0xff, 0xff, 0xff, 0};

static uint8_t *slice, *out;
static int wrong;

static void expect(const char *what, uint64_t is, uint64_t due)
{
    if (is != due) {
        printf("    %s: %" PRIu64 ", not %" PRIu64 "\n", what, is, due);
        wrong = 1;
    }
}

/* Whether the n bytes from offset `at` of the output on are as they were before anything was written. */
static int untouched(size_t at, size_t n)
{
    return out[at] == 0xee && memcmp(out + at, out + at + 1, n - 1) == 0;
}

/* A refused call alters nothing. */
static void refused(const char *what, size_t room, const struct aglimtaq_record *record, size_t length, uint64_t form,
                    uint64_t due)
{
    struct aglimtaq_position position = AGLIMTAQ_AT(BEFORE, form);
    expect(what, aglimtaq_write(out, room, &position, record, slice, length), due);
    expect("the position kept", position.at, BEFORE);
    expect("bytes altered", !untouched(0, BEFORE + FRAME + AFTER), 0);
}

static void same_reading(const char *what, const struct aglimtaq_reading *r, uint64_t type, size_t width)
{
    expect(what, r->answer, AGLIMTAQ_SHOWN);
    expect(what, r->start, BEFORE);
    expect(what, r->end, BEFORE + FRAME);
    expect(what, r->type, type);
    expect(what, r->numbers[0], ADDRESS);
    expect(what, r->bytes_start, BEFORE + 5 + width);
    expect(what, r->bytes_end, BEFORE + 5 + (uint64_t)CONTENT);
}

/* The bytes of the record, and those around it. */
static void same_bytes(uint8_t first, size_t form)
{
    size_t width = forms[form].width, content = BEFORE + 5;
    expect("the first byte", out[BEFORE], first);
    expect("length bytes that differ", memcmp(out + BEFORE + 1, length_bytes, 4) != 0, 0);
    expect("an address that differs", memcmp(out + content, forms[form].bytes, width) != 0, 0);
    expect("contents that differ", memcmp(out + content + width, slice, CONTENT - width) != 0, 0);
    expect("a trailer that differs", memcmp(out + content + CONTENT, trailer, 5) != 0, 0);
    expect("bytes altered before the record", !untouched(0, BEFORE), 0);
    expect("bytes altered after it", !untouched(BEFORE + FRAME, AFTER), 0);
}

static void try(size_t which, uint64_t form)
{
    const struct aglimtaq_record record = {types[which].type, {ADDRESS, 0, 0}};
    const size_t most = CONTENT - forms[form].width, room = BEFORE + FRAME;
    struct aglimtaq_position position = AGLIMTAQ_AT(BEFORE, form);
    struct aglimtaq_reading r;
    memset(out, 0xee, BEFORE + FRAME + AFTER);
    refused("10", room, &record, most + 1, form, AGLIMTAQ_LONG_CONTENT);
    refused("10, with no room", BEFORE, &record, most + 1, form, AGLIMTAQ_LONG_CONTENT);
    refused("9", room - 1, &record, most, form, AGLIMTAQ_NO_ROOM);
    expect("written", aglimtaq_write(out, room, &position, &record, slice, most), 0);
    expect("the position after writing", position.at, room);
    same_bytes(types[which].first, form);
    position.at = BEFORE;
    aglimtaq_read_next(out, room, &position, &r);
    same_reading("read forwards", &r, record.type, forms[form].width);
    expect("the position forwards", position.at, room);
    aglimtaq_read_previous(out, room, &position, &r);
    same_reading("read backwards", &r, record.type, forms[form].width);
    expect("the position backwards", position.at, BEFORE);
    aglimtaq_read_next(out, room - 1, &position, &r);
    expect("without its last byte", r.answer, AGLIMTAQ_UNFINISHED);
    expect("the number wanted", r.number, FRAME);
    if (!wrong)
        printf("%s, %s: %zu bytes after the address written, read forwards and backwards; %zu refused with 10\n",
               types[which].name, forms[form].name, most, most + 1);
}

int main(void)
{
    slice = malloc(CONTENT);
    out = malloc(BEFORE + FRAME + AFTER);
    if (slice == NULL || out == NULL) {
        printf("There is not enough memory: nothing was tried.\n");
        return 2;
    }
    for (size_t i = 0; i < CONTENT; i++)
        slice[i] = (uint8_t)(i % 251 + i / 65521);
    for (size_t which = 0; which < COUNT(types); which++)
        for (uint64_t form = 0; form < COUNT(forms); form++)
            try(which, form);
    return wrong;
}

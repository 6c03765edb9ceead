/* Writes records with long contents through include/trace.h, reads them forwards and backwards, and cuts them short. The
 * bytes before and after each content stand here, made by hand from documents 01 and 02 (M-101). Then the limit of all
 * contents, by calls that are refused. Prints `ok`, or what differs. */
#define _DEFAULT_SOURCE
#include "trace.h"

#include <stdio.h>
#include <string.h>
#include <sys/mman.h>

#define FORMS 4
#define ADDRESS 0x12345678u
#define REGISTERS 255
#define BEFORE 3 /* lent bytes before the record */
#define AFTER 16 /* bytes after the lent ones, which stay as they are */
#define LONGEST 16777216
#define LIMIT 4294967290u /* the longest content of all */
#define WIDE 4294967296u /* an address that four bytes do not hold */
#define COUNT(array) (sizeof(array) / sizeof(array)[0])

/* The number of content bytes; how many length bytes there are; the low bits of the first byte and the length; the
 * trailer. */
struct size {
    size_t content;
    size_t width;
    uint8_t head[5];
    uint8_t trailer[5];
};

static const struct size sizes[] = {
    {65530, 2, {2, 0xff, 0xff}, {0xfd, 0xff, 0, 0, 0}},
    {65531, 4, {3, 0x00, 0x00, 0x01, 0x00}, {0x00, 0x00, 0x01, 0x00, 0x00}},
    {65535, 4, {3, 0x04, 0x00, 0x01, 0x00}, {0x04, 0x00, 0x01, 0x00, 0x00}},
    {65536, 4, {3, 0x05, 0x00, 0x01, 0x00}, {0x05, 0x00, 0x01, 0x00, 0x00}},
    {70000, 4, {3, 0x75, 0x11, 0x01, 0x00}, {0x75, 0x11, 0x01, 0x00, 0x00}},
    {LONGEST, 4, {3, 0x05, 0x00, 0x00, 0x01}, {0x05, 0x00, 0x00, 0x01, 0x00}},
};

/* A record, its kind, and what its content begins with: in each form, or in all alike. */
struct kind {
    struct aglimtaq_record record;
    uint8_t kind;
    int formed;
    size_t fixed; /* where it is not formed */
    uint8_t begins[4];
};

static const struct kind kinds[] = {
    {{AGLIMTAQ_MEM_WRITE, {ADDRESS, 0, 0}}, 0x84, 1, 0, {0}},
    {{AGLIMTAQ_INSTRUCTION, {ADDRESS, 0, 0}}, 0x20, 1, 0, {0}},
    {{AGLIMTAQ_REG_WRITE, {ADDRESS, 0, 0}}, 0x44, 0, 4, {0x78, 0x56, 0x34, 0x12}},
    {{AGLIMTAQ_UNKNOWN_META, {200, 0, 0}}, 0x30, 0, 1, {200}},
    {{AGLIMTAQ_REGISTER_NAME_MAP, {REGISTERS, 0, 0}}, 0x04, 0, 2, {0, REGISTERS}},
};

/* The address in each form. */
static const struct {
    size_t width;
    uint8_t bytes[8];
} addresses[FORMS] = {
    {8, {0x78, 0x56, 0x34, 0x12, 0, 0, 0, 0}},
    {8, {0, 0, 0, 0, 0x12, 0x34, 0x56, 0x78}},
    {4, {0x78, 0x56, 0x34, 0x12}},
    {4, {0x12, 0x34, 0x56, 0x78}},
};

/* What is tried: a record, its slice, and its frame of `whole` bytes. */
struct trial {
    const struct kind *kind;
    const struct size *size;
    uint64_t form;
    size_t fixed; /* how many bytes of the content come before the slice */
    size_t length; /* of the slice */
    size_t whole;
};

static uint8_t slice[LONGEST];
static uint8_t out[BEFORE + LONGEST + 10 + AFTER];
static uint8_t due[sizeof out];
static int wrong;

static void expect(const char *what, const struct trial *t, uint64_t is, uint64_t should)
{
    if (is != should) {
        printf("%s, type %u, form %u, content of %u bytes: %llu, not %llu\n", what, (unsigned)t->kind->record.type,
               (unsigned)t->form, (unsigned)t->size->content, (unsigned long long)is, (unsigned long long)should);
        wrong = 1;
    }
}

/* Only the bytes that this trial lends are used, and AFTER more. */
static size_t used(const struct trial *t)
{
    return BEFORE + t->whole + AFTER;
}

static void same_output(const char *what, const struct trial *t)
{
    expect(what, t, memcmp(out, due, used(t)) != 0, 0);
}

/* A slice in which no period of a power of two hides a byte at the wrong offset. */
static void fill_bytes(size_t length)
{
    for (size_t i = 0; i < length; i++)
        slice[i] = (uint8_t)(i % 251 + i / 65521);
}

/* A register list: REGISTERS names, as long as fit, and other bytes after them. */
static void fill_names(size_t length)
{
    size_t letters = length - 3 * REGISTERS, at = 0;
    if (letters > 255 * REGISTERS)
        letters = 255 * REGISTERS;
    fill_bytes(length);
    for (size_t i = 0; i < REGISTERS; i++) {
        size_t name = letters / REGISTERS + (i < letters % REGISTERS);
        slice[at] = (uint8_t)i;
        slice[at + 1] = 0x7f;
        slice[at + 2] = (uint8_t)name;
        memset(slice + at + 3, 'a' + (int)(i % 26), name);
        at += 3 + name;
    }
}

static void prepare(struct trial *t)
{
    const struct size *size = t->size;
    const uint8_t *begins = t->kind->formed ? addresses[t->form].bytes : t->kind->begins;
    uint8_t *at = due + BEFORE;
    t->fixed = t->kind->formed ? addresses[t->form].width : t->kind->fixed;
    t->length = size->content - t->fixed;
    t->whole = 1 + size->width + size->content + 5;
    if (t->kind->record.type == AGLIMTAQ_REGISTER_NAME_MAP)
        fill_names(t->length);
    else
        fill_bytes(t->length);
    memset(due, 0xee, used(t));
    memcpy(at, size->head, 1 + size->width);
    at[0] |= t->kind->kind;
    memcpy(at + 1 + size->width, begins, t->fixed);
    memcpy(at + 1 + size->width + t->fixed, slice, t->length);
    memcpy(at + 1 + size->width + size->content, size->trailer, 5);
}

/* One byte too few, where nothing is altered; then room enough, by both ways of writing. */
static void write_record(const struct trial *t)
{
    const struct aglimtaq_record *record = &t->kind->record;
    const struct aglimtaq_position start = AGLIMTAQ_AT(BEFORE, t->form);
    struct aglimtaq_call call = {record->type, {record->numbers[0], 0, 0}, t->length};
    struct aglimtaq_position position = start;
    struct aglimtaq_all all;
    size_t room = BEFORE + t->whole;
    memset(out, 0xee, used(t));
    expect("9", t, aglimtaq_write(out, room - 1, &position, record, slice, t->length), AGLIMTAQ_NO_ROOM);
    expect("the position kept", t, position.at, BEFORE);
    for (size_t i = 0; i < used(t); i++)
        if (out[i] != 0xee) {
            expect("a byte altered by what is refused, at", t, i, used(t));
            break;
        }
    expect("written", t, aglimtaq_write(out, room, &position, record, slice, t->length), 0);
    expect("the position after writing", t, position.at, room);
    expect("the form after writing", t, position.form, t->form);
    same_output("bytes written that differ", t);
    memset(out, 0xee, used(t));
    position = start;
    expect("written by a list", t, aglimtaq_write_all(out, room, &position, &call, 1, slice, t->length, &all), 0);
    expect("the position after a list", t, position.at, room);
    expect("the bytes that a list takes", t, all.bytes, t->length);
    same_output("bytes written by a list that differ", t);
}

static void same_reading(const char *what, const struct trial *t, const struct aglimtaq_reading *r)
{
    const struct aglimtaq_record *record = &t->kind->record;
    size_t bytes = BEFORE + 1 + t->size->width + t->fixed;
    expect(what, t, r->answer, AGLIMTAQ_SHOWN);
    expect(what, t, r->number, 0);
    expect(what, t, r->start, BEFORE);
    expect(what, t, r->end, BEFORE + t->whole);
    expect(what, t, r->type, record->type);
    for (size_t i = 0; i < 3; i++)
        expect(what, t, r->numbers[i], record->numbers[i]);
    expect(what, t, r->bytes_start, bytes);
    expect(what, t, r->bytes_end, bytes + t->length);
}

static void read_record(const struct trial *t)
{
    size_t end = BEFORE + t->whole;
    struct aglimtaq_position forth = AGLIMTAQ_AT(BEFORE, t->form), back = AGLIMTAQ_AT(end, t->form);
    struct aglimtaq_reading r;
    memset(&r, 0xa5, sizeof r);
    aglimtaq_read_next(out, end, &forth, &r);
    same_reading("read forwards", t, &r);
    expect("the position forwards", t, forth.at, end);
    memset(&r, 0xa5, sizeof r);
    aglimtaq_read_previous(out, end, &back, &r);
    same_reading("read backwards", t, &r);
    expect("the position backwards", t, back.at, BEFORE);
    same_output("bytes altered by reading", t);
}

/* The first n bytes of the record alone: how many it wants. */
static void cut(const struct trial *t, size_t n, uint64_t wants)
{
    struct aglimtaq_position position = AGLIMTAQ_AT(BEFORE, t->form);
    struct aglimtaq_reading r;
    aglimtaq_read_next(out, BEFORE + n, &position, &r);
    expect("a cut record", t, r.answer, AGLIMTAQ_UNFINISHED);
    expect("the number that a cut record wants", t, r.number, wants);
    expect("the position of a cut record", t, position.at, BEFORE);
}

/* In the first byte and the length, in the content, and in the trailer. */
static void cut_record(const struct trial *t)
{
    size_t content = 1 + t->size->width, trailer = content + t->size->content;
    for (size_t n = 1; n < content; n++)
        cut(t, n, content);
    cut(t, content, t->whole);
    cut(t, content + 1, t->whole);
    cut(t, content + t->fixed, t->whole);
    cut(t, content + t->size->content / 2, t->whole);
    for (size_t n = trailer - 1; n < t->whole; n++)
        cut(t, n, t->whole);
}

/* The names of a register list, in the list as it was read: those that it counts. */
static void read_names(const struct trial *t)
{
    const uint8_t *list = out + BEFORE + 1 + t->size->width + t->fixed;
    struct aglimtaq_entry entry = {0, 0, 0, 0};
    for (size_t i = 0; i < REGISTERS; i++) {
        size_t at = entry.next;
        expect("a name", t, aglimtaq_next_name(list, t->length, at, &entry), 1);
        expect("its register", t, entry.number, 0x7f00 + i);
        expect("its start", t, entry.name_start, at + 3);
        expect("its end", t, entry.name_end, at + 3 + slice[at + 2]);
        expect("the next", t, entry.next, entry.name_end);
    }
}

/* A call with room for nothing, whose slice is zeros. It alters nothing. */
static void refuse(const char *what, const struct trial *t, const struct aglimtaq_record *record, const uint8_t *zeros,
                   size_t length, uint64_t should)
{
    struct aglimtaq_position position = AGLIMTAQ_AT(BEFORE, t->form);
    memset(out, 0xee, BEFORE + AFTER);
    memset(due, 0xee, BEFORE + AFTER);
    expect(what, t, aglimtaq_write(out, BEFORE, &position, record, zeros, length), should);
    expect("the position kept", t, position.at, BEFORE);
    expect("bytes altered by what is refused", t, memcmp(out, due, BEFORE + AFTER) != 0, 0);
}

/* A content of the limit is refused for the room alone, one byte more for itself; a wide address comes before that. The
 * slice is lent and not read, so it takes no memory. */
static void limit(uint64_t form, const uint8_t *zeros)
{
    static const struct size size = {LIMIT, 4, {0}, {0}};
    for (size_t i = 0; i < COUNT(kinds); i++) {
        struct trial t = {&kinds[i], &size, form, 0, 0, 0};
        struct aglimtaq_record record = kinds[i].record;
        size_t most = LIMIT - (kinds[i].formed ? addresses[form].width : kinds[i].fixed);
        refuse("the longest content", &t, &record, zeros, most, AGLIMTAQ_NO_ROOM);
        refuse("a longer one", &t, &record, zeros, most + 1, AGLIMTAQ_LONG_CONTENT);
        if (kinds[i].formed && addresses[form].width == 4) {
            record.numbers[0] = WIDE;
            refuse("14 before 10", &t, &record, zeros, most + 1, AGLIMTAQ_WIDE_ADDRESS);
        }
    }
}

int main(void)
{
    const uint8_t *zeros = mmap(NULL, LIMIT, PROT_READ, MAP_PRIVATE | MAP_ANONYMOUS | MAP_NORESERVE, -1, 0);
    if (zeros == MAP_FAILED) {
        printf("There is no address space for a slice of %u bytes.\n", LIMIT);
        return 1;
    }
    for (uint64_t form = 0; form < FORMS; form++)
        limit(form, zeros);
    for (uint64_t form = 0; form < FORMS; form++)
        for (size_t i = 0; i < COUNT(kinds); i++)
            for (size_t j = 0; j < COUNT(sizes); j++) {
                struct trial t = {&kinds[i], &sizes[j], form, 0, 0, 0};
                prepare(&t);
                write_record(&t);
                read_record(&t);
                cut_record(&t);
                if (kinds[i].record.type == AGLIMTAQ_REGISTER_NAME_MAP)
                    read_names(&t);
            }
    if (!wrong)
        printf("ok\n");
    return wrong;
}

/* Reads and writes house records, which are Metas of tag 200, through include/trace.h. Each call of a house reader is
 * held against a plain second reading, which stands here and in plain.h, and against the plain reader at the same
 * position; each call of a house writer, against the header's rules. The frames that are expected are made here, from
 * docs/FORMAT.md. Prints `ok`, or what differs first. */
#include "plain.h"
#include "trace.h"

#include <stdio.h>
#include <stdlib.h>
#include <string.h>

#define FORMS 4
#define TAG 200
#define META 0x30
#define AROUND 320 /* bytes on each side of the lent ones, which stay as they are */
#define ROOM 48 /* the most bytes that are lent to a house writer */
#define MOST 8192 /* the most bytes of a trace */
#define LONGEST 300 /* the longest bytes after a tag */
#define COUNT(array) (sizeof(array) / sizeof(array)[0])

typedef void reader(const uint8_t *, size_t, struct aglimtaq_position *, struct aglimtaq_reading *);

/* Where a record of the pool lies. */
struct piece {
    size_t start;
    size_t size;
};

/* A record that the plain writer writes. */
struct plain {
    struct aglimtaq_record record;
    const char *bytes;
    size_t length;
};

/* A fuel reading of 9.8 litres at tick 1,000,500, after its tag and as a whole record. */
#define FUEL_BYTES "\0\x62\0\x34\x44\x0f\0\0\0\0\0"
#define FUEL_RECORD "\x31\x0d\xc8" FUEL_BYTES "\x0e"

static const struct plain plains[] = {
    {{AGLIMTAQ_MAGIC, {0}}, "", 0},
    {{AGLIMTAQ_REGISTER_NAME_MAP, {2}}, "\0\0\2r0\1\0\2pc", 10},
    {{AGLIMTAQ_UNKNOWN_FILE_META, {TAG}}, FUEL_BYTES, 11},
    {{AGLIMTAQ_MAP, {0x2000}}, FUEL_RECORD, 15},
    {{AGLIMTAQ_UNMAP, {0x2000, 16}}, "", 0},
    {{AGLIMTAQ_INSTRUCTION, {0x1000}}, FUEL_RECORD, 15},
    {{AGLIMTAQ_PC, {0x1000}}, "", 0},
    {{AGLIMTAQ_INSTRUCTION_COUNT, {UINT64_MAX}}, "", 0},
    {{AGLIMTAQ_THREAD_ID, {TAG}}, "", 0},
    {{AGLIMTAQ_PROCESS_ID, {TAG}}, "", 0},
    {{AGLIMTAQ_CALL_BEGIN, {0x240}}, "Tankanzeige", 11},
    {{AGLIMTAQ_CALL_MODELED_OPS_END, {0}}, "", 0},
    {{AGLIMTAQ_CALL_END, {0x326}}, "", 0},
    {{AGLIMTAQ_OPERAND_UNCERTAIN, {0}}, "", 0},
    {{AGLIMTAQ_ADDRESS_DEPENDENCY_EDGE, {0x2000}}, "", 0},
    {{AGLIMTAQ_REGISTER_DEPENDENCY_EDGE, {3}}, "", 0},
    {{AGLIMTAQ_MEMORY_ALLOCATED, {0x2000, 16}}, "", 0},
    {{AGLIMTAQ_MEMORY_FREED, {0x2000, 16}}, "", 0},
    {{AGLIMTAQ_MEMORY_REALLOCATED, {0x2000, 0x3000, 16}}, "", 0},
    {{AGLIMTAQ_UNKNOWN_META, {199}}, FUEL_BYTES, 11},
    {{AGLIMTAQ_UNKNOWN_META, {201}}, FUEL_BYTES, 11},
    {{AGLIMTAQ_INTERRUPT, {TAG, TAG}}, "", 0},
    {{AGLIMTAQ_REG_READ, {TAG}}, FUEL_BYTES, 11},
    {{AGLIMTAQ_REG_WRITE, {TAG}}, FUEL_BYTES, 11},
    {{AGLIMTAQ_REG_WRITE_NATIVE, {TAG}}, FUEL_BYTES, 11},
    {{AGLIMTAQ_MEM_READ, {TAG}}, FUEL_BYTES, 11},
    {{AGLIMTAQ_MEM_WRITE, {TAG}}, FUEL_RECORD, 15},
};

/* Records that no writer writes, whole. The first of them can be read from their ends, the others not. */
#define FROM_ENDS 8

static const struct { const char *bytes; size_t size; } foreign[] = {
    {"\x01\x07" "armv7m\x08", 9}, /* Arch */
    {"\x01\x0d\xc8" FUEL_BYTES "\x0e", 15}, /* Arch, with the bytes of a house record */
    {"\x09\x0d\xc8" FUEL_BYTES "\x0e", 15}, /* unknown kinds */
    {"\x35\x0d\xc8" FUEL_BYTES "\x0e", 15},
    {"\x31\x22\x03\xff\0\0\0\0\0\0\0\0\0\0\0\0\0\0\0\0\0\0\0\0\0\0\0\0\0\0\0\0\0\0\0\x23", 36}, /* a name not UTF-8 */
    {"\x31\x03\x01\x02\x04", 5}, /* a ThreadId that is too short */
    {"\x31\x01\x02", 3}, /* a Meta without a tag */
    {"\x31\x02\xc8\x03", 4}, /* a Meta with the tag alone */
    {"\x30", 1}, /* a Meta without a span */
    {"\x31\x00", 2}, /* a Meta with an empty one */
    {"\x31\x03\xc8\x02\x00", 5}, /* a span that ends in 0 and is too short */
    {"\x31\x0d\xc8" FUEL_BYTES "\x05", 15}, /* a house record with a wrong trailer */
};

static uint8_t trace[MOST];
static size_t length; /* of the trace */
static uint8_t pool[MOST]; /* records to stand among, all of which can be read from their ends */
static struct piece pieces[64];
static size_t pooled;
static uint8_t out[AROUND + ROOM + AROUND], due[AROUND + ROOM + AROUND];
static uint8_t said[2][258]; /* which number each of the two writers said */
static struct { uint64_t form; unsigned kind, size, which; } now;

static void expect(const char *what, uint64_t is, uint64_t should)
{
    if (is == should)
        return;
    printf("%s, form %llu, sub-kind %u, size %u, case %u: %llu, not %llu\n", what, (unsigned long long)now.form,
           now.kind, now.size, now.which, (unsigned long long)is, (unsigned long long)should);
    exit(1);
}

static uint64_t number(const uint8_t *from, size_t width)
{
    uint64_t n = 0;
    while (width-- > 0)
        n = n << 8 | from[width];
    return n;
}

static void put_number(uint8_t *to, uint64_t n, size_t width)
{
    for (size_t i = 0; i < width; i++)
        to[i] = (uint8_t)(n >> 8 * i);
}

/* A tag and the bytes after it, in a frame of this many length and trailer bytes. Returns the frame's size. */
static size_t put_shaped(uint8_t *to, uint8_t kind, uint8_t tag, const uint8_t *s, size_t n, size_t width,
                         size_t trailer)
{
    const size_t before = 1 + width + 1 + n;
    to[0] = (uint8_t)(kind + (width == 4 ? 3 : width));
    put_number(to + 1, 1 + n + trailer, width);
    to[1 + width] = tag;
    memcpy(to + 1 + width + 1, s, n);
    put_number(to + before, before, trailer == 1 ? 1 : 4);
    if (trailer == 5)
        to[before + 4] = 0;
    return before + trailer;
}

/* The same as it is written. */
static size_t put_tagged(uint8_t *to, uint8_t kind, uint8_t tag, const uint8_t *s, size_t n)
{
    return 1 + n < 254 ? put_shaped(to, kind, tag, s, n, 1, 1) : put_shaped(to, kind, tag, s, n, 2, 5);
}

/* Whether bytes after the tag are a house reading; and which. */
static int gauge_of(const uint8_t *s, size_t n, struct aglimtaq_record *gauge)
{
    static const struct { uint64_t type; size_t width; uint64_t most; } kinds[3] = {
        {AGLIMTAQ_FUEL, 2, 65535}, {AGLIMTAQ_DISTANCE_LEFT, 2, 65535}, {AGLIMTAQ_RESERVE_LAMP, 1, 1}};
    if (n == 0 || s[0] >= COUNT(kinds) || n != 1 + kinds[s[0]].width + 8)
        return 0;
    gauge->type = kinds[s[0]].type;
    gauge->numbers[0] = number(s + 1, kinds[s[0]].width);
    gauge->numbers[1] = number(s + 1 + kinds[s[0]].width, 8);
    gauge->numbers[2] = 0;
    return gauge->numbers[0] <= kinds[s[0]].most;
}

/* Where the bytes after the tag lie, if this whole record is a Meta of tag 200. */
static int house_part(const uint8_t *record, size_t size, struct aglimtaq_part *part)
{
    static const uint8_t widths[4] = {0, 1, 2, 4};
    const size_t head = 1u + widths[record[0] % 4], trailer = record[size - 1] == 0 ? 5 : 1;
    part->start = head + 1;
    part->end = size - trailer;
    return record[0] / 4 == META / 4 && size >= head + 1 + trailer && record[head] == TAG;
}

/* The reading of a framed Meta of tag 200: by the plain reader, and by the house reader. */
static struct aglimtaq_reading plain_view(struct aglimtaq_reading f, const struct aglimtaq_part *part)
{
    f.type = AGLIMTAQ_UNKNOWN_META;
    f.numbers[0] = TAG;
    f.bytes_start = f.start + part->start;
    f.bytes_end = f.start + part->end;
    return f;
}

static struct aglimtaq_reading house_view(struct aglimtaq_reading f, const uint8_t *record,
                                          const struct aglimtaq_part *part)
{
    struct aglimtaq_record gauge;
    if (!gauge_of(record + part->start, part->end - part->start, &gauge))
        return answer_of(AGLIMTAQ_REFUSED_AT, AGLIMTAQ_NOT_A_GAUGE, f.start, f.end);
    f.type = gauge.type;
    memcpy(f.numbers, gauge.numbers, sizeof f.numbers);
    return f;
}

/* What the house reader must say at a position, where the plain one says `plain`; and where both go. */
static struct aglimtaq_reading due_of(int back, const uint8_t *bytes, size_t lent, const struct aglimtaq_position *p,
                                      const struct aglimtaq_reading *plain, uint64_t *next)
{
    const size_t sees = p->pending != 0 && p->start < lent ? (size_t)p->start : lent;
    struct aglimtaq_reading f = (back ? framed_previous : framed_next)(bytes, sees, p->at), view;
    struct aglimtaq_part part;
    if (p->form >= FORMS)
        f = answer_of(AGLIMTAQ_REFUSED, AGLIMTAQ_NOT_A_FORM, 0, 0);
    *next = p->at;
    if (f.answer != AGLIMTAQ_SHOWN) {
        same_reading("the plain reader, without a record", plain, &f);
        return f;
    }
    *next = back ? f.start : f.end;
    expect("the plain reader, a framed record", plain->answer <= AGLIMTAQ_REFUSED_AT, 1);
    expect("the plain reader, its start", plain->start, f.start);
    expect("the plain reader, its end", plain->end, f.end);
    if (!house_part(bytes + f.start, (size_t)(f.end - f.start), &part))
        return *plain;
    view = plain_view(f, &part);
    same_reading("the plain reader, tag 200", plain, &view);
    return house_view(f, bytes + f.start, &part);
}

/* Both readers at a position, which is moved. Returns what the house reader says. */
static struct aglimtaq_reading read_at(int back, const uint8_t *bytes, size_t lent, struct aglimtaq_position *p)
{
    reader *const house = back ? aglimtaq_house_previous : aglimtaq_house_next;
    reader *const plain = back ? aglimtaq_read_previous : aglimtaq_read_next;
    struct aglimtaq_position moved = *p, moved_plain = *p, should = *p;
    struct aglimtaq_reading is, is_plain, r;
    memset(&is, 0xa5, sizeof is);
    memset(&is_plain, 0x5a, sizeof is_plain);
    house(bytes, lent, &moved, &is);
    plain(bytes, lent, &moved_plain, &is_plain);
    r = due_of(back, bytes, lent, p, &is_plain, &should.at);
    same_reading(back ? "the house reader, back" : "the house reader", &is, &r);
    same_position("the house reader's position", &moved, &should);
    same_position("the plain reader's position", &moved_plain, &should);
    *p = moved;
    return is;
}

/* The trace there and back. Returns how many records were framed on the way there; with `back_too` as many must be on
 * the way back. */
static size_t walk(const uint8_t *bytes, size_t lent, int back_too)
{
    struct aglimtaq_position p = AGLIMTAQ_AT(0, now.form);
    size_t there = 0, back = 0;
    while (read_at(0, bytes, lent, &p).answer <= AGLIMTAQ_REFUSED_AT)
        there++;
    p.at = lent;
    while (read_at(1, bytes, lent, &p).answer <= AGLIMTAQ_REFUSED_AT)
        back++;
    if (back_too)
        expect("records on the way back", back, there);
    return there;
}

/* Readings at every place of a trace, and after its end. */
static void everywhere(const uint8_t *bytes, size_t lent)
{
    for (uint64_t at = 0; at < lent + 3; at++)
        for (int back = 0; back < 2; back++) {
            struct aglimtaq_position p = AGLIMTAQ_AT(at, now.form);
            read_at(back, bytes, lent, &p);
        }
}

/* One more record in the pool. */
static void add_piece(size_t start, size_t size)
{
    pieces[pooled].start = start;
    pieces[pooled++].size = size;
}

/* The records to stand among, in the form of now. */
static void fill_pool(void)
{
    struct aglimtaq_position p = AGLIMTAQ_AT(0, now.form);
    pooled = 0;
    for (size_t i = 0; i < COUNT(plains); i++) {
        const size_t start = (size_t)p.at;
        expect("a plain write", aglimtaq_write(pool, MOST, &p, &plains[i].record, (const uint8_t *)plains[i].bytes,
                                               plains[i].length), 0);
        add_piece(start, (size_t)p.at - start);
    }
    for (size_t i = 0; i < FROM_ENDS; i++) {
        memcpy(pool + p.at, foreign[i].bytes, foreign[i].size);
        add_piece((size_t)p.at, foreign[i].size);
        p.at += foreign[i].size;
    }
}

static void append(const void *bytes, size_t size)
{
    memcpy(trace + length, bytes, size);
    length += size;
}

static void append_piece(size_t i)
{
    append(pool + pieces[i % pooled].start, pieces[i % pooled].size);
}

static void append_tagged(uint8_t kind, uint8_t tag, const uint8_t *s, size_t n)
{
    length += put_tagged(trace + length, kind, tag, s, n);
}

/* These bytes after tag 200, alone: `good` tells whether they are a reading, by how they were made. The plain writer
 * writes them either way. Returns what the house reader says. */
static struct aglimtaq_reading alone(const uint8_t *s, size_t n, int good)
{
    static const struct aglimtaq_record tagged = {AGLIMTAQ_UNKNOWN_META, {TAG, 0, 0}};
    uint8_t plainly[LONGEST + 16];
    struct aglimtaq_position p = AGLIMTAQ_AT(0, now.form);
    struct aglimtaq_reading r;
    length = 0;
    append_tagged(META, TAG, s, n);
    expect("a plain write of tag 200", aglimtaq_write(plainly, length, &p, &tagged, s, n), 0);
    expect("its end", p.at, length);
    expect("its bytes", memcmp(plainly, trace, length) != 0, 0);
    expect("records alone", walk(trace, length, 1), 1);
    p.at = 0;
    r = read_at(0, trace, length, &p);
    expect("the answer", r.answer, good ? AGLIMTAQ_SHOWN : AGLIMTAQ_REFUSED_AT);
    expect("the refusal", r.number, good ? 0 : AGLIMTAQ_NOT_A_GAUGE);
    expect("the type", r.type, good ? 28u + s[0] : 0);
    return r;
}

/* The same bytes among other records, with these and other tags. */
static void among(const uint8_t *s, size_t n)
{
    static size_t turn;
    length = 0;
    append_piece(turn++);
    append_tagged(META, 199, s, n);
    append_tagged(META, TAG, s, n);
    append_piece(turn);
    append_tagged(META, TAG, s, n);
    append_tagged(META, 201, s, n);
    append_tagged(0x04, TAG, s, n);
    expect("records among others", walk(trace, length, 1), 7);
}

static void read_both(const uint8_t *s, size_t n, int good)
{
    among(s, n);
    alone(s, n, good);
}

/* Every sub-kind in every size, and with sub-kind 2 every byte of the lamp, handed to a function together with whether
 * they are a reading. */
static void every_size(void (*hold)(const uint8_t *s, size_t n, int good))
{
    static const size_t sizes[] = {1, 2, 3, 4, 5, 6, 7, 8, 9, 10, 11, 12, 13, 14, 15, 252, 253, 254, LONGEST};
    uint8_t s[LONGEST] = {0};
    now.kind = now.size = now.which = 0;
    hold(s, 0, 0);
    for (now.kind = 0; now.kind < 256; now.kind++)
        for (size_t i = 0; i < COUNT(sizes); i++) {
            const size_t n = sizes[i];
            const unsigned lamps = now.kind == 2 && n > 1 ? 256 : 1;
            for (size_t j = 0; j < n; j++)
                s[j] = (uint8_t)random_number();
            s[0] = (uint8_t)now.kind;
            now.size = (unsigned)n;
            for (now.which = 0; now.which < lamps; now.which++) {
                if (lamps > 1)
                    s[1] = (uint8_t)now.which;
                hold(s, n, now.kind == 2 ? n == 10 && now.which < 2 : now.kind < 2 && n == 11);
            }
        }
}

static const uint64_t values[] = {0, 1, 2, 127, 128, 255, 256, 257, 32767, 32768, 65280, 65534, 65535};
static const uint64_t ticks[] = {0, 1, 255, 256, 0xffffffff, 0x100000000, 0x0102030405060708, 0x7fffffffffffffff,
                                 0x8000000000000000, 0xff00000000000000, UINT64_MAX};

/* The bytes of a reading's fields. The lamp's value has one byte. Returns how many there are. */
static size_t put_fields(uint8_t *to, uint8_t kind, uint64_t value, uint64_t tick)
{
    const size_t width = kind == 2 ? 1 : 2;
    to[0] = kind;
    put_number(to + 1, value, width);
    put_number(to + 1 + width, tick, 8);
    return 1 + width + 8;
}

/* Values and ticks at their borders; each is read as it was put. */
static void borders(void)
{
    uint8_t s[11];
    for (now.kind = 0; now.kind < 3; now.kind++)
        for (now.which = 0; now.which < COUNT(values) * COUNT(ticks); now.which++) {
            const uint64_t value = values[now.which / COUNT(ticks)] % (now.kind == 2 ? 256 : 65536);
            const uint64_t tick = ticks[now.which % COUNT(ticks)];
            const size_t n = put_fields(s, (uint8_t)now.kind, value, tick);
            const int good = now.kind < 2 || value < 2;
            struct aglimtaq_reading r;
            now.size = (unsigned)n;
            among(s, n);
            r = alone(s, n, good);
            expect("the value", r.numbers[0], good ? value : 0);
            expect("the tick", r.numbers[1], good ? tick : 0);
        }
}

/* Frames that are read and not written: other widths, other trailers. */
static void shapes(void)
{
    static const size_t widths[] = {1, 2, 4}, trailers[] = {1, 5};
    uint8_t s[14];
    for (now.kind = 0; now.kind < 5; now.kind++)
        for (size_t n = 1; n < 14; n++)
            for (now.which = 0; now.which < 6; now.which++) {
                memset(s, 0, sizeof s); /* so the lamp is off */
                s[n - 1] = 7; /* the tick's last byte */
                s[0] = (uint8_t)now.kind;
                now.size = (unsigned)n;
                length = 0;
                append_piece(n);
                length += put_shaped(trace + length, META, TAG, s, n, widths[now.which % 3], trailers[now.which / 3]);
                append_piece(now.which);
                expect("records of other shapes", walk(trace, length, 1), 3);
            }
}

/* A reading's bytes in every kind of record, and in Meta with every tag. */
static void kinds_and_tags(void)
{
    uint8_t s[11];
    for (unsigned i = 0; i < 3; i++) {
        const size_t n = put_fields(s, (uint8_t)i, 1, 1000500);
        now.kind = i;
        for (now.which = 0; now.which < 256; now.which++) {
            length = put_tagged(trace, (uint8_t)(now.which / 4 * 4), TAG, s, n);
            append_tagged(META, (uint8_t)now.which, s, n);
            expect("records of every kind and tag", walk(trace, length, 1), 2);
        }
    }
}

/* A trace of all the records above, with house records between them; also cut at every place. */
static void long_trace(void)
{
    uint8_t s[11];
    length = 0;
    for (size_t i = 0; i < pooled; i++) {
        append_piece(i);
        append_tagged(META, TAG, s, put_fields(s, (uint8_t)(i % 4), i % 3, 1000 * i));
    }
    expect("records of a long trace", walk(trace, length, 1), 2 * pooled);
    for (size_t i = FROM_ENDS; i < COUNT(foreign); i++) {
        append(foreign[i].bytes, foreign[i].size);
        append_tagged(META, TAG, s, put_fields(s, (uint8_t)(i % 4), i % 3, 1000 * i));
    }
    everywhere(trace, length);
    for (now.which = 0; now.which <= length; now.which++)
        walk(trace, now.which, 0);
}

/* A position that no call may have left. */
static struct aglimtaq_position made_up(size_t around)
{
    static const uint64_t odd[] = {0, 1, 2, 3, 4, 5, 255, 256, 0xffffffff, 0x100000000, UINT64_MAX - 1, UINT64_MAX};
    struct aglimtaq_position p = {below(around + 3), now.form, 0, 0, 0, 0};
    if (below(8) == 0)
        p.at = odd[below(COUNT(odd))];
    if (below(8) == 0)
        p.form = odd[below(COUNT(odd))];
    if (below(3) == 0) {
        p.pending = odd[below(COUNT(odd))];
        p.start = below(4) == 0 ? odd[below(COUNT(odd))] : below(around + 3);
        p.stated = odd[below(COUNT(odd))];
        p.filled = odd[below(COUNT(odd))];
    }
    return p;
}

/* Bytes of any kind, half of them such as house records have; and a piece of the long trace with one byte altered. */
static void hostile(void)
{
    static const uint8_t usual[] = {0x31, 0x32, 0x33, 0x0d, 0x0c, 0xc8, 0, 1, 2, 0x0e, 0x0d, 12, 11, 10, 0x30, 3, 5};
    static uint8_t whole[MOST];
    const size_t all = length;
    memcpy(whole, trace, all);
    for (now.which = 0; now.which < 3000; now.which++) {
        const size_t lent = below(60), from = below(all - 60);
        for (size_t i = 0; i < lent; i++)
            trace[i] = below(2) ? usual[below(COUNT(usual))] : (uint8_t)random_number();
        if (now.which % 2) {
            memcpy(trace, whole + from, lent);
            trace[below(60)] = usual[below(COUNT(usual))];
        }
        everywhere(trace, lent);
        for (unsigned i = 0; i < 20; i++) {
            struct aglimtaq_position p = made_up(lent), q = p;
            read_at(0, trace, lent, &p);
            read_at(1, trace, lent, &q);
        }
    }
}

/* What a house write of these bytes must say. */
static uint64_t rule_of(const struct aglimtaq_position *p, size_t room, const uint8_t *s, size_t n)
{
    struct aglimtaq_record gauge;
    if (p->form >= FORMS)
        return AGLIMTAQ_NOT_A_FORM;
    if (p->pending != 0)
        return AGLIMTAQ_RECORD_OPEN;
    if (p->at > room)
        return AGLIMTAQ_BEYOND_END;
    if (!gauge_of(s, n, &gauge))
        return AGLIMTAQ_NOT_A_GAUGE;
    return room - p->at < n + 4 ? AGLIMTAQ_NO_ROOM : 0;
}

/* What a house write of these fields must say. Their bytes are made here; they are 0 where there are none. */
static uint64_t rule_of_gauge(const struct aglimtaq_position *p, size_t room, const struct aglimtaq_record *g,
                              uint8_t *s, size_t *n)
{
    const int lamp = g->type == AGLIMTAQ_RESERVE_LAMP;
    *n = 0;
    if (p->form >= FORMS)
        return AGLIMTAQ_NOT_A_FORM;
    if (!lamp && g->type != AGLIMTAQ_FUEL && g->type != AGLIMTAQ_DISTANCE_LEFT)
        return AGLIMTAQ_NOT_A_RECORD;
    if (g->numbers[0] > (lamp ? 255 : 65535))
        return AGLIMTAQ_NOT_A_RECORD;
    *n = put_fields(s, (uint8_t)(g->type - AGLIMTAQ_FUEL), g->numbers[0], g->numbers[1]);
    return rule_of(p, room, s, *n);
}

/* After a write of these bytes by one of the writers: what it said, the position, and all bytes of the output. */
static void written(int which, uint64_t is, uint64_t should, const struct aglimtaq_position *before,
                    const struct aglimtaq_position *after, size_t room, const uint8_t *s, size_t n)
{
    struct aglimtaq_position next = *before, p = *before;
    struct aglimtaq_reading r;
    expect(which ? "a write of a gauge" : "a house write", is, should);
    said[which][should] = 1;
    if (should == 0)
        next.at += put_tagged(due + AROUND + before->at, META, TAG, s, n);
    same_position("the position after a house write", after, &next);
    expect("bytes after a house write", memcmp(out, due, sizeof out) != 0, 0);
    if (should != 0)
        return;
    r = read_at(0, out + AROUND, room, &p);
    expect("what was written is shown", r.answer, AGLIMTAQ_SHOWN);
    expect("what was written, its type", r.type, 28u + s[0]);
    r = read_at(1, out + AROUND, room, &p);
    expect("what was written is shown backwards", r.answer, AGLIMTAQ_SHOWN);
    memcpy(out, due, sizeof out);
}

/* One write of bytes. */
static void hold_write(const struct aglimtaq_position *p, size_t room, const uint8_t *s, size_t n)
{
    struct aglimtaq_position moved = *p;
    uint64_t is;
    now.size = (unsigned)n;
    memset(out, 0xee, sizeof out);
    memset(due, 0xee, sizeof due);
    is = aglimtaq_house_write(out + AROUND, room, &moved, s, n);
    written(0, is, rule_of(p, room, s, n), p, &moved, room, s, n);
}

/* One write of fields; and where they have bytes, of these. */
static void hold_gauge(const struct aglimtaq_position *p, size_t room, const struct aglimtaq_record *g)
{
    struct aglimtaq_position moved = *p;
    uint8_t s[11];
    size_t n;
    const uint64_t should = rule_of_gauge(p, room, g, s, &n);
    uint64_t is;
    memset(out, 0xee, sizeof out);
    memset(due, 0xee, sizeof due);
    is = aglimtaq_house_write_gauge(out + AROUND, room, &moved, g);
    written(1, is, should, p, &moved, room, s, n);
    if (n > 0)
        hold_write(p, room, s, n);
}

/* A write of these bytes where the room is enough, and where it is one byte short of a reading. */
static void write_both(const uint8_t *s, size_t n, int good)
{
    const struct aglimtaq_position p = AGLIMTAQ_AT(3, now.form);
    const size_t room = n < 40 ? 3 + n + 4 : ROOM;
    expect("the rule for a write", rule_of(&p, room, s, n), good ? 0 : AGLIMTAQ_NOT_A_GAUGE);
    expect("the rule without room", rule_of(&p, room - 1, s, n), good ? AGLIMTAQ_NO_ROOM : AGLIMTAQ_NOT_A_GAUGE);
    hold_write(&p, room, s, n);
    hold_write(&p, room - 1, s, n);
}

/* The bytes of writes: readings, and what is none. */
static const struct { const char *bytes; size_t size; } after_tags[] = {
    {FUEL_BYTES, 11}, {"\1\xc4\0\x34\x44\x0f\0\0\0\0\0", 11}, {"\2\0\x34\x44\x0f\0\0\0\0\0", 10},
    {"\2\1\x34\x44\x0f\0\0\0\0\0", 10}, {"\2\2\x34\x44\x0f\0\0\0\0\0", 10}, {"\2\xff\x34\x44\x0f\0\0\0\0\0", 10},
    {"\3\0\0\0\0\0\0\0\0\0\0", 11}, {"\0\0\0\0\0\0\0\0\0\0", 10}, {"\1\0\0\0\0\0\0\0\0\0\0\0", 12},
    {"\2\0\0\0\0\0\0\0\0\0\0", 11}, {"\2\0\0\0\0\0\0\0\0", 9}, {"", 0}, {"\xc8", 1},
};

/* Fields of writes; numbers that do not fit among them. The last number is ignored. */
static const struct aglimtaq_record gauges[] = {
    {AGLIMTAQ_FUEL, {98, 1000500, 7}}, {AGLIMTAQ_FUEL, {65535, UINT64_MAX, 0}}, {AGLIMTAQ_FUEL, {65536, 0, 0}},
    {AGLIMTAQ_DISTANCE_LEFT, {196, 1000500, 0}}, {AGLIMTAQ_DISTANCE_LEFT, {65535, 1, UINT64_MAX}},
    {AGLIMTAQ_DISTANCE_LEFT, {65536, 1, 0}}, {AGLIMTAQ_DISTANCE_LEFT, {0x100000000, 1, 0}},
    {AGLIMTAQ_RESERVE_LAMP, {0, 1000500, 0}}, {AGLIMTAQ_RESERVE_LAMP, {1, 0x0102030405060708, 0}},
    {AGLIMTAQ_RESERVE_LAMP, {2, 1, 0}}, {AGLIMTAQ_RESERVE_LAMP, {255, 1, 0}}, {AGLIMTAQ_RESERVE_LAMP, {256, 1, 0}},
    {AGLIMTAQ_RESERVE_LAMP, {257, 1, 0}}, {AGLIMTAQ_RESERVE_LAMP, {0x100000001, 1, 0}},
    {AGLIMTAQ_NO_TYPE, {0, 0, 0}}, {AGLIMTAQ_UNKNOWN_META, {TAG, 1, 0}}, {AGLIMTAQ_MEM_WRITE, {1, 1, 0}},
    {31, {1, 1, 0}}, {256 + AGLIMTAQ_FUEL, {1, 1, 0}}, {0x100000000 + AGLIMTAQ_FUEL, {1, 1, 0}},
    {UINT64_MAX, {1, 1, 0}},
};

/* All of these at one position and in every room. */
static void write_at(const struct aglimtaq_position *p)
{
    for (size_t room = 0; room < 34; room++) {
        for (size_t i = 0; i < COUNT(after_tags); i++)
            hold_write(p, room, (const uint8_t *)after_tags[i].bytes, after_tags[i].size);
        for (size_t i = 0; i < COUNT(gauges); i++) {
            now.kind = (unsigned)i;
            hold_gauge(p, room, &gauges[i]);
        }
    }
}

/* The writers at every position about the room's end and far beyond it, with a record open and without, and in forms
 * that are none. So each two reasons meet. */
static void writes(void)
{
    static const uint64_t ats[] = {0, 1, 2, 17, 18, 19, 20, 33, 34, 0x100000000, UINT64_MAX - 13, UINT64_MAX};
    static const uint64_t open[] = {0, 1, 256, 0x100000000, UINT64_MAX};
    static const uint64_t not_forms[] = {4, 256, 0x100000000, UINT64_MAX};
    const uint64_t form = now.form;
    for (size_t i = 0; i < COUNT(ats); i++)
        for (size_t j = 0; j < COUNT(open); j++) {
            struct aglimtaq_position p = {ats[i], form, open[j], 3, 5, 2};
            now.which = (unsigned)(i * COUNT(open) + j);
            write_at(&p);
            p.form = not_forms[(i + j) % COUNT(not_forms)];
            write_at(&p);
        }
}

/* Every value of the lamp, values about the borders, and made-up positions. */
static void more_writes(void)
{
    for (now.which = 0; now.which < 20000; now.which++) {
        const struct aglimtaq_position here = AGLIMTAQ_AT(5, now.form), p = now.which % 4 ? made_up(ROOM) : here;
        struct aglimtaq_record g = {AGLIMTAQ_FUEL + below(3), {values[below(COUNT(values))], 0, random_number()}};
        uint8_t s[14];
        const size_t n = below(COUNT(s) + 1);
        g.numbers[0] += below(4) == 0 ? below(600) : 0;
        g.numbers[1] = below(2) ? ticks[below(COUNT(ticks))] : random_number();
        if (below(16) == 0)
            g.type += below(5) - 2;
        now.kind = (unsigned)g.type;
        hold_gauge(&p, now.which % 3 ? ROOM : below(ROOM + 1), &g);
        for (size_t i = 0; i < n; i++)
            s[i] = (uint8_t)random_number();
        if (n > 0)
            s[0] = (uint8_t)below(4);
        hold_write(&p, ROOM, s, n);
    }
    for (unsigned lamp = 0; lamp < 512; lamp++) {
        const struct aglimtaq_position p = AGLIMTAQ_AT(0, now.form);
        const struct aglimtaq_record g = {AGLIMTAQ_RESERVE_LAMP, {lamp, 1000500, 0}};
        now.which = lamp;
        hold_gauge(&p, 14, &g);
    }
}

/* The two writers have said all that they can say. */
static void said_all(void)
{
    static const uint64_t both[] = {0, 8, 9, 15, 18, 257};
    for (now.which = 0; now.which < COUNT(both); now.which++)
        for (int i = 0; i < 2; i++)
            expect("a number that was said", said[i][both[now.which]], 1);
    expect("not a record", said[1][256], 1);
    expect("not a record, of bytes", said[0][256], 0);
}

/* Records made by hand: fuel 9.8 litres, 278 kilometres left, the lamp on; then the lamp as 2. */
static void by_hand(void)
{
    static const uint8_t bytes[] = FUEL_RECORD "\x31\x0d\xc8\x01\x16\x01\xec\x32\x7c\0\0\0\0\0\x0e"
                                               "\x31\x0c\xc8\x02\x01\xb8\x24\x64\0\0\0\0\0\x0d"
                                               "\x31\x0c\xc8\x02\x02\xb8\x24\x64\0\0\0\0\0\x0d";
    static const struct aglimtaq_reading due_readings[] = {
        {0, 0, 0, 15, 28, {98, 1000500, 0}, 0, 0},
        {0, 0, 15, 30, 29, {278, 8139500, 0}, 0, 0},
        {0, 0, 30, 44, 30, {1, 6563000, 0}, 0, 0},
        {1, 15, 44, 58, 0, {0, 0, 0}, 0, 0},
        {3, 0, 0, 0, 0, {0, 0, 0}, 0, 0},
    };
    struct aglimtaq_position p = AGLIMTAQ_AT(0, now.form), q = p;
    struct aglimtaq_reading r;
    for (now.which = 0; now.which < COUNT(due_readings); now.which++) {
        const struct aglimtaq_reading *const d = &due_readings[now.which];
        const struct aglimtaq_record g = {d->type, {d->numbers[0], d->numbers[1], 0}};
        aglimtaq_house_next(bytes, sizeof bytes - 1, &p, &r);
        same_reading("read by hand", &r, d);
        expect("the position by hand", p.at, d->answer < 2 ? d->end : 58);
        if (d->answer == 0)
            expect("written by hand", aglimtaq_house_write_gauge(trace, d->end, &q, &g), 0);
    }
    expect("bytes by hand", q.at == 44 && memcmp(trace, bytes, 44) == 0, 1);
}

int main(void)
{
    for (now.form = 0; now.form < FORMS; now.form++) {
        by_hand();
        fill_pool();
        every_size(read_both);
        borders();
        shapes();
        kinds_and_tags();
        long_trace();
        hostile();
        every_size(write_both);
        writes();
        more_writes();
    }
    said_all();
    printf("ok\n");
    return 0;
}

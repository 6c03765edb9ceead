/* Work for counting instructions through include/trace.h: a mix of records is written, and their trace is read in each
 * way. Each workload of docs/SPEED.md is one function, named after it. Takes the address form as a digit. Prints how
 * many records there are. */
#include "trace.h"

#include <stdio.h>
#include <string.h>

enum { RECORDS = 20000, ROOM = 1 << 20, LONGEST = 15 };

static uint64_t form;
static uint8_t out[ROOM];
static uint64_t length;
static uint8_t given[64];
static struct aglimtaq_record records[RECORDS];
static size_t sizes[RECORDS];

/* The same records as one list, and what was written of them one by one. */
static struct aglimtaq_call calls[RECORDS];
static uint8_t slices[RECORDS * LONGEST];
static size_t taken;
static uint8_t one_by_one[ROOM];

/* Names that are not all ASCII: each has one character of two bytes, at an offset of its own. */
static uint8_t others[31][32];

/* Numbers that look random and are the same in every run. */
static uint32_t next_number(void)
{
    static uint32_t state = 1;
    state = state * 1664525u + 1013904223u;
    return state >> 16;
}

/* Instructions of 2 to 15 bytes, registers, memory of 1 to 8 bytes, and now and then a record that holds numbers. */
static void make(int i)
{
    static const uint64_t types[8] = {AGLIMTAQ_INSTRUCTION, AGLIMTAQ_INSTRUCTION, AGLIMTAQ_INSTRUCTION,
                                      AGLIMTAQ_INSTRUCTION, AGLIMTAQ_REG_WRITE,   AGLIMTAQ_REG_READ,
                                      AGLIMTAQ_MEM_READ,    AGLIMTAQ_MEM_WRITE};
    uint64_t type = next_number() % 16 == 0 ? AGLIMTAQ_INSTRUCTION_COUNT : types[next_number() % 8];
    records[i].type = type;
    records[i].numbers[0] = next_number();
    sizes[i] = type == AGLIMTAQ_INSTRUCTION                                     ? 2 + next_number() % 14
               : type == AGLIMTAQ_MEM_READ || type == AGLIMTAQ_MEM_WRITE ? (size_t)1 << next_number() % 4
                                                                                 : 8;
}

/* Adds a record to the list. */
static void list(int i)
{
    calls[i].type = records[i].type;
    memcpy(calls[i].numbers, records[i].numbers, sizeof calls[i].numbers);
    calls[i].length = sizes[i];
    memcpy(slices + taken, given, sizes[i]);
    taken += sizes[i];
}

__attribute__((noinline)) int work_c(void)
{
    struct aglimtaq_position position = AGLIMTAQ_AT(0, form);
    for (int i = 0; i < RECORDS; i++)
        if (aglimtaq_write(out, ROOM, &position, &records[i], given, sizes[i]) != 0)
            return 0;
    length = position.at;
    return 1;
}

__attribute__((noinline)) int work_a(void)
{
    uint64_t end;
    return aglimtaq_count(out, length, &end) == RECORDS && end == length;
}

__attribute__((noinline)) int work_b(void)
{
    uint64_t counts[8], kinds[64];
    struct aglimtaq_end end;
    aglimtaq_walk(out, length, form, counts, kinds, &end);
    return counts[0] == RECORDS && end.position == length;
}

__attribute__((noinline)) int work_d(void)
{
    uint64_t counts[8], kinds[64];
    struct aglimtaq_end end;
    aglimtaq_walk_back(out, length, form, counts, kinds, &end);
    return counts[0] == RECORDS && end.position == 0;
}

__attribute__((noinline)) int work_e(void)
{
    int names = 0;
    for (int i = 0; i < RECORDS; i++)
        names += (int)aglimtaq_is_utf8(given + i % 32, 32);
    return names == RECORDS;
}

__attribute__((noinline)) int work_e_few(void)
{
    int names = 0;
    for (int i = 0; i < RECORDS; i++)
        names += (int)aglimtaq_is_utf8(others[i % 31], 32);
    return names == RECORDS;
}

__attribute__((noinline)) int work_f(void)
{
    struct aglimtaq_position position = AGLIMTAQ_AT(0, form);
    struct aglimtaq_reading r;
    int shown = -1;
    do {
        aglimtaq_read_next(out, length, &position, &r);
        shown++;
    } while (r.answer == AGLIMTAQ_SHOWN);
    return shown == RECORDS && r.answer == AGLIMTAQ_FINISHED;
}

__attribute__((noinline)) int work_i(void)
{
    struct aglimtaq_position position = AGLIMTAQ_AT(0, form);
    struct aglimtaq_reading r;
    int shown = -1;
    do {
        aglimtaq_house_next(out, length, &position, &r);
        shown++;
    } while (r.answer == AGLIMTAQ_SHOWN);
    return shown == RECORDS && r.answer == AGLIMTAQ_FINISHED;
}

__attribute__((noinline)) int work_g(void)
{
    struct aglimtaq_position position = AGLIMTAQ_AT(0, form);
    struct aglimtaq_all all;
    return aglimtaq_write_all(out, ROOM, &position, calls, RECORDS, slices, taken, &all) == 0 &&
           all.records == RECORDS && position.at == length && all.bytes == taken;
}

/* Writes the list where nothing is written yet: it must leave what the calls one by one left. */
static int same_by_list(void)
{
    memcpy(one_by_one, out, sizeof out);
    memset(out, 0, sizeof out);
    return work_g() && memcmp(one_by_one, out, sizeof out) == 0;
}

int main(int argc, char **argv)
{
    if (argc != 2 || argv[1][0] < '0' || argv[1][0] > '3') {
        fprintf(stderr, "usage: speed 0|1|2|3\n");
        return 2;
    }
    form = (uint64_t)(argv[1][0] - '0');
    for (int i = 0; i < 64; i++)
        given[i] = (uint8_t)('a' + i % 26);
    for (int i = 0; i < 31; i++) {
        memset(others[i], 'a', 32);
        memcpy(others[i] + i, "\xc3\xa9", 2);
    }
    for (int i = 0; i < RECORDS; i++) {
        make(i);
        list(i);
    }
    if (!work_c() || !work_a() || !work_b() || !work_d() || !work_e() || !work_e_few() || !work_f() ||
        !work_i() || !same_by_list()) {
        fprintf(stderr, "the records are not all written, read or counted\n");
        return 1;
    }
    printf("%d\n", RECORDS);
    return 0;
}

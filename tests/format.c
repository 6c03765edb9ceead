/* Writes each example of docs/FORMAT.md and its trace 'small' through include/trace.h, and prints their names
 * and bytes. */
#include "trace.h"

#include <stdio.h>
#include <string.h>

static uint8_t out[70000];
static uint8_t filled[70000];

static void print_bytes(const char *name, uint64_t length)
{
    printf("%s: ", name);
    for (uint64_t i = 0; i < length; i++)
        printf("%02x", (unsigned)out[i]);
    printf("\n");
}

/* Writes a record at an offset of the output, and returns the offset after it. Prints a refusal. */
static uint64_t put_in(uint64_t form, uint64_t at, uint64_t type, uint64_t first, uint64_t second, const void *bytes,
                       size_t length)
{
    struct aglimtaq_record record = {type, {first, second, 0}};
    struct aglimtaq_position position = AGLIMTAQ_AT(at, form);
    uint64_t answer = aglimtaq_write(out, sizeof out, &position, &record, bytes, length);
    if (answer != 0)
        printf("type %llu refused with %llu\n", (unsigned long long)type, (unsigned long long)answer);
    return position.at;
}

static uint64_t put(uint64_t at, uint64_t type, uint64_t first, uint64_t second, const void *bytes, size_t length)
{
    return put_in(AGLIMTAQ_LE64, at, type, first, second, bytes, length);
}

static void example(const char *name, uint64_t type, uint64_t first, uint64_t second, const void *bytes,
                    size_t length)
{
    print_bytes(name, put(0, type, first, second, bytes, length));
}

/* A house reading at tick 258. */
static void gauge(const char *name, uint64_t type, uint64_t value)
{
    const struct aglimtaq_record record = {type, {value, 258, 0}};
    struct aglimtaq_position position = AGLIMTAQ_AT(0, AGLIMTAQ_LE64);
    if (aglimtaq_house_write_gauge(out, sizeof out, &position, &record) != 0)
        printf("type %llu refused\n", (unsigned long long)type);
    print_bytes(name, position.at);
}

/* An Instruction whose content has `length` bytes, eight of them the address. */
static void content_of(const char *name, size_t length)
{
    example(name, AGLIMTAQ_INSTRUCTION, 0x1000, 0, filled, length - 8);
}

/* The record of an unknown kind is not written by the codec. */
static void small_trace(void)
{
    uint64_t at = put(0, AGLIMTAQ_MAGIC, 0, 0, "", 0);
    at = put(at, AGLIMTAQ_REGISTER_NAME_MAP, 2, 0, "\0\0\2r0\1\0\2pc", 10);
    at = put(at, AGLIMTAQ_THREAD_ID, 5, 0, "", 0);
    at = put(at, AGLIMTAQ_PC, 0x1000, 0, "", 0);
    at = put(at, AGLIMTAQ_INSTRUCTION, 0x1000, 0, "\1!", 2);
    at = put(at, AGLIMTAQ_REG_WRITE_NATIVE, 0, 0, "\1\0\0\0", 4);
    at = put(at, AGLIMTAQ_MEM_WRITE, 0x2000, 0, "", 0);
    memcpy(out + at, "\x09\x02\xaa\x03", 4);
    print_bytes("small", put(at + 4, AGLIMTAQ_INTERRUPT, 3, 258, "", 0));
}

int main(void)
{
    memset(filled, 0x90, sizeof filled);
    example("magic", AGLIMTAQ_MAGIC, 0, 0, "", 0);
    example("instruction", AGLIMTAQ_INSTRUCTION, 0x1000, 0, "", 0);
    print_bytes("instruction-be64", put_in(AGLIMTAQ_BE64, 0, AGLIMTAQ_INSTRUCTION, 0x1000, 0, "", 0));
    print_bytes("instruction-le32", put_in(AGLIMTAQ_LE32, 0, AGLIMTAQ_INSTRUCTION, 0x1000, 0, "", 0));
    print_bytes("instruction-be32", put_in(AGLIMTAQ_BE32, 0, AGLIMTAQ_INSTRUCTION, 0x1000, 0, "", 0));
    print_bytes("unmap-be32", put_in(AGLIMTAQ_BE32, 0, AGLIMTAQ_UNMAP, 0x2000, 0x100, "", 0));
    example("interrupt", AGLIMTAQ_INTERRUPT, 3, 258, "", 0);
    example("map", AGLIMTAQ_MAP, 0x2000, 0, "", 0);
    example("call-begin", AGLIMTAQ_CALL_BEGIN, 0x1000, 0, "\xe2\x82\xac", 3);
    example("register-name-map", AGLIMTAQ_REGISTER_NAME_MAP, 2, 0, "\0\0\2r0\1\0\2pc", 10);
    example("reg-write-native", AGLIMTAQ_REG_WRITE_NATIVE, 1, 0, "\2\x10\0\0", 4);
    example("reg-write", AGLIMTAQ_REG_WRITE, 1, 0, "\2\x10\0\0", 4);
    gauge("fuel", AGLIMTAQ_FUEL, 98);
    gauge("distance-left", AGLIMTAQ_DISTANCE_LEFT, 196);
    gauge("reserve-lamp", AGLIMTAQ_RESERVE_LAMP, 1);
    content_of("content-253", 253);
    content_of("content-254", 254);
    content_of("content-65530", 65530);
    content_of("content-65531", 65531);
    small_trace();
    return 0;
}

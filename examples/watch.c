/* Reads a trace while a record of it is still being written. One side records, and opens a MEM_WRITE of which the bytes
 * come in three portions. The other side reads after each step, with a copy of the recorder's position.
 *
 * From the repository's folder, after `tools/build trace_c_c`:
 *
 *     cc -Iinclude examples/watch.c target/staticlib/libtrace_c.a -o watch && ./watch
 *
 * It prints what stands in examples/watch.txt. */
#include "trace.h"

#include <stdio.h>
#include <stdlib.h>

static uint8_t trace[64]; /* both sides have it */

static void show(const struct aglimtaq_reading *r)
{
    printf("  %2llu to %2llu: ", (unsigned long long)r->start, (unsigned long long)r->end);
    if (r->type == AGLIMTAQ_MEM_WRITE)
        printf("MEM_WRITE at %llx: \"%.*s\"\n", (unsigned long long)r->numbers[0], (int)(r->bytes_end - r->bytes_start),
               (const char *)trace + r->bytes_start);
    else if (r->type == AGLIMTAQ_PC)
        printf("PC %llx\n", (unsigned long long)r->numbers[0]);
    else
        printf("%s\n", r->type == AGLIMTAQ_MAGIC ? "Magic" : "another record");
}

/* The side that reads: all records that are closed, from the first one on. `position` is a copy of the recorder's. */
static void watch(const char *step, struct aglimtaq_position position)
{
    /* With a record open the position tells where to stop. Otherwise the trace ends at the position. */
    size_t length = position.pending != 0 ? sizeof trace : position.at;
    struct aglimtaq_reading r;
    printf("%s:\n", step);
    position.at = 0;
    for (;;) {
        aglimtaq_read_next(trace, length, &position, &r);
        if (r.answer != AGLIMTAQ_SHOWN)
            break;
        show(&r);
    }
    printf("  %s at %llu\n", r.answer == AGLIMTAQ_FINISHED ? "finished" : "something else",
           (unsigned long long)position.at);
}

/* Ends the program where a call was refused. */
static void accepted(uint64_t refused)
{
    if (refused != 0) {
        printf("refused with %llu\n", (unsigned long long)refused);
        exit(1);
    }
}

/* The side that records. */
int main(void)
{
    static const struct aglimtaq_record magic = {AGLIMTAQ_MAGIC, {0}}, pc = {AGLIMTAQ_PC, {0x1000}};
    static const uint8_t bytes[] = "FUEL 42 l";
    struct aglimtaq_position position = AGLIMTAQ_AT(0, AGLIMTAQ_LE64);

    accepted(aglimtaq_write(trace, sizeof trace, &position, &magic, bytes, 0));
    watch("Magic is written", position);

    accepted(aglimtaq_begin(trace, sizeof trace, &position, 0x20001000, 9));
    watch("A MEM_WRITE of nine bytes is opened", position);
    accepted(aglimtaq_portion(trace, sizeof trace, &position, bytes, 4));
    watch("Four bytes are added", position);
    accepted(aglimtaq_portion(trace, sizeof trace, &position, bytes + 4, 3));
    watch("Three more", position);
    accepted(aglimtaq_portion(trace, sizeof trace, &position, bytes + 7, 2));
    watch("The last two", position);
    accepted(aglimtaq_close(trace, sizeof trace, &position));
    watch("The MEM_WRITE is closed", position);

    accepted(aglimtaq_write(trace, sizeof trace, &position, &pc, bytes, 0));
    watch("A PC is written", position);
    return 0;
}

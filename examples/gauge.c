/* Lists what the gauges of a motorcycle show in a trace, one line for each house record: the tick, and the fuel, the
 * distance left or the reserve lamp. Other records are passed over. The addresses of the trace are in LE64.
 *
 * From the repository's folder, after `tools/build trace_c_c`:
 *
 *     cc -Iinclude examples/gauge.c target/staticlib/libtrace_c.a -o gauge && ./gauge samples/ride.trace
 *
 * It prints what stands in examples/gauge.txt. */
#include "trace.h"

#include <stdio.h>

static uint8_t trace[1 << 20]; /* of a longer file its beginning */

/* A record that is shown. Returns 1 where it is a house record. */
static unsigned show(const struct aglimtaq_reading *r)
{
    const unsigned value = (unsigned)r->numbers[0];
    if (r->type != AGLIMTAQ_FUEL && r->type != AGLIMTAQ_DISTANCE_LEFT && r->type != AGLIMTAQ_RESERVE_LAMP)
        return 0;
    printf("%10llu  ", (unsigned long long)r->numbers[1]);
    if (r->type == AGLIMTAQ_FUEL)
        printf("fuel %u.%u l\n", value / 10, value % 10);
    else if (r->type == AGLIMTAQ_DISTANCE_LEFT)
        printf("distance left %u km\n", value);
    else
        printf("reserve lamp %s\n", value == 1 ? "on" : "off");
    return 1;
}

/* A record that is refused. Returns 1 where its tag is that of house records. */
static unsigned refuse(const struct aglimtaq_reading *r)
{
    if (r->number != AGLIMTAQ_NOT_A_GAUGE)
        return 0;
    printf("bytes %llu to %llu: not a reading of a gauge\n", (unsigned long long)r->start, (unsigned long long)r->end);
    return 1;
}

int main(int argc, char **argv)
{
    FILE *file = argc == 2 ? fopen(argv[1], "rb") : NULL;
    struct aglimtaq_position position = AGLIMTAQ_AT(0, AGLIMTAQ_LE64);
    struct aglimtaq_reading r;
    unsigned shown = 0, refused = 0;
    size_t length;
    if (file == NULL) {
        fprintf(stderr, "usage: gauge FILE\n");
        return 2;
    }
    length = fread(trace, 1, sizeof trace, file);
    fclose(file);
    for (;;) {
        aglimtaq_house_next(trace, length, &position, &r);
        if (r.answer == AGLIMTAQ_SHOWN)
            shown += show(&r);
        else if (r.answer == AGLIMTAQ_REFUSED_AT)
            refused += refuse(&r);
        else
            break;
    }
    printf("%u readings, %u refused\n", shown, refused);
    if (r.answer == AGLIMTAQ_UNFINISHED)
        printf("the last record is unfinished\n");
    return 0;
}

/* Lists a trace backwards through include/trace.h, as samples/list.py --back does. Each record that is framed is read
 * forwards again: the reading and the position must be the same. */
#include "trace.h"

#include <stdio.h>
#include <string.h>

static uint8_t bytes[65536];

/* Whether read_next, at the position that a reading left, gives the same reading and leaves the position before it. */
static int also_forwards(size_t length, struct aglimtaq_position before, struct aglimtaq_position left,
                         const struct aglimtaq_reading *r)
{
    struct aglimtaq_reading again;
    aglimtaq_read_next(bytes, length, &left, &again);
    return left.at == before.at && left.form == before.form && memcmp(r, &again, sizeof again) == 0;
}

int main(int argc, char **argv)
{
    FILE *file = argc == 2 ? fopen(argv[1], "rb") : NULL;
    if (file == NULL) {
        fprintf(stderr, "usage: list_back FILE\n");
        return 2;
    }
    size_t length = fread(bytes, 1, sizeof bytes, file);
    fclose(file);

    struct aglimtaq_position position = AGLIMTAQ_AT(length, AGLIMTAQ_LE64);
    struct aglimtaq_reading r;
    for (;;) {
        struct aglimtaq_position before = position;
        aglimtaq_read_previous(bytes, length, &position, &r);
        if (r.answer != AGLIMTAQ_SHOWN && r.answer != AGLIMTAQ_REFUSED_AT)
            break;
        if (!also_forwards(length, before, position, &r)) {
            fprintf(stderr, "the record at %llu is not there forwards\n", (unsigned long long)r.start);
            return 1;
        }
        printf("%llu %llu %02x %llu\n", (unsigned long long)r.start, (unsigned long long)(r.end - r.start),
               bytes[r.start] & 0xfcu, (unsigned long long)r.number);
    }
    if (r.answer == AGLIMTAQ_FINISHED)
        printf("end %llu\n", (unsigned long long)position.at);
    else
        printf("refused %llu %llu\n", (unsigned long long)position.at, (unsigned long long)r.number);
    return 0;
}

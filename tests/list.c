/* Lists a trace through include/trace.h, as tracelist does; and what the first register list names. */
#include "trace.h"

#include <stdio.h>

static uint8_t bytes[65536];

static void list_names(const uint8_t *list, size_t length)
{
    struct aglimtaq_entry entry;
    size_t at = 0;
    while (aglimtaq_next_name(list, length, at, &entry)) {
        printf("register %llu %.*s\n", (unsigned long long)entry.number,
               (int)(entry.name_end - entry.name_start), (const char *)list + entry.name_start);
        at = entry.next;
    }
}

static int list_record(const struct aglimtaq_reading *r)
{
    uint64_t number = r->answer == AGLIMTAQ_SHOWN ? 0 : r->number;
    printf("%llu %llu %02x %llu\n", (unsigned long long)r->start, (unsigned long long)(r->end - r->start),
           bytes[r->start] & 0xfcu, (unsigned long long)number);
    return r->answer == AGLIMTAQ_SHOWN && r->type == AGLIMTAQ_REGISTER_NAME_MAP;
}

int main(int argc, char **argv)
{
    FILE *file = argc == 2 ? fopen(argv[1], "rb") : NULL;
    if (file == NULL) {
        fprintf(stderr, "usage: list FILE\n");
        return 2;
    }
    size_t length = fread(bytes, 1, sizeof bytes, file);
    fclose(file);

    struct aglimtaq_position position = AGLIMTAQ_AT(0, AGLIMTAQ_LE64);
    struct aglimtaq_reading r;
    struct aglimtaq_part names = {0, 0};
    for (;;) {
        aglimtaq_read_next(bytes, length, &position, &r);
        if (r.answer != AGLIMTAQ_SHOWN && r.answer != AGLIMTAQ_REFUSED_AT)
            break;
        if (list_record(&r)) {
            names.start = r.bytes_start;
            names.end = r.bytes_end;
        }
    }
    if (r.answer == AGLIMTAQ_FINISHED)
        printf("end %llu\n", (unsigned long long)position.at);
    else
        printf("unfinished %llu %llu\n", (unsigned long long)position.at, (unsigned long long)r.number);
    list_names(bytes + names.start, names.end - names.start);
    return 0;
}

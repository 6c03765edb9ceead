/* Walks over a trace through include/trace.h, forwards and backwards, in each of the four forms, and compares what one
 * call counts with the sum of calls for single records. Prints how many records are shown and refused in the first. */
#include "trace.h"

#include <stdio.h>
#include <string.h>

struct whole {
    uint64_t counts[8];
    uint64_t sizes[64];
    struct aglimtaq_end end;
};

typedef void reader(const uint8_t *, size_t, struct aglimtaq_position *, struct aglimtaq_reading *);
typedef void walker(const uint8_t *, size_t, uint64_t, uint64_t *, uint64_t *, struct aglimtaq_end *);

static uint8_t bytes[65536];

static struct whole added(size_t length, struct aglimtaq_position position, reader *read)
{
    struct whole w;
    struct aglimtaq_reading r;
    memset(&w, 0, sizeof w);
    for (;;) {
        read(bytes, length, &position, &r);
        if (r.answer != AGLIMTAQ_SHOWN && r.answer != AGLIMTAQ_REFUSED_AT)
            break;
        w.counts[r.number] += 1;
        w.sizes[bytes[r.start] >> 2] += r.end - r.start;
    }
    w.end.position = position.at;
    w.end.wanted = r.answer == AGLIMTAQ_UNFINISHED ? r.number : 0;
    w.end.refused = r.answer == AGLIMTAQ_REFUSED ? r.number : 0;
    return w;
}

static int same(size_t length, struct aglimtaq_position from, reader *read, walker *walk, struct whole *w)
{
    struct whole expected = added(length, from, read);
    memset(w, 0xa5, sizeof *w);
    walk(bytes, length, from.form, w->counts, w->sizes, &w->end);
    return memcmp(&expected, w, sizeof *w) == 0;
}

/* Both walks in one form; 1, and how many records are framed and shown, where they count what they should. */
static int walked(size_t length, uint64_t form, uint64_t *framed, uint64_t *shown)
{
    struct aglimtaq_position from = AGLIMTAQ_AT(0, form), to = AGLIMTAQ_AT(length, form);
    struct whole forth, back;
    uint64_t end;
    if (!same(length, from, aglimtaq_read_next, aglimtaq_walk, &forth)) {
        printf("the walk forwards differs, form %llu\n", (unsigned long long)form);
        return 0;
    }
    if (!same(length, to, aglimtaq_read_previous, aglimtaq_walk_back, &back)) {
        printf("the walk backwards differs, form %llu\n", (unsigned long long)form);
        return 0;
    }
    *framed = 0;
    for (int i = 0; i < 8; i++)
        *framed += forth.counts[i];
    *shown = forth.counts[0];
    if (aglimtaq_count(bytes, length, &end) != *framed || end != forth.end.position) {
        printf("the count of frames differs, form %llu\n", (unsigned long long)form);
        return 0;
    }
    return 1;
}

int main(int argc, char **argv)
{
    FILE *file = argc == 2 ? fopen(argv[1], "rb") : NULL;
    if (file == NULL) {
        fprintf(stderr, "usage: walk FILE\n");
        return 2;
    }
    size_t length = fread(bytes, 1, sizeof bytes, file);
    fclose(file);

    uint64_t framed, shown;
    for (uint64_t form = AGLIMTAQ_BE64; form <= AGLIMTAQ_BE32; form++)
        if (!walked(length, form, &framed, &shown))
            return 1;
    if (!walked(length, AGLIMTAQ_LE64, &framed, &shown))
        return 1;
    printf("%llu shown, %llu refused\n", (unsigned long long)shown, (unsigned long long)(framed - shown));
    return 0;
}

/*
 * Reading and writing execution traces, from C or any language that can call C.
 *
 * Link with the archive libtrace_c.a, which `tools/build trace_c_c` puts into target/staticlib. Of every function here
 * it is proved, for all bytes and all numbers:
 *
 * - It ends.
 * - It reads the bytes that it is lent and no others.
 * - It writes what its last argument points to, if that is a pointer, but not one to const: all of it at every call,
 *   and nothing else. Some write more: a walk writes its last three arguments, a call that takes a position moves it,
 *   aglimtaq_write, aglimtaq_house_write and aglimtaq_house_write_gauge write a record into `out`, aglimtaq_write_all
 *   writes a list of records into it, and aglimtaq_begin, aglimtaq_portion and aglimtaq_close write a part of a record
 *   into it.
 * - Where a form is none of the four, it writes nothing but that refusal, into a reading or the end of a walk.
 *
 * A function allocates nothing and keeps nothing. It may run in several threads at once, each with structs
 * and an output of its own.
 *
 * A pointer to bytes or to calls is followed by their number. Nobody may alter them during the call. No pointer
 * is NULL, not even where the number is 0. What is written overlaps nothing else that is lent.
 *
 * docs/FORMAT.md describes the format. A part is a range of the lent bytes, from `start` up to, but without,
 * the byte at `end`.
 */
#ifndef AGLIMTAQ_TRACE_H
#define AGLIMTAQ_TRACE_H

#include <stddef.h>
#include <stdint.h>

#ifdef __cplusplus
extern "C" {
#endif

/* How addresses are stored. A trace has one form, which is not stored in it.
 *
 * The form is that of the address of a PC, INSTRUCTION, MEM_READ, MEM_WRITE or MAP, and of both numbers of an UNMAP.
 * Every other number keeps its width, least significant byte first: the tick of an INTERRUPT too, and the addresses
 * of kind Meta, which are in the types from INSTRUCTION_COUNT to UNKNOWN_META. */
enum aglimtaq_form {
    AGLIMTAQ_LE64 = 0, /* eight bytes, least significant first */
    AGLIMTAQ_BE64 = 1, /* eight bytes, most significant first */
    AGLIMTAQ_LE32 = 2, /* four bytes, least significant first */
    AGLIMTAQ_BE32 = 3  /* four bytes, most significant first */
};

/* Where a call reads or writes, in which form, and which record is open there. Each call moves `at`, or keeps it; none
 * alters `form`. The other numbers are altered by aglimtaq_begin, aglimtaq_portion, aglimtaq_close and
 * aglimtaq_abandon alone. Every number is allowed in every field; `start`, `stated` and `filled` count only where
 * `pending` is not 0. */
struct aglimtaq_position {
    uint64_t at;
    uint64_t form;    /* enum aglimtaq_form */
    uint64_t pending; /* 0: no record is open */
    uint64_t start;   /* where the open record starts */
    uint64_t stated;  /* how many bytes it was stated to have after its address */
    uint64_t filled;  /* how many of them have been accepted */
};

/* A position with no record open, as an initializer: struct aglimtaq_position p = AGLIMTAQ_AT(0, AGLIMTAQ_LE64); */
#define AGLIMTAQ_AT(at, form) {(at), (form), 0, 0, 0, 0}

/* What a reading says. Reading backwards never gives UNFINISHED, and gives FINISHED at position 0. */
enum aglimtaq_answer {
    AGLIMTAQ_SHOWN = 0,      /* a record: type, numbers and bytes hold it */
    AGLIMTAQ_REFUSED_AT = 1, /* a record was framed, and refused: `number` says why */
    AGLIMTAQ_REFUSED = 2,    /* refused without a record: `number` says why */
    AGLIMTAQ_FINISHED = 3,   /* the position is the end of the bytes */
    AGLIMTAQ_UNFINISHED = 4  /* the bytes end inside a record, which wants `number` bytes from its start */
};

/* Why a reading or a writing is refused. */
enum aglimtaq_refusal {
    AGLIMTAQ_NO_VALUE = 1,      /* the span is empty, or length bytes or span are not wholly there */
    AGLIMTAQ_SHORT_SPAN = 2,    /* the span ends in 0 and is shorter than five bytes */
    AGLIMTAQ_NOT_MAGIC = 3,     /* kind Magic, but not the eight magic bytes */
    AGLIMTAQ_SHORT_CONTENT = 4, /* fewer content bytes than the record type takes */
    AGLIMTAQ_NAME_NOT_TEXT = 5, /* a function's name that is not UTF-8 */
    AGLIMTAQ_NO_START = 6,      /* backwards only: the trailer leads to before the first byte */
    AGLIMTAQ_UNKNOWN_KIND = 7,  /* a kind of record that this format does not have */
    AGLIMTAQ_ENDS_DIFFER = 16,  /* backwards only: the record that the trailer leads to does not end at the position */
    AGLIMTAQ_NOT_A_GAUGE = 15,  /* house calls only: bytes after Meta tag 200 that are not a house reading */
    /* The caller's mistakes. */
    AGLIMTAQ_BEYOND_END = 8,    /* the position lies beyond the end of the bytes */
    AGLIMTAQ_NO_ROOM = 9,       /* the output is too small for the record */
    AGLIMTAQ_LONG_CONTENT = 10, /* the content is longer than 4,294,967,290 bytes */
    AGLIMTAQ_BAD_NAME = 11,     /* a name over 32 bytes, with a zero byte, or that is not UTF-8 */
    AGLIMTAQ_TAKEN_TAG = 12,    /* the tag of an unknown type that another type has */
    AGLIMTAQ_SHORT_LIST = 13,   /* a register list that does not hold its count of entries */
    AGLIMTAQ_WIDE_ADDRESS = 14, /* an address or UNMAP length above 4,294,967,295, to be written in four bytes */
    AGLIMTAQ_RECORD_OPEN = 18,  /* a write or an opening while a record is open */
    AGLIMTAQ_NONE_OPEN = 19,    /* a portion, a closing or an abandoning while none is open */
    AGLIMTAQ_NOT_AS_STATED = 20, /* a portion beyond the stated length, or a closing short of it */
    AGLIMTAQ_NOT_A_RECORD = 256, /* a type that is not written, or a number that does not fit its type */
    AGLIMTAQ_NOT_A_FORM = 257   /* a form that is none of the four; this comes before every other refusal */
};

/* The record types. The comment after each names its numbers, in order; then what its part of the bytes is. */
enum aglimtaq_type {
    AGLIMTAQ_NO_TYPE = 0,                  /* not a record */
    AGLIMTAQ_MAGIC = 1,                    /* */
    AGLIMTAQ_ARCH = 2,                     /* contents */
    AGLIMTAQ_REGISTER_NAME_MAP = 3,        /* count; register list */
    AGLIMTAQ_UNKNOWN_FILE_META = 4,        /* tag; contents */
    AGLIMTAQ_MAP = 5,                      /* base; contents */
    AGLIMTAQ_UNMAP = 6,                    /* base, length */
    AGLIMTAQ_INSTRUCTION = 7,              /* pc; instruction bytes */
    AGLIMTAQ_PC = 8,                       /* pc */
    AGLIMTAQ_INSTRUCTION_COUNT = 9,        /* tick */
    AGLIMTAQ_THREAD_ID = 10,               /* thread */
    AGLIMTAQ_PROCESS_ID = 11,              /* process */
    AGLIMTAQ_CALL_BEGIN = 12,              /* address; the function's name */
    AGLIMTAQ_CALL_MODELED_OPS_END = 13,    /* */
    AGLIMTAQ_CALL_END = 14,                /* address of the call */
    AGLIMTAQ_OPERAND_UNCERTAIN = 15,       /* */
    AGLIMTAQ_ADDRESS_DEPENDENCY_EDGE = 16, /* address */
    AGLIMTAQ_REGISTER_DEPENDENCY_EDGE = 17, /* register */
    AGLIMTAQ_MEMORY_ALLOCATED = 18,        /* address, size */
    AGLIMTAQ_MEMORY_FREED = 19,            /* address, size */
    AGLIMTAQ_MEMORY_REALLOCATED = 20,      /* new address, old address, size */
    AGLIMTAQ_UNKNOWN_META = 21,            /* tag; contents */
    AGLIMTAQ_INTERRUPT = 22,               /* number, tick */
    AGLIMTAQ_REG_READ = 23,                /* register; contents */
    AGLIMTAQ_REG_WRITE = 24,               /* register; contents */
    AGLIMTAQ_REG_WRITE_NATIVE = 25,        /* native register; contents */
    AGLIMTAQ_MEM_READ = 26,                /* address; contents */
    AGLIMTAQ_MEM_WRITE = 27,               /* address; contents */
    /* House readings: the house calls alone show and take them. */
    AGLIMTAQ_FUEL = 28,                    /* tenths of a litre, tick */
    AGLIMTAQ_DISTANCE_LEFT = 29,           /* kilometres, tick */
    AGLIMTAQ_RESERVE_LAMP = 30             /* 0 off or 1 on, tick */
};

/* What a reading gives. A field that an answer does not use is 0. */
struct aglimtaq_reading {
    uint64_t answer;      /* enum aglimtaq_answer */
    uint64_t number;      /* enum aglimtaq_refusal, or the number wanted */
    uint64_t start;       /* the framed record */
    uint64_t end;
    uint64_t type;        /* enum aglimtaq_type */
    uint64_t numbers[3];  /* the record's numbers */
    uint64_t bytes_start; /* the part that is its name, register list or contents */
    uint64_t bytes_end;
};

/* The record that starts at the position. The first call reads at 0, each later one at the position that the call
 * before left, until the answer is FINISHED, UNFINISHED or REFUSED. Where a record is framed, the position becomes
 * its end; otherwise it is kept.
 *
 * A position with an open record reads the bytes before that record, as if no others were lent; so does
 * aglimtaq_read_previous. See aglimtaq_begin. */
void aglimtaq_read_next(const uint8_t *bytes, size_t length, struct aglimtaq_position *position,
                        struct aglimtaq_reading *reading);

/* The record that ends at the position. The first call reads at the end of the trace, each later one at the
 * position that the call before left, until the answer is FINISHED or REFUSED. Where a record is framed, the
 * position becomes its start; otherwise it is kept.
 *
 * Every record that this call frames, shown or refused, is also there forwards: aglimtaq_read_next, at the position
 * that it leaves, gives the same reading and leaves the position that it was called at. Where the trailer before the
 * position leads to no such record, as on a damaged disk, the answer is REFUSED with NO_START or ENDS_DIFFER. */
void aglimtaq_read_previous(const uint8_t *bytes, size_t length, struct aglimtaq_position *position,
                            struct aglimtaq_reading *reading);

/* The one record that these bytes are, in this form. They begin at offset `base` of a trace, and parts are counted
 * from the trace's start. The answer is SHOWN or REFUSED; start and end are 0. BEYOND_END where base + length
 * overflows. */
void aglimtaq_parse(const uint8_t *bytes, size_t length, size_t base, uint64_t form,
                    struct aglimtaq_reading *reading);

/* Returns how many bytes the record has that these bytes begin with. If that is at most `length`, the record
 * is wholly there; otherwise it is the number wanted. */
uint64_t aglimtaq_one_record(const uint8_t *bytes, size_t length);

/* Where the content lies of the record that these bytes begin with. */
struct aglimtaq_part {
    uint64_t start;
    uint64_t end;
};

/* Returns 0, and the part; or NO_VALUE or SHORT_SPAN, and a part of zeros. */
uint64_t aglimtaq_value(const uint8_t *bytes, size_t length, struct aglimtaq_part *part);

/* An entry of a register list. */
struct aglimtaq_entry {
    uint64_t number;     /* the native register's number */
    uint64_t name_start; /* its name, in the list's bytes */
    uint64_t name_end;
    uint64_t next;       /* where the next entry is */
};

/* The entry at offset `at` of a register list, which is the part of a REGISTER_NAME_MAP. The first call asks
 * at 0, each later one at the `next` of the entry before. Returns 1, and the entry; or 0, and zeros, where
 * there is no whole entry. */
uint64_t aglimtaq_next_name(const uint8_t *list, size_t length, size_t at,
                            struct aglimtaq_entry *entry);

/* Returns how many whole records follow each other from the first byte on, whatever they hold. `end` is where
 * the last of them ends. */
uint64_t aglimtaq_count(const uint8_t *bytes, size_t length, uint64_t *end);

/* Where a walk ended. */
struct aglimtaq_end {
    uint64_t position;
    uint64_t wanted;  /* the number wanted there, or 0 */
    uint64_t refused; /* NO_START or ENDS_DIFFER, where that ended a walk backwards; NOT_A_FORM; or 0 */
};

/* A walk over a whole trace in one form: every reading from 0 on, as aglimtaq_read_next gives them, up to the first
 * that is not SHOWN or REFUSED_AT. counts[0] is how many records are shown, and counts[n] how many are refused with
 * n. sizes[k] is how many bytes the framed records of the kind 4 * k have, shown or refused. For a form that is none
 * of the four, `end` is 0, 0, NOT_A_FORM, and counts and sizes are left as they were. */
void aglimtaq_walk(const uint8_t *bytes, size_t length, uint64_t form, uint64_t counts[8], uint64_t sizes[64],
                   struct aglimtaq_end *end);

/* The same backwards: every reading from the end on, as aglimtaq_read_previous gives them. */
void aglimtaq_walk_back(const uint8_t *bytes, size_t length, uint64_t form, uint64_t counts[8],
                        uint64_t sizes[64], struct aglimtaq_end *end);

/* Returns 1 where the bytes are UTF-8 (RFC 3629), as a function's name must be; else 0. */
uint64_t aglimtaq_is_utf8(const uint8_t *bytes, size_t length);

/* A record to be written. Numbers that its type does not have are ignored. */
struct aglimtaq_record {
    uint64_t type;       /* enum aglimtaq_type; aglimtaq_write takes all but NO_TYPE, ARCH and the house readings */
    uint64_t numbers[3]; /* its numbers, in order */
};

/* Writes a record at the position in `out`; the first call writes at 0. The record's name, register list or
 * contents are the `length` bytes at `bytes`; a type that has none of these ignores them. A record's content, which
 * is its tag, its numbers and these bytes, has 4,294,967,290 bytes at most.
 *
 * Returns 0, and the position becomes that after the record, where the next call writes. Or returns why the record
 * is refused; then the position is kept, and no byte of `out` is altered. Of several reasons the first in this order
 * is given: NOT_A_FORM; NOT_A_RECORD; RECORD_OPEN; BEYOND_END; BAD_NAME, TAKEN_TAG or SHORT_LIST; WIDE_ADDRESS;
 * LONG_CONTENT; NO_ROOM.
 *
 * NOT_A_RECORD is also given where a number has more bits than its type allows: 8 for a count or a tag, 16 for a
 * native register, 32 for a register, a thread, an interrupt or a size, 64 for every other. */
uint64_t aglimtaq_write(uint8_t *out, size_t room, struct aglimtaq_position *position,
                        const struct aglimtaq_record *record, const uint8_t *bytes, size_t length);

/* A call of aglimtaq_write in a list: its record, and the number of its bytes. */
struct aglimtaq_call {
    uint64_t type;       /* as in struct aglimtaq_record */
    uint64_t numbers[3];
    uint64_t length;     /* how many bytes it takes from the bytes of the list */
};

/* What was written of a list of calls. */
struct aglimtaq_all {
    uint64_t records; /* how many records were written */
    uint64_t bytes;   /* how many bytes their calls took */
};

/* Writes a list of records, the first of them at the position in `out`: makes the `count` calls, each as
 * aglimtaq_write makes it, until one is refused. The bytes of the first call come first in `bytes`, then those
 * of the second, and so on. A call takes its bytes also where its type ignores them. Bytes after those of the
 * last call are ignored.
 *
 * Returns 0 where all records are written; or why the first call is refused that is. NOT_A_RECORD is also given
 * where fewer than its `length` bytes are left; NOT_A_FORM also where there are no calls. The records before the
 * refused one are written, and the position is that after them. Of the refused one and of those after it nothing
 * is written, and no other byte of `out` is altered.
 *
 * While a record is open, the first call is refused with RECORD_OPEN, if it is a record; with no calls 0 is returned.
 *
 * To go on after a refusal, hand over the calls from `calls + all.records` on, the bytes from `bytes + all.bytes`
 * on, and the position as it was left. The first of these calls is the refused one: give it what it lacks, or
 * leave it out with its bytes. */
uint64_t aglimtaq_write_all(uint8_t *out, size_t room, struct aglimtaq_position *position,
                            const struct aglimtaq_call *calls, size_t count, const uint8_t *bytes, size_t length,
                            struct aglimtaq_all *all);

/* A MEM_WRITE in portions, while others already read: aglimtaq_begin opens it, aglimtaq_portion adds its bytes,
 * aglimtaq_close ends it, and aglimtaq_abandon gives it up. Each call gets the position and `out` as the call before
 * left them; nothing else is kept. Closing leaves in `out`, and in `at`, what one aglimtaq_write of all the bytes would
 * have left. Until then `at` stays where the record starts: each of these calls goes by the open record's start, and
 * puts `at` there. Closing and abandoning leave 0 in `pending`, `start`, `stated` and `filled`.
 *
 * Each returns 0, or why it is refused: then the position and every byte of `out` are as they were.
 *
 * Whoever reads meanwhile copies the recorder's position after the recorder's latest call, and reads `out` with the
 * copy: forwards after setting its `at` to 0, backwards as it is. It sees the records that are closed, and then
 * FINISHED. The copy is taken anew for each reading. An old one with a record open still ends where that record starts;
 * an old one with none open sees all bytes of `out`, those of a record that is open by now too. With no record open,
 * lend for reading forwards only the bytes before the position: those after it may be anything. The recorder must not
 * write during a reading call.
 *
 * Opens a MEM_WRITE at the position, with this address and `stated` bytes to follow. Refusals, in this order:
 * NOT_A_FORM, RECORD_OPEN, and as for writing that record BEYOND_END, WIDE_ADDRESS, LONG_CONTENT, NO_ROOM. Writes the
 * bytes that come before the stated ones. */
uint64_t aglimtaq_begin(uint8_t *out, size_t room, struct aglimtaq_position *position, uint64_t address, size_t stated);

/* Adds the next bytes of the open record. There may be none. Refusals, in this order: NOT_A_FORM; NONE_OPEN;
 * NOT_AS_STATED, where these are more than are left of the stated ones; BEYOND_END, where the open record starts
 * beyond the end of `out`; NO_ROOM, where the record ends beyond it. */
uint64_t aglimtaq_portion(uint8_t *out, size_t room, struct aglimtaq_position *position, const uint8_t *bytes,
                          size_t length);

/* Closes the open record: writes its trailer, and the position becomes that after it. Refusals, in this order:
 * NOT_A_FORM; NONE_OPEN; NOT_AS_STATED, where `filled` is less than `stated`; BEYOND_END and NO_ROOM as above. */
uint64_t aglimtaq_close(uint8_t *out, size_t room, struct aglimtaq_position *position);

/* Gives the open record up: `at` becomes its start, and no record is open. What was written of it stays in `out`.
 * Refusals: NOT_A_FORM, NONE_OPEN. */
uint64_t aglimtaq_abandon(struct aglimtaq_position *position);

/* The house family: what the gauges of a motorcycle show, each reading a Meta of tag 200. After the tag come a
 * sub-kind, a value and a tick, least significant byte first in every form:
 *
 *   type            sub-kind   value                                tick
 *   FUEL            0          two bytes, tenths of a litre         eight bytes
 *   DISTANCE_LEFT   1          two bytes, kilometres                eight bytes
 *   RESERVE_LAMP    2          one byte, 0 for off or 1 for on      eight bytes
 *
 * The other calls do not know the family: aglimtaq_read_next goes on showing UNKNOWN_META with tag 200.
 *
 * Reads as aglimtaq_read_next does, but shows a record of the family by its fields: its type, and in `numbers` its
 * value and its tick. If its bytes after the tag are no house reading, the answer is REFUSED_AT with NOT_A_GAUGE, and
 * the position passes the record. The reasons are: nothing after the tag; a sub-kind that is none of 0, 1, 2; a wrong
 * size, too short or too long; a lamp byte above 1. Everything else, also the position, is as aglimtaq_read_next gives
 * it. */
void aglimtaq_house_next(const uint8_t *bytes, size_t length, struct aglimtaq_position *position,
                         struct aglimtaq_reading *reading);

/* The same backwards: as aglimtaq_read_previous, but for the records of the family. */
void aglimtaq_house_previous(const uint8_t *bytes, size_t length, struct aglimtaq_position *position,
                             struct aglimtaq_reading *reading);

/* Writes a record of the family at the position in `out`, with these bytes after its tag. Returns 0, and the position
 * becomes that after the record. Or returns why it is refused; then the position is kept, and no byte of `out` is
 * altered. Refusals, in this order: NOT_A_FORM; RECORD_OPEN; BEYOND_END; NOT_A_GAUGE, where the bytes are no house
 * reading; LONG_CONTENT; NO_ROOM. */
uint64_t aglimtaq_house_write(uint8_t *out, size_t room, struct aglimtaq_position *position, const uint8_t *bytes,
                              size_t length);

/* Writes a house reading by its fields: numbers[0] is its value, numbers[1] its tick, and numbers[2] is ignored. As
 * aglimtaq_house_write of its bytes; and NOT_A_RECORD, after NOT_A_FORM and before the other refusals, where `type` is
 * none of the three, or the value is above 65,535, or above 255 for a lamp. A lamp from 2 to 255 is NOT_A_GAUGE. */
uint64_t aglimtaq_house_write_gauge(uint8_t *out, size_t room, struct aglimtaq_position *position,
                                    const struct aglimtaq_record *gauge);

#ifdef __cplusplus
}
#endif

#endif

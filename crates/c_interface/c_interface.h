/* The proved FASTQ reader, for C: the functions of target/staticlib/libc_interface.a, which `tools/staticlib.sh c_interface` writes.
 *
 * For x86-64, where size_t has 64 bits. Each slice is lent as a pointer and a length; the pointer is not null and may be read, and
 * where it is not const written, over that length. Slices that one call is lent must not overlap, unless all of them are const.
 * Beyond that nothing is asked: any numbers and any bytes may be handed in, and each call comes back.
 *
 * A state is FQ_STATE numbers, which fq_open writes and the other calls change:
 *   0 window    the window's length          7 note 4
 *   1 start     where the record starts      8 mark      up to where the held bytes are searched
 *   2 fill      the end of the held bytes    9 line      the record's position
 *   3 notes     how many line ends are noted 10 byte
 *   4 note 1    the places of those noted;   11 ended    0 or 1: the end is noted
 *   5 note 2    those not noted are 0        12 waiting  0 or 1: for input
 *   6 note 3                                 13 closed   0 or 1: only Ends follow
 * Held bytes are window[0 .. fill]; window[0] is the input's byte number byte - start.
 *
 * A call answers a code and writes FQ_VALUES values, of which those that the code does not have are 0. The codes are the numbers of
 * document 01 for refusals and errors, and those below. A state that has fewer than FQ_STATE numbers, a flag that is neither 0 nor 1 or
 * notes that are no notes, and values with room for fewer than FQ_VALUES, are refused with FQ_FOREIGN.
 * A refusal changes no state, window, table or output; but where the state is read at all, the values are written, all 0. */

#ifndef C_INTERFACE_H
#define C_INTERFACE_H

#include <stdbool.h>
#include <stddef.h>
#include <stdint.h>

#ifdef __cplusplus
extern "C" {
#endif

enum { FQ_STATE = 14, FQ_VALUES = 6 };

enum {
    FQ_DONE = 0,
    FQ_BAD_WINDOW = 1,        /* open: the window's length is below 3 or above 16,777,216 */
    FQ_FOREIGN = 2,           /* the state is not of this window, or not a state */
    FQ_NOT_WAITING = 3,       /* feed, finish */
    FQ_END_NOTED = 4,         /* feed, finish */
    FQ_TOO_FAR = 5,           /* feed, seek: past byte 2^48 */
    FQ_NO_ROOM_FOR_ENTRY = 6, /* sets: nothing wanted, or no room for one entry */
    FQ_WINDOW_LIMIT = 7,      /* values: line, byte */
    FQ_INVALID_START = 8,     /* byte found, line */
    FQ_INVALID_SEPARATOR = 9, /* byte found, line, has an id, id's start, id's end */
    FQ_UNEQUAL_LENGTHS = 10,  /* length of seq, of qual, line, has an id, id's start, id's end */
    FQ_UNEXPECTED_END = 11,   /* line, has an id, id's start, id's end */
    FQ_NO_ROOM = 12,          /* writers */
    FQ_NO_RECORD = 14,        /* fq_write_unchanged: the five numbers are no record's */
    FQ_MORE = 15,             /* next, sets: more input is wanted: feed, or finish */
    FQ_END = 16,              /* next, sets */
    FQ_FEED_FROM = 17,        /* seek: the window is emptied; the value is the byte to feed from */
    FQ_ABSENT = 18            /* view: there is none */
};

/* A fresh state for windows of this length. */
size_t fq_open(size_t *state, size_t state_length, size_t window_length);

/* Takes from the chunk what there is room for. Value: how many bytes. */
size_t fq_feed(size_t *state, size_t state_length, size_t *values, size_t values_length, uint8_t *window, size_t window_length,
               const uint8_t *chunk, size_t chunk_length);

/* Notes the end of the input. */
size_t fq_finish(size_t *state, size_t state_length, size_t *values, size_t values_length, const uint8_t *window, size_t window_length);

/* The next answer. FQ_DONE is a record, with values start, seq, sep, qual, end in the window, and its byte in the input. */
size_t fq_next(size_t *state, size_t state_length, size_t *values, size_t values_length, const uint8_t *window, size_t window_length);

/* To a line and a byte of the input. FQ_DONE: the byte is among those held. */
size_t fq_seek(size_t *state, size_t state_length, size_t *values, size_t values_length, const uint8_t *window, size_t window_length,
               uint64_t line, uint64_t byte);

/* Values: the line and the byte of the record last answered, the one being sought, or the one in error. */
size_t fq_position(const size_t *state, size_t state_length, size_t *values, size_t values_length);

/* Lists records in a table of five numbers each: start, seq, sep, qual, end. Value: how many. With none, next's code and values. */
size_t fq_read_record_set(size_t *state, size_t state_length, size_t *values, size_t values_length, const uint8_t *window,
                          size_t window_length, size_t *table, size_t table_length);

/* The same, at most so many. */
size_t fq_read_record_set_exact(size_t *state, size_t state_length, size_t *values, size_t values_length, const uint8_t *window,
                                size_t window_length, size_t *table, size_t table_length, size_t wanted);

enum { FQ_HEAD = 0, FQ_SEQ = 1, FQ_QUAL = 2, FQ_ID = 3, FQ_DESC = 4 };

/* A view of a record. Values: its offset in the window, and its length. Five numbers that are no record's: offset and length 0. */
size_t fq_view(size_t *values, size_t values_length, const uint8_t *window, size_t window_length, size_t which, size_t start, size_t seq,
               size_t sep, size_t qual, size_t end);

/* The writers write into an output from a place on. Value: how many bytes. */
size_t fq_write_to(size_t *values, size_t values_length, uint8_t *out, size_t out_length, size_t at, const uint8_t *head,
                   size_t head_length, const uint8_t *seq, size_t seq_length, const uint8_t *qual, size_t qual_length);

/* A head of an id and, where it is given, a space and a description. */
size_t fq_write_parts(size_t *values, size_t values_length, uint8_t *out, size_t out_length, size_t at, const uint8_t *id,
                      size_t id_length, const uint8_t *desc, size_t desc_length, bool desc_given, const uint8_t *seq, size_t seq_length,
                      const uint8_t *qual, size_t qual_length);

/* The window's bytes from a record's start to its end, and LF. */
size_t fq_write_unchanged(size_t *values, size_t values_length, uint8_t *out, size_t out_length, size_t at, const uint8_t *window,
                          size_t window_length, size_t start, size_t seq, size_t sep, size_t qual, size_t end);

#ifdef __cplusplus
}
#endif

#endif

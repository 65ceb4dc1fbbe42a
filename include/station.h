/*
 * station.h: a storage unit of the shared log, for a station box's own C program.
 *
 * To link, in the repository's folder:
 *
 *   (cd crates/station && rt lib)
 *   gcc -Iinclude -o box box.c -Lcrates/station/out -lstation
 *
 * or both at once: tools/c-program --out box box.c station
 *
 * rt runs on x86-64 and writes its code. For a box on Arm, tools/native-archive station aarch64 compiles the same proved
 * module once more, as target/aarch64/libstation.a.
 *
 * The unit keeps nothing of its own: all that it knows lies in the STATION_MEMORY bytes that each call is lent. Keep those
 * bytes in a file or in flash, and make each change durable as a whole or not at all (write a second file, then rename it:
 * demo/box.c shows how).
 *
 * Every call answers one number of enum unit_answer. Of several that apply it is the lowest. A call that answers anything
 * but UNIT_ANSWER_FINE has changed nothing: no byte of mem, nor what *kind, *start, *length, *edge and *written hold.
 *
 * For every call:
 *   - mem points to len bytes. With any other len than STATION_MEMORY the answer is UNIT_ANSWER_MEMORY, so a wrong length
 *     is refused and not read past. The whole memory is checked each time, before anything else is looked at.
 *   - No pointer may be NULL, data neither when data_len is 0: then point it to anything.
 *   - data, kind, start, length, edge and written lie outside mem, and apart from each other.
 *   - Nothing is locked: while a call runs, nobody else may touch mem.
 *   - No call takes more than 512 bytes of stack (docs/SPEED.md). unit_fresh and unit_prune call memset, unit_write and
 *     unit_trim memmove: on a small stack link these statically or with -z now, since a loader that binds one at its first
 *     call takes over 2 KiB.
 */
#ifndef STATION_H
#define STATION_H

#include <stddef.h>
#include <stdint.h>

#ifdef __cplusplus
extern "C" {
#endif

/* How large a unit's memory is, in bytes, in either shape. */
#define STATION_MEMORY 6168
#define STATION_POSITIONS (UINT64_C(1) << 40)   /* positions are 0 to STATION_POSITIONS - 1 */

/*
 * A unit's shape: many short pages, or fewer that take a mast record. unit_fresh stores it in the memory, where every other
 * call finds it. The units of one yard are all of one shape. A memory from before there were two is small.
 */
enum unit_shape {
    UNIT_SHAPE_SMALL = 0,
    UNIT_SHAPE_LARGE = 1
};

/* What each shape holds: so many written or trimmed positions at a time, at or above the floor, and so many bytes in a page. */
#define STATION_SMALL_SLOTS 128
#define STATION_SMALL_PAGE 32
#define STATION_LARGE_SLOTS 64
#define STATION_LARGE_PAGE 80

/* What a call answers, by the name that docs/RULES.md, section 10, gives it. */
enum unit_answer {
    UNIT_ANSWER_FINE = 0,      /* done */
    UNIT_ANSWER_MEMORY = 1,    /* the memory is not good: damaged, never made by unit_fresh, or of a wrong length */
    UNIT_ANSWER_POSITION = 2,  /* the position is 2^40 or more; in unit_prune, above 2^40 */
    UNIT_ANSWER_PAGE = 3,      /* data too long for the shape, junk with bytes, or a kind that is neither data nor junk */
    UNIT_ANSWER_SEALED = 4,    /* the epoch is at most the sealed one; in unit_seal, below it */
    UNIT_ANSWER_TRIMMED = 5,   /* write or read of a trimmed position */
    UNIT_ANSWER_WRITTEN = 6,   /* write of a written position: what is written once stays */
    UNIT_ANSWER_UNWRITTEN = 7, /* read of a position that is neither written nor trimmed */
    UNIT_ANSWER_FULL = 8,      /* write or trim needs a slot and all of the shape's are used: prune first */
    UNIT_ANSWER_LAYOUT = 10,   /* unit_fresh: no such shape */
    UNIT_ANSWER_NOBODY = 17    /* unit_fresh: no such unit, the number is not 1 to 8 */
};

/* What a written position holds. A data page of length 0, a junk page and an unwritten position are three different things. */
enum unit_kind {
    UNIT_KIND_DATA = 1, /* a page of 0 to 32 bytes, or 0 to 80 in a unit of the large shape */
    UNIT_KIND_JUNK = 2  /* a hole that was filled so that readers can pass it: no bytes */
};

/*
 * Makes mem the memory of unit `number`, 1 to 8, in a shape of enum unit_shape, that has never been written, whatever the
 * bytes were before: nothing sealed, nothing written, floor 0. Only for a new box: a unit that starts again reads its old
 * memory back instead.
 * Answers: FINE; MEMORY (len is not STATION_MEMORY); LAYOUT; NOBODY.
 */
uint8_t unit_fresh(uint8_t *mem, size_t len, uint32_t number, uint8_t shape);

/*
 * Writes a page at a position that was never written: data_len bytes from data for UNIT_KIND_DATA, or UNIT_KIND_JUNK with
 * data_len 0. The bytes are copied into mem.
 * Answers: FINE, MEMORY, POSITION, PAGE, SEALED, TRIMMED, WRITTEN, FULL.
 */
uint8_t unit_write(uint8_t *mem, size_t len, uint32_t epoch, uint64_t position, uint8_t kind, const uint8_t *data,
                   size_t data_len);

/*
 * Reads the page at a position. When FINE, *kind is UNIT_KIND_DATA or UNIT_KIND_JUNK, and the payload is the *length bytes
 * of mem from offset *start on: not a copy, so take them before the next call that changes mem. Junk has length 0.
 * Answers: FINE, MEMORY, POSITION, SEALED, TRIMMED, UNWRITTEN.
 */
uint8_t unit_read(const uint8_t *mem, size_t len, uint32_t epoch, uint64_t position, uint8_t *kind, uint64_t *start,
                  uint64_t *length);

/*
 * Trims one position: its page, if any, is erased, and nothing can be written there any more. A slot stays in use for it
 * until a prune passes it: of kind 3 where there was a page, of kind 4 where nothing was ever written, which leaves the
 * written edge as it was. Trimming a trimmed position is fine and changes nothing.
 * Answers: FINE, MEMORY, POSITION, SEALED, FULL.
 */
uint8_t unit_trim(uint8_t *mem, size_t len, uint32_t epoch, uint64_t position);

/*
 * Raises the floor to a position, 2^40 at most: every position below counts as trimmed, and the slots of those are free
 * again. With a floor there or above it already: fine, and nothing changes. Pruning to 2^40 ends the log.
 * Answers: FINE, MEMORY, POSITION, SEALED.
 */
uint8_t unit_prune(uint8_t *mem, size_t len, uint32_t epoch, uint64_t position);

/*
 * Seals an epoch: from now on calls of that epoch or an earlier one are refused with SEALED. When FINE, *edge is the first
 * position above everything that was ever written, trimmed or pruned here, and *written the same without the positions
 * that were trimmed and never written: a new range starts at the edges or above, and without one the sequencer goes on
 * at the written edge. Sealing the same epoch again is fine.
 * Answers: FINE, MEMORY, SEALED.
 */
uint8_t unit_seal(uint8_t *mem, size_t len, uint32_t epoch, uint64_t *edge, uint64_t *written);

/*
 * Tells the same two edges of any good memory, sealed or not, and changes nothing: it bears no epoch, and stops no writer.
 * Answers: FINE, MEMORY.
 */
uint8_t unit_edges(const uint8_t *mem, size_t len, uint64_t *edge, uint64_t *written);

#ifdef __cplusplus
}
#endif

#endif

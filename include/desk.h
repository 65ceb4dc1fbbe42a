/*
 * desk.h: layouts and plays of the shared log, for tests on a desk.
 *
 * To link, in the repository's folder:
 *
 *   (cd crates/desk && rt lib)
 *   gcc -Iinclude -o test test.c -Lcrates/desk/out -ldesk
 *
 * or both at once: tools/c-program --out test test.c desk
 *
 * Nothing is kept between calls. Every call answers
 * one number of enum desk_answer. A call that answers anything but DESK_ANSWER_FINE has changed nothing: no byte of out, and
 * *set, *lines and *written keep what they held.
 *
 * A layout is its bytes: epoch (4, little-endian), shape (1: 0 small units, 1 large ones), then units, sets and ranges, each
 * section after its one-byte count (docs/RULES.md, 5.1, has them drawn). No pointer may be NULL, also where its length is 0,
 * and what is written lies apart from all else.
 */
#ifndef DESK_H
#define DESK_H

#include <stddef.h>
#include <stdint.h>

#ifdef __cplusplus
extern "C" {
#endif

/* The bytes of the largest layout: room enough for every plan. */
#define DESK_LAYOUT 168

/* The bytes of the longest play, and of the longest line that a step shows. */
#define DESK_PLAY 65536
#define DESK_LINE 256

enum desk_answer {
    DESK_ANSWER_FINE = 0,
    DESK_ANSWER_POSITION = 2,      /* the position is 2^40 or more */
    DESK_ANSWER_SPENT = 9,         /* the new range would start at 2^40 */
    DESK_ANSWER_LAYOUT = 10,       /* a layout, the new sets or a unit to drop not good; out too short for the new layout */
    DESK_ANSWER_OVERTAKEN = 11,    /* the offered epoch is not the held one plus 1 */
    DESK_ANSWER_SUCCESSOR = 12,    /* not a lawful successor, or one of another shape */
    DESK_ANSWER_SET_LOST = 13,     /* dropping would empty a set */
    DESK_ANSWER_LAYOUT_FULL = 14,  /* more than 16 sets or 8 ranges */
    DESK_ANSWER_EPOCHS_SPENT = 15, /* the held epoch is 2^32 - 1 */
    DESK_ANSWER_PLAY = 22          /* no play: it does not read, starts no fresh yard, or is longer than DESK_PLAY */
};

/* Whether these are the bytes of a good layout. Answers: FINE, LAYOUT. */
uint8_t layout_good(const uint8_t *bytes, size_t len);

/* *set is the number of the position's set, counted from 0. Answers: POSITION, LAYOUT, FINE. */
uint8_t layout_set(const uint8_t *bytes, size_t len, uint64_t position, uint64_t *set);

/* What the holder of the one layout would answer to the offer of the other. Answers: LAYOUT, OVERTAKEN, SUCCESSOR, FINE. */
uint8_t layout_offer(const uint8_t *held, size_t held_len, const uint8_t *offered, size_t len);

/*
 * What a reorganise would offer: the layout's bytes stand at the front of out, *written of them. drops: units, a byte each.
 * sets: a count and then that many sets as in a layout; with no bytes at all, or a count of 0, there is no new range. edge: the
 * largest edge that the seals answered; the new range starts there or above the last start.
 * Answers, the first that applies: LAYOUT (held), EPOCHS_SPENT, LAYOUT (sets, drops), SET_LOST, LAYOUT_FULL, SPENT, LAYOUT (out
 * too short), FINE.
 */
uint8_t layout_plan(const uint8_t *held, size_t held_len, const uint8_t *drops, size_t drops_len, const uint8_t *sets,
                    size_t sets_len, uint64_t edge, uint8_t *out, size_t out_len, uint64_t *written);

/*
 * Runs a play (docs/PLAY.md has its bytes and its lines) from its fresh yard, and writes the lines of its steps from number from
 * on, as many whole ones as fit into out: *lines of them, in *written bytes at the front of out. The first step has number 1, and
 * 0 is read like 1. With DESK_LINE bytes of out at least one line fits; *lines is 0 where no step is left. Nothing is kept between
 * calls: for the lines behind, call again with from + *lines. A call has the whole yard on its stack; its eight memories alone are
 * 49,344 bytes.
 * Answers: PLAY, FINE.
 */
uint8_t play_lines(const uint8_t *file, size_t len, uint32_t from, uint8_t *out, size_t out_len, uint32_t *lines,
                   uint64_t *written);

#ifdef __cplusplus
}
#endif

#endif

/* The functions of the static library libzeldrupa.a: planner, least time of small sheets, checker, the better of two
 * bundles, stepping machine, test loads and weights as formulas.
 *
 * docs/INTERFACE.md has each of them in full. Of all of them it holds that:
 * - A slice is a pointer and then its length in elements. The memory has to be valid, no part of it that is
 *   written may overlap another, and no pointer may be null. Any bytes, values and lengths are safe.
 * - A work area, and the area of a machine's state, has at least ZELDRUPA_WORK_LENGTH words. What a work area
 *   holds before does not matter; it is all zero afterwards, except under 13, where it is untouched.
 * - The result is 0, or the number of a refusal, which changes no output and no state, but for `kept` of
 *   zeldrupa_better. *place receives the refusal's place, or with 0 what is said at each function.
 */
#ifndef ZELDRUPA_H
#define ZELDRUPA_H

#include <stddef.h>
#include <stdint.h>

#ifdef __cplusplus
extern "C" {
#endif

/* The fixed length of work areas and states, in words of 32 bits. */
#define ZELDRUPA_WORK_LENGTH 4992

/* The greatest lengths in bytes: of a sheet that is read, of a bundle that is accepted, with all its releases,
 * and of a listing. A longer input may be lent: it is refused. */
#define ZELDRUPA_LONGEST_SHEET 8459
#define ZELDRUPA_LONGEST_BUNDLE 10277
#define ZELDRUPA_LONGEST_LISTING 7453

/* The numbers of the refusals; the place is an offset where nothing else is said. */
enum zeldrupa_refusal {
    ZELDRUPA_CUT_SHEET = 1,
    ZELDRUPA_STRANGE_IN_SHEET = 2,
    ZELDRUPA_SHEET_OUT_OF_TURN = 3,
    ZELDRUPA_SHEET_TAIL = 4,
    ZELDRUPA_OVER_FULL = 5,
    ZELDRUPA_RANGE = 6,
    ZELDRUPA_LOOSE_LINK = 7,
    ZELDRUPA_DOUBLED_LINK = 8,
    ZELDRUPA_LOOP = 10,            /* the lowest task on a circle */
    ZELDRUPA_NO_STORE = 11,        /* that task; of zeldrupa_least the last task */
    ZELDRUPA_SHORT_OUTPUT = 12,    /* the length needed */
    ZELDRUPA_SHORT_WORK_AREA = 13, /* ZELDRUPA_WORK_LENGTH */
    ZELDRUPA_CUT_BUNDLE = 21,
    ZELDRUPA_STRANGE_IN_BUNDLE = 22,
    ZELDRUPA_BUNDLE_OUT_OF_TURN = 23,
    ZELDRUPA_BUNDLE_TAIL = 24,
    ZELDRUPA_UNKNOWN_NUMBER = 25,
    ZELDRUPA_RUN_COUNT = 26,       /* the lowest task */
    ZELDRUPA_OVER_STORE = 28,      /* the lowest processor whose highest store in use is above the limit */
    ZELDRUPA_STUCK = 29,           /* the lowest unfinished processor */
    ZELDRUPA_WRONG_CLAIM = 30,     /* the latest clock */
    ZELDRUPA_SEND = 31,            /* the lowest link with a wrong message: its send is wrong */
    ZELDRUPA_RECEIVE = 32,         /* that link: its send is right, its receive is wrong */
    ZELDRUPA_LOCAL_ORDER = 33,     /* that link, inside one processor: its source runs behind its target */
    ZELDRUPA_BOTH_REFUSED = 34,    /* 0 */
    ZELDRUPA_FORMULA = 35,         /* the first byte that no formula could have there, or the length */
    ZELDRUPA_VALUE = 36,           /* 0 */
    ZELDRUPA_WRONG_RELEASE = 37,   /* the first wrong one; given behind 33 and before 28 */
    ZELDRUPA_NOT_SMALL = 38        /* the number of tasks */
};

/* Lent bytes: the first of them, and their number. */
struct zeldrupa_bytes {
    const uint8_t *at;
    size_t length;
};

/* Reads a sheet: two values a task (work, store), four a link (source, target, cost, bytes), and the board
 * (processors, store limit, number of tasks, number of links, unpacking time, 1 for a cube). *place is 0. */
uint8_t zeldrupa_read_sheet(const uint8_t *sheet, size_t sheet_length, uint32_t *work, size_t work_length,
                            uint16_t *tasks, size_t tasks_length, uint16_t *links, size_t links_length,
                            uint32_t board[6], uint64_t *place);

/* Writes the sheet of such values; an unpacking time of 0 is none, a cube of 0 is none and any other is one.
 * *place is the number of bytes. */
uint8_t zeldrupa_write_sheet(uint8_t processors, uint32_t limit, uint16_t unpacking, uint8_t cube,
                             const uint16_t *tasks, size_t tasks_length, const uint16_t *links,
                             size_t links_length, uint32_t *work, size_t work_length, uint8_t *out,
                             size_t out_length, uint64_t *place);

/* Writes the sheet that a seed gives, with so many tasks and tries for links: the same numbers give the same
 * bytes. ZELDRUPA_RANGE, with place 0, for seed 0, tasks outside 1 to 256, tries above 1,024 or processors
 * outside 1 to 16. *place is the number of bytes. */
uint8_t zeldrupa_generate(uint32_t seed, uint32_t tasks, uint32_t tries, uint32_t processors, uint32_t limit,
                          uint32_t *work, size_t work_length, uint8_t *out, size_t out_length, uint64_t *place);

/* Writes the b-level of each task. *place is the number of tasks. */
uint8_t zeldrupa_levels(const uint8_t *sheet, size_t sheet_length, uint32_t *work, size_t work_length,
                        uint32_t *out, size_t out_length, uint64_t *place);

/* Reads a bundle for a sheet: two values a command (its byte, its operand), and the claim. *place is the
 * number of values. */
uint8_t zeldrupa_read_bundle(const uint8_t *sheet, size_t sheet_length, const uint8_t *bundle,
                             size_t bundle_length, uint32_t *work, size_t work_length, uint16_t *commands,
                             size_t commands_length, uint32_t *claim, uint64_t *place);

/* Writes the bundle of such values. *place is the number of bytes. */
uint8_t zeldrupa_write_bundle(const uint8_t *sheet, size_t sheet_length, const uint16_t *commands,
                              size_t commands_length, uint32_t claim, uint32_t *work, size_t work_length,
                              uint8_t *out, size_t out_length, uint64_t *place);

/* Checks a bundle for a sheet: 0 if it is accepted. *place is then 0. */
uint8_t zeldrupa_check(const uint8_t *sheet, size_t sheet_length, const uint8_t *bundle, size_t bundle_length,
                       uint32_t *work, size_t work_length, uint64_t *place);

/* Writes an accepted bundle with a release of each result and each received message as early as it is right, or
 * as it is if it has any release. It claims the same and never needs more store. Refused as zeldrupa_check
 * refuses. *place is the number of bytes. */
uint8_t zeldrupa_release(const uint8_t *sheet, size_t sheet_length, const uint8_t *bundle, size_t bundle_length,
                         uint32_t *work, size_t work_length, uint8_t *out, size_t out_length, uint64_t *place);

/* Writes for each task of an accepted bundle, in number order, the greatest time by which its work can be longer
 * without the bundle ending later: four bytes a task, lowest first. Refused as zeldrupa_check refuses. *place is
 * the number of bytes, 0 for a bare board. */
uint8_t zeldrupa_drift(const uint8_t *sheet, size_t sheet_length, const uint8_t *bundle, size_t bundle_length,
                       uint32_t *work, size_t work_length, uint8_t *out, size_t out_length, uint64_t *place);

/* Checks two bundles for a sheet: *kept becomes the better one, the very bytes that were lent and no copy. An
 * accepted bundle is better than a refused one, then the smaller claim, then fewer processors that run a task,
 * then the first differing byte lower, a shorter bundle before a longer one that begins with it; of equal
 * bundles the first is kept. *place is the length of what is kept.
 * A refusal, ZELDRUPA_BOTH_REFUSED behind those of the sheet, makes *kept the empty front of the first: its
 * address, and length 0. Before the call *kept has to hold valid bytes, of any length, as {first, 0} does. */
uint8_t zeldrupa_better(const uint8_t *sheet, size_t sheet_length, const uint8_t *first, size_t first_length,
                        const uint8_t *second, size_t second_length, uint32_t *work, size_t work_length,
                        struct zeldrupa_bytes *kept, uint64_t *place);

/* Plans a sheet and writes the bundle, which zeldrupa_check accepts. *place is the number of bytes: 5 for a
 * bare board, a sheet without tasks. */
uint8_t zeldrupa_plan(const uint8_t *sheet, size_t sheet_length, uint32_t *work, size_t work_length,
                      uint8_t *out, size_t out_length, uint64_t *place);

/* Writes the best bundle of a sheet of at most six tasks that is no cube, in the form in which a plan is written and
 * without an empty programme: the least claim, then fewest processors, then the lowest bytes. ZELDRUPA_NOT_SMALL
 * behind the refusals of the sheet, then ZELDRUPA_NO_STORE if no bundle without releases is accepted. *place is the
 * number of bytes. */
uint8_t zeldrupa_least(const uint8_t *sheet, size_t sheet_length, uint32_t *work, size_t work_length,
                       uint8_t *out, size_t out_length, uint64_t *place);

/* Writes the listing of a sheet's plan, or of its refusal. *place is the number of bytes. */
uint8_t zeldrupa_listing(const uint8_t *sheet, size_t sheet_length, uint32_t *work, size_t work_length,
                         uint8_t *out, size_t out_length, uint64_t *place);

/* The weight of a formula, which becomes *place: decimal numbers of one to ten digits, letters a to z, whose 26
 * values are lent, `+`, `*` and parentheses, of which at most 32 are open together. */
uint8_t zeldrupa_weight(const uint8_t *text, size_t text_length, const uint32_t *letters, size_t letters_length,
                        uint64_t *place);

/* Starts the machine, whose state is kept in `state` from then on: lend it to the calls below, with the same
 * sheet and bundle, and let nobody else write it. *place is 0. */
uint8_t zeldrupa_start(const uint8_t *sheet, size_t sheet_length, const uint8_t *bundle, size_t bundle_length,
                       uint32_t *work, size_t work_length, uint32_t *state, size_t state_length,
                       uint64_t *place);

/* Does one command of the chosen processor. *place is 1 if it stepped, 0 if it could not or names no
 * programme. */
uint8_t zeldrupa_step(const uint8_t *sheet, size_t sheet_length, const uint8_t *bundle, size_t bundle_length,
                      uint32_t *state, size_t state_length, uint64_t choice, uint64_t *place);

/* Starts the machine and makes these choices. *place is how many of them stepped. */
uint8_t zeldrupa_run(const uint8_t *sheet, size_t sheet_length, const uint8_t *bundle, size_t bundle_length,
                     const uint8_t *choices, size_t choices_length, uint32_t *work, size_t work_length,
                     uint32_t *state, size_t state_length, uint64_t *place);

/* *place is the number of commands still to do. */
uint8_t zeldrupa_left(const uint8_t *bundle, size_t bundle_length, const uint32_t *state, size_t state_length,
                      uint64_t *place);

/* Gives clock, position and store in use of processor k, each 0 where it has no programme. *place is 0. */
uint8_t zeldrupa_processor(const uint8_t *bundle, size_t bundle_length, const uint32_t *state,
                           size_t state_length, uint64_t k, uint32_t processor[3], uint64_t *place);

/* *place is one more than the stamp of the link's message, or 0 while it is not sent. */
uint8_t zeldrupa_stamp(const uint32_t *state, size_t state_length, uint64_t link, uint64_t *place);

#ifdef __cplusplus
}
#endif

#endif

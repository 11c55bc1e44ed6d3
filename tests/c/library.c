/* The library from C: each of its functions on the trial sheet K1 and on a bare board, the plan of a free link, a board
 * with unpacking, a cube, releases, the least time, drifts, formulas, test loads, and refusals with number and
 * place. */

#include <stdio.h>
#include <string.h>

#include "zeldrupa.h"

static uint32_t work[ZELDRUPA_WORK_LENGTH];
static uint32_t state[ZELDRUPA_WORK_LENGTH];
static uint8_t sheet[8512];
static uint8_t bundle[8192];
static size_t sheet_length;
static size_t bundle_length;
static int failures;

#define WORK work, ZELDRUPA_WORK_LENGTH
#define STATE state, ZELDRUPA_WORK_LENGTH
#define SHEET sheet, sheet_length
#define BUNDLE bundle, bundle_length
#define LENT(values) values, sizeof(values) / sizeof((values)[0])

static void expect(int holds, const char *what)
{
    if (!holds) {
        printf("%s\n", what);
        failures++;
    }
}

#define EXPECT(holds) expect(holds, #holds)

/* An answer's number and place are these. */
#define ANSWERS(call, number, the_place)                                                            \
    do {                                                                                            \
        uint64_t place = UINT64_MAX;                                                                \
        uint8_t answer = (call);                                                                    \
        if (answer != (number) || place != (the_place)) {                                           \
            printf("%s: %u, place %llu\n", #call, answer, (unsigned long long)place);               \
            failures++;                                                                             \
        }                                                                                           \
    } while (0)

/* The board that was read: processors, limit, tasks, links, unpacking, cube. */
#define BOARD(...) EXPECT(memcmp(board, (const uint32_t[6]){__VA_ARGS__}, sizeof board) == 0)

static size_t read_file(const char *folder, const char *name, uint8_t *bytes, size_t most)
{
    char path[1024];
    snprintf(path, sizeof path, "%s/%s", folder, name);
    FILE *file = fopen(path, "rb");
    if (file == NULL) {
        perror(path);
        failures++;
        return 0;
    }
    size_t length = fread(bytes, 1, most, file);
    fclose(file);
    return length;
}

static void formats(void)
{
    static uint16_t tasks[512], links[4096], commands[4096];
    uint32_t board[6], levels[256], claim;
    uint8_t out[8512];
    ANSWERS(zeldrupa_read_sheet(SHEET, WORK, LENT(tasks), LENT(links), board, &place), 0, 0);
    BOARD(3, 100, 4, 3, 0, 0);
    EXPECT(tasks[2] == 3 && tasks[3] == 10 && links[4] == 3 && links[5] == 1 && links[6] == 2 && links[7] == 4);
    ANSWERS(zeldrupa_write_sheet(3, 100, 0, 0, tasks, 8, links, 12, WORK, LENT(out), &place), 0, 48);
    EXPECT(memcmp(out, sheet, 48) == 0);
    ANSWERS(zeldrupa_levels(SHEET, WORK, LENT(levels), &place), 0, 4);
    EXPECT(levels[0] == 5 && levels[1] == 3 && levels[2] == 2 && levels[3] == 7);
    ANSWERS(zeldrupa_read_bundle(SHEET, BUNDLE, WORK, LENT(commands), &claim, &place), 0, 20);
    EXPECT(claim == 5 && commands[0] == 0x50 && commands[1] == 0 && commands[2] == 0x52 && commands[3] == 3);
    ANSWERS(zeldrupa_write_bundle(SHEET, commands, 20, claim, WORK, LENT(out), &place), 0, 29);
    EXPECT(memcmp(out, bundle, 29) == 0);
}

static void planner(void)
{
    static const char lines[] = "PLAN 2 5\n0 1 0 1\n1 0 2 5\n2 1 3 5\n3 0 0 2\n";
    uint8_t out[8192];
    memset(out, 0xAA, sizeof out);
    ANSWERS(zeldrupa_plan(SHEET, WORK, LENT(out), &place), 0, bundle_length);
    EXPECT(memcmp(out, bundle, bundle_length) == 0 && out[bundle_length] == 0xAA);
    ANSWERS(zeldrupa_check(SHEET, BUNDLE, WORK, &place), 0, 0);
    ANSWERS(zeldrupa_listing(SHEET, WORK, LENT(out), &place), 0, sizeof lines - 1);
    EXPECT(memcmp(out, lines, sizeof lines - 1) == 0);
}

static void machine(void)
{
    static const uint8_t choices[] = {1, 1, 0, 0, 0, 0, 1, 1, 1, 255};
    uint32_t processor[3];
    ANSWERS(zeldrupa_start(SHEET, BUNDLE, WORK, STATE, &place), 0, 0);
    ANSWERS(zeldrupa_left(BUNDLE, STATE, &place), 0, 8);
    ANSWERS(zeldrupa_stamp(STATE, 2, &place), 0, 0);
    for (size_t i = 0; i < 8; i++) {
        ANSWERS(zeldrupa_step(SHEET, BUNDLE, STATE, choices[i], &place), 0, 1);
    }
    ANSWERS(zeldrupa_step(SHEET, BUNDLE, STATE, 1, &place), 0, 0);
    ANSWERS(zeldrupa_left(BUNDLE, STATE, &place), 0, 0);
    ANSWERS(zeldrupa_processor(BUNDLE, STATE, 1, processor, &place), 0, 0);
    EXPECT(processor[0] == 5 && processor[1] == 4 && processor[2] == 24);
    ANSWERS(zeldrupa_stamp(STATE, 2, &place), 0, 3);
    ANSWERS(zeldrupa_run(SHEET, BUNDLE, LENT(choices), WORK, STATE, &place), 0, 8);
    ANSWERS(zeldrupa_left(BUNDLE, STATE, &place), 0, 0);
}

/* What is kept is what was lent, by its address. */
static void keeps(struct zeldrupa_bytes the_sheet, struct zeldrupa_bytes first, struct zeldrupa_bytes second,
                  uint8_t number, uint64_t the_place, struct zeldrupa_bytes right)
{
    struct zeldrupa_bytes kept = {sheet, 1};
    ANSWERS(zeldrupa_better(the_sheet.at, the_sheet.length, first.at, first.length, second.at, second.length, WORK,
                            &kept, &place),
            number, the_place);
    EXPECT(kept.at == right.at && kept.length == right.length);
}

/* The better of two bundles, whichever is lent first; the first of equal ones. */
static void better(void)
{
    static const uint8_t alone[] = {0x50, 0, 0x52, 3, 0x52, 0, 0x52, 1, 0x52, 2, 0x5A, 8, 0, 0, 0};
    static const uint8_t hasty[] = {0x50, 0, 0x52, 3, 0x52, 0, 0x52, 1, 0x52, 2, 0x5A, 1, 0, 0, 0};
    static const uint8_t bare[] = {0x4D, 3, 100, 0, 0, 0, 0x51}, claim_0[] = {0x5A, 0, 0, 0, 0};
    static const uint8_t empty[] = {0x50, 0, 0x50, 1, 0x5A, 0, 0, 0, 0};
    static const uint32_t zeros[ZELDRUPA_WORK_LENGTH];
    uint8_t copy[64];
    struct zeldrupa_bytes kept = {sheet, 1};
    struct zeldrupa_bytes k1 = {SHEET}, planned = {BUNDLE}, twin = {copy, bundle_length}, cut = {bundle, 7};
    struct zeldrupa_bytes one = {LENT(alone)}, wrong = {LENT(hasty)}, wrong_front = {hasty, 0}, front = {bundle, 0};
    struct zeldrupa_bytes board = {LENT(bare)}, none = {LENT(claim_0)}, two = {LENT(empty)}, cut_sheet = {sheet, 47};
    memcpy(copy, bundle, bundle_length);
    keeps(k1, planned, one, 0, bundle_length, planned);
    keeps(k1, one, planned, 0, bundle_length, planned);
    keeps(k1, planned, twin, 0, bundle_length, planned);
    keeps(k1, twin, planned, 0, bundle_length, twin);
    keeps(k1, wrong, one, 0, sizeof alone, one);
    keeps(k1, one, cut, 0, sizeof alone, one);
    keeps(k1, wrong, cut, ZELDRUPA_BOTH_REFUSED, 0, wrong_front);
    keeps(cut_sheet, planned, one, ZELDRUPA_CUT_SHEET, 47, front);
    keeps(board, none, two, 0, sizeof empty, two);
    memset(work, 0xAA, sizeof work);
    ANSWERS(zeldrupa_better(SHEET, BUNDLE, LENT(alone), work, ZELDRUPA_WORK_LENGTH - 1, &kept, &place),
            ZELDRUPA_SHORT_WORK_AREA, ZELDRUPA_WORK_LENGTH);
    EXPECT(kept.at == bundle && kept.length == 0 && work[0] == 0xAAAAAAAA);
    ANSWERS(zeldrupa_better(SHEET, BUNDLE, LENT(alone), WORK, &kept, &place), 0, bundle_length);
    EXPECT(kept.at == bundle && memcmp(work, zeros, sizeof zeros) == 0);
}

/* In a state that was never started nobody can step, and nothing is left to do. */
static void never_started(void)
{
    static const uint32_t zeros[ZELDRUPA_WORK_LENGTH];
    memset(state, 0, sizeof state);
    for (uint64_t k = 0; k < 17; k++) {
        ANSWERS(zeldrupa_step(SHEET, BUNDLE, STATE, k, &place), 0, 0);
    }
    ANSWERS(zeldrupa_left(BUNDLE, STATE, &place), 0, 0);
    EXPECT(memcmp(state, zeros, sizeof zeros) == 0);
}

static void refusals(void)
{
    uint8_t out[64], claiming_6[64];
    memcpy(claiming_6, bundle, bundle_length);
    claiming_6[25] = 6;
    ANSWERS(zeldrupa_check(SHEET, claiming_6, bundle_length, WORK, &place), ZELDRUPA_WRONG_CLAIM, 5);
    ANSWERS(zeldrupa_plan(sheet, 47, WORK, LENT(out), &place), ZELDRUPA_CUT_SHEET, 47);
    ANSWERS(zeldrupa_plan(SHEET, WORK, out, 28, &place), ZELDRUPA_SHORT_OUTPUT, 29);
    ANSWERS(zeldrupa_plan(SHEET, work, ZELDRUPA_WORK_LENGTH - 1, LENT(out), &place), ZELDRUPA_SHORT_WORK_AREA,
            ZELDRUPA_WORK_LENGTH);
}

/* A board with no jobs yet: seven bytes, a plan of five, and nobody who can step. */
static void bare_board(void)
{
    static const uint8_t bare[] = {0x4D, 3, 100, 0, 0, 0, 0x51}, claim_0[] = {0x5A, 0, 0, 0, 0};
    static const uint8_t empty[] = {0x50, 0, 0x50, 1, 0x5A, 0, 0, 0, 0}, claim_1[] = {0x5A, 1, 0, 0, 0};
    static const char lines[] = "PLAN 0 0\n";
    uint16_t tasks[2], links[4], commands[4];
    uint32_t board[6], levels[1], claim, processor[3];
    uint8_t out[16];
    ANSWERS(zeldrupa_read_sheet(LENT(bare), WORK, tasks, 0, links, 0, board, &place), 0, 0);
    BOARD(3, 100, 0, 0, 0, 0);
    ANSWERS(zeldrupa_write_sheet(3, 100, 0, 0, tasks, 0, links, 0, WORK, LENT(out), &place), 0, sizeof bare);
    EXPECT(memcmp(out, bare, sizeof bare) == 0);
    ANSWERS(zeldrupa_levels(LENT(bare), WORK, levels, 0, &place), 0, 0);
    ANSWERS(zeldrupa_plan(LENT(bare), WORK, LENT(out), &place), 0, sizeof claim_0);
    EXPECT(memcmp(out, claim_0, sizeof claim_0) == 0);
    ANSWERS(zeldrupa_plan(LENT(bare), WORK, out, 4, &place), ZELDRUPA_SHORT_OUTPUT, sizeof claim_0);
    ANSWERS(zeldrupa_listing(LENT(bare), WORK, LENT(out), &place), 0, sizeof lines - 1);
    EXPECT(memcmp(out, lines, sizeof lines - 1) == 0);
    ANSWERS(zeldrupa_read_bundle(LENT(bare), LENT(empty), WORK, LENT(commands), &claim, &place), 0, 4);
    EXPECT(claim == 0 && commands[0] == 0x50 && commands[1] == 0 && commands[2] == 0x50 && commands[3] == 1);
    ANSWERS(zeldrupa_write_bundle(LENT(bare), commands, 0, 0, WORK, LENT(out), &place), 0, sizeof claim_0);
    EXPECT(memcmp(out, claim_0, sizeof claim_0) == 0);
    ANSWERS(zeldrupa_check(LENT(bare), LENT(claim_0), WORK, &place), 0, 0);
    ANSWERS(zeldrupa_check(LENT(bare), LENT(empty), WORK, &place), 0, 0);
    ANSWERS(zeldrupa_check(LENT(bare), LENT(claim_1), WORK, &place), ZELDRUPA_WRONG_CLAIM, 0);
    ANSWERS(zeldrupa_check(LENT(bare), claim_0, 4, WORK, &place), ZELDRUPA_CUT_BUNDLE, 0);
    ANSWERS(zeldrupa_check(SHEET, LENT(claim_0), WORK, &place), ZELDRUPA_BUNDLE_OUT_OF_TURN, 0);
    ANSWERS(zeldrupa_release(LENT(bare), LENT(empty), WORK, LENT(out), &place), 0, sizeof empty);
    EXPECT(memcmp(out, empty, sizeof empty) == 0);
    ANSWERS(zeldrupa_drift(LENT(bare), LENT(empty), WORK, out, 0, &place), 0, 0);
    ANSWERS(zeldrupa_start(LENT(bare), LENT(claim_0), WORK, STATE, &place), 0, 0);
    ANSWERS(zeldrupa_step(LENT(bare), LENT(claim_0), STATE, 0, &place), 0, 0);
    ANSWERS(zeldrupa_left(LENT(claim_0), STATE, &place), 0, 0);
    ANSWERS(zeldrupa_processor(LENT(claim_0), STATE, 0, processor, &place), 0, 0);
    EXPECT(processor[0] == 0 && processor[1] == 0 && processor[2] == 0);
}

/* Two tasks joined by a link of cost 0 are on one processor, though the board has two. */
static void free_link(const char *folder)
{
    static const char lines[] = "PLAN 1 2\n0 0 0 1\n1 0 1 2\n";
    uint8_t two_tasks[64], together[64], out[64];
    size_t length = read_file(folder, "free-link.sheet", two_tasks, sizeof two_tasks);
    size_t planned = read_file(folder, "free-link.bundle", together, sizeof together);
    ANSWERS(zeldrupa_plan(two_tasks, length, WORK, LENT(out), &place), 0, planned);
    EXPECT(planned == 11 && memcmp(out, together, planned) == 0);
    ANSWERS(zeldrupa_check(two_tasks, length, together, planned, WORK, &place), 0, 0);
    ANSWERS(zeldrupa_listing(two_tasks, length, WORK, LENT(out), &place), 0, sizeof lines - 1);
    EXPECT(memcmp(out, lines, sizeof lines - 1) == 0);
    ANSWERS(zeldrupa_plan(two_tasks, length, WORK, out, planned - 1, &place), ZELDRUPA_SHORT_OUTPUT, planned);
}

/* K1 on a board on which each receive takes 1: read, written, planned, run, and refused where the command is wrong. */
static void unpacking(const char *folder)
{
    static const char lines[] = "PLAN 3 6\n0 2 0 1\n1 0 3 6\n2 1 4 6\n3 0 0 2\n";
    static const uint8_t wrong[] = {0x4D, 3, 100, 0, 0, 0, 0x55, 1, 0, 0x55, 0, 0};
    uint8_t stored[64], apart[64], out[64];
    uint16_t tasks[8], links[12];
    uint32_t board[6], processor[3];
    size_t length = read_file(folder, "unpacking.sheet", stored, sizeof stored);
    size_t planned = read_file(folder, "unpacking.bundle", apart, sizeof apart);
    ANSWERS(zeldrupa_read_sheet(stored, length, WORK, LENT(tasks), LENT(links), board, &place), 0, 0);
    BOARD(3, 100, 4, 3, 1, 0);
    ANSWERS(zeldrupa_write_sheet(3, 100, 1, 0, LENT(tasks), LENT(links), WORK, LENT(out), &place), 0, 51);
    EXPECT(length == 51 && memcmp(out, stored, 51) == 0);
    ANSWERS(zeldrupa_write_sheet(3, 100, 1, 0, LENT(tasks), LENT(links), WORK, out, 50, &place),
            ZELDRUPA_SHORT_OUTPUT, 51);
    ANSWERS(zeldrupa_plan(stored, length, WORK, LENT(out), &place), 0, planned);
    EXPECT(planned == 31 && memcmp(out, apart, planned) == 0);
    ANSWERS(zeldrupa_listing(stored, length, WORK, LENT(out), &place), 0, sizeof lines - 1);
    EXPECT(memcmp(out, lines, sizeof lines - 1) == 0);
    ANSWERS(zeldrupa_check(stored, length, apart, planned, WORK, &place), 0, 0);
    ANSWERS(zeldrupa_check(stored, length, BUNDLE, WORK, &place), ZELDRUPA_WRONG_CLAIM, 6);
    ANSWERS(zeldrupa_run(stored, length, apart, planned, (const uint8_t[]){0, 0, 1}, 3, WORK, STATE, &place), 0, 3);
    ANSWERS(zeldrupa_processor(apart, planned, STATE, 1, processor, &place), 0, 0);
    EXPECT(processor[0] == 4 && processor[1] == 1 && processor[2] == 4);
    ANSWERS(zeldrupa_plan(LENT(wrong), WORK, LENT(out), &place), ZELDRUPA_SHEET_OUT_OF_TURN, 9);
    ANSWERS(zeldrupa_plan(wrong, 8, WORK, LENT(out), &place), ZELDRUPA_CUT_SHEET, 6);
    stored[7] = 0;
    ANSWERS(zeldrupa_plan(stored, length, WORK, LENT(out), &place), ZELDRUPA_RANGE, 6);
}

/* Five tasks on a cube of four processors, of which number 2 is skipped: read, written, planned, listed by the
 * processors that run a task, run with two hops from processor 0 to 3, and refused where the command is wrong. */
static void cube(const char *folder)
{
    static const char lines[] = "PLAN 3 5\n0 0 0 2\n1 1 0 1\n2 0 2 4\n3 1 1 4\n4 3 4 5\n";
    static const uint8_t wrong[] = {0x4D, 3, 100, 0, 0, 0, 0x48, 0x55, 1, 0};
    uint8_t stored[64], apart[64], out[64];
    uint16_t tasks[10], links[16];
    uint32_t board[6], processor[3];
    size_t length = read_file(folder, "cube.sheet", stored, sizeof stored);
    size_t planned = read_file(folder, "cube.bundle", apart, sizeof apart);
    ANSWERS(zeldrupa_read_sheet(stored, length, WORK, LENT(tasks), LENT(links), board, &place), 0, 0);
    BOARD(4, 100, 5, 4, 0, 1);
    for (int any = 1; any < 256; any += 127) {
        ANSWERS(zeldrupa_write_sheet(4, 100, 0, any, LENT(tasks), LENT(links), WORK, LENT(out), &place), 0, 61);
        EXPECT(length == 61 && memcmp(out, stored, 61) == 0);
    }
    ANSWERS(zeldrupa_write_sheet(4, 100, 0, 0, LENT(tasks), LENT(links), WORK, LENT(out), &place), 0, 60);
    ANSWERS(zeldrupa_plan(stored, length, WORK, LENT(out), &place), 0, planned);
    EXPECT(planned == 35 && memcmp(out, apart, planned) == 0);
    ANSWERS(zeldrupa_listing(stored, length, WORK, LENT(out), &place), 0, sizeof lines - 1);
    EXPECT(memcmp(out, lines, sizeof lines - 1) == 0);
    ANSWERS(zeldrupa_check(stored, length, apart, planned, WORK, &place), 0, 0);
    ANSWERS(zeldrupa_run(stored, length, apart, planned, (const uint8_t[]){0, 0, 2, 3}, 4, WORK, STATE, &place), 0, 3);
    ANSWERS(zeldrupa_stamp(STATE, 2, &place), 0, 5);
    ANSWERS(zeldrupa_processor(apart, planned, STATE, 3, processor, &place), 0, 0);
    EXPECT(processor[0] == 4 && processor[1] == 1 && processor[2] == 4);
    ANSWERS(zeldrupa_plan(LENT(wrong), WORK, LENT(out), &place), ZELDRUPA_SHEET_OUT_OF_TURN, 7);
    ANSWERS(zeldrupa_plan(wrong, 7, WORK, LENT(out), &place), ZELDRUPA_CUT_SHEET, 7);
}

/* K1's plan with its releases, which are read, written, checked and run; wrong ones; and a sheet that only fits with
 * releases. */
static void releases(const char *folder)
{
    uint8_t passed[64], out[64], five[64], fits[64];
    uint16_t commands[64];
    uint32_t claim, processor[3];
    size_t length = read_file(folder, "k1-released.bundle", passed, sizeof passed);
    size_t five_length = read_file(folder, "release.sheet", five, sizeof five);
    size_t fits_length = read_file(folder, "release.bundle", fits, sizeof fits);
    memset(out, 0xAA, sizeof out);
    ANSWERS(zeldrupa_release(SHEET, BUNDLE, WORK, LENT(out), &place), 0, 43);
    EXPECT(length == 43 && memcmp(out, passed, 43) == 0 && out[43] == 0xAA);
    ANSWERS(zeldrupa_release(SHEET, passed, length, WORK, out, 43, &place), 0, 43);
    EXPECT(memcmp(out, passed, 43) == 0);
    memset(out, 0xAA, sizeof out);
    ANSWERS(zeldrupa_release(SHEET, BUNDLE, WORK, out, 42, &place), ZELDRUPA_SHORT_OUTPUT, 43);
    ANSWERS(zeldrupa_release(SHEET, bundle, 28, WORK, LENT(out), &place), ZELDRUPA_CUT_BUNDLE, 24);
    ANSWERS(zeldrupa_release(SHEET, BUNDLE, work, ZELDRUPA_WORK_LENGTH - 1, LENT(out), &place),
            ZELDRUPA_SHORT_WORK_AREA, ZELDRUPA_WORK_LENGTH);
    EXPECT(out[0] == 0xAA && out[42] == 0xAA);
    ANSWERS(zeldrupa_check(SHEET, passed, length, WORK, &place), 0, 0);
    ANSWERS(zeldrupa_read_bundle(SHEET, passed, length, WORK, LENT(commands), &claim, &place), 0, 32);
    EXPECT(claim == 5 && commands[10] == 0x46 && commands[11] == 1 && commands[14] == 0x47 && commands[15] == 2);
    ANSWERS(zeldrupa_write_bundle(SHEET, commands, 32, claim, WORK, LENT(out), &place), 0, 43);
    EXPECT(memcmp(out, passed, 43) == 0);
    ANSWERS(zeldrupa_run(SHEET, passed, length, (const uint8_t[]){1, 1, 1}, 3, WORK, STATE, &place), 0, 3);
    ANSWERS(zeldrupa_processor(passed, length, STATE, 1, processor, &place), 0, 0);
    EXPECT(processor[0] == 1 && processor[1] == 3 && processor[2] == 0);
    ANSWERS(zeldrupa_left(passed, length, STATE, &place), 0, 11);
    /* A second release of task 1 in the place of that of task 3, and one of a task that runs elsewhere. */
    passed[15] = 1;
    ANSWERS(zeldrupa_check(SHEET, passed, length, WORK, &place), ZELDRUPA_WRONG_RELEASE, 14);
    ANSWERS(zeldrupa_start(SHEET, passed, length, WORK, STATE, &place), ZELDRUPA_WRONG_RELEASE, 14);
    passed[13] = 0;
    ANSWERS(zeldrupa_release(SHEET, passed, length, WORK, LENT(out), &place), ZELDRUPA_WRONG_RELEASE, 12);
    ANSWERS(zeldrupa_plan(five, five_length, WORK, LENT(out), &place), ZELDRUPA_NO_STORE, 3);
    ANSWERS(zeldrupa_check(five, five_length, fits, fits_length, WORK, &place), 0, 0);
    memmove(fits + 9, fits + 11, fits_length - 11);
    ANSWERS(zeldrupa_check(five, five_length, fits, fits_length - 2, WORK, &place), ZELDRUPA_OVER_STORE, 0);
}

/* The least time: K1's best bundle, K5's, which has no plan, and what is refused. */
static void least(const char *folder)
{
    static const uint8_t bare[] = {0x4D, 3, 100, 0, 0, 0, 0x51}, bare_cube[] = {0x4D, 3, 100, 0, 0, 0, 0x48, 0x51};
    static uint8_t small[ZELDRUPA_LONGEST_SHEET];
    uint8_t stored[64], best[64], out[64];
    size_t length = read_file(folder, "k1-least.bundle", best, sizeof best);
    memset(out, 0xAA, sizeof out);
    ANSWERS(zeldrupa_least(SHEET, WORK, LENT(out), &place), 0, 29);
    EXPECT(length == 29 && memcmp(out, best, 29) == 0 && out[29] == 0xAA);
    ANSWERS(zeldrupa_least(SHEET, WORK, out, 28, &place), ZELDRUPA_SHORT_OUTPUT, 29);
    ANSWERS(zeldrupa_least(SHEET, work, ZELDRUPA_WORK_LENGTH - 1, LENT(out), &place), ZELDRUPA_SHORT_WORK_AREA,
            ZELDRUPA_WORK_LENGTH);
    ANSWERS(zeldrupa_least(sheet, 47, WORK, LENT(out), &place), ZELDRUPA_CUT_SHEET, 47);
    size_t k5 = read_file(folder, "k5.sheet", small, sizeof small);
    length = read_file(folder, "k5.bundle", stored, sizeof stored);
    ANSWERS(zeldrupa_plan(small, k5, WORK, LENT(out), &place), ZELDRUPA_NO_STORE, 4);
    ANSWERS(zeldrupa_least(small, k5, WORK, LENT(out), &place), 0, length);
    EXPECT(memcmp(out, stored, length) == 0);
    small[2] = 5;
    ANSWERS(zeldrupa_least(small, k5, WORK, LENT(out), &place), ZELDRUPA_NO_STORE, 4);
    ANSWERS(zeldrupa_least(LENT(bare), WORK, LENT(out), &place), 0, 5);
    ANSWERS(zeldrupa_least(LENT(bare_cube), WORK, LENT(out), &place), ZELDRUPA_NOT_SMALL, 0);
    ANSWERS(zeldrupa_generate(1, 7, 0, 2, 100, WORK, LENT(small), &place), 0, 42);
    ANSWERS(zeldrupa_least(small, 42, WORK, LENT(out), &place), ZELDRUPA_NOT_SMALL, 7);
}

/* How far each task's time may drift: of K1's plan none, of five tasks one, and farther than a work can be. */
static void drifts(const char *folder)
{
    static const uint8_t three[] = {0x4D, 2, 0, 0, 0, 0, 0x54, 255, 255, 0, 0,
                                    0x54, 255, 255, 0, 0, 0x54, 1, 0, 0, 0, 0x51};
    static const uint8_t apart[] = {0x50, 0, 0x52, 0, 0x52, 1, 0x50, 1, 0x52, 2, 0x5A, 0xFE, 0xFF, 1, 0};
    static const uint8_t none[20], eleven[20] = {[12] = 11}, far[12] = {[8] = 0xFD, [9] = 0xFF, [10] = 1};
    uint8_t five[64], fits[64], out[32];
    size_t five_length = read_file(folder, "release.sheet", five, sizeof five);
    size_t fits_length = read_file(folder, "release.bundle", fits, sizeof fits);
    memset(out, 0xAA, sizeof out);
    ANSWERS(zeldrupa_drift(SHEET, BUNDLE, WORK, LENT(out), &place), 0, 16);
    EXPECT(memcmp(out, none, 16) == 0 && out[16] == 0xAA);
    ANSWERS(zeldrupa_drift(five, five_length, fits, fits_length, WORK, LENT(out), &place), 0, 20);
    EXPECT(memcmp(out, eleven, 20) == 0);
    ANSWERS(zeldrupa_drift(LENT(three), LENT(apart), WORK, out, 12, &place), 0, 12);
    EXPECT(memcmp(out, far, 12) == 0);
    memset(out, 0xAA, sizeof out);
    ANSWERS(zeldrupa_drift(SHEET, BUNDLE, WORK, out, 15, &place), ZELDRUPA_SHORT_OUTPUT, 16);
    ANSWERS(zeldrupa_drift(SHEET, bundle, 28, WORK, LENT(out), &place), ZELDRUPA_CUT_BUNDLE, 24);
    ANSWERS(zeldrupa_drift(SHEET, BUNDLE, work, ZELDRUPA_WORK_LENGTH - 1, LENT(out), &place),
            ZELDRUPA_SHORT_WORK_AREA, ZELDRUPA_WORK_LENGTH);
    EXPECT(out[0] == 0xAA && out[15] == 0xAA);
}

/* Formulas: the weight is the place. */
static void weights(void)
{
    uint32_t letters[26] = {0};
    letters['n' - 'a'] = 100;
    letters['b' - 'a'] = 20;
#define WEIGHT(text) zeldrupa_weight((const uint8_t *)text, sizeof text - 1, LENT(letters), &place)
    ANSWERS(WEIGHT("3*n*n+2*(n+b)"), 0, 30240);
    ANSWERS(WEIGHT("65535"), 0, 65535);
    ANSWERS(WEIGHT("0*4294967295*2+1"), 0, 1);
    ANSWERS(WEIGHT("4294967295*2*0+1"), ZELDRUPA_VALUE, 0);
    ANSWERS(WEIGHT("65536"), ZELDRUPA_VALUE, 0);
    ANSWERS(WEIGHT("z"), ZELDRUPA_VALUE, 0);
    ANSWERS(WEIGHT(""), ZELDRUPA_FORMULA, 0);
    ANSWERS(WEIGHT("(n+"), ZELDRUPA_FORMULA, 3);
    ANSWERS(WEIGHT("n n"), ZELDRUPA_FORMULA, 1);
    ANSWERS(WEIGHT("00000000001"), ZELDRUPA_FORMULA, 10);
    ANSWERS(zeldrupa_weight((const uint8_t *)"1", 1, letters, 25, &place), ZELDRUPA_VALUE, 0);
    ANSWERS(zeldrupa_weight((const uint8_t *)"1)", 2, letters, 25, &place), ZELDRUPA_FORMULA, 1);
}

/* Test loads: a stored one made again, one of the largest, and what is out of range. */
static void loads(const char *folder)
{
    static uint8_t stored[64], out[ZELDRUPA_LONGEST_SHEET];
    static uint16_t tasks[512], links[4096];
    uint32_t board[6];
    size_t length = read_file(folder, "load-small.sheet", stored, sizeof stored);
    memset(out, 0xAA, sizeof out);
    ANSWERS(zeldrupa_generate(3, 3, 6, 2, 100, WORK, LENT(out), &place), 0, 36);
    EXPECT(length == 36 && memcmp(out, stored, 36) == 0 && out[36] == 0xAA);
    memset(out, 0xAA, sizeof out);
    ANSWERS(zeldrupa_generate(3, 3, 6, 2, 100, WORK, out, 35, &place), ZELDRUPA_SHORT_OUTPUT, 36);
    ANSWERS(zeldrupa_generate(0, 3, 6, 2, 100, WORK, out, 0, &place), ZELDRUPA_RANGE, 0);
    ANSWERS(zeldrupa_generate(3, 0, 6, 2, 100, WORK, LENT(out), &place), ZELDRUPA_RANGE, 0);
    ANSWERS(zeldrupa_generate(3, 257, 6, 2, 100, WORK, LENT(out), &place), ZELDRUPA_RANGE, 0);
    ANSWERS(zeldrupa_generate(3, 3, 1025, 2, 100, WORK, LENT(out), &place), ZELDRUPA_RANGE, 0);
    ANSWERS(zeldrupa_generate(3, 3, 6, 0, 100, WORK, LENT(out), &place), ZELDRUPA_RANGE, 0);
    ANSWERS(zeldrupa_generate(3, 3, 6, 258, 100, WORK, LENT(out), &place), ZELDRUPA_RANGE, 0);
    ANSWERS(zeldrupa_generate(0, 3, 6, 2, 100, work, ZELDRUPA_WORK_LENGTH - 1, LENT(out), &place),
            ZELDRUPA_SHORT_WORK_AREA, ZELDRUPA_WORK_LENGTH);
    EXPECT(out[0] == 0xAA && out[35] == 0xAA);
    ANSWERS(zeldrupa_generate(1, 256, 1024, 16, UINT32_MAX, WORK, LENT(out), &place), 0, 4934);
    ANSWERS(zeldrupa_read_sheet(out, 4934, WORK, LENT(tasks), LENT(links), board, &place), 0, 0);
    EXPECT(board[0] == 16 && board[1] == UINT32_MAX && board[2] == 256 && 7 * board[3] == 4934 - 1287);
}

int main(int count, char **arguments)
{
    const char *folder = count > 1 ? arguments[1] : "examples";
    sheet_length = read_file(folder, "k1.sheet", sheet, sizeof sheet);
    bundle_length = read_file(folder, "k1.bundle", bundle, sizeof bundle);
    EXPECT(sheet_length == 48 && bundle_length == 29);
    if (failures == 0) {
        formats();
        planner();
        better();
        machine();
        never_started();
        refusals();
        bare_board();
        free_link(folder);
        unpacking(folder);
        cube(folder);
        releases(folder);
        least(folder);
        drifts(folder);
        weights();
        loads(folder);
    }
    printf("C: %d failures\n", failures);
    return failures != 0;
}

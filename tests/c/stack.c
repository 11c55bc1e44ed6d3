/* How deep the stack of each function is on a sheet of the largest size with unpacking on a cube, of the least time on
 * one of six tasks and 15 links, and of a formula's weight on megabytes of text: it runs in a thread whose stack was
 * filled with a pattern, and what is left of the pattern is counted. None may use 16 KiB. */

#define _GNU_SOURCE
#include <pthread.h>
#include <stdio.h>
#include <stdlib.h>
#include <string.h>

#include "zeldrupa.h"

enum { TASKS = 256, LINKS = 1024, TEXT = 4 << 20, STACK = 1 << 20, MOST = 16 * 1024, PATTERN = 0xA5 };

static uint32_t work[ZELDRUPA_WORK_LENGTH], state[ZELDRUPA_WORK_LENGTH], board[6], levels[TASKS], claim;
static uint16_t tasks[2 * TASKS], links[4 * LINKS], commands[8192];
static uint8_t sheet[8512], bundle[8192], listing[32768], choices[8192];
static uint8_t text[TEXT], number;
static const uint32_t letters[26];
static uint64_t sheet_length, bundle_length, values, place;
static struct zeldrupa_bytes kept = {bundle, 0};

#define WORK work, ZELDRUPA_WORK_LENGTH
#define STATE state, ZELDRUPA_WORK_LENGTH
#define SHEET sheet, sheet_length
#define BUNDLE bundle, bundle_length
#define LENT(lent) lent, sizeof(lent) / sizeof((lent)[0])

static void nothing(void) {}

static void write_sheet(void)
{
    for (int t = 0; t < TASKS; t++) {
        tasks[2 * t] = 1 + 7 * t % 100;
        tasks[2 * t + 1] = t;
    }
    for (int l = 0; l < LINKS; l++) {
        int source = l / 5, target = source + 1 + l % 5;
        links[4 * l] = source;
        links[4 * l + 1] = target;
        links[4 * l + 2] = 3 * l % 50;
        links[4 * l + 3] = l;
    }
    zeldrupa_write_sheet(16, UINT32_MAX, 12, 1, LENT(tasks), LENT(links), WORK, LENT(sheet), &sheet_length);
}

static void generate(void) { zeldrupa_generate(1, TASKS, LINKS, 16, UINT32_MAX, WORK, LENT(listing), &place); }
static void read_sheet(void) { zeldrupa_read_sheet(SHEET, WORK, LENT(tasks), LENT(links), board, &place); }
static void find_levels(void) { zeldrupa_levels(SHEET, WORK, LENT(levels), &place); }
static void plan(void) { zeldrupa_plan(SHEET, WORK, LENT(bundle), &bundle_length); }
static void list(void) { zeldrupa_listing(SHEET, WORK, LENT(listing), &place); }
static void read_bundle(void) { zeldrupa_read_bundle(SHEET, BUNDLE, WORK, LENT(commands), &claim, &values); }
static void write_bundle(void) { zeldrupa_write_bundle(SHEET, commands, values, claim, WORK, LENT(listing), &place); }
static void check(void) { zeldrupa_check(SHEET, BUNDLE, WORK, &place); }
static void release(void) { zeldrupa_release(SHEET, BUNDLE, WORK, LENT(listing), &place); }
static void drift(void) { zeldrupa_drift(SHEET, BUNDLE, WORK, LENT(listing), &place); }
static void better(void) { zeldrupa_better(SHEET, BUNDLE, BUNDLE, WORK, &kept, &place); }
static void start(void) { zeldrupa_start(SHEET, BUNDLE, WORK, STATE, &place); }
static void step(void) { zeldrupa_step(SHEET, BUNDLE, STATE, 0, &place); }
static void run(void) { zeldrupa_run(SHEET, BUNDLE, LENT(choices), WORK, STATE, &place); }

/* The sheet of six tasks in full order, 15 links. */
static void write_small(void)
{
    for (int from = 0, l = 0; from < 6; from++) {
        for (int to = from + 1; to < 6; to++, l++) {
            links[4 * l] = from;
            links[4 * l + 1] = to;
        }
    }
    zeldrupa_write_sheet(16, UINT32_MAX, 12, 0, tasks, 12, links, 60, WORK, LENT(sheet), &sheet_length);
}

static void least(void) { zeldrupa_least(SHEET, WORK, LENT(bundle), &place); }

static void weigh(void) { number = zeldrupa_weight(LENT(text), LENT(letters), &place); }

static void *call(void *function)
{
    ((void (*)(void))function)();
    return NULL;
}

static size_t depth(void (*function)(void))
{
    uint8_t *stack = aligned_alloc(4096, STACK);
    pthread_attr_t attributes;
    pthread_t thread;
    memset(stack, PATTERN, STACK);
    pthread_attr_init(&attributes);
    pthread_attr_setstack(&attributes, stack, STACK);
    pthread_create(&thread, &attributes, call, (void *)function);
    pthread_join(thread, NULL);
    size_t left = 0;
    while (left < STACK && stack[left] == PATTERN) {
        left++;
    }
    free(stack);
    return STACK - left;
}

static int failures;

static void judge(const char *name, void (*function)(void))
{
    size_t bytes = depth(function) - depth(nothing);
    if (bytes >= MOST) {
        printf("%s: %zu bytes of stack\n", name, bytes);
        failures++;
    } else if (getenv("ZELDRUPA_STACK") != NULL) {
        printf("%-13s %5zu\n", name, bytes);
    }
}

/* A text of these bytes over and over, behind so many `(` and before so many `)`, and its answer. */
static void judge_text(size_t open, const char *bytes, size_t close, uint8_t expected, uint64_t at)
{
    memset(text, '(', open);
    for (size_t i = open; i < TEXT - close; i++) {
        text[i] = bytes[(i - open) % strlen(bytes)];
    }
    memset(text + TEXT - close, ')', close);
    judge(bytes, weigh);
    if (number != expected || place != at) {
        printf("%s: %d %llu\n", bytes, number, (unsigned long long)place);
        failures++;
    }
}

int main(void)
{
    judge("write_sheet", write_sheet);
    judge("read_sheet", read_sheet);
    judge("levels", find_levels);
    judge("plan", plan);
    judge("listing", list);
    judge("read_bundle", read_bundle);
    judge("write_bundle", write_bundle);
    judge("check", check);
    judge("release", release);
    judge("drift", drift);
    judge("better", better);
    judge("start", start);
    judge("step", step);
    judge("run", run);
    judge("generate", generate);

    write_small();
    judge("least", least);

    judge_text(0, "(", 0, ZELDRUPA_FORMULA, 32);
    judge_text(0, ")", 0, ZELDRUPA_FORMULA, 0);
    judge_text(0, "9", 0, ZELDRUPA_FORMULA, 10);
    judge_text(0, "+", 0, ZELDRUPA_FORMULA, 0);
    judge_text(0, "a+", 0, ZELDRUPA_FORMULA, TEXT);
    judge_text(0, "0*", 0, ZELDRUPA_FORMULA, TEXT);
    judge_text(0, "(0+1)*", 0, ZELDRUPA_FORMULA, TEXT);
    judge_text(32, "1*z*00+", 32, 0, 1);
    judge_text(32, "0*z*00+", 32, ZELDRUPA_VALUE, 0);
    judge_text(32, "1*z*(0)+", 32, ZELDRUPA_FORMULA, 36);
    judge_text(32, "z*0+9+a+", 33, ZELDRUPA_FORMULA, TEXT - 1);
    return failures == 0 ? 0 : 1;
}

/*
 * Holds every name of olavinthu.h but the edition against what the archive does: a limit is accepted and one past it
 * refused, a kind gives its own distances, a refusal or a stop answers a call that breaks its rule alone, the mark stands
 * where it should, and no call takes more stack than is said.
 *
 * After `(cd crates/olavinthu && rt lib)`, from the repository's root:
 *
 *     cc -std=c11 -Iinclude examples/header.c crates/olavinthu/out/libolavinthu.a -pthread -o /tmp/header && /tmp/header
 *
 * It prints examples/header.txt and answers 0, or says on standard error what is not so first and answers 1. The tests on
 * the largest boards come last, since most of the time goes there. The stack is looked at from threads, hence -pthread.
 */
#define _POSIX_C_SOURCE 200809L

#include "olavinthu.h"

#include <inttypes.h>
#include <pthread.h>
#include <stdio.h>
#include <stdlib.h>
#include <string.h>
#include <unistd.h>

/* Room for a board with both sides one past the limit, and for a clear map one past its own. */
#define SIDE (OLV_SIDE_LIMIT + 1)
#define ROOM (SIDE * SIDE + OLV_CLEAR_LIMIT)

static uint8_t picture[ROOM];
static uint32_t costs[ROOM];
static uint32_t distances[ROOM];
static uint32_t sites[ROOM];
static uint32_t scratch[2 * ROOM];
static uint32_t path[ROOM];
static uint8_t clear[ROOM];
static uint8_t text[OLV_TEXT_BYTES];

/* The out-words of a call. */
static uint32_t first;
static uint32_t second;
static int32_t place;
static double millimetres;

/* Ends the program where what is found is not what is expected; `asked` says of what. */
static void expect(const char *asked, uint32_t found, uint32_t expected)
{
    if (found != expected) {
        fprintf(stderr, "header: %s: %" PRIu32 ", not %" PRIu32 "\n", asked, found, expected);
        exit(1);
    }
}

/* Prints a name with its number. */
#define SHOW(name) printf("%s %" PRIu32 "\n", #name, (uint32_t)(name))

/* The four calls on a board, with a scratch of this many words and all other lists just as long as they must be. */
static uint32_t map_in(size_t words, uint32_t w, uint32_t h, uint32_t kind, uint32_t d1, uint32_t d2)
{
    const size_t cells = (size_t)w * h;
    return olv_map(w, h, kind, d1, d2, picture, cells, distances, cells, sites, cells, scratch, words);
}

static uint32_t slice_in(size_t words, uint32_t w, uint32_t h, uint32_t kind, uint32_t line, uint32_t budget)
{
    const size_t cells = (size_t)w * h;
    return olv_slice(w, h, kind, line, budget, picture, cells, distances, cells, sites, cells, scratch, words, &first,
                     &second);
}

static uint32_t costs_in(size_t words, uint32_t w, uint32_t h, uint32_t kind)
{
    const size_t cells = (size_t)w * h;
    return olv_cost_map(w, h, kind, costs, cells, distances, cells, sites, cells, scratch, words);
}

static uint32_t lane_in(size_t words, uint32_t w, uint32_t h, uint32_t from, uint32_t to)
{
    const size_t cells = (size_t)w * h;
    return olv_lane(w, h, picture, cells, from, to, distances, cells, sites, cells, scratch, words, path, cells, &first,
                    &second);
}

/* The same with the scratch that the header asks for. */
#define MAP(w, h, kind, d1, d2) map_in(OLV_SCRATCH_COUNT(w, h), w, h, kind, d1, d2)
#define SLICE(w, h, kind, line, budget) slice_in(OLV_SCRATCH_COUNT(w, h), w, h, kind, line, budget)
#define COSTS(w, h, kind) costs_in(OLV_SCRATCH_COUNT(w, h), w, h, kind)
#define LANE(w, h, from, to) lane_in(OLV_SCRATCH_COUNT(w, h), w, h, from, to)

/* The board with the first cell bored, at no cost, and no other. */
static void one_bore(void)
{
    for (size_t cell = 0; cell < ROOM; cell++) {
        picture[cell] = cell == 0;
        costs[cell] = cell == 0 ? 0 : OLV_MARK;
    }
}

/* Each kind by the word of the cell that is 3 columns and 2 rows from the bore. */
static void kinds(void)
{
    one_bore();
    expect("OLV_EUCLID", MAP(4, 3, OLV_EUCLID, 0, 0), OLV_ACCEPTED);
    expect("the word of OLV_EUCLID", distances[11], 13);
    expect("OLV_MANHATTAN", MAP(4, 3, OLV_MANHATTAN, 0, 0), OLV_ACCEPTED);
    expect("the word of OLV_MANHATTAN", distances[11], 5);
    expect("OLV_CHESSBOARD", MAP(4, 3, OLV_CHESSBOARD, 0, 0), OLV_ACCEPTED);
    expect("the word of OLV_CHESSBOARD", distances[11], 3);
    expect("OLV_CHAMFER", MAP(4, 3, OLV_CHAMFER, 3, 4), OLV_ACCEPTED);
    expect("the word of OLV_CHAMFER", distances[11], 11);
    expect("a kind past OLV_CHAMFER", MAP(4, 3, OLV_CHAMFER + 1, 3, 4), OLV_REFUSED_KIND);
    expect("costs by OLV_EUCLID", COSTS(4, 3, OLV_EUCLID), OLV_ACCEPTED);
    expect("the cost word of OLV_EUCLID", distances[11], 13);
    expect("costs by OLV_MANHATTAN", COSTS(4, 3, OLV_MANHATTAN), OLV_ACCEPTED);
    expect("the cost word of OLV_MANHATTAN", distances[11], 5);
    expect("costs by a kind past OLV_MANHATTAN", COSTS(4, 3, OLV_MANHATTAN + 1), OLV_REFUSED_KIND);
    expect("slices by OLV_EUCLID", SLICE(4, 3, OLV_EUCLID, 0, 7), OLV_ACCEPTED);
    expect("the sliced word of OLV_EUCLID", distances[11], 13);
    expect("slices by OLV_MANHATTAN", SLICE(4, 3, OLV_MANHATTAN, 0, 7), OLV_ACCEPTED);
    expect("the sliced word of OLV_MANHATTAN", distances[11], 5);
    expect("slices by OLV_CHESSBOARD", SLICE(4, 3, OLV_CHESSBOARD, 0, 7), OLV_ACCEPTED);
    expect("the sliced word of OLV_CHESSBOARD", distances[11], 3);
    expect("slices by a kind past OLV_CHESSBOARD", SLICE(4, 3, OLV_CHESSBOARD + 1, 0, 7), OLV_REFUSED_KIND);
    SHOW(OLV_EUCLID);
    SHOW(OLV_MANHATTAN);
    SHOW(OLV_CHESSBOARD);
    SHOW(OLV_CHAMFER);
}

/* A stop: its number, with the out-words written. */
static void stop(const char *asked, uint32_t answer, uint32_t expected, uint32_t finished, uint32_t next)
{
    expect(asked, answer, expected);
    expect("the lines finished before a stop", first, finished);
    expect("the line of a stop", second, next);
}

/* The refusal of a line, which keeps the out-words, and each stop of a slice, at the second line that it may do. */
static void slices(void)
{
    one_bore();
    first = second = 77;
    expect("a line past the last", SLICE(4, 3, OLV_EUCLID, 8, 1), OLV_REFUSED_LINE);
    expect("the lines finished after a refusal", first, 77);
    expect("the next line after a refusal", second, 77);
    expect("the line after the last", SLICE(4, 3, OLV_EUCLID, 7, 1), OLV_ACCEPTED);

    picture[1] = 2;
    stop("a byte 2 in column 1", SLICE(4, 3, OLV_EUCLID, 0, 7), OLV_REFUSED_CONTENT, 1, 1);
    one_bore();
    expect("the columns", SLICE(4, 3, OLV_EUCLID, 0, 4), OLV_ACCEPTED);
    scratch[4] = OLV_MARK;
    stop("marks in row 1", SLICE(4, 3, OLV_EUCLID, 4, 3), OLV_REFUSED_EMPTY, 1, 5);
    scratch[4] = 3;
    stop("a word of 3 in row 1", SLICE(4, 3, OLV_EUCLID, 4, 3), OLV_REFUSED_WORD, 1, 5);
    scratch[4] = OLV_MARK - 1;
    stop("a word just below the mark in row 1", SLICE(4, 3, OLV_EUCLID, 4, 3), OLV_REFUSED_WORD, 1, 5);
    scratch[4] = 2;
    expect("a word of 2 in row 1", SLICE(4, 3, OLV_EUCLID, 4, 3), OLV_ACCEPTED);
}

/* The refusals that no limit below answers, each to a call with that one thing wrong; and what is accepted. */
static void answers(void)
{
    const olv_setting good = {1.0f, 1.0f};

    one_bore();
    expect("a sound board", LANE(4, 3, 0, 11), OLV_ACCEPTED);
    expect("an end off the board", LANE(4, 3, 0, 12), OLV_REFUSED_OFF_BOARD);
    picture[1] = 2;
    expect("a byte 2", MAP(4, 3, OLV_EUCLID, 0, 0), OLV_REFUSED_CONTENT);
    memset(picture, 0, sizeof picture);
    expect("no bore", MAP(4, 3, OLV_EUCLID, 0, 0), OLV_REFUSED_EMPTY);
    costs[0] = OLV_MARK;
    expect("every cost the mark", COSTS(4, 3, OLV_EUCLID), OLV_REFUSED_EMPTY);
    expect("clear lists of unequal length", olv_clear(good, distances, 2, clear, 1), OLV_REFUSED_LENGTH);
    expect("columns that do not rise", olv_changeover(1, 1, 0, 0, &place), OLV_REFUSED_CHANGEOVER);
    slices();
    SHOW(OLV_ACCEPTED);
    SHOW(OLV_REFUSED_SIDE);
    SHOW(OLV_REFUSED_KIND);
    SHOW(OLV_REFUSED_WEIGHTS);
    SHOW(OLV_REFUSED_LENGTH);
    SHOW(OLV_REFUSED_CONTENT);
    SHOW(OLV_REFUSED_EMPTY);
    SHOW(OLV_REFUSED_OFF_BOARD);
    SHOW(OLV_REFUSED_SETTING);
    SHOW(OLV_REFUSED_CHANGEOVER);
    SHOW(OLV_REFUSED_LINE);
    SHOW(OLV_REFUSED_WORD);
}

/* A board of these sides in each of the four calls. */
static void side(const char *asked, uint32_t w, uint32_t h, uint32_t expected)
{
    expect(asked, MAP(w, h, OLV_EUCLID, 0, 0), expected);
    expect(asked, COSTS(w, h, OLV_EUCLID), expected);
    expect(asked, SLICE(w, h, OLV_EUCLID, 0, 1), expected);
    expect(asked, LANE(w, h, 0, 0), expected);
}

static void sides(void)
{
    one_bore();
    side("both sides OLV_SIDE_LIMIT", OLV_SIDE_LIMIT, OLV_SIDE_LIMIT, OLV_ACCEPTED);
    side("a width past OLV_SIDE_LIMIT", OLV_SIDE_LIMIT + 1, 1, OLV_REFUSED_SIDE);
    side("a height past OLV_SIDE_LIMIT", 1, OLV_SIDE_LIMIT + 1, OLV_REFUSED_SIDE);
    side("a width of 0", 0, 1, OLV_REFUSED_SIDE);
    side("a height of 0", 1, 0, OLV_REFUSED_SIDE);
    SHOW(OLV_SIDE_LIMIT);
}

/* Costs and weights: at the limit, and one past it. */
static void costs_and_weights(void)
{
    one_bore();
    costs[0] = OLV_COST_LIMIT;
    expect("OLV_COST_LIMIT", COSTS(2, 1, OLV_EUCLID), OLV_ACCEPTED);
    costs[0] = OLV_COST_LIMIT + 1;
    expect("a cost past OLV_COST_LIMIT", COSTS(2, 1, OLV_EUCLID), OLV_REFUSED_CONTENT);
    expect("OLV_WEIGHT_LIMIT", MAP(2, 1, OLV_CHAMFER, OLV_WEIGHT_LIMIT, 2 * OLV_WEIGHT_LIMIT), OLV_ACCEPTED);
    expect("a weight past OLV_WEIGHT_LIMIT", MAP(2, 1, OLV_CHAMFER, OLV_WEIGHT_LIMIT + 1, OLV_WEIGHT_LIMIT + 1),
           OLV_REFUSED_WEIGHTS);
    SHOW(OLV_COST_LIMIT);
    SHOW(OLV_WEIGHT_LIMIT);
}

static void changeovers(void)
{
    const uint32_t u = OLV_COLUMN_LIMIT;
    const uint32_t v = OLV_VALUE_LIMIT;

    expect("OLV_COLUMN_LIMIT", olv_changeover(0, u, 0, 0, &place), OLV_ACCEPTED);
    expect("a column past OLV_COLUMN_LIMIT", olv_changeover(0, u + 1, 0, 0, &place), OLV_REFUSED_CHANGEOVER);
    expect("OLV_VALUE_LIMIT", olv_changeover(0, 1, v, v, &place), OLV_ACCEPTED);
    expect("a past OLV_VALUE_LIMIT", olv_changeover(0, 1, v + 1, 0, &place), OLV_REFUSED_CHANGEOVER);
    expect("b past OLV_VALUE_LIMIT", olv_changeover(0, 1, 0, v + 1, &place), OLV_REFUSED_CHANGEOVER);
    SHOW(OLV_COLUMN_LIMIT);
    SHOW(OLV_VALUE_LIMIT);
}

/* Opens a pitch and a radius, each as a whole number of 1/64 mm. */
static uint32_t open_in(uint32_t pitch, uint32_t radius)
{
    const olv_setting setting = {(float)pitch / 64, (float)radius / 64};
    return olv_open(setting, &first, &second);
}

static void knob(void)
{
    const olv_setting good = {1.0f, 1.0f};

    expect("OLV_KNOB_LIMIT", open_in(1, OLV_KNOB_LIMIT), OLV_ACCEPTED);
    expect("the radius of OLV_KNOB_LIMIT", second, OLV_KNOB_LIMIT);
    expect("a pitch past OLV_KNOB_LIMIT", open_in(OLV_KNOB_LIMIT + 1, 1), OLV_REFUSED_SETTING);
    expect("a radius past OLV_KNOB_LIMIT", open_in(1, OLV_KNOB_LIMIT + 1), OLV_REFUSED_SETTING);
    expect("OLV_CLEAR_LIMIT", olv_clear(good, distances, OLV_CLEAR_LIMIT, clear, OLV_CLEAR_LIMIT), OLV_ACCEPTED);
    expect("a clear map past OLV_CLEAR_LIMIT",
           olv_clear(good, distances, OLV_CLEAR_LIMIT + 1, clear, OLV_CLEAR_LIMIT + 1), OLV_REFUSED_LENGTH);
    SHOW(OLV_KNOB_LIMIT);
    SHOW(OLV_CLEAR_LIMIT);
}

/* Millimetres at a pitch that is good, past the limit, and bad; and a text in as few bytes as it may have, and in fewer. */
static void screen(void)
{
    const float past = (float)(OLV_KNOB_LIMIT + 1) / 64;

    expect("millimetres", olv_millimetres(2, 1.0f, &millimetres), OLV_ACCEPTED);
    expect("the number of d = 2, in 1/256 mm", (uint32_t)(millimetres * 256), 362);
    expect("millimetres at a pitch past OLV_KNOB_LIMIT", olv_millimetres(2, past, &millimetres), OLV_REFUSED_SETTING);
    expect("OLV_TEXT_BYTES", olv_millimetres_text(2, 1.0f, text, OLV_TEXT_BYTES, &first), OLV_ACCEPTED);
    expect("the text of d = 2", memcmp(text, "1.41406250", 10) == 0 ? first : 0, 10);
    expect("one byte fewer", olv_millimetres_text(2, 1.0f, text, OLV_TEXT_BYTES - 1, &first), OLV_REFUSED_LENGTH);
    expect("a text at a pitch of 0", olv_millimetres_text(2, 0.0f, text, OLV_TEXT_BYTES, &first), OLV_REFUSED_SETTING);
    SHOW(OLV_TEXT_BYTES);
}

/* The mark: a cost that is no feature, what kind 3 names, a column without a bore, and the path past a lane. */
static void mark(void)
{
    one_bore();
    expect("a cost OLV_MARK", COSTS(4, 3, OLV_EUCLID), OLV_ACCEPTED);
    costs[1] = OLV_MARK - 1;
    expect("a cost just below OLV_MARK", COSTS(4, 3, OLV_EUCLID), OLV_REFUSED_CONTENT);
    memset(sites, 0, sizeof sites);
    memset(path, 0, sizeof path);
    expect("OLV_CHAMFER", MAP(4, 3, OLV_CHAMFER, 3, 4), OLV_ACCEPTED);
    for (size_t cell = 0; cell < 12; cell++) {
        expect("a site of OLV_CHAMFER", sites[cell], OLV_MARK);
    }
    expect("a column without a bore", SLICE(4, 3, OLV_EUCLID, 1, 1), OLV_ACCEPTED);
    for (size_t cell = 1; cell < 12; cell += 4) {
        expect("its scratch word", scratch[cell], OLV_MARK);
    }
    expect("a lane of one cell", LANE(4, 3, 5, 5), OLV_ACCEPTED);
    for (size_t step = second; step < 12; step++) {
        expect("a path word past the lane", path[step], OLV_MARK);
    }
    SHOW(OLV_MARK);
}

/* A scratch of just as many words as the header asks for is enough, and one word fewer is too short. */
static void scratch_on(uint32_t w, uint32_t h)
{
    const size_t words = OLV_SCRATCH_COUNT(w, h);

    expect("OLV_SCRATCH_COUNT, map", map_in(words, w, h, OLV_EUCLID, 0, 0), OLV_ACCEPTED);
    expect("one word fewer, map", map_in(words - 1, w, h, OLV_EUCLID, 0, 0), OLV_REFUSED_LENGTH);
    expect("OLV_SCRATCH_COUNT, costs", costs_in(words, w, h, OLV_EUCLID), OLV_ACCEPTED);
    expect("one word fewer, costs", costs_in(words - 1, w, h, OLV_EUCLID), OLV_REFUSED_LENGTH);
    expect("OLV_SCRATCH_COUNT, slice", slice_in(words, w, h, OLV_EUCLID, 0, 1), OLV_ACCEPTED);
    expect("one word fewer, slice", slice_in(words - 1, w, h, OLV_EUCLID, 0, 1), OLV_REFUSED_LENGTH);
    expect("OLV_SCRATCH_COUNT, lane", lane_in(words, w, h, 0, 0), OLV_ACCEPTED);
    expect("one word fewer, lane", lane_in(words - 1, w, h, 0, 0), OLV_REFUSED_LENGTH);
}

static void scratch_counts(void)
{
    one_bore();
    scratch_on(1, 1);
    scratch_on(4, 3);
    scratch_on(3, 4);
    scratch_on(OLV_SIDE_LIMIT, 1);
    scratch_on(OLV_SIDE_LIMIT, OLV_SIDE_LIMIT);
    SHOW(OLV_SCRATCH_COUNT(1 + 3, 1 + 2));
}

/* How far down a thread's stack a call reaches is seen by painting the stack before. */
#define PAINT 0xA5

/* What this program may take besides: the frames between a thread's own and the call. */
#define OTHER_USE (16 * 1024)

typedef struct call {
    const char *name;
    uint32_t (*make)(void);
    uint32_t answer;
    const volatile unsigned char *begin;
} call;

static uint32_t largest_map(void) { return MAP(OLV_SIDE_LIMIT, OLV_SIDE_LIMIT, OLV_EUCLID, 0, 0); }
static uint32_t largest_chamfer(void) { return MAP(OLV_SIDE_LIMIT, OLV_SIDE_LIMIT, OLV_CHAMFER, 3, 4); }
static uint32_t largest_slice(void) { return SLICE(OLV_SIDE_LIMIT, OLV_SIDE_LIMIT, OLV_EUCLID, 0, 2 * OLV_SIDE_LIMIT); }
static uint32_t largest_costs(void) { return COSTS(OLV_SIDE_LIMIT, OLV_SIDE_LIMIT, OLV_EUCLID); }
static uint32_t largest_lane(void) { return LANE(OLV_SIDE_LIMIT, OLV_SIDE_LIMIT, 0, 1); }
static uint32_t largest_opening(void) { return open_in(OLV_KNOB_LIMIT, OLV_KNOB_LIMIT); }
static uint32_t largest_changeover(void) { return olv_changeover(0, 1, OLV_VALUE_LIMIT, 0, &place); }

static uint32_t largest_figure(void) { return olv_millimetres(UINT32_MAX, 64.0f, &millimetres); }

static uint32_t largest_text(void)
{
    return olv_millimetres_text(UINT32_MAX, 64.0f, text, OLV_TEXT_BYTES, &first);
}

static uint32_t largest_clear(void)
{
    const olv_setting good = {1.0f, 1.0f};
    return olv_clear(good, distances, OLV_CLEAR_LIMIT, clear, OLV_CLEAR_LIMIT);
}

static void *in_thread(void *asked)
{
    volatile unsigned char here = 0;
    call *made = asked;

    made->begin = &here;
    made->answer = made->make();
    return NULL;
}

/* Makes a call on a thread with a stack of its own: the least that a thread may have, what is said, and some more. */
static int on_own_stack(call *made, unsigned char *stack, size_t size)
{
    pthread_attr_t attributes;
    pthread_t thread;

    memset(stack, PAINT, size);
    return pthread_attr_init(&attributes) == 0 && pthread_attr_setstack(&attributes, stack, size) == 0 &&
           pthread_create(&thread, &attributes, in_thread, made) == 0 && pthread_join(thread, NULL) == 0;
}

/* From the thread's own frame down to the lowest byte that is not as it was painted. */
static size_t depth(const call *made, const unsigned char *stack)
{
    const unsigned char *low = stack;

    while (low < made->begin && *low == PAINT) {
        low++;
    }
    return (size_t)(made->begin - low);
}

static void stack_of(call made)
{
    const size_t page = (size_t)sysconf(_SC_PAGESIZE);
    const size_t asked = (size_t)sysconf(_SC_THREAD_STACK_MIN) + OLV_STACK_BYTES + OTHER_USE;
    const size_t size = (asked + page - 1) / page * page;
    void *memory = NULL;

    made.make(); /* the first call may have to look for memset, which takes stack of its own */
    if (posix_memalign(&memory, page, size) != 0 || !on_own_stack(&made, memory, size)) {
        fprintf(stderr, "header: %s: no thread\n", made.name);
        exit(1);
    }
    expect(made.name, made.answer, OLV_ACCEPTED);
    if (depth(&made, memory) > OLV_STACK_BYTES) {
        fprintf(stderr, "header: %s: %zu bytes of stack\n", made.name, depth(&made, memory));
        exit(1);
    }
    free(memory);
}

static void stacks(void)
{
    static const call calls[] = {
        {"olv_map", largest_map, 0, NULL},         {"olv_map, OLV_CHAMFER", largest_chamfer, 0, NULL},
        {"olv_slice", largest_slice, 0, NULL},     {"olv_cost_map", largest_costs, 0, NULL},
        {"olv_lane", largest_lane, 0, NULL},       {"olv_open", largest_opening, 0, NULL},
        {"olv_clear", largest_clear, 0, NULL},     {"olv_changeover", largest_changeover, 0, NULL},
        {"olv_millimetres", largest_figure, 0, NULL},
        {"olv_millimetres_text", largest_text, 0, NULL},
    };

    one_bore();
    for (size_t at = 0; at < sizeof calls / sizeof calls[0]; at++) {
        stack_of(calls[at]);
    }
    SHOW(OLV_STACK_BYTES);
}

int main(void)
{
    kinds();
    answers();
    costs_and_weights();
    changeovers();
    knob();
    screen();
    mark();
    scratch_counts();
    sides();
    stacks();
    return 0;
}

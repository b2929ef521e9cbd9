/*
 * A small board from end to end: its map, the same map in slices, its clear map, a corner's distance in millimetres, its
 * widest lane. Then the longest board that is accepted, and one that is refused.
 *
 * After `(cd crates/olavinthu && rt lib)`, from the repository's root:
 *
 *     cc -std=c11 -Iinclude examples/board.c crates/olavinthu/out/libolavinthu.a -o /tmp/board && /tmp/board
 *
 * It prints examples/board.txt and answers 0, or 1 where something is not as it should be.
 */
#include "olavinthu.h"

#include <inttypes.h>
#include <stdio.h>
#include <string.h>

#define WIDTH 3
#define HEIGHT 3
#define CELLS (WIDTH * HEIGHT)
#define FROM 0
#define TO (CELLS - 1)

/* One bore in the middle. */
static const uint8_t picture[CELLS] = {0, 0, 0, 0, 1, 0, 0, 0, 0};

/* What a map is lent. */
static uint32_t distances[CELLS];
static uint32_t sites[CELLS];
static uint32_t scratch[OLV_SCRATCH_COUNT(WIDTH, HEIGHT)];

/* The count of an array's elements. */
#define COUNT(array) (sizeof(array) / sizeof((array)[0]))

/* Asks for the map of squared distances on a board that is said to have this width. */
static uint32_t ask_map(uint32_t width)
{
    return olv_map(width, HEIGHT, OLV_EUCLID, 0, 0, picture, CELLS, distances, COUNT(distances), sites, COUNT(sites),
                   scratch, COUNT(scratch));
}

/* Draws the board, one character a cell, with `mark` on the cells where `marked` is 1 and # on the bored ones. */
static void draw(const uint8_t *marked, char mark)
{
    for (size_t cell = 0; cell < CELLS; cell++) {
        char drawn = picture[cell] == 1 ? '#' : marked[cell] == 1 ? mark : '.';
        printf("%c%c", drawn, (cell + 1) % WIDTH == 0 ? '\n' : ' ');
    }
}

/* The map: the board as it is, then the words of its cells. */
static int show_map(void)
{
    if (ask_map(WIDTH) != OLV_ACCEPTED) {
        return 0;
    }
    puts("the board, # bored:");
    draw(picture, '#');
    puts("\nthe squared distance of each cell to the bore:");
    for (size_t cell = 0; cell < CELLS; cell++) {
        printf("%" PRIu32 "%c", distances[cell], (cell + 1) % WIDTH == 0 ? '\n' : ' ');
    }
    return 1;
}

/* How many lines a slice may finish. */
#define BUDGET 4

/* The same map in slices, in lists of their own, which are left alone until the last line is finished. */
static int show_slices(void)
{
    static uint32_t sliced_distances[CELLS];
    static uint32_t sliced_sites[CELLS];
    static uint32_t sliced_scratch[OLV_SCRATCH_COUNT(WIDTH, HEIGHT)];
    uint32_t line = 0;

    printf("\nthe map in slices of at most %d lines:\n", BUDGET);
    while (line < WIDTH + HEIGHT) {
        uint32_t finished;
        uint32_t next;

        if (olv_slice(WIDTH, HEIGHT, OLV_EUCLID, line, BUDGET, picture, CELLS, sliced_distances, COUNT(sliced_distances),
                      sliced_sites, COUNT(sliced_sites), sliced_scratch, COUNT(sliced_scratch), &finished,
                      &next) != OLV_ACCEPTED) {
            return 0;
        }
        printf("from line %" PRIu32 ": %" PRIu32 " finished, next %" PRIu32 "\n", line, finished, next);
        line = next;
        /* Here the node tends the wind. */
    }
    if (memcmp(sliced_distances, distances, sizeof distances) != 0 || memcmp(sliced_sites, sites, sizeof sites) != 0) {
        return 0;
    }
    puts("every distance and site as in one go");
    return 1;
}

/* The clear map, of a pitch of 8 mm: 10 mm are clear around the corners, at 11.3 mm, and nowhere else. */
static int show_clear(void)
{
    const olv_setting setting = {8.0f, 10.0f};
    uint8_t clear[CELLS];

    if (olv_clear(setting, distances, CELLS, clear, CELLS) != OLV_ACCEPTED) {
        return 0;
    }
    puts("\nat a pitch of 8 mm, c where a radius of 10 mm is clear:");
    draw(clear, 'c');
    return 1;
}

/* The corner's distance in millimetres, of a pitch of 8 mm, as a number and as a text: whole 1/256 mm, rounded down. */
static int show_millimetres(void)
{
    static const char expected[] = "11.31250000";
    const float pitch = 8.0f;
    uint8_t text[OLV_TEXT_BYTES];
    uint32_t length;
    double millimetres;

    if (olv_millimetres(distances[0], pitch, &millimetres) != OLV_ACCEPTED ||
        olv_millimetres_text(distances[0], pitch, text, COUNT(text), &length) != OLV_ACCEPTED) {
        return 0;
    }
    printf("\nfrom a corner to the bore: %.*s mm\n", (int)length, (const char *)text);
    return millimetres == 11.3125 && length == strlen(expected) && memcmp(text, expected, length) == 0;
}

/* The widest lane from the first cell to the last, which goes around the bore: width 1, cells 0 1 2 5 8. */
static int show_lane(void)
{
    static const uint32_t expected[] = {0, 1, 2, 5, 8};
    uint32_t path[CELLS];
    uint32_t width;
    uint32_t cells;
    uint8_t on_lane[CELLS] = {0};

    if (olv_lane(WIDTH, HEIGHT, picture, CELLS, FROM, TO, distances, COUNT(distances), sites, COUNT(sites), scratch,
                 COUNT(scratch), path, COUNT(path), &width, &cells) != OLV_ACCEPTED) {
        return 0;
    }
    if (width != 1 || cells != COUNT(expected) || memcmp(path, expected, sizeof expected) != 0) {
        return 0;
    }
    printf("\nthe widest lane from cell %d to cell %d, o: width %" PRIu32 ", cells", FROM, TO, width);
    for (size_t step = 0; step < cells; step++) {
        on_lane[path[step]] = 1;
        printf(" %" PRIu32, path[step]);
    }
    putchar('\n');
    draw(on_lane, 'o');
    return 1;
}

/* How great a word can be: a bass board, both sides as long as they may be, with one bore in the corner. */
static int show_longest(void)
{
    static uint8_t bass[OLV_SIDE_LIMIT * OLV_SIDE_LIMIT];
    static uint32_t words[COUNT(bass)];
    static uint32_t bores[COUNT(bass)];
    static uint32_t room[OLV_SCRATCH_COUNT(OLV_SIDE_LIMIT, OLV_SIDE_LIMIT)];
    const uint32_t farthest = 8380418;

    bass[0] = 1;
    bores[COUNT(bores) - 1] = OLV_MARK;
    if (olv_map(OLV_SIDE_LIMIT, OLV_SIDE_LIMIT, OLV_EUCLID, 0, 0, bass, COUNT(bass), words, COUNT(words), bores,
                COUNT(bores), room, COUNT(room)) != OLV_ACCEPTED) {
        return 0;
    }
    printf("\n%" PRIu32 " by %" PRIu32 " cells with a bore in the first: %" PRIu32 " in the last\n", OLV_SIDE_LIMIT,
           OLV_SIDE_LIMIT, words[COUNT(words) - 1]);
    return words[COUNT(words) - 1] == farthest && bores[COUNT(bores) - 1] == 0;
}

/* A refusal: its number alone. */
static int show_refusal(void)
{
    const uint32_t width = OLV_SIDE_LIMIT + 1;
    const uint32_t refused = ask_map(width);

    printf("\na width of %" PRIu32 ": refused %" PRIu32 "\n", width, refused);
    return refused == OLV_REFUSED_SIDE;
}

int main(void)
{
    if (show_map() && show_slices() && show_clear() && show_millimetres() && show_lane() && show_longest() &&
        show_refusal()) {
        return 0;
    }
    fputs("board: an answer is not as it should be\n", stderr);
    return 1;
}

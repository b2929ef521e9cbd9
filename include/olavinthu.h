/*
 * Olavinthu: exact distance transforms (Euclid, Manhattan, chessboard, chamfer) with the nearest site of each cell, in
 * one go or in slices, cost maps, clear maps and widest lanes of chest boards, and distances in millimetres, from the
 * proved archive libolavinthu.a.
 *
 * A board has w columns and h rows, each from 1 to OLV_SIDE_LIMIT. Cell (x, y), x to the right and y downward, has the
 * number y * w + x. A picture has one byte a cell, 1 bored and 0 sound.
 *
 * Every function answers OLV_ACCEPTED where it accepts, and otherwise the number of its refusal. Any number may be
 * passed: each function tests what it is given, in rising order of the refusals listed with it, and the first that holds
 * is the answer. A refusal writes nothing, the out-words included. One function, olv_slice, can also stop on its way. A
 * stop answers a number, too, but it is no refusal: it writes the out-words, and keeps what was done before it.
 *
 * A list is a pointer followed by the count of its elements; a null pointer with the count 0 is allowed. What a list
 * cannot say itself is left to the caller: a pointer points to as many elements as its count says, out-pointers are
 * valid, and the lists and out-words of one call do not overlap. Elements beyond the counts named below are untouched,
 * and const lists are never changed.
 *
 * There is no state: nothing is allocated, nothing is kept from one call to the next but what stands in the caller's
 * lists, and no pointer is kept after the call. So any thread may call at any time, with lists and out-words of its own;
 * const lists may be shared. A call takes at most OLV_STACK_BYTES of stack.
 */
#ifndef OLAVINTHU_H
#define OLAVINTHU_H

#include <stddef.h>
#include <stdint.h>

/* Goes up when a name, an order or a meaning below changes. CHANGELOG.md says what each edition brought. */
#define OLV_EDITION 2

/* The kinds of distance, with dx and dy the absolute differences of the columns and of the rows. */
#define OLV_EUCLID UINT32_C(0)     /* dx^2 + dy^2, squared and never rooted */
#define OLV_MANHATTAN UINT32_C(1)  /* dx + dy */
#define OLV_CHESSBOARD UINT32_C(2) /* the larger of dx and dy */
#define OLV_CHAMFER UINT32_C(3)    /* d2 * min(dx, dy) + d1 * (the larger - the smaller), as two chamfer scans find it */

/*
 * What a function answers. At 5, 6 and 13 olv_slice stops, and they are said of the line that it stops at. No function
 * here answers 10 or 11; the program for bench files does.
 */
#define OLV_ACCEPTED UINT32_C(0)
#define OLV_REFUSED_SIDE UINT32_C(1)       /* w or h is 0 or above OLV_SIDE_LIMIT */
#define OLV_REFUSED_KIND UINT32_C(2)       /* no such kind for this map */
#define OLV_REFUSED_WEIGHTS UINT32_C(3)    /* OLV_CHAMFER, and not 1 <= d1 <= OLV_WEIGHT_LIMIT, d1 <= d2 <= 2 * d1 */
#define OLV_REFUSED_LENGTH UINT32_C(4)     /* a list with a count that does not fit */
#define OLV_REFUSED_CONTENT UINT32_C(5)    /* a byte neither 0 nor 1 (a stop: in that column); a cost above
                                              OLV_COST_LIMIT that is not OLV_MARK */
#define OLV_REFUSED_EMPTY UINT32_C(6)      /* no cell is bored; every cost is OLV_MARK; a stop: every scratch word of
                                              that row is OLV_MARK */
#define OLV_REFUSED_OFF_BOARD UINT32_C(7)  /* an end of a lane is w * h or more */
#define OLV_REFUSED_SETTING UINT32_C(8)    /* the pitch or the radius is bad */
#define OLV_REFUSED_CHANGEOVER UINT32_C(9) /* i >= u, u above OLV_COLUMN_LIMIT, or a value above OLV_VALUE_LIMIT */
#define OLV_REFUSED_LINE UINT32_C(12)      /* a line number above w + h */
#define OLV_REFUSED_WORD UINT32_C(13)      /* a stop: a scratch word of that row is neither below h nor OLV_MARK */

/* The limits. Each is the greatest that is accepted. */
#define OLV_SIDE_LIMIT UINT32_C(2048)      /* a board's width or height; the least is 1 */
#define OLV_COST_LIMIT UINT32_C(1000000)   /* a cost */
#define OLV_WEIGHT_LIMIT UINT32_C(255)     /* the weight d1; the least is 1 */
#define OLV_COLUMN_LIMIT UINT32_C(2047)    /* a column of a changeover */
#define OLV_VALUE_LIMIT UINT32_C(17000000) /* a value of a changeover */
#define OLV_KNOB_LIMIT UINT32_C(4096)      /* a pitch or a radius, in 1/64 mm; the least is 1 */
#define OLV_CLEAR_LIMIT UINT32_C(4194304)  /* the cells of a clear map; the fewest are 1 */

/*
 * The word that stands for none: a cost that is no feature, a site that is not named, a path word past the lane, a
 * scratch word of a column without a bore.
 */
#define OLV_MARK UINT32_C(4294967295)

/* The fewest words that a map's scratch must have, as a size_t. */
#define OLV_SCRATCH_COUNT(w, h) ((size_t)(w) * (h) + 2 * (size_t)(w) + 2 * (size_t)(h))

/* The fewest bytes that a text of millimetres must be lent. */
#define OLV_TEXT_BYTES UINT32_C(20)

/* The most stack that a call takes below its caller's frame, in bytes. Measured with room to spare, and not proved. */
#define OLV_STACK_BYTES 32768

#ifdef __cplusplus
extern "C" {
#endif

/*
 * Two values in millimetres. A value is good where it is a whole number of 1/64 mm, from 1/64 mm to 64 mm; NaN,
 * infinities, negatives and both zeros are bad.
 */
typedef struct olv_setting {
    float pitch;  /* from the centre of a cell to the centre of its neighbour */
    float radius; /* what has to stay clear around a cell's centre */
} olv_setting;

/*
 * The map of a picture: for each cell the least distance to a bored cell, and which cell that is.
 *
 *   kind       OLV_EUCLID, OLV_MANHATTAN, OLV_CHESSBOARD or OLV_CHAMFER
 *   d1, d2     the weights; read for OLV_CHAMFER only
 *   picture    exactly w * h bytes
 *   distances  at least w * h words; the first w * h become the least distances
 *   sites      at least w * h words; the first w * h become the numbers of the cells at that distance: of several the
 *              one in the least column, in that column the one with the least dy, then in the least row. OLV_CHAMFER
 *              names no cell, and every word becomes OLV_MARK
 *   scratch    at least OLV_SCRATCH_COUNT(w, h) words; that many become 0
 *
 * Refusals: 1, 2 (kind above 3), 3, 4, 5, 6.
 */
uint32_t olv_map(uint32_t w, uint32_t h, uint32_t kind, uint32_t d1, uint32_t d2,
                 const uint8_t *picture, size_t picture_count,
                 uint32_t *distances, size_t distances_count,
                 uint32_t *sites, size_t sites_count,
                 uint32_t *scratch, size_t scratch_count);

/*
 * A slice of the map of a picture: some of its lines, so that a node can tend other things between calls. The lines of a
 * board are its w columns from the left, numbers 0 to w - 1, and then its h rows from the top, numbers w to w + h - 1. A
 * call begins at `line` and finishes, one after the other, as many lines as `budget` and the rest allow. Lines that it
 * does not reach are untouched.
 *
 *   kind       OLV_EUCLID, OLV_MANHATTAN or OLV_CHESSBOARD
 *   line       the line to begin at; at w + h there is none left
 *   budget     the most lines that the call may finish, any number; with 0 it finishes none
 *   picture    exactly w * h bytes; a column line looks at those of its own cells, a row line at none
 *   distances  at least w * h words; a row line writes those with the numbers of its cells
 *   sites      at least w * h words; a row line writes those with the numbers of its cells
 *   scratch    at least OLV_SCRATCH_COUNT(w, h) words; a column line writes those with the numbers of its cells. These
 *              keep their words from call to call, for the rows. The 2 * w + 2 * h words after the first w * h become 0
 *              in every call that is not refused
 *   finished   becomes the number of lines that the call has finished
 *   next       becomes the next line, line + *finished
 *
 * A column line leaves in the scratch word of each of its cells the row of the nearest bore in that column, of two as
 * near the upper one, or OLV_MARK where the column has no bore.
 *
 * A row line believes the scratch words of its row, whoever put them there: a word below h names the cell of its own
 * column in the row of that number, bored or not, and OLV_MARK names none. The distance of each cell of the row becomes
 * the least to a cell so named, and its site the number of the cell at that distance: of several the one in the least
 * column.
 *
 * Refusals, at the start: 1, 2 (kind above 2, also in later editions), 4, 12 (line above w + h). They change nothing,
 * the out-words included.
 *
 * Stops: a line is looked at only while budget is left. One that cannot be done is not begun, and the call ends there
 * with its number: 5 where that column has a byte neither 0 nor 1; 13 where a scratch word of that row is neither below
 * h nor OLV_MARK; 6 where all of them are OLV_MARK. A stop writes *finished and *next, the line that it stopped at, and
 * the lines finished before stay finished.
 *
 * A whole map is made by calls with the same sides, kind and picture, the first at line 0 and each at the line that the
 * one before it named, with the lists left alone in between:
 *
 *     uint32_t line = 0;
 *     while (line < w + h) {
 *         answer = olv_slice(w, h, kind, line, 64, picture, ..., &finished, &next);
 *         if (answer != OLV_ACCEPTED) {
 *             break; // refused, or stopped at line `next`
 *         }
 *         line = next;
 *         // time for other things
 *     }
 *
 * Once all w + h lines are finished, distances and sites hold what olv_map makes of this picture; the scratch words of
 * the cells are not 0 as after olv_map, but still the columns' words. On a board without a bore the first row stops with
 * 6.
 */
uint32_t olv_slice(uint32_t w, uint32_t h, uint32_t kind, uint32_t line, uint32_t budget,
                   const uint8_t *picture, size_t picture_count,
                   uint32_t *distances, size_t distances_count,
                   uint32_t *sites, size_t sites_count,
                   uint32_t *scratch, size_t scratch_count,
                   uint32_t *finished, uint32_t *next);

/*
 * The map of a cost picture: for each cell the least sum of distance and cost over all unmarked cells, and which cell
 * gives it.
 *
 *   kind       OLV_EUCLID or OLV_MANHATTAN
 *   costs      exactly w * h words, each a cost of 0 to OLV_COST_LIMIT, or OLV_MARK for a cell that is no feature
 *   distances  at least w * h words; the first w * h become the least sums
 *   sites      at least w * h words; the first w * h become the numbers of the cells that give them: of several the one
 *              in the least column, then in the least row
 *   scratch    at least OLV_SCRATCH_COUNT(w, h) words; that many become 0
 *
 * Refusals: 1, 2 (kind above 1), 4, 5, 6.
 */
uint32_t olv_cost_map(uint32_t w, uint32_t h, uint32_t kind,
                      const uint32_t *costs, size_t costs_count,
                      uint32_t *distances, size_t distances_count,
                      uint32_t *sites, size_t sites_count,
                      uint32_t *scratch, size_t scratch_count);

/*
 * The last place at which the left of two curves is no higher: *p becomes the greatest whole number with
 * (*p - i)^2 + a <= (*p - u)^2 + b, that is the floor of (u^2 - i^2 + b - a) / (2 * (u - i)). It may be negative.
 *
 *   i, u  columns, i < u <= OLV_COLUMN_LIMIT
 *   a, b  values, each at most OLV_VALUE_LIMIT
 *
 * Refusals: 9.
 */
uint32_t olv_changeover(uint32_t i, uint32_t u, uint32_t a, uint32_t b, int32_t *p);

/*
 * Opens a setting: *a becomes the pitch and *b the radius, as whole numbers of 1/64 mm from 1 to OLV_KNOB_LIMIT.
 *
 * Refusals: 8.
 */
uint32_t olv_open(olv_setting setting, uint32_t *a, uint32_t *b);

/*
 * The clear map: each byte becomes 1 where its squared distance d leaves the radius clear, d * a^2 >= b^2 with the
 * whole numbers of olv_open, and else 0. Clearance is taken from cell centre to cell centre.
 *
 *   squares  1 to OLV_CLEAR_LIMIT words of any value, as OLV_EUCLID of olv_map gives them
 *   clear    as many bytes; every one is written
 *
 * Refusals: 4 (counts unequal, 0 or above OLV_CLEAR_LIMIT), 8.
 */
uint32_t olv_clear(olv_setting setting,
                   const uint32_t *squares, size_t squares_count,
                   uint8_t *clear, size_t clear_count);

/*
 * Millimetres for the screen: the distance from centre to centre whose square, in cells, is d. It is rounded down to a
 * whole number N of 1/256 mm: the greatest N with N^2 <= 16 * d * a^2, where a is the pitch as olv_open opens it.
 *
 *   d      any number, as OLV_EUCLID of olv_map gives it
 *   pitch  as in olv_setting
 *   out    becomes N / 256, exactly; for 0 the positive zero
 *
 * Refusals: 8 (the pitch is bad).
 */
uint32_t olv_millimetres(uint32_t d, float pitch, double *out);

/*
 * The same number as a text: whole digits with no needless zero in front, 0 where there is no whole millimetre, a point,
 * and eight digits, as 1.41406250 for d = 2 and a pitch of 1 mm. The digits are exact.
 *
 *   d, pitch  as for olv_millimetres
 *   text      at least OLV_TEXT_BYTES bytes; the first *length become the text. No byte 0 is put behind it: what stands
 *             there stays
 *   length    becomes the length of the text, from 10 to 16
 *
 * Refusals: 4 (text_count below OLV_TEXT_BYTES), 8 (the pitch is bad).
 */
uint32_t olv_millimetres_text(uint32_t d, float pitch,
                              uint8_t *text, size_t text_count,
                              uint32_t *length);

/*
 * The best lane between two cells. A lane goes from a cell to a cell that shares an edge with it; its width is the least
 * OLV_EUCLID distance on it, squared as that is. The best is the widest; of those the one with the fewest cells; of those
 * the first, where lanes are compared cell number by cell number. From a cell to itself it is that one cell.
 *
 *   picture    exactly w * h bytes
 *   from, to   the numbers of the two end cells
 *   distances, sites, scratch  as for olv_map, and left as by an OLV_EUCLID map
 *   path       at least w * h words; the first *cells become the lane, `from` first and `to` last, the rest of
 *              w * h OLV_MARK
 *   width      becomes the width
 *   cells      becomes the number of cells on the lane
 *
 * Refusals: 1, 4, 5, 6, 7.
 */
uint32_t olv_lane(uint32_t w, uint32_t h,
                  const uint8_t *picture, size_t picture_count,
                  uint32_t from, uint32_t to,
                  uint32_t *distances, size_t distances_count,
                  uint32_t *sites, size_t sites_count,
                  uint32_t *scratch, size_t scratch_count,
                  uint32_t *path, size_t path_count,
                  uint32_t *width, uint32_t *cells);

#ifdef __cplusplus
}
#endif

#endif

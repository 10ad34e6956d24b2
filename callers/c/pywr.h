/* Pywr networks as linear programmes: the calls of libpywr_c.a (x86-64).
 *
 * The caller lends every buffer; nothing is allocated. Each run crosses as a pointer and a length in elements. A pointer must be aligned for
 * its type and not null, also where the length is 0; a run that is written may overlap no other run. Nothing else is asked: whatever the
 * runs hold, a call ends, keeps within them and answers.
 *
 * A store is nine runs:
 *
 *   run                                  at least             holds
 *   col_lower, col_upper, col_obj_coef   PYWR_COLUMNS each    column c at c: edge columns, then the sets' integer columns (0 to 1)
 *   row_lower, row_upper                 PYWR_ROWS each       row r at r: varying rows, then fixed rows
 *   elements                             PYWR_ELEMENTS        row r's from row_starts[r] up to row_starts[r + 1]
 *   columns                              PYWR_ELEMENTS        the column of each element, rising in a row
 *   row_starts                           PYWR_ROW_STARTS      the rows' starts and, last, the element count
 *   shape                                PYWR_SHAPE           counts (PYWR_.._COUNT below), what a step needs, who made each row,
 *                                                             the edges in flow order
 *
 * A run may be longer. What lies beyond the counts is left as it was. A refused call leaves the store as it was, byte for byte.
 *
 * An answer is a number, 0 where the call is accepted, and a place. pywr_refusal_text has the words of each number, pywr_place_text what
 * its place is. 1 to 11, 19 and 20 are for the modeller (pywr_build), 12 to 14 and 21 for the data feed (pywr_step), 16 to 18 for the calling program:
 * 16 from any call, 17 from pywr_step and pywr_row, 18 from pywr_row. 15: retired, never answered.
 */
#ifndef PYWR_H
#define PYWR_H

#include <stdbool.h>
#include <stddef.h>
#include <stdint.h>

#ifdef __cplusplus
extern "C" {
#endif

/* The least lengths of a store's runs. */
#define PYWR_COLUMNS 640
#define PYWR_ROWS 1024
#define PYWR_ELEMENTS 4096
#define PYWR_ROW_STARTS 1025
#define PYWR_SHAPE 23307

/* The least lengths of the work runs: words and numbers of a build, work of a step. They need not be cleared before a call; they are
 * zero throughout after it, but as they were after 16. */
#define PYWR_BUILD_WORDS 28428
#define PYWR_BUILD_NUMBERS 6784
#define PYWR_STEP_WORK 704

/* The longest files that can be accepted, in bytes. */
#define PYWR_NETWORK_FILE 63488
#define PYWR_STEP_FILE 10700

/* Where the counts stand in shape. */
#define PYWR_SENTINEL 0 /* 0 infinity, 1 the largest finite double */
#define PYWR_NODE_COUNT 1
#define PYWR_EDGE_COUNT 2
#define PYWR_EDGE_COLUMN_COUNT 3
#define PYWR_SET_COUNT 4
#define PYWR_VARYING_ROW_COUNT 5
#define PYWR_FIXED_ROW_COUNT 6
#define PYWR_ELEMENT_COUNT 7

/* Where the makers of the rows stand in shape, PYWR_MAKER_WIDTH words a row: kind, index, how many makers share the row. */
#define PYWR_MAKERS_AT 19723
#define PYWR_MAKER_WIDTH 3

/* Where the edges' numbers stand in shape, a word for each edge, in the order in which a step adds their costs: each column's in flow order. */
#define PYWR_FLOW_ORDER_AT 22795

/* The kind of a row's first maker, and what its index counts. An exclusive node's rows are of kind PYWR_MAKER_NODE. */
enum pywr_maker_kind {
    PYWR_MAKER_MASS = 0, /* the mass balance of a link: a node */
    PYWR_MAKER_NODE = 1, /* a node */
    PYWR_MAKER_AGGREGATE = 2, /* an aggregate */
    PYWR_MAKER_VIRTUAL_STORAGE = 3, /* a virtual storage */
    PYWR_MAKER_EXCLUSIVITY = 4 /* how many sets of an exclusive aggregate are on: an aggregate */
};

typedef struct {
    uint64_t number, place;
} PywrAnswer;

/* The part of columns from start, length long: 0 and 0 where the row is refused. */
typedef struct {
    uint64_t number, place, start, length;
} PywrRow;

/* Who made a row: its first maker, and how many makers share it. One that asked for the row twice counts twice. The index counts the network
 * file's nodes, aggregates or virtual storages, from 0. */
typedef struct {
    uint16_t kind, index, shared_by;
} PywrMaker;

/* Writes a network file's programme into the store, or refuses with 1 to 11, 16, 19 or 20. An upper bound that binds nothing is infinity, or
 * the largest finite double where `infinite` is false; a lower one is its negation. */
PywrAnswer pywr_build(
    const uint8_t *file, size_t file_length, bool infinite,
    double *col_lower, size_t col_lower_length, double *col_upper, size_t col_upper_length,
    double *col_obj_coef, size_t col_obj_coef_length,
    double *row_lower, size_t row_lower_length, double *row_upper, size_t row_upper_length,
    double *elements, size_t elements_length, uint16_t *columns, size_t columns_length,
    uint32_t *row_starts, size_t row_starts_length, uint16_t *shape, size_t shape_length,
    uint16_t *words, size_t words_length, double *numbers, size_t numbers_length);

/* Writes a step file's costs, bounds and coefficients into a built store, or refuses with 12 to 14, 16, 17 or 21. */
PywrAnswer pywr_step(
    const uint8_t *file, size_t file_length,
    const double *col_lower, size_t col_lower_length, const double *col_upper, size_t col_upper_length,
    double *col_obj_coef, size_t col_obj_coef_length,
    double *row_lower, size_t row_lower_length, double *row_upper, size_t row_upper_length,
    double *elements, size_t elements_length, const uint16_t *columns, size_t columns_length,
    const uint32_t *row_starts, size_t row_starts_length, const uint16_t *shape, size_t shape_length,
    double *work, size_t work_length);

/* Where a row's columns stand, or a refusal with 16 to 18. It looks over the whole store each time: a caller that has just built it
 * may read row_starts instead. */
PywrRow pywr_row(
    const double *col_lower, size_t col_lower_length, const double *col_upper, size_t col_upper_length,
    const double *col_obj_coef, size_t col_obj_coef_length,
    const double *row_lower, size_t row_lower_length, const double *row_upper, size_t row_upper_length,
    const double *elements, size_t elements_length, const uint16_t *columns, size_t columns_length,
    const uint32_t *row_starts, size_t row_starts_length, const uint16_t *shape, size_t shape_length,
    size_t row);

/* Who made a row of the store whose shape this is. Read it after an accepted pywr_build; no step changes it. All zero, so shared by 0, where the
 * row is not under the row count or shape_length is under PYWR_SHAPE. On a store that something else wrote to, the words are what stands there:
 * pywr_step and pywr_row answer 17 where they are out of range. */
static inline PywrMaker pywr_row_maker(const uint16_t *shape, size_t shape_length, size_t row)
{
    PywrMaker maker = {0, 0, 0};
    if (shape_length < PYWR_SHAPE || row >= PYWR_ROWS || row >= (size_t)shape[PYWR_VARYING_ROW_COUNT] + shape[PYWR_FIXED_ROW_COUNT])
        return maker;
    const uint16_t *words = shape + PYWR_MAKERS_AT + PYWR_MAKER_WIDTH * row;
    maker.kind = words[0];
    maker.index = words[1];
    maker.shared_by = words[2];
    return maker;
}

/* The words of a maker's kind, in English; its index follows them: "mass balance of node" 4. */
static inline const char *pywr_maker_text(uint16_t kind)
{
    switch (kind) {
    case PYWR_MAKER_MASS: return "mass balance of node";
    case PYWR_MAKER_NODE: return "node";
    case PYWR_MAKER_AGGREGATE: return "aggregate";
    case PYWR_MAKER_VIRTUAL_STORAGE: return "virtual storage";
    case PYWR_MAKER_EXCLUSIVITY: return "exclusivity of aggregate";
    default: return "unknown maker";
    }
}

/* The words of an answer's number, in English. */
static inline const char *pywr_refusal_text(uint64_t number)
{
    switch (number) {
    case 0: return "accepted";
    case 1: return "file ends inside a mark or field";
    case 2: return "unknown or out-of-order mark";
    case 3: return "value outside its range, NaN, or min_active over max_active";
    case 4: return "node index not under the node count";
    case 5: return "edge into an input or out of an output";
    case 6: return "a record beyond its maximum";
    case 7: return "no edges";
    case 8: return "link without incoming or outgoing edge";
    case 9: return "constant min over max";
    case 10: return "exclusive constant max -infinity or min +infinity";
    case 11: return "programme over its ceilings";
    case 12: return "step file short, wrongly marked, or with bytes left over";
    case 13: return "value outside its range, or NaN";
    case 14: return "varying node's lower over upper";
    case 15: return "retired, never answered";
    case 16: return "a buffer of store, work or output under the length its ceilings need";
    case 17: return "store misshapen";
    case 18: return "row not under the count";
    case 19: return "edge from a node to itself";
    case 20: return "edge repeating the pair of an earlier edge";
    case 21: return "varying exclusive node's bound at or beyond a sentinel";
    default: return "unknown refusal";
    }
}

/* What a refusal's place is, or "" where it is always 0. A byte is the offset of a record; for 12 also of the first byte left over; for 5, 19 and 20
 * of an edge's `from` field: the two bytes there are the node that it comes from, the next two the node that it goes to; all four are in the file. */
static inline const char *pywr_place_text(uint64_t number)
{
    switch (number) {
    case 1: case 2: case 3: case 4: case 5: case 6: case 12: case 13: case 19: case 20: return "byte";
    case 8: case 9: case 10: case 14: case 21: return "node";
    case 18: return "row";
    default: return "";
    }
}

#ifdef __cplusplus
}
#endif

#endif

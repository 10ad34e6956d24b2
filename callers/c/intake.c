/* intake NETWORK: builds examples/intake.network, prints who made each row and in which order costs add, runs steps on it and prints what they leave. It
 * exits with 1 where the network is refused or its file cannot be read, with 2 where it is called otherwise. */
#include "pywr.h"

#include <errno.h>
#include <inttypes.h>
#include <stdio.h>
#include <string.h>

static double col_lower[PYWR_COLUMNS], col_upper[PYWR_COLUMNS], col_obj_coef[PYWR_COLUMNS];
static double row_lower[PYWR_ROWS], row_upper[PYWR_ROWS], elements[PYWR_ELEMENTS];
static uint16_t columns[PYWR_ELEMENTS], shape[PYWR_SHAPE];
static uint32_t row_starts[PYWR_ROW_STARTS];

static PywrAnswer build(const uint8_t *file, size_t length)
{
    static uint16_t words[PYWR_BUILD_WORDS];
    static double numbers[PYWR_BUILD_NUMBERS];
    return pywr_build(file, length, true, col_lower, PYWR_COLUMNS, col_upper, PYWR_COLUMNS, col_obj_coef, PYWR_COLUMNS,
        row_lower, PYWR_ROWS, row_upper, PYWR_ROWS, elements, PYWR_ELEMENTS, columns, PYWR_ELEMENTS, row_starts, PYWR_ROW_STARTS,
        shape, PYWR_SHAPE, words, PYWR_BUILD_WORDS, numbers, PYWR_BUILD_NUMBERS);
}

static PywrAnswer step(const uint8_t *file, size_t length)
{
    static double work[PYWR_STEP_WORK];
    return pywr_step(file, length, col_lower, PYWR_COLUMNS, col_upper, PYWR_COLUMNS, col_obj_coef, PYWR_COLUMNS,
        row_lower, PYWR_ROWS, row_upper, PYWR_ROWS, elements, PYWR_ELEMENTS, columns, PYWR_ELEMENTS, row_starts, PYWR_ROW_STARTS,
        shape, PYWR_SHAPE, work, PYWR_STEP_WORK);
}

static PywrRow row_part(size_t row)
{
    return pywr_row(col_lower, PYWR_COLUMNS, col_upper, PYWR_COLUMNS, col_obj_coef, PYWR_COLUMNS,
        row_lower, PYWR_ROWS, row_upper, PYWR_ROWS, elements, PYWR_ELEMENTS, columns, PYWR_ELEMENTS, row_starts, PYWR_ROW_STARTS,
        shape, PYWR_SHAPE, row);
}

/* ---- a step file, record by record */

typedef struct {
    uint8_t bytes[PYWR_STEP_FILE];
    size_t length;
} File;

static void put(File *file, const void *bytes, size_t length)
{
    memcpy(file->bytes + file->length, bytes, length);
    file->length += length;
}

static void put_record(File *file, const char *mark, const double *fields, size_t count)
{
    put(file, mark, 2);
    put(file, fields, count * sizeof *fields);
}

static void put_date(File *file, uint8_t month, uint8_t day, double days)
{
    put(file, "ST", 2);
    put(file, &month, 1);
    put(file, &day, 1);
    put(file, &days, sizeof days);
}

/* A day: what the catchment brings, the volume in the reservoir, what the town needs at least. */
static void put_day(File *file, uint8_t month, uint8_t day, double inflow, double volume, double demand)
{
    const double nodes[13][4] = { /* cost, min, max, volume */
        {1.5, 0, 0, 0}, {0, 0, inflow, 0}, {-0.25, 10, 100, volume}, {2, 0, 0, 0}, {3, 0, 0, 0}, {0, 0, 0, 0}, {0.5, 0, 0, 0},
        {1, 0, 50, 0}, {0, 0, 0, 0}, {-0.125, 1, 8, 5}, {-20, demand, 30, 0}, {-10, 0, 0, 0}, {0, 0, 0, 0},
    };
    const double aggregates[2][2] = {{0, 25}, {0, 60}};
    const double licences[2][3] = {{0, 9000, 7500}, {0, 1200, 300}}; /* min, max, volume */
    put_date(file, month, day, 1.0);
    for (int i = 0; i < 13; i++)
        put_record(file, "NB", nodes[i], 4);
    for (int i = 0; i < 2; i++)
        put_record(file, "GB", aggregates[i], 2);
    for (int i = 0; i < 2; i++)
        put_record(file, "VB", licences[i], 3);
}

/* ---- what the store holds */

static void print_rows(size_t from, size_t to)
{
    for (size_t row = from; row < to; row++) {
        PywrRow part = row_part(row);
        printf("  row %zu: %g <=", row, row_lower[row]);
        for (size_t k = part.start; k < part.start + part.length; k++)
            printf(" %+g*c%u", elements[k], (unsigned)columns[k]);
        printf(" <= %g\n", row_upper[row]);
    }
}

/* Who made the rows: what a user wants to know whose solver complains of row 7. */
static void print_makers(size_t rows)
{
    for (size_t row = 0; row < rows; row++) {
        PywrMaker maker = pywr_row_maker(shape, PYWR_SHAPE, row);
        printf("  row %zu: %s %u", row, pywr_maker_text(maker.kind), (unsigned)maker.index);
        if (maker.shared_by > 1)
            printf(", shared by %u", (unsigned)maker.shared_by);
        printf("\n");
    }
}

/* In which order a step adds the edges' costs into the columns. */
static void print_flow_order(void)
{
    printf("costs add by edges:");
    for (int e = 0; e < shape[PYWR_EDGE_COUNT]; e++)
        printf(" %u", (unsigned)shape[PYWR_FLOW_ORDER_AT + e]);
    printf("\n");
}

static void print_costs(void)
{
    printf("  costs:");
    for (int c = 0; c < shape[PYWR_EDGE_COLUMN_COUNT] + shape[PYWR_SET_COUNT]; c++)
        printf(" %g", col_obj_coef[c]);
    printf("\n");
}

/* A refusal with its words and, unless its place is always 0, what that is. */
static void print_refusal(uint64_t number, uint64_t place)
{
    printf("refused with %" PRIu64 " at %" PRIu64 ": %s", number, place, pywr_refusal_text(number));
    if (*pywr_place_text(number) != '\0')
        printf(", %s %" PRIu64, pywr_place_text(number), place);
    printf("\n");
}

static void run(const char *name, const File *file)
{
    PywrAnswer answer = step(file->bytes, file->length);
    if (answer.number != 0) {
        printf("%s: ", name);
        print_refusal(answer.number, answer.place);
        return;
    }
    printf("%s: accepted\n", name);
    print_costs();
    print_rows(0, shape[PYWR_VARYING_ROW_COUNT]);
}

/* As many bytes as fit: a network that is longer than any accepted one is refused by its first bytes too many. False, with errno, where
 * the file cannot be opened or read. */
static bool read_file(const char *name, uint8_t *bytes, size_t most, size_t *length)
{
    FILE *in = fopen(name, "rb");
    if (in == NULL)
        return false;
    *length = fread(bytes, 1, most, in);
    int failed = ferror(in) ? errno : 0;
    fclose(in);
    errno = failed;
    return failed == 0;
}

int main(int count, char **arguments)
{
    static uint8_t network[PYWR_NETWORK_FILE + 2];
    size_t length;
    if (count != 2) {
        fprintf(stderr, "usage: intake NETWORK\n");
        return 2;
    }
    if (!read_file(arguments[1], network, sizeof network, &length)) {
        fprintf(stderr, "%s: %s\n", arguments[1], strerror(errno));
        return 1;
    }
    PywrAnswer answer = build(network, length);
    if (answer.number != 0) {
        printf("network: ");
        print_refusal(answer.number, answer.place);
        return 1;
    }
    size_t rows = (size_t)shape[PYWR_VARYING_ROW_COUNT] + shape[PYWR_FIXED_ROW_COUNT];
    printf("network: accepted\n");
    print_rows(0, rows);
    printf("made by:\n");
    print_makers(rows);
    print_flow_order();

    static File winter, wrong, cut, summer;
    put_day(&winter, 1, 15, 40, 80, 20);
    run("winter", &winter);
    put_day(&wrong, 1, 16, 40, 80, 31); /* the town needs more than 30 */
    run("wrong", &wrong);
    put_day(&cut, 1, 16, 40, 80, 20);
    cut.length -= 1;
    run("cut", &cut);
    put_day(&summer, 7, 15, 5, 30, 20);
    run("summer", &summer);

    PywrRow none = row_part(rows);
    printf("row %zu: ", rows);
    print_refusal(none.number, none.place);
    return 0;
}

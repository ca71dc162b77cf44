/*
 * firmware PROGRAM READINGS: what a converter does with the clerk's meter (examples/clerk.st).
 * At power-on the text is accepted, its table made and checked, once. Then each cycle is one scan by the table.
 * Beside it the same cycle is run by the statements, to show that the two totals are one.
 */
#include <inttypes.h>
#include <stdio.h>
#include <stdlib.h>

#include "kaldvimur.h"

/* The cells of the clerk's program, in printed order. */
enum { Q, SHOWN, TOTAL, CELLS };

static uint8_t text[KV_MAX_TEXT + 1]; /* one byte more, so that a longer text is refused and not cut */
static size_t length;

static uint32_t rows[KV_ROW * KV_MAX_ROWS];
static uint32_t cells[KV_MAX_CELLS];
static uint32_t count[2]; /* of rows and cells */

static void fail(const char *what)
{
    fprintf(stderr, "firmware: %s\n", what);
    exit(1);
}

/* Every answer goes through here. */
static void done(const char *call, uint32_t answer)
{
    if (answer != KV_DONE) {
        fprintf(stderr, "firmware: %s refused %" PRIu32 " at %" PRIu32 "\n", call, KV_NUMBER(answer), KV_PLACE(answer));
        exit(1);
    }
}

static FILE *opened(const char *name)
{
    FILE *file = fopen(name, "rb");
    if (file == NULL) {
        perror(name);
        exit(1);
    }
    return file;
}

static void load(const char *name)
{
    FILE *file = opened(name);
    length = fread(text, 1, sizeof text, file);
    if (ferror(file)) fail("the program cannot be read");
    fclose(file);
}

/* Once, at power-on. */
static void prepare(void)
{
    uint32_t four[4];
    done("kv_accept", kv_accept(text, length, four, 4));
    if (four[0] != CELLS) fail("this is not the clerk's program");
    printf("accepted: %" PRIu32 " cells, weight %" PRIu32 ", at most %" PRIu32 " steps a scan\n", four[0], four[1], four[2]);

    done("kv_table", kv_table(text, length, rows, sizeof rows / sizeof *rows, cells, KV_MAX_CELLS, count, 2));
    done("kv_check_table", kv_check_table(rows, sizeof rows / sizeof *rows, cells, KV_MAX_CELLS, count[0], count[1]));
    printf("table: %" PRIu32 " rows, checked\n\n", count[0]);
}

/* One cycle, by the table and by the statements. */
static void cycle(int64_t q, int64_t by_table[CELLS], int64_t by_text[CELLS])
{
    int64_t inputs[CELLS] = {[Q] = q};
    uint32_t steps;
    done("kv_scan_checked", kv_scan_checked(rows, sizeof rows / sizeof *rows, cells, KV_MAX_CELLS, count[0], count[1],
                                            by_table, CELLS, inputs, CELLS));
    done("kv_scan", kv_scan(text, length, by_text, CELLS, inputs, CELLS, &steps, 1));
    if (by_table[SHOWN] != by_text[SHOWN] || by_table[TOTAL] != by_text[TOTAL]) fail("table and statements differ");
}

static void night(FILE *readings)
{
    int64_t by_table[CELLS], by_text[CELLS], q;
    done("kv_start", kv_start(text, length, by_table, CELLS));
    done("kv_start", kv_start(text, length, by_text, CELLS));
    printf("flow  display  total by table  by statements\n");
    while (fscanf(readings, "%" SCNd64, &q) == 1) {
        cycle(q, by_table, by_text);
        printf("%4" PRId64 "  %7" PRId64 "  %14" PRId64 "  %13" PRId64 "\n", q, by_table[SHOWN], by_table[TOTAL],
               by_text[TOTAL]);
    }
    if (!feof(readings)) fail("the readings are no numbers");
    printf("\ntotal of the night: %" PRId64 " by the table, %" PRId64 " by the statements\n", by_table[TOTAL], by_text[TOTAL]);
}

int main(int argc, char **argv)
{
    if (argc != 3) fail("firmware PROGRAM READINGS");
    load(argv[1]);
    FILE *readings = opened(argv[2]);
    prepare();
    night(readings);
    fclose(readings);
    return 0;
}

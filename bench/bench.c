/*
 * bench FILE NS FILE NS ..: times the translator on each text, and scans of its program in five ways. NS is what the peer's judge
 * takes for a byte of that text, or - where it is not known. Ends with 1 if two ways leave different states.
 */
#define _POSIX_C_SOURCE 199309L
#include <inttypes.h>
#include <stdio.h>
#include <stdlib.h>
#include <string.h>
#include <time.h>

#include "kaldvimur.h"
#include "programs.h"

enum { ROUNDS = 100, SCANS = 64, PROGRAMS = 16, ROW_WORDS = KV_ROW * KV_MAX_ROWS };

struct program;
typedef void way(const struct program *p, int64_t *state, const int64_t *inputs);

struct program {
    char name[32];
    double judge; /* the peer's ns for a byte, 0 where it is not known */
    uint8_t text[KV_MAX_TEXT + 1];
    size_t length;
    uint32_t weight;
    uint32_t rows[ROW_WORDS], cells[KV_MAX_CELLS];
    struct table table;
    int64_t start[KV_MAX_CELLS];
    int64_t readings[SCANS][KV_MAX_CELLS];
    straight_scan *straight; /* NULL where the program is not written in C */
    way *scan;               /* the way that is timed */
};

static void fail(const struct program *p, const char *what)
{
    fprintf(stderr, "bench: %s: %s\n", p->name, what);
    exit(1);
}

static void done(const struct program *p, uint32_t answer)
{
    if (answer != KV_DONE) {
        fprintf(stderr, "bench: %s: refused %" PRIu32 " at %" PRIu32 "\n", p->name, KV_NUMBER(answer), KV_PLACE(answer));
        exit(1);
    }
}

/* ---- one scan, in each way */

static void by_statements(const struct program *p, int64_t *state, const int64_t *inputs)
{
    uint32_t steps;
    done(p, kv_scan(p->text, p->length, state, KV_MAX_CELLS, inputs, KV_MAX_CELLS, &steps, 1));
}

static void by_table(const struct program *p, int64_t *state, const int64_t *inputs)
{
    done(p, kv_scan_table(p->rows, ROW_WORDS, p->cells, KV_MAX_CELLS, p->table.n_rows, p->table.n_cells, state,
                          KV_MAX_CELLS, inputs, KV_MAX_CELLS));
}

static void by_checked_table(const struct program *p, int64_t *state, const int64_t *inputs)
{
    done(p, kv_scan_checked(p->rows, ROW_WORDS, p->cells, KV_MAX_CELLS, p->table.n_rows, p->table.n_cells, state,
                            KV_MAX_CELLS, inputs, KV_MAX_CELLS));
}

static void by_loop(const struct program *p, int64_t *state, const int64_t *inputs)
{
    scan_rows(&p->table, state, inputs);
}

static void in_straight_c(const struct program *p, int64_t *state, const int64_t *inputs)
{
    p->straight(state, inputs);
}

enum { STATEMENTS, TABLE, CHECKED, LOOP, STRAIGHT, WAYS };
static way *const ways[WAYS] = {by_statements, by_table, by_checked_table, by_loop, in_straight_c};
static const char *const way_names[WAYS] = {"kv_scan", "kv_scan_table", "kv_scan_checked", "C loop over the rows", "straight C"};

static int has_way(const struct program *p, int w)
{
    return w != STRAIGHT || p->straight != NULL;
}

/* ---- the work that is timed */

static void accept_text(struct program *p)
{
    uint32_t four[4];
    done(p, kv_accept(p->text, p->length, four, 4));
    p->weight = four[1];
}

static void make_table(struct program *p)
{
    uint32_t two[2];
    done(p, kv_table(p->text, p->length, p->rows, ROW_WORDS, p->cells, KV_MAX_CELLS, two, 2));
    p->table = (struct table){p->rows, p->cells, two[0], two[1]};
}

static void scans(struct program *p)
{
    int64_t state[KV_MAX_CELLS];
    memcpy(state, p->start, sizeof state);
    for (int k = 0; k < SCANS; k++) p->scan(p, state, p->readings[k]);
}

/* The processor's time of this program alone. */
static double now(void)
{
    struct timespec t;
    clock_gettime(CLOCK_PROCESS_CPUTIME_ID, &t);
    return 1e9 * (double)t.tv_sec + (double)t.tv_nsec;
}

static double timed(struct program *p, void (*work)(struct program *), long times)
{
    double from = now();
    for (long i = 0; i < times; i++) work(p);
    return now() - from;
}

/* The ns of the work in the best round. A round takes 2 ms: where others use the machine too, some of many are quiet. */
static double best(struct program *p, void (*work)(struct program *))
{
    long times = 1;
    while (timed(p, work, times) < 2e6) times *= 2;
    double least = timed(p, work, times);
    for (int r = 1; r < ROUNDS; r++) {
        double ns = timed(p, work, times);
        if (ns < least) least = ns;
    }
    return least / (double)times;
}

/* ---- a program made ready */

static uint32_t draw(void)
{
    static uint64_t x = 1;
    x = x * 6364136223846793005u + 1442695040888963407u;
    return (uint32_t)(x >> 32);
}

/* A value of the type with that number: half of them small, the others from the whole range. */
static int64_t reading(uint32_t type)
{
    uint32_t r = draw(), small = draw() & 1;
    switch (type) {
    case 0: return r >> 31;
    case 1: return small ? (int64_t)(r >> 28) - 8 : (int16_t)(r >> 16);
    case 2: return r >> (small ? 28 : 16);
    case 3: return small ? (int64_t)(r >> 28) - 8 : (int32_t)r;
    default: return small ? r >> 28 : r;
    }
}

static straight_scan *straight_of(const char *name)
{
    if (strcmp(name, "totalizer") == 0) return totalizer;
    if (strcmp(name, "valve") == 0) return valve;
    if (strcmp(name, "median") == 0) return median;
    return NULL;
}

static void load(struct program *p, const char *file, const char *judge)
{
    const char *slash = strrchr(file, '/');
    snprintf(p->name, sizeof p->name, "%s", slash ? slash + 1 : file);
    p->name[strcspn(p->name, ".")] = 0;
    p->judge = atof(judge);
    p->straight = straight_of(p->name);
    FILE *f = fopen(file, "rb");
    if (f == NULL) fail(p, "cannot be opened");
    p->length = fread(p->text, 1, sizeof p->text, f);
    fclose(f);
}

static void make_ready(struct program *p)
{
    accept_text(p);
    make_table(p);
    done(p, kv_check_table(p->rows, ROW_WORDS, p->cells, KV_MAX_CELLS, p->table.n_rows, p->table.n_cells));
    done(p, kv_start(p->text, p->length, p->start, KV_MAX_CELLS));
    for (int k = 0; k < SCANS; k++)
        for (uint32_t c = 0; c < p->table.n_cells; c++)
            if (p->cells[c] & 8) p->readings[k][c] = reading(p->cells[c] & 7);
}

/* All ways leave the same state after every scan. */
static void compare(const struct program *p)
{
    int64_t state[WAYS][KV_MAX_CELLS];
    for (int w = 0; w < WAYS; w++) memcpy(state[w], p->start, sizeof p->start);
    for (int k = 0; k < SCANS; k++)
        for (int w = 0; w < WAYS; w++) {
            if (!has_way(p, w)) continue;
            ways[w](p, state[w], p->readings[k]);
            if (memcmp(state[w], state[STATEMENTS], sizeof state[w]) != 0) fail(p, "two ways leave different states");
        }
}

/* ---- what is printed */

static void print_text(struct program *p)
{
    double bytes = (double)p->length, accept = best(p, accept_text), table = best(p, make_table);
    printf("%-10s %6zu %7" PRIu32 " %10.1f %8.1f %10.1f %8.1f", p->name, p->length, p->weight, accept / 1e3, accept / bytes,
           table / 1e3, table / bytes);
    if (p->judge > 0) printf(" %9.1f %11.2f", p->judge, accept / bytes / p->judge);
    printf("\n");
}

static void print_scans(struct program *p)
{
    double ns[WAYS] = {0};
    for (int w = 0; w < WAYS; w++)
        if (has_way(p, w)) {
            p->scan = ways[w];
            ns[w] = best(p, scans) / SCANS;
        }
    printf("\n%s, %" PRIu32 " rows\n", p->name, p->table.n_rows);
    for (int w = 0; w < WAYS; w++)
        if (has_way(p, w)) {
            printf("  %-22s %10.1f %9.2f %9.2f", way_names[w], ns[w], ns[w] / p->table.n_rows, ns[w] / ns[LOOP]);
            if (has_way(p, STRAIGHT)) printf(" %12.1f", ns[w] / ns[STRAIGHT]);
            printf("%s\n", w == CHECKED ? "   (to the loop: at most 2.0)" : "");
        }
}

int main(int argc, char **argv)
{
    static struct program programs[PROGRAMS];
    int n = argc / 2;
    if (argc % 2 == 0 || n < 1 || n > PROGRAMS) return 2;
    for (int i = 0; i < n; i++) {
        load(&programs[i], argv[2 * i + 1], argv[2 * i + 2]);
        make_ready(&programs[i]);
        compare(&programs[i]);
    }
    printf("All ways leave the same states. Times are those of the best of %d rounds.\n\n", ROUNDS);
    printf("                              kv_accept           kv_table     judge   kv_accept\n");
    printf("text        bytes  weight    us/text  ns/byte    us/text  ns/byte   ns/byte    to judge (at most 4)\n");
    for (int i = 0; i < n; i++) print_text(&programs[i]);
    printf("\nscan                        ns/scan    ns/row   to loop  to straight\n");
    for (int i = 0; i < n; i++) print_scans(&programs[i]);
    return 0;
}

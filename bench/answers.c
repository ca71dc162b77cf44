/*
 * The peer's commands by the functions of kaldvimur.h, with the same lines as answers:
 *   answers st0 < TEXT     the print, or `refused N at P`; 65,536 bytes are lent
 *   answers batch FILE     lines `ID BASE64TEXT`: the four numbers and the print, or the refusal
 *   answers trace FILE     lines `ID BASE64TEXT SEED SCANS`: rows of the table, steps and state after so many scans. `agree`: the
 *                          scans by text, by table and by checked table left equal states; `bounded`: none passed the figure
 */
#define _GNU_SOURCE
#include <inttypes.h>
#include <stdbool.h>
#include <stdio.h>
#include <stdlib.h>
#include <string.h>

#include "kaldvimur.h"

enum { BOOL, INT, UINT, DINT, UDINT };
enum { ST0_LENDS = 65536 };

static uint8_t text[1 << 20];
static size_t length; /* of the text */
static uint8_t print[1 << 20];

static const char *yes(bool b)
{
    return b ? "true" : "false";
}

static void put_refusal(uint32_t answer)
{
    printf("\"ok\":false,\"refused\":%" PRIu32 ",\"place\":%" PRIu32, KV_NUMBER(answer), KV_PLACE(answer));
}

/* ---- a text judged */

/* A print needs no other escapes: it has printable bytes and line ends only, no quotes and no backslashes. */
static void put_print(size_t n)
{
    for (size_t i = 0; i < n; i++) {
        if (print[i] == '\n')
            fputs("\\n", stdout);
        else
            putchar(print[i]);
    }
}

static void judge(void)
{
    uint32_t four[4];
    uint32_t answer = kv_accept(text, length, four, 4);
    if (answer == 0) answer = kv_print(text, length, print, four[3]);
    if (answer != 0) {
        put_refusal(answer);
        return;
    }
    printf("\"ok\":true,\"cells\":%" PRIu32 ",\"weight\":%" PRIu32, four[0], four[1]);
    printf(",\"figure\":%" PRIu32 ",\"length\":%" PRIu32 ",\"print\":\"", four[2], four[3]);
    put_print(four[3]);
    putchar('"');
}

static void st0(void)
{
    uint32_t four[4];
    length = fread(text, 1, sizeof text, stdin);
    uint32_t answer = kv_print(text, length, print, ST0_LENDS);
    if (answer == 0) answer = kv_accept(text, length, four, 4);
    if (answer == 0)
        fwrite(print, 1, four[3], stdout);
    else
        printf("refused %" PRIu32 " at %" PRIu32 "\n", KV_NUMBER(answer), KV_PLACE(answer));
}

/* ---- a text run */

/* A run in three ways from one starting state. A line of the same text and seed with more scans goes on with it. */
static struct {
    uint64_t seed, x; /* the readings' generator: its start and where it stands */
    uint64_t scans, steps;
    uint32_t four[4], two[2], rows[KV_ROW * KV_MAX_ROWS], cells[KV_MAX_CELLS];
    int64_t by_text[KV_MAX_CELLS], by_table[KV_MAX_CELLS], by_checked[KV_MAX_CELLS], inputs[KV_MAX_CELLS];
    bool agree, bounded;
    uint32_t refusal;
} run = {.scans = UINT64_MAX}; /* none yet */

static void start_run(uint64_t seed)
{
    memset(&run, 0, sizeof run);
    uint32_t answer = kv_accept(text, length, run.four, 4);
    if (answer == 0) answer = kv_start(text, length, run.by_text, KV_MAX_CELLS);
    if (answer == 0)
        answer = kv_table(text, length, run.rows, KV_ROOM(run.four[1], run.four[0]), run.cells, run.four[0], run.two, 2);
    if (answer == 0) answer = kv_check_table(run.rows, KV_ROW * KV_MAX_ROWS, run.cells, KV_MAX_CELLS, run.two[0], run.two[1]);
    memcpy(run.by_table, run.by_text, sizeof run.by_text);
    memcpy(run.by_checked, run.by_text, sizeof run.by_text);
    run.seed = run.x = seed;
    run.agree = run.two[0] <= run.four[0] + run.four[1] && run.two[1] == run.four[0];
    run.bounded = true;
    run.refusal = answer;
}

/* One reading by the peer's generator. */
static int64_t reading(uint32_t type)
{
    run.x = run.x * 6364136223846793005u + 1442695040888963407u;
    uint32_t r = (uint32_t)(run.x >> 32);
    bool small = r % 2 == 0;
    int64_t near_zero = r >> 8 & 15;
    switch (type) {
    case BOOL: return r >> 31;
    case INT: return small ? near_zero - 8 : (int16_t)(r >> 16);
    case UINT: return small ? near_zero : r >> 16;
    case DINT: return small ? near_zero - 8 : (int32_t)r;
    default: return small ? near_zero : r;
    }
}

static void scan_once(void)
{
    uint32_t steps = 0, rows = run.two[0], cells = run.two[1];
    for (size_t i = 0; i < cells; i++)
        if (run.cells[i] & 8) run.inputs[i] = reading(run.cells[i] & 7);
    uint32_t a = kv_scan(text, length, run.by_text, KV_MAX_CELLS, run.inputs, KV_MAX_CELLS, &steps, 1);
    uint32_t b = kv_scan_table(run.rows, KV_ROW * rows, run.cells, cells, rows, cells, run.by_table, cells, run.inputs, cells);
    uint32_t c = kv_scan_checked(run.rows, KV_ROW * rows, run.cells, cells, rows, cells, run.by_checked, cells, run.inputs, cells);
    run.agree &= a == 0 && b == 0 && c == 0;
    run.agree &= memcmp(run.by_text, run.by_table, sizeof run.by_text) == 0;
    run.agree &= memcmp(run.by_text, run.by_checked, sizeof run.by_text) == 0;
    run.bounded &= steps <= run.four[2];
    run.steps += steps;
    run.scans++;
}

static void trace(bool same_text, uint64_t seed, uint64_t scans)
{
    if (!same_text || seed != run.seed || scans < run.scans) start_run(seed);
    if (run.refusal != 0) {
        put_refusal(run.refusal);
        return;
    }
    while (run.scans < scans) scan_once();
    printf("\"ok\":true,\"agree\":%s,\"bounded\":%s,\"scans\":%" PRIu64, yes(run.agree), yes(run.bounded), run.scans);
    printf(",\"steps\":%" PRIu64 ",\"rows\":%" PRIu32 ",\"state\":[", run.steps, run.two[0]);
    for (size_t i = 0; i < run.two[1]; i++) printf("%s%" PRId64, i > 0 ? "," : "", run.by_text[i]);
    putchar(']');
}

/* ---- lines */

static int sextet(char c)
{
    static const char all[] = "ABCDEFGHIJKLMNOPQRSTUVWXYZabcdefghijklmnopqrstuvwxyz0123456789+/";
    const char *at = c == 0 ? NULL : strchr(all, c);
    return at == NULL ? -1 : (int)(at - all);
}

/* Decodes into the text; says if it is as it was. */
static bool decode(const char *base64)
{
    uint32_t bits = 0, have = 0;
    size_t n = 0;
    bool same = true;
    for (; sextet(*base64) >= 0 && n < sizeof text; base64++) {
        bits = bits << 6 | (uint32_t)sextet(*base64);
        have += 6;
        if (have < 8) continue;
        have -= 8;
        same &= text[n] == (uint8_t)(bits >> have);
        text[n++] = (uint8_t)(bits >> have);
    }
    same &= n == length;
    length = n;
    return same;
}

static uint64_t number(const char *word)
{
    return word == NULL ? 0 : strtoull(word, NULL, 10);
}

static void answer_line(char *line, bool runs)
{
    const char *id = strsep(&line, " ");
    const char *base64 = strsep(&line, " ");
    const char *seed = strsep(&line, " ");
    bool same_text = decode(base64 == NULL ? "" : base64);
    printf("{\"id\":\"%s\",", id);
    if (runs)
        trace(same_text, number(seed), number(line));
    else
        judge();
    puts("}");
}

int main(int argc, char **argv)
{
    const char *command = argc > 1 ? argv[1] : "";
    if (argc == 2 && strcmp(command, "st0") == 0) {
        st0();
        return 0;
    }
    bool runs = strcmp(command, "trace") == 0;
    FILE *file = argc == 3 && (runs || strcmp(command, "batch") == 0) ? fopen(argv[2], "r") : NULL;
    if (file == NULL) {
        fputs("answers st0 | batch FILE | trace FILE\n", stderr);
        return 2;
    }
    char *line = NULL;
    size_t room = 0;
    while (getline(&line, &room, file) > 0) {
        line[strcspn(line, "\n")] = 0;
        answer_line(line, runs);
    }
    free(line);
    return fclose(file);
}

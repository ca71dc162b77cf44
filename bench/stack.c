/* stack FILE: the bytes of stack that each function takes on a text and its table. The stack is painted before each call, and
   what the call has reached is paint no more. */
#define _XOPEN_SOURCE 700
#include <pthread.h>
#include <stdio.h>
#include <stdlib.h>
#include <string.h>

#include "kaldvimur.h"

enum { SIZE = 8 << 20, PAINT = 0xA5, PRINT = 1 << 20, ROW_WORDS = KV_ROW * KV_MAX_ROWS };

static uint8_t text[KV_MAX_TEXT + 1], print[PRINT];
static size_t length;
static uint32_t rows[ROW_WORDS], cells[KV_MAX_CELLS], four[4], two[2], steps;
static int64_t state[KV_MAX_CELLS], inputs[KV_MAX_CELLS];

static uint32_t accept_text(void) { return kv_accept(text, length, four, 4); }
static uint32_t print_text(void) { return kv_print(text, length, print, PRINT); }
static uint32_t start(void) { return kv_start(text, length, state, KV_MAX_CELLS); }
static uint32_t scan(void) { return kv_scan(text, length, state, KV_MAX_CELLS, inputs, KV_MAX_CELLS, &steps, 1); }
static uint32_t table(void) { return kv_table(text, length, rows, ROW_WORDS, cells, KV_MAX_CELLS, two, 2); }
static uint32_t check_table(void) { return kv_check_table(rows, ROW_WORDS, cells, KV_MAX_CELLS, two[0], two[1]); }

static uint32_t scan_table(void)
{
    return kv_scan_table(rows, ROW_WORDS, cells, KV_MAX_CELLS, two[0], two[1], state, KV_MAX_CELLS, inputs, KV_MAX_CELLS);
}

static uint32_t scan_checked(void)
{
    return kv_scan_checked(rows, ROW_WORDS, cells, KV_MAX_CELLS, two[0], two[1], state, KV_MAX_CELLS, inputs, KV_MAX_CELLS);
}

/* In this order: the table is made before it is used. */
static const struct {
    const char *name;
    uint32_t (*call)(void);
} calls[] = {{"kv_accept", accept_text},        {"kv_print", print_text},        {"kv_start", start},
             {"kv_scan", scan},                 {"kv_table", table},             {"kv_check_table", check_table},
             {"kv_scan_table", scan_table},     {"kv_scan_checked", scan_checked}};

static uint32_t (*called)(void);
static uint32_t answer;
static unsigned char *stack, *top;

static void *on_the_stack(void *unused)
{
    unsigned char here;
    top = &here;
    answer = called();
    return unused;
}

static size_t taken(uint32_t (*call)(void))
{
    pthread_attr_t on;
    pthread_t thread;
    memset(stack, PAINT, SIZE);
    called = call;
    if (pthread_attr_init(&on) || pthread_attr_setstack(&on, stack, SIZE) || pthread_create(&thread, &on, on_the_stack, NULL) ||
        pthread_join(thread, NULL))
        exit(1);
    unsigned char *reached = stack;
    while (*reached == PAINT) reached++;
    return (size_t)(top - reached);
}

int main(int argc, char **argv)
{
    FILE *file = argc == 2 ? fopen(argv[1], "rb") : NULL;
    if (file == NULL || posix_memalign((void **)&stack, 4096, SIZE)) return 2;
    length = fread(text, 1, sizeof text, file);
    fclose(file);
    for (size_t i = 0; i < sizeof calls / sizeof *calls; i++) {
        size_t bytes = taken(calls[i].call);
        if (answer != KV_DONE) return 1;
        printf("  %-16s %8zu bytes of stack\n", calls[i].name, bytes);
    }
    return 0;
}

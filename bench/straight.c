/* The programs as one would write them in C, each over the state that its text has: cells in printed order, values as they are. */
#include "programs.h"

/* examples/totalizer.st */
void totalizer(int64_t *s, const int64_t *in)
{
    enum { FLOW, RESET, SHOWN, TOTAL, CUTOFF };
    s[FLOW] = in[FLOW];
    s[RESET] = in[RESET];
    s[SHOWN] = s[FLOW];
    if (s[FLOW] > 0) s[TOTAL] = (uint32_t)(s[TOTAL] + (uint32_t)s[SHOWN]);
    if (s[SHOWN] < s[CUTOFF]) s[SHOWN] = 0;
    if (s[RESET]) s[TOTAL] = 0;
}

/* examples/valve.st */
void valve(int64_t *s, const int64_t *in)
{
    enum { WISH, IS_OPEN, IS_SHUT, ACK, DRIVE, ALARM, STATE, TICKS, PATIENCE };
    for (int c = WISH; c <= ACK; c++) s[c] = in[c];
    switch (s[STATE]) {
    case 0:
        s[DRIVE] = 0;
        s[TICKS] = 0;
        if (s[WISH]) s[STATE] = 1;
        break;
    case 1:
        s[DRIVE] = 1;
        s[TICKS] = (uint16_t)(s[TICKS] + 1);
        if (s[IS_OPEN]) s[STATE] = 2;
        else if (s[TICKS] > s[PATIENCE]) s[STATE] = 9;
        break;
    case 2:
        s[DRIVE] = 0;
        s[TICKS] = 0;
        if (!s[WISH]) s[STATE] = 3;
        break;
    case 3:
        s[DRIVE] = -1;
        s[TICKS] = (uint16_t)(s[TICKS] + 1);
        if (s[IS_SHUT]) s[STATE] = 0;
        else if (s[TICKS] > s[PATIENCE]) s[STATE] = 9;
        break;
    default:
        s[DRIVE] = 0;
        if (s[ACK]) {
            s[STATE] = 3;
            s[TICKS] = 0;
        }
    }
    s[ALARM] = s[STATE] == 9;
}

/* bench/median.st */
void median(int64_t *s, const int64_t *in)
{
    enum { RAW, MIDDLE, KEPT, SORTED = KEPT + 23, I = SORTED + 23, J, LOWER };
    int64_t *kept = s + KEPT, *sorted = s + SORTED;
    s[RAW] = in[RAW];
    for (int i = 22; i >= 1; i--) {
        kept[i] = kept[i - 1];
        sorted[i] = kept[i];
    }
    kept[0] = s[RAW];
    sorted[0] = s[RAW];
    for (int i = 22; i >= 1; i--)
        for (int j = 1; j <= i; j++)
            if (sorted[j] < sorted[j - 1]) {
                s[LOWER] = sorted[j];
                sorted[j] = sorted[j - 1];
                sorted[j - 1] = s[LOWER];
            }
    s[I] = 1; /* the last values used */
    s[J] = 1;
    s[MIDDLE] = sorted[11];
}

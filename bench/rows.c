/* A table's scan as one would write it in C from docs/LAYOUT.md: values held as they are, brought into the type after an
   operation. A good table is taken for granted. */
#include "kaldvimur.h"
#include "programs.h"

enum { BOOL, INT, UINT, DINT, UDINT };

enum {
    NUMBER, READ, MINUS, NOT, SELECT, MUL, DIV, MOD, ADD, SUB, LT, GT, LE, GE, EQ, NE, AND, XOR, OR,
    TO_INT, TO_UINT, TO_DINT, TO_UDINT
};

static inline int64_t brought(uint32_t type, int64_t z)
{
    switch (type) {
    case INT: return (int16_t)z;
    case UINT: return (uint16_t)z;
    case DINT: return (int32_t)z;
    case UDINT: return (uint32_t)z;
    default: return z & 1;
    }
}

/* Two values of UDINT multiply to 64 bits. */
static inline int64_t product(int64_t a, int64_t b)
{
    return (int64_t)((uint64_t)a * (uint64_t)b);
}

static inline int64_t row_value(const uint32_t *row, const int64_t *state, const int64_t *v)
{
    uint32_t type = row[0] & 7, a = row[1], b = row[2];
    switch (row[0] >> 3) {
    case NUMBER: return brought(type, a);
    case READ: return state[a];
    case MINUS: return brought(type, -v[a]);
    case NOT: return !v[a];
    case SELECT: return v[a] ? v[b] : v[row[3]];
    case MUL: return brought(type, product(v[a], v[b]));
    case DIV: return brought(type, v[a] / v[b]);
    case MOD: return brought(type, v[a] % v[b]);
    case ADD: return brought(type, v[a] + v[b]);
    case SUB: return brought(type, v[a] - v[b]);
    case LT: return v[a] < v[b];
    case GT: return v[a] > v[b];
    case LE: return v[a] <= v[b];
    case GE: return v[a] >= v[b];
    case EQ: return v[a] == v[b];
    case NE: return v[a] != v[b];
    case AND: return v[a] & v[b];
    case XOR: return v[a] ^ v[b];
    case OR: return v[a] | v[b];
    case TO_INT: return (int16_t)v[a];
    case TO_UINT: return (uint16_t)v[a];
    case TO_DINT: return (int32_t)v[a];
    case TO_UDINT: return (uint32_t)v[a];
    default: return 0;
    }
}

void scan_rows(const struct table *t, int64_t *state, const int64_t *inputs)
{
    int64_t v[KV_MAX_ROWS];
    for (uint32_t c = 0; c < t->n_cells; c++)
        if (t->cells[c] & 8) state[c] = inputs[c];
    for (uint32_t i = 0; i < t->n_rows; i++)
        v[i] = row_value(t->rows + KV_ROW * i, state, v);
    for (uint32_t c = 0; c < t->n_cells; c++)
        if (!(t->cells[c] & 8)) state[c] = v[(t->cells[c] >> 4) - 1];
}

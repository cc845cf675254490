/* A plain table in C, and the operations that an example makes: what answers are compared with. */
#ifndef TABLE_H
#define TABLE_H
#include <stdint.h>
#include <stdio.h>
#include <string.h>

enum { DOCUMENTS = 2000 };

/* One document: a year, and the weights of two tags; a weight of 0 is written as "not there". */
struct row { int there; int64_t year; int32_t rock, jazz; };
struct table { struct row rows[DOCUMENTS + 1]; };

static inline uint64_t mixed(uint64_t x) {
    x += 0x9e3779b97f4a7c15u;
    x = (x ^ (x >> 30)) * 0xbf58476d1ce4e5b9u;
    x = (x ^ (x >> 27)) * 0x94d049bb133111ebu;
    return x ^ (x >> 31);
}

/* Operation i, from 1: of ten, six are puts, three move a year and one is a removal. */
struct operation { int kind; uint32_t document; int64_t year; int32_t rock, jazz; };
enum { PUT, MOVE, REMOVE };

static inline struct operation operation(uint64_t i) {
    uint64_t r = mixed(i);
    struct operation op = {0, 1 + (uint32_t)(r % DOCUMENTS), 0, 0, 0};
    unsigned of_ten = (unsigned)((r >> 20) % 10);
    op.kind = of_ten < 6 ? PUT : of_ten < 9 ? MOVE : REMOVE;
    op.year = op.kind == PUT ? 1900 + (int64_t)((r >> 24) % 200) : 1 + (int64_t)((r >> 24) % 5);
    op.rock = (int32_t)((r >> 36) % 8);
    op.jazz = (int32_t)((r >> 44) % 8);
    return op;
}

/* Its line in the feed. Returns the length. */
static inline size_t write_line(char *to, const struct operation *op) {
    switch (op->kind) {
    case PUT: {
        int n = sprintf(to, "{\"put\":\"id:music:song::%u\",\"fields\":{\"year\":%lld,\"tags\":{", op->document, (long long)op->year);
        if (op->rock) n += sprintf(to + n, "\"rock\":%d%s", op->rock, op->jazz ? "," : "");
        if (op->jazz) n += sprintf(to + n, "\"jazz\":%d", op->jazz);
        n += sprintf(to + n, "}}}\n");
        return (size_t)n;
    }
    case MOVE:
        return (size_t)sprintf(to, "{\"update\":\"id:music:song::%u\",\"fields\":{\"year\":{\"increment\":%lld}}}\n", op->document, (long long)op->year);
    default:
        return (size_t)sprintf(to, "{\"remove\":\"id:music:song::%u\"}\n", op->document);
    }
}

/* What it makes of the table. Returns 1 where it is skipped. */
static inline int apply(struct table *table, const struct operation *op) {
    struct row *row = &table->rows[op->document];
    if (op->kind == PUT) {
        *row = (struct row){1, op->year, op->rock, op->jazz};
        return 0;
    }
    if (!row->there) return 1;
    if (op->kind == MOVE) row->year += op->year;
    else memset(row, 0, sizeof *row);
    return 0;
}
#endif

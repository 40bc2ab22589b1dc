/* What the calls are lent, what they should leave, and the comparison of the two. `now` is lent and `then` is what the case says
   it should become; every entry of every table is compared after every call, those behind the end of a table too. */
#ifndef LENT_H
#define LENT_H

#include "sinkerjaw.h"

#include <stdio.h>
#include <string.h>

enum { MORE = 7, UNLENT = 4 }; /* entries that a table here has past its least length; the last of them are not lent */

struct lent {
    uint64_t head[SINKERJAW_HEAD_ENTRIES + MORE], nodes[SINKERJAW_NODES_ENTRIES + MORE];
    uint64_t placed_head[SINKERJAW_HEAD_ENTRIES + MORE], placed_nodes[SINKERJAW_NODES_ENTRIES + MORE];
    uint64_t program[SINKERJAW_PROGRAM_ENTRIES + MORE];
    uint32_t prologue[SINKERJAW_SECTION_ENTRIES + MORE];
    uint32_t body[SINKERJAW_SECTION_ENTRIES + MORE];
    uint32_t epilogue[SINKERJAW_SECTION_ENTRIES + MORE];
    uint8_t work[SINKERJAW_WINDOW_MOST + 16], table[SINKERJAW_WINDOW_MOST + 16];
};

struct lengths {
    size_t text, head, nodes, placed_head, placed_nodes, program, prologue, body, epilogue, work, table;
};

static struct lent now, then;
static struct lengths len;
static const char *text;
static uint64_t rule, budget;

enum call { READ, CHECK, OFFSET_CHECK, PLAIN, PLACE, TRANSLATE, PLAN, RUN, CALLS };

static const char *const call_names[CALLS] = {"read", "check", "offset_check", "plain", "place", "translate", "plan", "run"};

/* ---- What is lent */

/* Every table is junk, and longer than it need be, by `more` entries. */
static void begin(size_t more) {
    const struct lengths least = {0, SINKERJAW_HEAD_ENTRIES, SINKERJAW_NODES_ENTRIES, SINKERJAW_HEAD_ENTRIES,
                                  SINKERJAW_NODES_ENTRIES, SINKERJAW_PROGRAM_ENTRIES, SINKERJAW_SECTION_ENTRIES,
                                  SINKERJAW_SECTION_ENTRIES, SINKERJAW_SECTION_ENTRIES, 64, 48};
    memset(&now, 0xA5, sizeof now);
    len = least;
    len.head += more, len.nodes += more, len.placed_head += more, len.placed_nodes += more, len.program += more;
    len.prologue += more, len.body += more, len.epilogue += more;
    rule = SINKERJAW_RULE_LAZY;
    budget = SINKERJAW_STEPS_MOST;
    then = now;
}

/* What a call should find as it is now, and leave but for what the case changes in `then`. */
static void keep(void) {
    then = now;
}

/* Entries in a row: how many, and where they stand. */
#define ENTRIES(type, ...) sizeof((const type[]){__VA_ARGS__}) / sizeof(type), (const type[]){__VA_ARGS__}
#define NODES(...) ENTRIES(uint64_t, __VA_ARGS__)
#define CODE(...) ENTRIES(uint32_t, __VA_ARGS__)

/* Rows of a node table and of a section. */
#define LOAD(window, address) SINKERJAW_NODE_LOAD, window, address
#define SPLAT(value) SINKERJAW_NODE_SPLAT, value, 0
#define OP(operation) SINKERJAW_NODE_OP, operation, 0
#define SHIFT(from, to) SINKERJAW_NODE_SHIFT, from, to

#define HELD(address) (uint32_t)((int64_t)SINKERJAW_ADDRESS_ZERO + (address))
#define VLOAD(destination, window, address) SINKERJAW_CODE_LOAD, destination, window, 0, HELD(address), 0
#define VSPLAT(destination, low, high) SINKERJAW_CODE_SPLAT, destination, 0, 0, low, high
#define VOP(destination, left, right, operation) SINKERJAW_CODE_OP, destination, left, right, operation, 0
#define VPAIR(destination, first, second, amount) SINKERJAW_CODE_SHIFTPAIR, destination, first, second, amount, 0
#define VSPLICE(destination, first, second, amount) SINKERJAW_CODE_SPLICE, destination, first, second, amount, 0
#define VSTORE(source, address) SINKERJAW_CODE_STORE, 0, source, 0, HELD(address), 0

/* A sheet or graph in the tables, by NODES. */
static void given(uint64_t d, uint64_t n, uint64_t s, size_t entries, const uint64_t *nodes) {
    begin(MORE - UNLENT);
    memset(now.head, 0, SINKERJAW_HEAD_ENTRIES * sizeof *now.head);
    now.head[SINKERJAW_HEAD_D] = d;
    now.head[SINKERJAW_HEAD_N] = n;
    now.head[SINKERJAW_HEAD_S] = s;
    now.head[SINKERJAW_HEAD_NODES] = entries / SINKERJAW_NODE_ROW;
    memcpy(now.nodes, nodes, entries * sizeof *nodes);
    keep();
}

/* Another number of nodes in the head than there are. */
static void said(uint64_t nodes) {
    now.head[SINKERJAW_HEAD_NODES] = nodes;
    keep();
}

static void given_text(const char *lines) {
    begin(MORE - UNLENT);
    text = lines;
    len.text = strlen(lines);
}

/* An empty program; `section` fills one of its sections, by CODE. */
static void given_program(uint64_t d, uint64_t f) {
    begin(MORE - UNLENT);
    memset(now.program, 0, SINKERJAW_PROGRAM_ENTRIES * sizeof *now.program);
    now.program[SINKERJAW_PROGRAM_D] = d;
    now.program[SINKERJAW_PROGRAM_F] = f;
    for (size_t i = 0; i < sizeof now.table; i++)
        now.table[i] = (uint8_t)(i + 1);
    keep();
}

static void section(uint32_t *table, int rows, size_t entries, const uint32_t *code) {
    memcpy(table, code, entries * sizeof *code);
    now.program[rows] = entries / SINKERJAW_SECTION_ROW;
    keep();
}

/* ---- What is left: a table that begins with some entries and is zero behind them */

static void left(uint64_t *table, size_t length, size_t entries, const uint64_t *made) {
    memset(table, 0, length * sizeof *table);
    memcpy(table, made, entries * sizeof *made);
}

static void left_code(uint32_t *table, size_t length, size_t entries, const uint32_t *made) {
    memset(table, 0, length * sizeof *table);
    memcpy(table, made, entries * sizeof *made);
}

/* All zero in the tables that a call writes. */
static void left_zero(enum call call) {
    if (call == READ) {
        memset(then.head, 0, len.head * sizeof *then.head);
        memset(then.nodes, 0, len.nodes * sizeof *then.nodes);
    } else if (call == PLACE) {
        memset(then.placed_head, 0, len.placed_head * sizeof *then.placed_head);
        memset(then.placed_nodes, 0, len.placed_nodes * sizeof *then.placed_nodes);
    } else if (call == TRANSLATE || call == PLAN) {
        memset(then.program, 0, len.program * sizeof *then.program);
        memset(then.prologue, 0, len.prologue * sizeof *then.prologue);
        memset(then.body, 0, len.body * sizeof *then.body);
        memset(then.epilogue, 0, len.epilogue * sizeof *then.epilogue);
    }
}

/* ---- The calls, on what is lent */

static uint64_t answer_of(enum call call) {
    const uint64_t *p = now.program;
    switch (call) {
    case READ:
        return sinkerjaw_read((const uint8_t *)text, len.text, now.head, len.head, now.nodes, len.nodes);
    case CHECK:
        return sinkerjaw_check(now.head, len.head, now.nodes, len.nodes);
    case OFFSET_CHECK:
        return sinkerjaw_offset_check(now.head, len.head, now.nodes, len.nodes);
    case PLAIN:
        return sinkerjaw_plain(now.head, len.head, now.nodes, len.nodes, now.work, len.work, now.table, len.table);
    case PLACE:
        return sinkerjaw_place(rule, now.head, len.head, now.nodes, len.nodes, now.placed_head, len.placed_head,
                               now.placed_nodes, len.placed_nodes);
    case TRANSLATE:
        return sinkerjaw_translate(now.head, len.head, now.nodes, len.nodes, len.work, len.table, now.program, len.program,
                                   now.prologue, len.prologue, now.body, len.body, now.epilogue, len.epilogue);
    case PLAN:
        return sinkerjaw_plan(rule, now.head, len.head, now.nodes, len.nodes, len.work, len.table, now.program, len.program,
                              now.prologue, len.prologue, now.body, len.body, now.epilogue, len.epilogue);
    default:
        return sinkerjaw_run(p[SINKERJAW_PROGRAM_D], p[SINKERJAW_PROGRAM_F],
                             now.prologue, len.prologue, p[SINKERJAW_PROGRAM_PROLOGUE],
                             now.body, len.body, p[SINKERJAW_PROGRAM_BODY],
                             now.epilogue, len.epilogue, p[SINKERJAW_PROGRAM_EPILOGUE],
                             now.work, len.work, now.table, len.table, budget);
    }
}

/* ---- The comparison */

static int cases, differences, seen[CALLS][SINKERJAW_FAULT + 1];

static void compare_table(int line, const char *name, const void *found, const void *expected, size_t size, size_t entry) {
    size_t at = 0;
    if (memcmp(found, expected, size) == 0)
        return;
    while (memcmp((const char *)found + at, (const char *)expected + at, entry) == 0)
        at += entry;
    printf("answers.c:%d: %s[%lu] is not what it should be\n", line, name, (unsigned long)(at / entry));
    differences++;
}

#define COMPARE(line, table) compare_table(line, #table, now.table, then.table, sizeof now.table, sizeof *now.table)

static void compare_tables(int line) {
    COMPARE(line, head);
    COMPARE(line, nodes);
    COMPARE(line, placed_head);
    COMPARE(line, placed_nodes);
    COMPARE(line, program);
    COMPARE(line, prologue);
    COMPARE(line, body);
    COMPARE(line, epilogue);
    COMPARE(line, work);
    COMPARE(line, table);
}

/* A call on what is lent gives this answer and leaves `then`; what it left is what the next call is lent. */
static void gives(int line, enum call call, enum sinkerjaw_number number, unsigned place, uint64_t steps) {
    uint64_t answer = answer_of(call);
    enum sinkerjaw_number found = sinkerjaw_number_of(answer);
    cases++;
    if (found != number || sinkerjaw_place_of(answer) != place || sinkerjaw_steps_of(answer) != steps) {
        printf("answers.c:%d: %s gave %d at %u after %lu steps, not %d at %u after %lu\n", line, call_names[call], (int)found,
               sinkerjaw_place_of(answer), (unsigned long)sinkerjaw_steps_of(answer), (int)number, place, (unsigned long)steps);
        differences++;
        return;
    }
    seen[call][number] = 1;
    compare_tables(line);
}

/* A refusal other than ROOM: what the call writes is zero afterwards. */
static void refuses(int line, enum call call, enum sinkerjaw_number number, unsigned place) {
    left_zero(call);
    gives(line, call, number, place, 0);
}

/* A table that is too short by one entry, or has none, is ROOM, and nothing is changed. */
static void needs(int line, enum call call, size_t *length, size_t least) {
    size_t before = *length;
    *length = least - 1;
    gives(line, call, SINKERJAW_ROOM, 0, 0);
    *length = 0;
    gives(line, call, SINKERJAW_ROOM, 0, 0);
    *length = before;
}

#define DONE(call) gives(__LINE__, call, SINKERJAW_DONE, 0, 0)
#define DONE_AFTER(steps) gives(__LINE__, RUN, SINKERJAW_DONE, 0, steps)
#define STOPS(number, steps) gives(__LINE__, RUN, number, 0, steps)
#define REFUSES(call, number, place) refuses(__LINE__, call, number, place)
#define NEEDS(call, table, least) needs(__LINE__, call, &len.table, least)

#endif

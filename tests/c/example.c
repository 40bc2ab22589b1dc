/* A loop sheet from its text to memory: read, planned by the rule LAZY, run on two windows, and compared with the plain loop. */
#include "sinkerjaw.h"

#include <stdio.h>
#include <string.h>

/* 100 elements of 2 bytes: work[518 ..] = table[2 ..] + work[10 ..] + work[258 ..] */
static const char sheet[] =
    "000200640206\n"
    "01010002\n"
    "0100000A\n"
    "0300\n"
    "01000102\n"
    "0300\n"
    "0505\n";

/* What is lent. A section has 24,576 bytes: too many for a small stack. */
static uint64_t head[SINKERJAW_HEAD_ENTRIES], nodes[SINKERJAW_NODES_ENTRIES], program[SINKERJAW_PROGRAM_ENTRIES];
static uint32_t prologue[SINKERJAW_SECTION_ENTRIES], body[SINKERJAW_SECTION_ENTRIES], epilogue[SINKERJAW_SECTION_ENTRIES];
static uint8_t work[SINKERJAW_WINDOW_MOST], plain_work[SINKERJAW_WINDOW_MOST], table[SINKERJAW_WINDOW_MOST];

static int done(const char *call, uint64_t answer) {
    if (sinkerjaw_number_of(answer) == SINKERJAW_DONE)
        return 1;
    printf("%s: answer %d, place %u\n", call, (int)sinkerjaw_number_of(answer), sinkerjaw_place_of(answer));
    return 0;
}

static int read_sheet(void) {
    uint64_t answer = sinkerjaw_read((const uint8_t *)sheet, strlen(sheet), head, SINKERJAW_HEAD_ENTRIES,
                                     nodes, SINKERJAW_NODES_ENTRIES);
    if (!done("read", answer))
        return 0;
    printf("read: %d nodes, n = %d, D = %d, S = %d\n", (int)head[SINKERJAW_HEAD_NODES], (int)head[SINKERJAW_HEAD_N],
           (int)head[SINKERJAW_HEAD_D], (int)head[SINKERJAW_HEAD_S]);
    return 1;
}

static int plan(void) {
    uint64_t answer = sinkerjaw_plan(SINKERJAW_RULE_LAZY, head, SINKERJAW_HEAD_ENTRIES, nodes, SINKERJAW_NODES_ENTRIES,
                                     sizeof work, sizeof table, program, SINKERJAW_PROGRAM_ENTRIES,
                                     prologue, SINKERJAW_SECTION_ENTRIES, body, SINKERJAW_SECTION_ENTRIES,
                                     epilogue, SINKERJAW_SECTION_ENTRIES);
    if (!done("plan", answer))
        return 0;
    printf("planned: F = %d, instructions %d, %d, %d\n", (int)program[SINKERJAW_PROGRAM_F],
           (int)program[SINKERJAW_PROGRAM_PROLOGUE], (int)program[SINKERJAW_PROGRAM_BODY],
           (int)program[SINKERJAW_PROGRAM_EPILOGUE]);
    return 1;
}

static int run(void) {
    uint64_t answer = sinkerjaw_run(program[SINKERJAW_PROGRAM_D], program[SINKERJAW_PROGRAM_F],
                                    prologue, SINKERJAW_SECTION_ENTRIES, program[SINKERJAW_PROGRAM_PROLOGUE],
                                    body, SINKERJAW_SECTION_ENTRIES, program[SINKERJAW_PROGRAM_BODY],
                                    epilogue, SINKERJAW_SECTION_ENTRIES, program[SINKERJAW_PROGRAM_EPILOGUE],
                                    work, sizeof work, table, sizeof table, SINKERJAW_STEPS_MOST);
    if (!done("run", answer))
        return 0;
    printf("run: %d steps\n", (int)sinkerjaw_steps_of(answer));
    return 1;
}

static int compare(void) {
    uint64_t answer = sinkerjaw_plain(head, SINKERJAW_HEAD_ENTRIES, nodes, SINKERJAW_NODES_ENTRIES,
                                      plain_work, sizeof plain_work, table, sizeof table);
    if (!done("plain", answer))
        return 0;
    int same = memcmp(work, plain_work, sizeof work) == 0;
    printf("work is %s the plain loop leaves\n", same ? "what" : "not what");
    return same;
}

int main(void) {
    for (size_t i = 0; i < SINKERJAW_WINDOW_MOST; i++) {
        work[i] = plain_work[i] = (uint8_t)(7 * i + i / 256);
        table[i] = (uint8_t)(11 * i + i / 256);
    }
    return read_sheet() && plan() && run() && compare() ? 0 : 1;
}

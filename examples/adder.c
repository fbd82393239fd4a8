/* The full adder from C: checks its table, runs a script on it and writes its RM3 table. */
#include <stdio.h>

#include "pulpgarnet.h"

enum { INPUT = 1, GATE = 2, OUTPUT = 3, OPERATION = 4 };

/* The 16-bit number at the beginning of these bytes, low byte first. */
static unsigned number(const uint8_t *bytes) { return bytes[0] + 256u * bytes[1]; }

/* Three inputs, the gates 4, 5 and 6, and two outputs: sum and carry. There is room for two records more. */
static uint8_t table[10 * 8] = {
    INPUT,  0,  0, 0,  0, 0, 0, 0,
    INPUT,  0,  0, 0,  0, 0, 0, 0,
    INPUT,  0,  0, 0,  0, 0, 0, 0,
    GATE,   0,  2, 0,  4, 0, 6, 0,
    GATE,   0,  2, 0,  4, 0, 7, 0,
    GATE,   0,  9, 0, 10, 0, 6, 0,
    OUTPUT, 0, 12, 0,  0, 0, 0, 0,
    OUTPUT, 0,  8, 0,  0, 0, 0, 0,
};

/* Brings gate 5 to the third place of gate 6, multiplies it out, and sweeps. A step is rule, gate, a, b. */
static const uint8_t steps[] = {
    1, 0, 6, 0, 1, 0, 0, 0,
    1, 0, 6, 0, 2, 0, 0, 0,
    4, 0, 6, 0, 0, 0, 0, 0,
    8, 0, 0, 0, 0, 0, 0, 0,
};

static uint8_t rm3[25344];

/* What the table answers: its size and depth, and its outputs under each assignment. */
static void show(size_t used)
{
    struct pulpgarnet_reported reported = pulpgarnet_report(table, sizeof table, used);
    printf("size %zu depth %zu outputs", reported.size, reported.depth);
    for (uint32_t assignment = 0; assignment < 8; assignment++)
        printf(" %u", pulpgarnet_evaluate(table, sizeof table, used, assignment).outputs);
    printf("\n");
}

int main(void)
{
    size_t used = 8 * 8;
    struct pulpgarnet_checked checked = pulpgarnet_check(table, sizeof table, used);
    if (checked.refusal) {
        printf("refused %u at %zu %u\n", checked.refusal, checked.record, checked.edge);
        return 1;
    }
    printf("inputs %zu gates %zu outputs %zu\n", checked.inputs, checked.gates, checked.outputs);
    show(used);

    /* The first two edges of gate 4 are not equal, so rule 2 is refused, and nothing changes. */
    struct pulpgarnet_stepped stepped = pulpgarnet_step(table, sizeof table, used, 2, 4, 0, 0);
    printf("rule 2 on gate 4: refused %u at %zu %u\n", stepped.refusal, stepped.record, stepped.edge);

    struct pulpgarnet_ran ran = pulpgarnet_script(table, sizeof table, used, steps, sizeof steps);
    printf("taken %zu refused %u used %zu\n", ran.taken, ran.refusal, ran.used);
    used = ran.used;
    show(used);

    struct pulpgarnet_written written = pulpgarnet_translate(table, sizeof table, used, rm3, sizeof rm3);
    struct pulpgarnet_deep deep = pulpgarnet_rm3_depth(table, sizeof table, used);
    printf("rm3 length %zu depth %zu\n", written.length, deep.depth);
    for (size_t at = 0; at < written.length; at += 8) {
        const uint8_t *r = rm3 + at;
        if (number(r) == OPERATION)
            printf("%zu %u %u %u\n", at / 8 + 2, number(r + 2), number(r + 4), number(r + 6));
        if (number(r) == OUTPUT)
            printf("out %u\n", number(r + 2));
    }
    return 0;
}

/*
 * Measures the library against the plain baseline, in turn on the same inputs, and stops where they do not answer the same.
 *
 *   bench [MARK]         prints the times of both at three sizes, and how our time grows as the table doubles
 *   bench inputs         writes the inputs of the rows that are one call, each twice: what `bench traced` reads
 *   bench traced         asks ours and theirs in turn, each call between two lines, so that a trace shows its instructions
 *
 * A step is asked of the gate in the middle, which has the rule's form; where a rule inserts, the largest table has 1,022 gates.
 * A voter is asked of the gate at a third and all but doubles the gates, so its largest table has 512.
 * Words, totals and the single evaluations beside them are asked of tables of 16 inputs.
 * The catalogue reads no table: at 16, 128, 256, 512 and 1,024 gates it is asked for networks of 0, 0, 1, 2 and 4 gates.
 */
#include <stdio.h>
#include <stdlib.h>

#include "baseline.h"

enum { RECORD = 8, MOST_GATES = 1024, MOST_TABLE = RECORD * (32 + MOST_GATES + 32), MOST_RM3 = 25344 };
enum { STEPS = 64, SPARE = RECORD * 2 * STEPS, MOST_BUFFER = MOST_TABLE + SPARE };
enum { ROUNDS = 201, FEW_ROUNDS = 5, MOST_COPIES = 64, COPIED = 32768 };
enum { AT_ONCE = 16, MOST_OUTPUTS = 32 };

struct timespec { long seconds, nanoseconds; };

int clock_gettime(int clock, struct timespec *time);
int snprintf(char *text, size_t room, const char *format, ...);
long read(int from, void *bytes, size_t n);
long write(int to, const void *bytes, size_t n);
int strcmp(const char *one, const char *other);
void *memcpy(void *to, const void *from, size_t n);
void *memset(void *to, int byte, size_t n);
int memcmp(const void *one, const void *other, size_t n);
void qsort(void *base, size_t count, size_t size, int (*order)(const void *, const void *));

/* The calls of one side. */
struct side {
    struct pulpgarnet_checked (*check)(const uint8_t *, size_t, size_t);
    struct pulpgarnet_valued (*evaluate)(const uint8_t *, size_t, size_t, uint32_t);
    struct pulpgarnet_reported (*report)(const uint8_t *, size_t, size_t);
    struct pulpgarnet_placed (*words)(const uint8_t *, size_t, size_t, uint32_t, uint64_t *, size_t);
    struct pulpgarnet_placed (*totals)(const uint8_t *, size_t, size_t, uint64_t *, size_t);
    struct pulpgarnet_stepped (*step)(uint8_t *, size_t, size_t, uint16_t, uint16_t, uint16_t, uint16_t);
    struct pulpgarnet_ran (*script)(uint8_t *, size_t, size_t, const uint8_t *, size_t);
    struct pulpgarnet_ran (*follow)(uint8_t *, size_t, size_t, const uint8_t *, size_t, uint16_t *, size_t);
    struct pulpgarnet_written (*translate)(const uint8_t *, size_t, size_t, uint8_t *, size_t);
    struct pulpgarnet_written (*translate_anew)(const uint8_t *, size_t, size_t, uint8_t *, size_t);
    struct pulpgarnet_deep (*rm3_depth)(const uint8_t *, size_t, size_t);
    struct pulpgarnet_written (*catalogue)(uint32_t, uint8_t *, size_t);
};

static const struct side SIDES[2] = {
    { pulpgarnet_check, pulpgarnet_evaluate, pulpgarnet_report, pulpgarnet_words, pulpgarnet_totals, pulpgarnet_step,
      pulpgarnet_script, pulpgarnet_follow, pulpgarnet_translate, pulpgarnet_translate_anew, pulpgarnet_rm3_depth,
      pulpgarnet_catalogue },
    { plain_check, plain_evaluate, plain_report, plain_words, plain_totals, plain_step, plain_script, plain_follow,
      plain_translate, plain_translate_anew, plain_rm3_depth, plain_catalogue },
};

enum call {
    NOTHING, CHECK, EVALUATE, REPORT, WORDS, TOTALS, EVERY, STEP, SCRIPT, FOLLOW, TRANSLATE, TRANSLATE_ANEW, RM3_DEPTH,
    CATALOGUE
};

struct row { const char *name; enum call call; uint16_t rule; };

static const struct row ROWS[] = {
    { "check", CHECK, 0 },
    { "evaluate", EVALUATE, 0 },
    { "report", REPORT, 0 },
    { "words", WORDS, 0 },
    { "totals", TOTALS, 0 },
    { "evaluate 65,536 times", EVERY, 0 },
    { "step 1 exchange", STEP, 1 },
    { "step 2 majority", STEP, 2 },
    { "step 3 associativity", STEP, 3 },
    { "step 4 outward", STEP, 4 },
    { "step 5 inward", STEP, 5 },
    { "step 6 inversion", STEP, 6 },
    { "step 7 share", STEP, 7 },
    { "step 8 sweep", STEP, 8 },
    { "step 9 voter", STEP, 9 },
    { "step 10 opposite", STEP, 10 },
    { "script of 64 steps", SCRIPT, 0 },
    { "follow of 64 steps", FOLLOW, 0 },
    { "translate", TRANSLATE, 0 },
    { "translate anew", TRANSLATE_ANEW, 0 },
    { "RM3 depth", RM3_DEPTH, 0 },
    { "catalogue", CATALOGUE, 0 },
};

enum { COUNT = sizeof ROWS / sizeof ROWS[0] };

/* What a row asks at one size: the table in its buffer, and what goes in beside it. */
struct input {
    char label[40];
    enum call call;
    unsigned inputs, gates, outputs;
    size_t used, length;
    uint8_t table[MOST_BUFFER];
    uint32_t assignment, first;
    uint16_t rule, gate, a, b;
    uint8_t steps[RECORD * STEPS];
    uint32_t number;
    size_t room;
};

struct reply { uint64_t numbers[6]; };

static uint8_t out[MOST_RM3];
static uint16_t places[MOST_GATES];
static uint64_t long_places[MOST_OUTPUTS];

/* What totals tells, by an evaluation of each assignment. It is no part of `ask`, so that its loop costs the other calls nothing. */
__attribute__((noinline)) static void ask_every(const struct side *side, const struct input *in, uint8_t *table, uint64_t *n)
{
    n[0] = 0;
    memset(long_places, 0, sizeof long_places);
    for (uint32_t assignment = 0; assignment >> AT_ONCE == 0 && n[0] == 0; assignment++) {
        struct pulpgarnet_valued r = side->evaluate(table, in->length, in->used, assignment);
        for (unsigned j = 0; j < in->outputs; j++)
            long_places[j] += r.outputs >> j & 1;
        n[0] = r.refusal, n[1] = r.record, n[2] = r.edge;
    }
}

__attribute__((noinline)) static void ask(const struct side *side, const struct input *in, uint8_t *table,
                                          struct reply *reply)
{
    uint64_t *n = reply->numbers;
    switch (in->call) {
    case NOTHING:
        break;
    case CHECK: {
        struct pulpgarnet_checked r = side->check(table, in->length, in->used);
        n[0] = r.refusal, n[1] = r.record, n[2] = r.edge, n[3] = r.inputs, n[4] = r.gates, n[5] = r.outputs;
        break;
    }
    case EVALUATE: {
        struct pulpgarnet_valued r = side->evaluate(table, in->length, in->used, in->assignment);
        n[0] = r.refusal, n[1] = r.record, n[2] = r.edge, n[3] = r.outputs;
        break;
    }
    case REPORT: {
        struct pulpgarnet_reported r = side->report(table, in->length, in->used);
        n[0] = r.refusal, n[1] = r.record, n[2] = r.edge, n[3] = r.size, n[4] = r.depth;
        break;
    }
    case WORDS: {
        struct pulpgarnet_placed r = side->words(table, in->length, in->used, in->first, long_places, MOST_OUTPUTS);
        n[0] = r.refusal, n[1] = r.record, n[2] = r.edge, n[3] = r.places;
        break;
    }
    case TOTALS: {
        struct pulpgarnet_placed r = side->totals(table, in->length, in->used, long_places, MOST_OUTPUTS);
        n[0] = r.refusal, n[1] = r.record, n[2] = r.edge, n[3] = r.places;
        break;
    }
    case EVERY:
        ask_every(side, in, table, n);
        break;
    case STEP: {
        struct pulpgarnet_stepped r = side->step(table, in->length, in->used, in->rule, in->gate, in->a, in->b);
        n[0] = r.refusal, n[1] = r.record, n[2] = r.edge, n[3] = r.used;
        break;
    }
    case SCRIPT: {
        struct pulpgarnet_ran r = side->script(table, in->length, in->used, in->steps, sizeof in->steps);
        n[0] = r.refusal, n[1] = r.record, n[2] = r.edge, n[3] = r.taken, n[4] = r.used;
        break;
    }
    case FOLLOW: {
        struct pulpgarnet_ran r =
            side->follow(table, in->length, in->used, in->steps, sizeof in->steps, places, MOST_GATES);
        n[0] = r.refusal, n[1] = r.record, n[2] = r.edge, n[3] = r.taken, n[4] = r.used;
        break;
    }
    case TRANSLATE: {
        struct pulpgarnet_written r = side->translate(table, in->length, in->used, out, sizeof out);
        n[0] = r.refusal, n[1] = r.record, n[2] = r.edge, n[3] = r.length;
        break;
    }
    case TRANSLATE_ANEW: {
        struct pulpgarnet_written r = side->translate_anew(table, in->length, in->used, out, sizeof out);
        n[0] = r.refusal, n[1] = r.record, n[2] = r.edge, n[3] = r.length;
        break;
    }
    case RM3_DEPTH: {
        struct pulpgarnet_deep r = side->rm3_depth(table, in->length, in->used);
        n[0] = r.refusal, n[1] = r.record, n[2] = r.edge, n[3] = r.depth;
        break;
    }
    case CATALOGUE: {
        struct pulpgarnet_written r = side->catalogue(in->number, out, in->room);
        n[0] = r.refusal, n[1] = r.record, n[2] = r.edge, n[3] = r.length;
        break;
    }
    }
}

/* The inputs: tables of a fixed seed. */

static uint64_t seed;

static unsigned below(unsigned bound)
{
    seed ^= seed << 13;
    seed ^= seed >> 7;
    seed ^= seed << 17;
    return (unsigned)(seed >> 32) % bound;
}

static void put_record(uint8_t *table, unsigned i, unsigned kind, unsigned e1, unsigned e2, unsigned e3)
{
    unsigned fields[4] = { kind, e1, e2, e3 };
    for (unsigned k = 0; k < 4; k++) {
        table[RECORD * i + 2 * k] = (uint8_t)fields[k];
        table[RECORD * i + 2 * k + 1] = (uint8_t)(fields[k] >> 8);
    }
}

/* Edge k of a node. */
static unsigned edge_of(const uint8_t *table, unsigned node, unsigned k)
{
    const uint8_t *p = table + RECORD * (node - 1) + 2 * k;
    return p[0] | (unsigned)p[1] << 8;
}

/* An edge of a node: one in eight is constant, the others name one of the 64 nodes before it, and one in four is inverted. */
static unsigned some_edge(unsigned node)
{
    if (node < 2 || below(8) == 0)
        return below(2);
    unsigned far = node - 1 < 64 ? node - 1 : 64;
    return 2 * (node - 1 - below(far)) + (below(4) == 0);
}

/* Gives a gate the form of a rule, by up to three gates before it where the rule needs others. */
static void plant(uint8_t *table, unsigned node, unsigned rule)
{
    unsigned x = some_edge(node), y = some_edge(node), z = some_edge(node), h = node - 1, i = node - 1, a, b;
    switch (rule) {
    case 2:
        y = x;
        break;
    case 3:
        y = edge_of(table, h, 2);
        z = 2 * h;
        break;
    case 4:
        z = 2 * h;
        break;
    case 5:
        put_record(table, h - 1, 2, edge_of(table, h - 1, 1), edge_of(table, h - 1, 2), edge_of(table, h, 3));
        x = 2 * h;
        y = 2 * (h - 1);
        break;
    case 7:
        x = edge_of(table, h, 1), y = edge_of(table, h, 2), z = edge_of(table, h, 3);
        break;
    case 9:
        a = node - 3, b = node - 2;
        put_record(table, b - 1, 2, 2 * a, edge_of(table, b, 2), edge_of(table, b, 3));
        put_record(table, h - 1, 2, 2 * a, 2 * b, edge_of(table, h, 3));
        z = 2 * h;
        break;
    case 10:
        y = x ^ 1;
        break;
    }
    put_record(table, i, 2, x, y, z);
}

/* Steps that are accepted one after another: any of rules 1 to 8, at a gate from a random one on that has its form. Where rule 2 comes
   to opposite edges first, the step is one of rule 10. */
static void choose_steps(struct input *in)
{
    static uint8_t table[MOST_BUFFER];
    memcpy(table, in->table, sizeof table);
    size_t used = in->used;
    for (unsigned k = 0; k < STEPS; k++) {
        unsigned rule = 1 + below(8), gates = (unsigned)(used / RECORD) - in->inputs - in->outputs;
        if (gates == 0)
            rule = 8;
        unsigned from = gates == 0 ? 0 : below(gates);
        for (unsigned tried = 0;; tried++) {
            if (tried == gates)
                rule = 6;
            unsigned gate = rule == 8 ? 0 : in->inputs + 1 + (from + tried) % gates;
            unsigned a = rule == 1 ? 1 + below(2) : rule == 7 ? gate - 1 : 0;
            if (rule == 2 && edge_of(table, gate, 1) == (edge_of(table, gate, 2) ^ 1))
                rule = 10;
            struct pulpgarnet_stepped r =
                plain_step(table, in->length, used, (uint16_t)rule, (uint16_t)gate, (uint16_t)a, 0);
            if (r.refusal == 0) {
                put_record(in->steps, k, rule, gate, a, 0);
                used = r.used;
                break;
            }
        }
    }
}

/* The largest table that a row has. */
static unsigned most_gates(unsigned rule)
{
    return rule == 9 ? MOST_GATES / 2 : 3 <= rule && rule <= 5 ? MOST_GATES - 2 : MOST_GATES;
}

static int is_at_once(enum call call) { return call == WORDS || call == TOTALS || call == EVERY; }

/* A function whose network has so many gates: input 3, the majority, all three inputs, their parity, and just two of them. */
static const uint32_t FUNCTIONS[5] = { 240, 232, 128, 150, 104 };

static void make_input(struct input *in, const struct row *row, unsigned gates)
{
    memset(in, 0, sizeof *in);
    seed = 88172645463325252u;
    in->call = row->call;
    in->rule = row->rule;
    in->gates = gates > most_gates(row->rule) ? most_gates(row->rule) : gates;
    in->outputs = (in->gates + 31) / 32 < 2 ? 2 : (in->gates + 31) / 32;
    in->inputs = is_at_once(row->call) ? AT_ONCE : in->outputs < 4 ? 4 : in->outputs;
    unsigned nodes = in->inputs + in->gates;
    for (unsigned node = 1; node <= nodes; node++) {
        static const unsigned FORMS[16] = { 2, 3, 5, 7 };
        unsigned form = FORMS[below(16)];
        if (node <= in->inputs)
            put_record(in->table, node - 1, 1, 0, 0, 0);
        else
            plant(in->table, node, node > in->inputs + 2 ? form : 0);
    }
    for (unsigned j = 0; j < in->outputs; j++)
        put_record(in->table, nodes + j, 3, some_edge(nodes + 1), 0, 0);
    in->used = RECORD * (nodes + in->outputs);
    unsigned copied = in->gates / 3;
    in->length = in->used + (row->rule == 9 ? RECORD * 3 * copied : SPARE);
    in->assignment = in->inputs == 32 ? (uint32_t)seed : (uint32_t)seed & ((1u << in->inputs) - 1);
    in->first = in->assignment / 64 * 64;
    if (row->call == STEP && row->rule != 8) {
        unsigned gate = in->inputs + (row->rule == 9 ? copied : in->gates / 2 + 1);
        plant(in->table, gate, row->rule);
        in->gate = (uint16_t)gate;
        in->a = (uint16_t)(row->rule == 1 ? 1 : row->rule == 7 ? gate - 1 : row->rule == 9 ? gate - 3 : 0);
        in->b = (uint16_t)(row->rule == 9 ? gate - 2 : 0);
    }
    if (row->call == SCRIPT || row->call == FOLLOW)
        choose_steps(in);
    if (row->call == CATALOGUE) {
        in->gates = gates / 256;
        in->number = FUNCTIONS[in->gates];
        in->room = sizeof out;
        in->used = in->length = RECORD; /* of a table that is not read, so that the clock has as many calls as for a short one */
    }
    snprintf(in->label, sizeof in->label, "%-22s %6u", row->name, in->gates);
}

/* Both sides answer the same, reply and bytes, with this refusal at this record and edge. */
static void compare_refusal(const struct input *in, uint64_t refusal, uint64_t record, uint64_t edge)
{
    static uint8_t tables[2][MOST_BUFFER], outs[2][MOST_RM3];
    static uint16_t places_left[2][MOST_GATES];
    static uint64_t long_places_left[2][MOST_OUTPUTS];
    struct reply replies[2];
    memset(replies, 0, sizeof replies);
    for (int s = 0; s < 2; s++) {
        memcpy(tables[s], in->table, MOST_BUFFER);
        memset(out, 0xa5, sizeof out);
        memset(places, 0xa5, sizeof places);
        memset(long_places, 0xa5, sizeof long_places);
        ask(&SIDES[s], in, tables[s], &replies[s]);
        memcpy(outs[s], out, sizeof out);
        memcpy(places_left[s], places, sizeof places);
        memcpy(long_places_left[s], long_places, sizeof long_places);
    }
    const uint64_t *n = replies[0].numbers;
    const char *wrong = memcmp(&replies[0], &replies[1], sizeof replies[0]) != 0 ? "has two replies"
        : n[0] != refusal || n[1] != record || n[2] != edge ? "has another refusal"
        : memcmp(tables[0], tables[1], MOST_BUFFER) != 0 || memcmp(outs[0], outs[1], sizeof out) != 0 ? "leaves two results"
        : memcmp(places_left[0], places_left[1], sizeof places) != 0
            || memcmp(long_places_left[0], long_places_left[1], sizeof long_places) != 0 ? "leaves two sorts of places"
        : 0;
    if (wrong) {
        printf("bench: %s gates: %s\n", in->label, wrong);
        exit(1);
    }
}

/* Both sides write the same network for every number, also where it fills the buffer, and refuse alike where that is shorter and where
   there is no such function. */
static void compare_catalogue(const struct input *in)
{
    static const uint32_t BEYOND[] = { 256, 65535, 65536, 4294967295 };
    static struct input other;
    struct reply reply;
    memcpy(&other, in, sizeof other);
    for (other.number = 0; other.number < 256; other.number++) {
        other.room = sizeof out;
        compare_refusal(&other, 0, 0, 0);
        ask(&SIDES[1], &other, other.table, &reply);
        for (other.room = reply.numbers[3] - 1; other.room <= reply.numbers[3] + 1; other.room++)
            compare_refusal(&other, other.room < reply.numbers[3] ? 11 : 0, 0, 0);
    }
    for (unsigned k = 0; k < sizeof BEYOND / sizeof BEYOND[0]; k++)
        for (other.number = BEYOND[k], other.room = 0; other.room < 96; other.room++)
            compare_refusal(&other, 17, 0, 0);
}

/* Both sides accept, and answer the same, also where every gate is of block 255. They refuse alike where then the first output has a
   block too, and where the last gate's third edge names the gate itself, then its second too, then all three. */
static void compare(const struct input *in)
{
    static struct input other;
    if (in->call == CATALOGUE) {
        compare_catalogue(in);
        return;
    }
    unsigned node = in->inputs + in->gates, own = 2 * node;
    unsigned e1 = edge_of(in->table, node, 1), e2 = edge_of(in->table, node, 2);
    compare_refusal(in, 0, 0, 0);
    memcpy(&other, in, sizeof other);
    for (unsigned i = in->inputs; i < node; i++)
        other.table[RECORD * i + 1] = 255;
    compare_refusal(&other, 0, 0, 0);
    other.table[RECORD * node + 1] = 255;
    compare_refusal(&other, 4, node, 0);
    memcpy(&other, in, sizeof other);
    for (unsigned edge = 3; edge > 0; edge--) {
        put_record(other.table, node - 1, 2, edge > 1 ? e1 : own, edge > 2 ? e2 : own, own);
        compare_refusal(&other, 5, node - 1, edge);
    }
}

/* The times. */

static uint64_t now(void)
{
    struct timespec t;
    clock_gettime(1, &t);
    return (uint64_t)t.seconds * 1000000000u + (uint64_t)t.nanoseconds;
}

static unsigned copies_of(const struct input *in)
{
    unsigned copies = COPIED / (unsigned)in->used;
    return in->call == EVERY ? 1 : copies > MOST_COPIES ? MOST_COPIES : copies;
}

/* How often that is done; 65,536 evaluations are many rounds by themselves. */
static unsigned rounds_of(const struct input *in) { return in->call == EVERY ? FEW_ROUNDS : ROUNDS; }

/* How long one side takes for the call on each of the copies, which are made anew before the clock starts. */
static uint64_t timed(const struct side *side, const struct input *in)
{
    static uint8_t pool[MOST_COPIES * MOST_BUFFER];
    unsigned copies = copies_of(in);
    struct reply reply;
    for (unsigned k = 0; k < copies; k++)
        memcpy(pool + k * in->length, in->table, in->length);
    uint64_t began = now();
    for (unsigned k = 0; k < copies; k++)
        ask(side, in, pool + k * in->length, &reply);
    return now() - began;
}

static int by_size(const void *one, const void *other)
{
    uint64_t a = *(const uint64_t *)one, b = *(const uint64_t *)other;
    return (a > b) - (a < b);
}

static const unsigned SIZES[] = { 16, 128, 256, 512, 1024 };

enum { SIZE_COUNT = sizeof SIZES / sizeof SIZES[0] };

/* The sizes of the table of times: small, middle and largest. */
static int is_shown(unsigned k) { return k == 0 || k == 2 || k == 4; }

/*
 * The medians of many rounds, in nanoseconds a call, at each size. A round asks every size of both sides, which take turns in going
 * first, so that a slow moment of the machine falls on all of them.
 */
static void measure(const struct input *ins, double times[SIZE_COUNT][2])
{
    static uint64_t rounds[SIZE_COUNT][2][ROUNDS];
    unsigned count = rounds_of(ins);
    for (unsigned r = 0; r < count; r++)
        for (unsigned k = 0; k < SIZE_COUNT; k++)
            for (unsigned turn = 0; turn < 2; turn++) {
                unsigned s = (r + turn) % 2;
                rounds[k][s][r] = timed(&SIDES[s], &ins[k]);
            }
    for (unsigned k = 0; k < SIZE_COUNT; k++)
        for (unsigned s = 0; s < 2; s++) {
            qsort(rounds[k][s], count, sizeof rounds[k][s][0], by_size);
            times[k][s] = (double)rounds[k][s][count / 2] / copies_of(&ins[k]);
        }
}

static void print_times(const char *mark)
{
    static double times[COUNT][SIZE_COUNT][2];
    static struct input ins[SIZE_COUNT];
    printf("%-22s %6s %11s %11s %7s%s\n", "call", "gates", "ours, ns", "theirs, ns", "ratio", mark);
    for (unsigned i = 0; i < COUNT; i++) {
        for (unsigned k = 0; k < SIZE_COUNT; k++) {
            make_input(&ins[k], &ROWS[i], SIZES[k]);
            compare(&ins[k]);
        }
        measure(ins, times[i]);
        for (unsigned k = 0; k < SIZE_COUNT; k++)
            if (is_shown(k)) {
                double ours = times[i][k][0], theirs = times[i][k][1];
                printf("%s %11.0f %11.0f %7.2f%s\n", ins[k].label, ours, theirs, ours / theirs, mark);
            }
    }
    printf("\n%-22s %6s %11s %11s %7s%s\n", "growth of our time", "128", "to 256", "to 512", "to 1024", mark);
    for (unsigned i = 0; i < COUNT; i++) {
        printf("%-22s %6.0f", ROWS[i].name, times[i][1][0]);
        for (unsigned k = 2; k < SIZE_COUNT; k++)
            printf(" %*.2f", k < 4 ? 11 : 7, times[i][k][0] / times[i][k - 1][0]);
        printf("%s\n", mark);
    }
}

/* The trace: its inputs come from outside, so that little stands in it but the calls. */

static void write_inputs(void)
{
    static struct input in;
    memcpy(in.label, "nothing", 8);
    for (unsigned s = 0; s < 2; s++)
        fwrite(&in, sizeof in, 1, stdout);
    for (unsigned i = 0; i < COUNT; i++)
        for (unsigned k = 0; k < SIZE_COUNT; k++)
            if (is_shown(k) && ROWS[i].call != EVERY) {
                make_input(&in, &ROWS[i], SIZES[k]);
                compare(&in);
                for (unsigned s = 0; s < 2; s++)
                    fwrite(&in, sizeof in, 1, stdout);
            }
}

static int read_input(struct input *in)
{
    for (size_t had = 0; had < sizeof *in;) {
        long more = read(0, (uint8_t *)in + had, sizeof *in - had);
        if (more <= 0)
            return 0;
        had += (size_t)more;
    }
    return 1;
}

static void trace(void)
{
    static struct input in;
    struct reply reply;
    char line[sizeof in.label + 8];
    for (unsigned turn = 0; read_input(&in); turn++) {
        int length = snprintf(line, sizeof line, "%s\nbegin\n", in.label);
        write(1, line, (size_t)length);
        ask(&SIDES[turn % 2], &in, in.table, &reply);
        write(1, "end\n", 4);
    }
}

int main(int count, char **words)
{
    const char *word = count > 1 ? words[1] : "";
    if (strcmp(word, "inputs") == 0)
        write_inputs();
    else if (strcmp(word, "traced") == 0)
        trace();
    else
        print_times(word);
    return 0;
}

/* Answers the requests of majpipe (docs/SPEC.md, 9.1) through the static library, so that the evaluator can be compared with it. */
#include <stdio.h>
#include <stdlib.h>

#include "pulpgarnet.h"

enum { MOST = 65536, MOST_PLACES = 8192 };

struct part { size_t length; uint8_t bytes[MOST]; };

static struct part table, script, out;

static _Noreturn void end(const char *wrong)
{
    fprintf(stderr, "pipe: %s\n", wrong);
    exit(1);
}

static void get(void *bytes, size_t length)
{
    if (length > 0 && fread(bytes, 1, length, stdin) != length)
        end("the input ended inside a request");
}

/* A number of so many bytes, the low one first. */
static uint64_t get_number(size_t width)
{
    uint8_t b[8];
    uint64_t n = 0;
    get(b, width);
    for (size_t i = width; i > 0; i--)
        n = n << 8 | b[i - 1];
    return n;
}

static void get_part(struct part *part)
{
    part->length = get_number(4);
    if (part->length > MOST)
        end("a part is too long");
    get(part->bytes, part->length);
}

static size_t get_count(void)
{
    size_t count = get_number(4);
    if (count > MOST_PLACES)
        end("there are too many places");
    return count;
}

static void put(uint64_t n, size_t width)
{
    uint8_t b[8];
    for (size_t i = 0; i < width; i++, n >>= 8)
        b[i] = (uint8_t)n;
    fwrite(b, 1, width, stdout);
}

static void put_number(size_t n) { put(n, 4); }

static void put_part(const struct part *part)
{
    fwrite(part->bytes, 1, part->length, stdout);
}

/* The three numbers that begin each reply. */
static void put_refusal(uint32_t refusal, size_t record, uint32_t edge)
{
    put_number(refusal);
    put_number(record);
    put_number(edge);
}

static void check(size_t used)
{
    struct pulpgarnet_checked r = pulpgarnet_check(table.bytes, table.length, used);
    put_refusal(r.refusal, r.record, r.edge);
    put_number(r.inputs);
    put_number(r.gates);
    put_number(r.outputs);
}

static void put_valued(struct pulpgarnet_valued r)
{
    put_refusal(r.refusal, r.record, r.edge);
    put_number(r.outputs);
}

static void evaluate(size_t used)
{
    uint32_t assignment = get_number(4);
    put_valued(pulpgarnet_evaluate(table.bytes, table.length, used, assignment));
}

static void put_reported(struct pulpgarnet_reported r)
{
    put_refusal(r.refusal, r.record, r.edge);
    put_number(r.size);
    put_number(r.depth);
}

/* No operation asks for the RM3 table's depth, so it is asked for here: it is refused just as the report is. */
static void report(size_t used)
{
    struct pulpgarnet_reported r = pulpgarnet_report(table.bytes, table.length, used);
    struct pulpgarnet_deep d = pulpgarnet_rm3_depth(table.bytes, table.length, used);
    if (d.refusal != r.refusal || d.record != r.record || d.edge != r.edge || (d.refusal != 0 && d.depth != 0))
        end("the depth of the RM3 table is refused otherwise than the report");
    put_reported(r);
}

static void step(size_t used)
{
    uint16_t rule = get_number(2), gate = get_number(2), a = get_number(2), b = get_number(2);
    struct pulpgarnet_stepped r = pulpgarnet_step(table.bytes, table.length, used, rule, gate, a, b);
    put_refusal(r.refusal, r.record, r.edge);
    put_number(r.used);
    put_part(&table);
}

static void run(size_t used)
{
    get_part(&script);
    struct pulpgarnet_ran r = pulpgarnet_script(table.bytes, table.length, used, script.bytes, script.length);
    put_refusal(r.refusal, r.record, r.edge);
    put_number(r.taken);
    put_number(r.used);
    put_part(&table);
}

static void follow(size_t used)
{
    static uint16_t places[MOST_PLACES];
    get_part(&script);
    size_t count = get_count();
    for (size_t i = 0; i < count; i++)
        places[i] = get_number(2);
    struct pulpgarnet_ran r = pulpgarnet_follow(table.bytes, table.length, used, script.bytes, script.length, places, count);
    put_refusal(r.refusal, r.record, r.edge);
    put_number(r.taken);
    put_number(r.used);
    put_part(&table);
    for (size_t i = 0; i < count; i++)
        put(places[i], 2);
}

static uint64_t long_places[MOST_PLACES];

static size_t get_long_places(void)
{
    size_t count = get_count();
    for (size_t i = 0; i < count; i++)
        long_places[i] = get_number(8);
    return count;
}

static void put_placed(struct pulpgarnet_placed r, size_t count)
{
    put_refusal(r.refusal, r.record, r.edge);
    put_number(r.places);
    for (size_t i = 0; i < count; i++)
        put(long_places[i], 8);
}

static void words(size_t used)
{
    uint32_t first = get_number(4);
    size_t count = get_long_places();
    put_placed(pulpgarnet_words(table.bytes, table.length, used, first, long_places, count), count);
}

static void totals(size_t used)
{
    size_t count = get_long_places();
    put_placed(pulpgarnet_totals(table.bytes, table.length, used, long_places, count), count);
}

static unsigned higher(unsigned a, unsigned b) { return a < b ? b : a; }

/* The depth of the RM3 table that the first bytes of out hold: the highest level among the operands that its outputs name. */
static unsigned rm3_depth(size_t length)
{
    static unsigned levels[65536]; /* of each operand; record i is operand i + 2 */
    unsigned depth = 0;
    for (size_t i = 0; i < length / 8; i++) {
        const uint8_t *r = out.bytes + 8 * i;
        unsigned x = levels[r[2] | r[3] << 8], y = levels[r[4] | r[5] << 8], z = levels[r[6] | r[7] << 8];
        levels[i + 2] = r[0] == 4 ? 1 + higher(x, higher(y, z)) : 0;
        if (r[0] == 3)
            depth = higher(depth, x);
    }
    return depth;
}

/* What a call wrote to out. */
static void put_written(struct pulpgarnet_written r)
{
    put_refusal(r.refusal, r.record, r.edge);
    put_number(r.length);
    put_part(&out);
}

/* An RM3 table that was written to out. Its depth is asked for here too: it is that of the bytes written, in both modes. */
static void put_rm3(size_t used, struct pulpgarnet_written r)
{
    struct pulpgarnet_deep d = pulpgarnet_rm3_depth(table.bytes, table.length, used);
    if (r.refusal == 0 && (d.refusal != 0 || d.depth != rm3_depth(r.length)))
        end("the depth of the RM3 table is not that of the bytes written");
    put_written(r);
}

static void translate(size_t used)
{
    get_part(&out);
    put_rm3(used, pulpgarnet_translate(table.bytes, table.length, used, out.bytes, out.length));
}

static void translate_anew(size_t used)
{
    get_part(&out);
    put_rm3(used, pulpgarnet_translate_anew(table.bytes, table.length, used, out.bytes, out.length));
}

/* The catalogue reads no table: its number comes first. */
static void catalogue(void)
{
    uint32_t number = get_number(4);
    get_part(&out);
    put_written(pulpgarnet_catalogue(number, out.bytes, out.length));
}

/* An operation on a table: its used length and the table come first. */
static void on_table(void (*call)(size_t))
{
    size_t used = get_number(4);
    get_part(&table);
    call(used);
}

/* An operation through a reading: its counts and the records come first. */
static void on_reading(int evaluated)
{
    size_t inputs = get_number(4), gates = get_number(4), outputs = get_number(4);
    get_part(&table);
    if (evaluated) {
        uint32_t assignment = get_number(4);
        put_valued(pulpgarnet_reading_evaluate(table.bytes, table.length, inputs, gates, outputs, assignment));
    } else {
        put_reported(pulpgarnet_reading_report(table.bytes, table.length, inputs, gates, outputs));
    }
}

int main(void)
{
    static void (*const calls[])(size_t) = {
        [1] = check, [2] = evaluate, [3] = report, [4] = step, [5] = run, [6] = translate_anew, [16] = translate,
        [22] = words, [23] = totals, [28] = follow,
    };
    uint8_t operation;
    while (fread(&operation, 1, 1, stdin) == 1) {
        if (operation < sizeof calls / sizeof *calls && calls[operation] != 0)
            on_table(calls[operation]);
        else if (operation == 7 || operation == 8)
            on_reading(operation == 7);
        else if (operation == 25)
            catalogue();
        else
            end("there is no such operation");
        fflush(stdout);
    }
    return 0;
}

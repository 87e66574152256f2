/* How much stack the calls of libcoldroom.a touch: makes each of them on a painted stack, with drawn inputs that are accepted,
 * spoilt and refused, and says how deep the paint is gone, arguments that C passes on the stack included. x86-64 only. */
#include "coldroom.h"

#include <stdio.h>
#include <string.h>

enum { NODES = COLDROOM_NODES, ROW = COLDROOM_ROW, RECORD = COLDROOM_RECORD, ROOM = COLDROOM_MESSAGES };
enum { STEPS = 200, TRIALS = 1000, STACK = 1 << 16, PAINT = 0xA5 };

static unsigned char stack[STACK] __attribute__((aligned(16)));

/* Where the stack stood just before the call. */
static unsigned char *before;

/* What the calls are handed. */
static uint64_t nodes, node, rows[NODES * ROW], rows_len;
static uint64_t records[NODES * RECORD], records_len, messages[ROOM], places, sent, highest, steps[STEPS], answers[STEPS];
static uint64_t ins, record[RECORD], sends[COLDROOM_SENDS], set, kind, a, b;
static uint8_t list[NODES], room[NODES];
static uint64_t list_len, room_len;

/* Read by nobody, so that no call is left out. */
static volatile uint64_t result;

static uint64_t drawn(void) /* splitmix64 */
{
    static uint64_t state = 1;
    uint64_t z = state += 0x9E3779B97F4A7C15;
    z = (z ^ z >> 30) * 0xBF58476D1CE4E5B9;
    z = (z ^ z >> 27) * 0x94D049BB133111EB;
    return z ^ z >> 31;
}

static uint64_t below(uint64_t limit)
{
    return drawn() % limit;
}

/* Some of the nodes, but not `me`. */
static uint64_t some(uint64_t me)
{
    uint64_t all = nodes < NODES ? ((uint64_t)1 << nodes) - 1 : ~(uint64_t)0;
    uint64_t few = drawn() & drawn() & (below(2) ? drawn() : ~(uint64_t)0);
    return few & all & ~((uint64_t)1 << me);
}

static void draw_row(uint64_t *row, uint64_t me)
{
    memset(row, 0, ROW * sizeof *row);
    uint64_t out = some(me), half = some(me);
    if (out == 0 || below(4) == 0)
        return;
    row[0] = 1 + below(2);
    row[1] = row[0] == 1 ? 1 + below(2) % (uint64_t)__builtin_popcountll(out) : 0;
    row[2] = out;
    if (row[0] == 2 && (out & ~half) && (half & ~out))
        row[3 + below(3)] = half;
}

/* Mostly accepted; else some number is any other, or there are too many nodes, or too few numbers. */
static void draw_graph(void)
{
    static const uint64_t sizes[] = {1, 2, 3, 5, 8, 16, 24, 64};
    nodes = sizes[below(8)];
    rows_len = nodes * ROW;
    records_len = nodes * RECORD;
    for (uint64_t me = 0; me < nodes; me++)
        draw_row(rows + me * ROW, me);
    if (below(3) == 0)
        rows[below(rows_len)] = below(2) ? drawn() : below(4);
    if (below(30) == 0)
        nodes = below(2) ? 0 : 65;
    if (below(30) == 0)
        rows_len--;
    node = below(9) ? below(nodes + 1) : drawn();
}

/* An ascending list, mostly: any other is refused before anything is asked of its members. */
static void draw_lists(void)
{
    list_len = 0;
    room_len = below(9) ? NODES : below(NODES);
    for (uint64_t k = 0; k < nodes && k < NODES; k++)
        if (below(2))
            list[list_len++] = (uint8_t)k;
    if (list_len && below(9) == 0)
        list[below(list_len)] = (uint8_t)below(nodes + 1);
}

/* A step that may well be taken: a new round, or any of the newest messages. */
static void draw_step(void)
{
    uint64_t newest = sent < 60 ? sent : 60;
    kind = below(50) ? sent && below(40) != 0 : 2;
    a = kind ? sent - below(newest + 1) : below(nodes + 1);
    b = highest + below(2);
}

static void draw_bench(void)
{
    draw_graph();
    memset(records, 0, sizeof records);
    sent = highest = 0;
    places = below(9) ? ROOM : below(NODES);
    if (below(9) == 0)
        records[below(NODES * RECORD)] = drawn();
}

/* One controller: node 0 of a drawn graph, at times by another name or with too few numbers in its row. */
static void draw_controller(void)
{
    draw_graph();
    rows_len = below(20) ? ROW : ROW - 1;
    node = below(20) ? 0 : below(NODES + 2);
    ins = nodes ? some(0) : 0;
    memset(record, 0, sizeof record);
    if (below(9) == 0)
        record[below(RECORD)] = drawn();
}

/* A message of the record's round, or now and then of the next or of the one before. */
static void draw_message(void)
{
    kind = below(40) ? below(4) : 4;
    a = nodes ? below(nodes) : 0;
    b = record[0] + (record[0] == 0 || below(40) == 0) - (record[0] > 1 && below(40) == 0);
}

#define CALL(name, ...)                                        \
    static void call_##name(void)                              \
    {                                                          \
        __asm__ volatile("mov %%rsp, %0" : "=m"(before));      \
        result = coldroom_##name(__VA_ARGS__);                 \
    }

CALL(check, nodes, rows, rows_len)
CALL(deadlocked, nodes, rows, rows_len, node)
CALL(all_deadlocked, nodes, rows, rows_len, &set)
CALL(write_evidence, nodes, rows, rows_len, node, room, room_len)
CALL(check_evidence, nodes, rows, rows_len, node, list, list_len)
CALL(ring, nodes, rows, rows_len, node)
CALL(in, nodes, rows, rows_len, node, &set)
CALL(open, nodes, node, rows, rows_len, ins, record, b, sends)
CALL(deliver, nodes, node, rows, rows_len, ins, record, kind, a, node, b, sends)
CALL(step, nodes, rows, rows_len, records, records_len, messages, places, &sent, &highest, kind, a, b)
CALL(run, nodes, rows, rows_len, records, records_len, messages, places, &sent, &highest, steps, STEPS, answers, STEPS)

/* Goes over to the painted stack for the call. */
static void on_painted_stack(void (*call)(void))
{
    __asm__ volatile("mov %%rsp, %%rbx\n\tmov %0, %%rsp\n\tcall *%1\n\tmov %%rbx, %%rsp"
                     :
                     : "r"(stack + STACK), "r"(call)
                     : "rax", "rbx", "rcx", "rdx", "rsi", "rdi", "r8", "r9", "r10", "r11", "xmm0", "xmm1", "xmm2", "xmm3",
                       "xmm4", "xmm5", "xmm6", "xmm7", "xmm8", "xmm9", "xmm10", "xmm11", "xmm12", "xmm13", "xmm14",
                       "xmm15", "memory", "cc");
}

static void of_a_graph(void (*call)(void))
{
    draw_graph();
    draw_lists();
    on_painted_stack(call);
}

static void of_a_controller(void (*call)(void))
{
    draw_controller();
    for (int k = 0; k < STEPS; k++) {
        draw_message();
        on_painted_stack(call);
    }
}

static void of_a_bench(void (*call)(void))
{
    draw_bench();
    for (int k = 0; k < STEPS; k++) {
        draw_step();
        on_painted_stack(call);
    }
}

/* Message k is delivered in its turn, so that each step has something new; a round is opened here and there. */
static void of_a_list(void (*call)(void))
{
    draw_bench();
    for (uint64_t k = 0; k < STEPS; k++)
        steps[k] = k % 50 == 0 ? k / 50 + 1 : ((uint64_t)1 << 48) + ((k - k / 50 - 1) << 24);
    on_painted_stack(call);
}

int main(void)
{
    static const struct {
        const char *name;
        void (*call)(void);
        void (*once)(void (*)(void));
    } calls[] = {
        {"coldroom_check", call_check, of_a_graph},
        {"coldroom_deadlocked", call_deadlocked, of_a_graph},
        {"coldroom_all_deadlocked", call_all_deadlocked, of_a_graph},
        {"coldroom_write_evidence", call_write_evidence, of_a_graph},
        {"coldroom_check_evidence", call_check_evidence, of_a_graph},
        {"coldroom_ring", call_ring, of_a_graph},
        {"coldroom_in", call_in, of_a_graph},
        {"coldroom_open", call_open, of_a_controller},
        {"coldroom_deliver", call_deliver, of_a_controller},
        {"coldroom_step", call_step, of_a_bench},
        {"coldroom_run", call_run, of_a_list},
    };
    for (size_t k = 0; k < sizeof calls / sizeof *calls; k++) {
        size_t deepest = 0;
        memset(stack, PAINT, STACK);
        for (int trial = 0; trial < TRIALS; trial++)
            calls[k].once(calls[k].call);
        while (stack[deepest] == PAINT)
            deepest++;
        printf("%s %zu\n", calls[k].name, (size_t)(before - (stack + deepest)));
    }
    return 0;
}

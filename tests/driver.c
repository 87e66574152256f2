/* Makes the calls of libcoldroom.a that standard input asks for, so that another program can hold them against its own.
 *
 * A line is a call: its number, 0 to 10 as in `takes` below, then what it takes, in the order of coldroom.h: a number; a
 * slice as its length and its content; a single place, a record or the sends by their content alone. The line written
 * for it is the result, and then the content of all lent places in the same order. Damage to anything else is said at
 * the end of the line. All numbers are decimal.
 *
 * What a call is lent lies between two pages that nobody may touch: in turn from line to line it begins where the one ends or ends
 * where the other begins, so that a read outside stops the program too. */
#define _DEFAULT_SOURCE
#include "coldroom.h"

#include <signal.h>
#include <stdio.h>
#include <stdlib.h>
#include <string.h>
#include <sys/mman.h>

enum { MOST_TAKEN = 10, LONGEST = 1 << 20, GUARD = 64, PATTERN = 0xA5, BUFFER = 1 << 16, PAGE = 1 << 16 };

/* What each call takes: n a number; r a slice of numbers and b one of bytes, only read; R and B the same, lent; 1, 4 and 7
 * so many lent places. */
static const char *const takes[] = {
    "nr",         /* 0 check: nodes, rows */
    "nrn",        /* 1 deadlocked: nodes, rows, node */
    "nr1",        /* 2 all_deadlocked: nodes, rows, set */
    "nrnB",       /* 3 write_evidence: nodes, rows, node, room */
    "nrnb",       /* 4 check_evidence: nodes, rows, node, list */
    "nrn",        /* 5 ring: nodes, rows, node */
    "nnrn7n4",    /* 6 open: nodes, me, row, in, record, round, sends */
    "nnrn7nnnn4", /* 7 deliver: nodes, me, row, in, record, kind, from, to, round, sends */
    "nrRR11nnn",  /* 8 step: nodes, rows, records, messages, sent, highest, kind, a, b */
    "nrRR11rR",   /* 9 run: nodes, rows, records, messages, sent, highest, steps, answers */
    "nrn1",       /* 10 in: nodes, rows, node, set */
};

/* One thing that a call takes. */
struct taken {
    uint64_t number; /* the number, or how many there are in the slice */
    size_t size;     /* of one of them */
    void *place;     /* where they lie: at one end of its arena, */
    uint8_t *beside; /* with so many bytes of a pattern at its other side; NULL of what isn't lent or read */
    void *before;    /* a copy of what must not change, or NULL */
};

/* The memory between two pages that nobody may touch, one for each thing that a call takes. */
enum { ARENA = 8 * LONGEST + PAGE };
static uint8_t *arenas[MOST_TAKEN];

static unsigned char input[BUFFER], output[BUFFER];
static size_t input_at, input_end, output_end;
static unsigned long line = 1;

static void flush(void)
{
    if (fwrite(output, 1, output_end, stdout) != output_end || fflush(stdout) != 0)
        exit(1);
    output_end = 0;
}

static void stop(const char *what)
{
    flush();
    fprintf(stderr, "driver: line %lu: %s\n", line, what);
    exit(2);
}

/* A call that touches what it may not; the lines before its own are still good. */
static void crashed(int number)
{
    (void)number;
    stop("the call has crashed");
}

/* The next byte without taking it, or EOF. */
static int peek(void)
{
    if (input_at == input_end) {
        input_at = 0;
        input_end = fread(input, 1, BUFFER, stdin);
    }
    return input_end == 0 ? EOF : input[input_at];
}

static uint64_t read_number(void)
{
    uint64_t number = 0;
    while (peek() == ' ')
        input_at++;
    if (peek() < '0' || peek() > '9')
        stop("a number is wanted");
    while (peek() >= '0' && peek() <= '9') {
        uint64_t digit = (uint64_t)(input[input_at++] - '0');
        if (number > (UINT64_MAX - digit) / 10)
            stop("a number is past 64 bits");
        number = 10 * number + digit;
    }
    return number;
}

static void write_byte(unsigned char byte)
{
    if (output_end == BUFFER)
        flush();
    output[output_end++] = byte;
}

static void write_text(const char *text)
{
    while (*text)
        write_byte((unsigned char)*text++);
}

static void write_number(uint64_t number)
{
    unsigned char digits[20];
    size_t count = 0;
    do {
        digits[count++] = (unsigned char)('0' + number % 10);
        number /= 10;
    } while (number > 0);
    while (count > 0)
        write_byte(digits[--count]);
}

static void *memory(size_t size)
{
    void *block = malloc(size);
    if (!block)
        stop("no memory is left");
    return block;
}

static uint64_t content(const struct taken *taken, size_t index)
{
    return taken->size == 1 ? ((uint8_t *)taken->place)[index] : ((uint64_t *)taken->place)[index];
}

static void read_content(struct taken *taken)
{
    for (size_t index = 0; index < taken->number; index++) {
        uint64_t number = read_number();
        if (taken->size == 8)
            ((uint64_t *)taken->place)[index] = number;
        else if (number <= UINT8_MAX)
            ((uint8_t *)taken->place)[index] = (uint8_t)number;
        else
            stop("a byte is past 255");
    }
}

static uint8_t *arena(void)
{
    uint8_t *all = mmap(NULL, ARENA + 2 * PAGE, PROT_READ | PROT_WRITE, MAP_PRIVATE | MAP_ANONYMOUS, -1, 0);
    if (all == MAP_FAILED || mprotect(all, PAGE, PROT_NONE) != 0 || mprotect(all + PAGE + ARENA, PAGE, PROT_NONE) != 0)
        stop("no memory is left");
    return all + PAGE;
}

/* Puts the content at one end of an arena. An empty slice may have any pointer: it gets NULL, or another that nothing can be read
 * from, in turn from line to line. */
static void read_slice(struct taken *taken, uint8_t *arena, size_t size, int only_read)
{
    size_t whole = (size_t)taken->number * size;
    taken->size = size;
    if (whole == 0) {
        taken->place = line % 2 ? NULL : (void *)8;
        return;
    }
    taken->place = line % 2 ? arena : arena + ARENA - whole;
    taken->beside = line % 2 ? arena + whole : arena + ARENA - whole - GUARD;
    memset(taken->beside, PATTERN, GUARD);
    read_content(taken);
    if (only_read) {
        taken->before = memory(whole);
        memcpy(taken->before, taken->place, whole);
    }
}

static void read_taken(struct taken *taken, uint8_t *arena, char kind)
{
    memset(taken, 0, sizeof *taken);
    if (kind >= '1' && kind <= '7') {
        taken->number = (uint64_t)(kind - '0');
        read_slice(taken, arena, 8, 0);
        return;
    }
    taken->number = read_number();
    if (kind == 'n')
        return;
    if (taken->number > LONGEST)
        stop("a slice is too long");
    read_slice(taken, arena, kind == 'b' || kind == 'B' ? 1 : 8, kind == 'r' || kind == 'b');
}

/* A taken number, a slice as its two arguments, and lent places. */
#define N(k) t[k].number
#define SLICE(k) t[k].place, t[k].number
#define LENT(k) t[k].place

static uint64_t make_call(uint64_t call, const struct taken *t)
{
    switch (call) {
    case 0:
        return coldroom_check(N(0), SLICE(1));
    case 1:
        return coldroom_deadlocked(N(0), SLICE(1), N(2));
    case 2:
        return coldroom_all_deadlocked(N(0), SLICE(1), LENT(2));
    case 3:
        return coldroom_write_evidence(N(0), SLICE(1), N(2), SLICE(3));
    case 4:
        return coldroom_check_evidence(N(0), SLICE(1), N(2), SLICE(3));
    case 5:
        return coldroom_ring(N(0), SLICE(1), N(2));
    case 6:
        return coldroom_open(N(0), N(1), SLICE(2), N(3), LENT(4), N(5), LENT(6));
    case 7:
        return coldroom_deliver(N(0), N(1), SLICE(2), N(3), LENT(4), N(5), N(6), N(7), N(8), LENT(9));
    case 8:
        return coldroom_step(N(0), SLICE(1), SLICE(2), SLICE(3), LENT(4), LENT(5), N(6), N(7), N(8));
    case 9:
        return coldroom_run(N(0), SLICE(1), SLICE(2), SLICE(3), LENT(4), LENT(5), SLICE(6), SLICE(7));
    default:
        return coldroom_in(N(0), SLICE(1), N(2), LENT(3));
    }
}

static void write_lent(const struct taken *taken)
{
    if (!taken->beside || taken->before)
        return;
    for (size_t index = 0; index < taken->number; index++) {
        write_byte(' ');
        write_number(content(taken, index));
    }
}

/* Says what is damaged, and gives the memory back. */
static void settle(struct taken *taken)
{
    size_t whole = (size_t)taken->number * taken->size;
    if (!taken->beside)
        return;
    for (size_t at = 0; at < GUARD; at++) {
        if (taken->beside[at] != PATTERN) {
            write_text(" written-outside");
            break;
        }
    }
    if (taken->before && memcmp(taken->before, taken->place, whole) != 0)
        write_text(" written-where-only-read");
    free(taken->before);
}

static void serve_line(void)
{
    struct taken taken[MOST_TAKEN];
    uint64_t call = read_number();
    if (call >= sizeof takes / sizeof *takes)
        stop("there is no such call");
    size_t count = strlen(takes[call]);
    for (size_t k = 0; k < count; k++)
        read_taken(&taken[k], arenas[k], takes[call][k]);
    if (peek() != '\n')
        stop("the line should end here");
    write_number(make_call(call, taken));
    for (size_t k = 0; k < count; k++)
        write_lent(&taken[k]);
    for (size_t k = 0; k < count; k++)
        settle(&taken[k]);
    write_byte('\n');
    input_at++;
    line++;
}

int main(void)
{
    static const int deadly[] = {SIGSEGV, SIGBUS, SIGILL, SIGFPE, SIGTRAP, SIGABRT};
    for (size_t k = 0; k < sizeof deadly / sizeof *deadly; k++)
        signal(deadly[k], crashed);
    for (size_t k = 0; k < MOST_TAKEN; k++)
        arenas[k] = arena();
    while (peek() != EOF)
        serve_line();
    flush();
    return 0;
}

/* What coldroom.h has beside the calls, held against the library: that a message is coded as a bench codes it, that what a controller
 * sends is taken out in the order in which a bench lists it, that coldroom_acted says when something was written, that every code has
 * words of its own, that coldroom_in gives each node who waits on it; and that two rounds with one number really come to the false
 * verdict that it warns of. The status is 0 if all is so. */
#include "coldroom.h"
#include <stdio.h>
#include <string.h>

enum { NODES = 4, ROOM = 64 };

/* Morning 9 of the paper: 0 waits for two of 1, 2, 3; 1 for nobody; 2 and 3 wait on 0. */
static const uint64_t rows[NODES * COLDROOM_ROW] = {1, 2, 14, 0, 0, 0, 0, 0, 0, 0, 0, 0, 1, 1, 1, 0, 0, 0, 1, 1, 1, 0, 0, 0};
static const uint64_t waiting[NODES] = {12, 1, 1, 1};
static int wrong;

static void see(int good, const char *what)
{
    if (!good) {
        printf("header: wrong: %s\n", what);
        wrong = 1;
    }
}

/* The bench, with each step made by one controller beside it. */
static uint64_t records[NODES * COLDROOM_RECORD], messages[ROOM], sent, highest;
static uint64_t kept[NODES][COLDROOM_RECORD];

/* What the controller has just sent stands in the bench's list, from a place on, and nothing more. */
static void see_sent(uint64_t me, uint64_t result, uint64_t sends[COLDROOM_SENDS], uint64_t from)
{
    uint64_t kind, to, k = from;
    if (coldroom_acted(result))
        while (coldroom_next_send(sends, &kind, &to)) {
            uint64_t message = coldroom_message(kind, me, to, kept[me][COLDROOM_ROUND]);
            see(k < sent && messages[k] == message, "a message is coded, or taken out, in another order than the bench's");
            see(coldroom_message_kind(message) == kind && coldroom_message_from(message) == me && coldroom_message_to(message) == to &&
                    coldroom_message_round(message) == kept[me][COLDROOM_ROUND], "a message isn't read back");
            k++;
        }
    see(k == sent, "more was sent on the bench");
    see(memcmp(kept[me], &records[me * COLDROOM_RECORD], sizeof kept[me]) == 0, "the records differ");
}

static void open_both(uint64_t me, uint64_t round)
{
    uint64_t sends[COLDROOM_SENDS], from = sent;
    uint64_t alone = coldroom_open(NODES, me, &rows[me * COLDROOM_ROW], COLDROOM_ROW, waiting[me], kept[me], round, sends);
    uint64_t bench = coldroom_step(NODES, rows, NODES * COLDROOM_ROW, records, NODES * COLDROOM_RECORD, messages, ROOM,
                                   &sent, &highest, 0, me, round);
    see(alone == bench && alone == COLDROOM_PLUS + COLDROOM_OPENED, "an opening");
    see(kept[me][COLDROOM_CALL] == 1 && kept[me][COLDROOM_FREED] == 0, "the places of a record");
    see_sent(me, alone, sends, from);
}

static uint64_t deliver_both(uint64_t k)
{
    uint64_t sends[COLDROOM_SENDS], from = sent, m = messages[k], me = coldroom_message_to(m);
    uint64_t alone = coldroom_deliver(NODES, me, &rows[me * COLDROOM_ROW], COLDROOM_ROW, waiting[me], kept[me], coldroom_message_kind(m),
                                      coldroom_message_from(m), me, coldroom_message_round(m), sends);
    uint64_t bench = coldroom_step(NODES, rows, NODES * COLDROOM_ROW, records, NODES * COLDROOM_RECORD, messages, ROOM,
                                   &sent, &highest, 1, k, 0);
    see(alone == bench, "a delivery");
    see_sent(me, alone, sends, from);
    return alone;
}

static void see_words(void)
{
    static const uint64_t codes[] = {1, 2, 3, 4, 5, 6, 7, 8, 9, 10, 11, 12, 13, 14, 15, 18, 100, 101, 102, 110, 111, 112, 120, 121, 122};
    size_t count = sizeof codes / sizeof *codes;
    for (size_t a = 0; a < count; a++) {
        see(strcmp(coldroom_words(codes[a]), coldroom_words(0)) != 0, "a code has no words");
        for (size_t b = 0; b < a; b++)
            see(strcmp(coldroom_words(codes[a]), coldroom_words(codes[b])) != 0, "two codes have the same words");
    }
}

/* 1 waits on 0, which waits for nobody; both open round 1, and 0's GRANT is late. */
static void see_trap(void)
{
    static const uint64_t waits[2 * COLDROOM_ROW] = {0, 0, 0, 0, 0, 0, 1, 1, 1, 0, 0, 0};
    uint64_t zero[COLDROOM_RECORD] = {0}, one[COLDROOM_RECORD] = {0}, sends[COLDROOM_SENDS];
    coldroom_open(2, 0, waits, COLDROOM_ROW, 1 << 1, zero, 1, sends);
    see(sends[COLDROOM_GRANT] == 1 << 1, "0 grants");
    coldroom_open(2, 1, waits + COLDROOM_ROW, COLDROOM_ROW, 0, one, 1, sends);
    see(sends[COLDROOM_NOTIFY] == 1 << 0, "1 notifies");
    coldroom_deliver(2, 0, waits, COLDROOM_ROW, 1 << 1, zero, COLDROOM_NOTIFY, 1, 0, 1, sends);
    see(sends[COLDROOM_DONE] == 1 << 1, "0 is done");
    see(coldroom_deliver(2, 1, waits + COLDROOM_ROW, COLDROOM_ROW, 0, one, COLDROOM_DONE, 0, 1, 1, sends) ==
            COLDROOM_PLUS + COLDROOM_TAKEN_DEADLOCKED, "the false verdict of two rounds with one number");
    see(coldroom_value(coldroom_deadlocked(2, waits, 2 * COLDROOM_ROW, 1)) == 0, "1 isn't deadlocked");
}

int main(void)
{
    uint64_t last = 0, set;
    for (uint64_t i = 0; i < NODES; i++) {
        see(coldroom_in(NODES, rows, NODES * COLDROOM_ROW, i, &set) == COLDROOM_PLUS && set == waiting[i], "IN");
    }
    set = 5;
    see(coldroom_number(coldroom_in(NODES, rows, NODES * COLDROOM_ROW, NODES, &set)) == 9 && set == 5, "IN of no node");
    open_both(0, 1);
    for (uint64_t k = 0; k < 3; k++)
        deliver_both(k);
    open_both(2, 2);
    for (uint64_t k = 3; k < sent; k++)
        last = deliver_both(k);
    see(last == COLDROOM_PLUS + COLDROOM_TAKEN_DEADLOCKED && kept[2][COLDROOM_ROUND] == 2, "the verdict");
    see(kept[0][COLDROOM_HAD_NOTIFY] == 12 && kept[0][COLDROOM_HAD_GRANT] == 2 && kept[0][COLDROOM_HAD_ACK] == 0 &&
            kept[0][COLDROOM_HAD_DONE] == 14, "who is had by node 0");
    see(!coldroom_acted(deliver_both(0)) && !coldroom_acted(13) && !coldroom_acted(COLDROOM_PLUS + COLDROOM_STRAY), "coldroom_acted");
    see_words();
    see_trap();
    return wrong;
}

/* controller.c: a whole controller over coldroom.h, and four of them at work, of which two open rounds. They play morning 9 of the
 * paper: node 0 waits for two of 1, 2 and 3; node 1 waits for nobody; 2 and 3 wait on 0. Printed is what each step answers, with how
 * many messages are sent by then, and at the end the messages; the status is 0 if the newest round gave its verdict. */
#include "coldroom.h"
#include <stdio.h>
#include <stdlib.h>

/* What a controller knows, and the record that it keeps: seven zeros before the first round. A real one stores its record, where a
 * power cut can't take it, before it sends. */
struct controller {
    uint64_t nodes;
    uint64_t me;
    uint64_t row[COLDROOM_ROW];
    uint64_t in;
    uint64_t record[COLDROOM_RECORD];
};

/* What carries the messages. In cold rooms it may lose, repeat, delay and shuffle them; here it is a list. */
enum { MOST = 64 };
static uint64_t sent[MOST];
static unsigned count;

static void transmit(uint64_t message)
{
    if (count == MOST) {
        fprintf(stderr, "controller: more than %d messages\n", MOST);
        exit(2);
    }
    sent[count++] = message;
}

/* Where every round gets its number, whichever controller opens it: one of them keeps this counter for all. It is stored before the
 * number is handed out, so that no number is ever handed out again; one that is never used is just skipped. Here a number is used at
 * once. Where it has a way to go, the keeper waits until it is used or given up before it hands out the next. */
static uint64_t stored_counter;

static uint64_t next_round(void)
{
    stored_counter = stored_counter + 1;
    return stored_counter;
}

/* Sends what a step has to send. */
static void send_all(const struct controller *c, uint64_t sends[COLDROOM_SENDS])
{
    uint64_t kind, to;
    while (coldroom_next_send(sends, &kind, &to))
        transmit(coldroom_message(kind, c->me, to, c->record[COLDROOM_ROUND]));
}

/* The controller opens a round. One that waits too long for its verdict does so again, with the next number. */
static uint64_t open_round(struct controller *c)
{
    uint64_t sends[COLDROOM_SENDS];
    uint64_t result = coldroom_open(c->nodes, c->me, c->row, COLDROOM_ROW, c->in, c->record, next_round(), sends);
    if (coldroom_acted(result))
        send_all(c, sends);
    return result;
}

/* A message has arrived at the controller. */
static uint64_t arrived(struct controller *c, uint64_t message)
{
    uint64_t sends[COLDROOM_SENDS];
    uint64_t result = coldroom_deliver(c->nodes, c->me, c->row, COLDROOM_ROW, c->in, c->record,
                                       coldroom_message_kind(message), coldroom_message_from(message),
                                       coldroom_message_to(message), coldroom_message_round(message), sends);
    if (coldroom_acted(result))
        send_all(c, sends);
    return result;
}

/* Says what a step answered, and whether it ended a round: then the controller's record has the round's number. */
static int verdict(uint64_t result)
{
    uint64_t value = coldroom_value(result);
    if (coldroom_refused(result)) {
        printf("refused %d row %d: %s\n", (int)coldroom_number(result), (int)coldroom_row(result),
               coldroom_words(coldroom_number(result)));
        return 0;
    }
    printf("%s %u\n", coldroom_words(value), count);
    return value == COLDROOM_TAKEN_DEADLOCKED || value == COLDROOM_TAKEN_NOT_DEADLOCKED || value == COLDROOM_OPENED_NOT_DEADLOCKED;
}

/* Delivers the messages from number `from` to before number `to`, those that are sent meanwhile too, and says whether the newest
 * round gave its verdict. */
static int deliver(struct controller rooms[], unsigned from, unsigned to)
{
    int ended = 0;
    for (unsigned k = from; k < to && k < count; k++) {
        struct controller *receiver = &rooms[coldroom_message_to(sent[k])];
        if (verdict(arrived(receiver, sent[k])) && receiver->record[COLDROOM_ROUND] == stored_counter)
            ended = 1;
    }
    return ended;
}

enum { NODES = 4, EARLY = 3 };

int main(void)
{
    static const char *const names[] = {"NOTIFY", "GRANT", "ACK", "DONE"};
    static const uint64_t rows[NODES * COLDROOM_ROW] = {
        1, 2, 1 << 1 | 1 << 2 | 1 << 3, 0, 0, 0, /* node 0: two of 1, 2 and 3 */
        0, 0, 0, 0, 0, 0,                        /* node 1: nobody */
        1, 1, 1 << 0, 0, 0, 0,                   /* node 2: 0 */
        1, 1, 1 << 0, 0, 0, 0,                   /* node 3: 0 */
    };
    struct controller rooms[NODES];
    int ended;
    for (unsigned i = 0; i < NODES; i++) {
        rooms[i] = (struct controller){.nodes = NODES, .me = i};
        for (unsigned k = 0; k < COLDROOM_ROW; k++)
            rooms[i].row[k] = rows[i * COLDROOM_ROW + k];
        if (coldroom_refused(coldroom_in(NODES, rows, NODES * COLDROOM_ROW, i, &rooms[i].in)))
            return 2;
    }
    /* Node 0 opens a round. Before it has ended node 2 opens one too, and what is still under way of the first comes late. */
    verdict(open_round(&rooms[0]));
    deliver(rooms, 0, EARLY);
    ended = verdict(open_round(&rooms[2]));
    ended |= deliver(rooms, EARLY, MOST);
    for (unsigned k = 0; k < count; k++)
        printf("message %u %s %d %d %d\n", k, names[coldroom_message_kind(sent[k])], (int)coldroom_message_from(sent[k]),
               (int)coldroom_message_to(sent[k]), (int)coldroom_message_round(sent[k]));
    return ended ? 0 : 1;
}

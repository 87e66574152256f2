/* coldroom.h: the deadlock detector for voting claims, for C99. Link libcoldroom.a (`scripts/build coldroom`).
 *
 * Each call of the library is proved to do what is said of it here for every input, bad input too: nothing undefined happens, it
 * ends, and a call that is refused leaves all lent memory as it was. There is no heap, no state between calls and no other library.
 * Calls on different memory may run at the same time. No call needs more than 2,048 bytes of stack on x86-64; a controller's two
 * calls need 584 and 1,144, and docs/SPEED.md has each.
 *
 * The functions that stand here with their code, `static inline`, only save a caller from writing them again: they are plain C, not
 * proved, and small enough to be read.
 *
 * What a caller must do itself, since C does not say it: a pointer that comes with a length points to that many places (of length
 * 0: any pointer); other pointers point to one place, or to as many as the parameter's brackets say; what a call may write
 * overlaps nothing else that is passed to it.
 *
 * THE GRAPH OF WAITS. 1 to 64 nodes, numbered from 0, and at most 512 edges. `nodes` is their count; `rows` has six numbers for
 * each: kind, threshold, and four sets. A set is a number in which bit k is node k.
 *   kind 0, active: threshold and sets are 0. It waits for nobody.
 *   kind 1, count:  it waits for `threshold` of the members of its first set; the other sets are 0.
 *   kind 2, sets:   threshold 0. It waits for all members of one of its sets. Empty sets are ignored; there is one that isn't,
 *                   and none of those lies inside another.
 * OUT of a node is everybody it waits on; IN is everybody who waits on it.
 *
 * RESULTS. Every call hands back one number.
 *   1 to 65,535            refused: number + 256 * row. A number that is not of a row has row 0.
 *   65,536 plus a value    not refused; the value is what the call says below.
 *   0                      only from coldroom_check: the graph is accepted.
 *
 * REFUSALS. On a whole graph they are looked for in this order: 1; then for each row 2 to 7; then 8; then what the call adds. One
 * controller and a bench have orders of their own, which stand with them.
 *    1  there are 0 or over 64 nodes, or the row numbers aren't six a node
 *    2  kind above 2
 *    3  a set has a member that is no node
 *    4  a node waits on itself
 *    5  the threshold isn't as its kind says: 1 to the size of the first set for kind 1, else 0
 *    6  kind 0 with a set, or kind 1 with a second, third or fourth set
 *    7  kind 2 with no set that has members, or with one such set inside another; equal sets lie inside each other
 *    8  over 512 edges
 *    9  the node asked about or opened doesn't exist
 *   10  the round is 0, above 65,535, or not above the record's (one controller) or *highest (a bench)
 *   11  there is no such message yet, or no such kind of step
 *   12  the step's new messages don't fit the room
 *   13  a record, a message or the state of a bench that can't be; see each call
 *   14  an entry of the list names no node
 *   15  the lent room is too small
 *   18  the list isn't strictly ascending
 */
#ifndef COLDROOM_H
#define COLDROOM_H

#include <stdint.h>

#ifdef __cplusplus
extern "C" {
#endif

enum {
    COLDROOM_NODES = 64,      /* the most nodes of a graph, */
    COLDROOM_EDGES = 512,     /* the most edges, */
    COLDROOM_ROUNDS = 65535,  /* the last round, */
    COLDROOM_MESSAGES = 4096, /* and the most messages on a bench */
    COLDROOM_ROW = 6,         /* how many numbers a row has, */
    COLDROOM_RECORD = 7,      /* a record, */
    COLDROOM_SENDS = 4        /* and what a step sends */
};

/* The places of a record. The last four are sets: of the nodes whose NOTIFY, GRANT, ACK and DONE were had. */
enum {
    COLDROOM_ROUND = 0, /* the round that it is in */
    COLDROOM_CALL = 1,  /* 0 not called, 1 opened this round itself, k + 2 called by node k */
    COLDROOM_FREED = 2, /* 0 not free, 1 free by itself, k + 2 freed by node k */
    COLDROOM_HAD_NOTIFY = 3,
    COLDROOM_HAD_GRANT = 4,
    COLDROOM_HAD_ACK = 5,
    COLDROOM_HAD_DONE = 6
};

/* The kinds of messages, which are also the places of their receivers in `sends`. */
enum {
    COLDROOM_NOTIFY = 0,
    COLDROOM_GRANT = 1,
    COLDROOM_ACK = 2,
    COLDROOM_DONE = 3
};

/* What a call hands back that isn't refused: this, and a value. */
#define COLDROOM_PLUS UINT64_C(65536)

/* What coldroom_open, coldroom_deliver and coldroom_step say, as a value; in the answers of coldroom_run beside the refusals. */
enum {
    COLDROOM_OLD = 100,    /* of a round before the record's */
    COLDROOM_STRAY = 101,  /* for another receiver, not from a neighbour, or in answer to nothing that was sent in its round */
    COLDROOM_REPEAT = 102, /* had before */
    COLDROOM_TAKEN = 110,                /* taken, and no verdict */
    COLDROOM_TAKEN_DEADLOCKED = 111,     /* taken, and it ended the round: the initiator is deadlocked */
    COLDROOM_TAKEN_NOT_DEADLOCKED = 112, /* the same: the initiator is not deadlocked */
    COLDROOM_OPENED = 120,               /* the same three of an opening; */
    COLDROOM_OPENED_DEADLOCKED = 121,    /* this one never comes: a node that waits must hear from others first */
    COLDROOM_OPENED_NOT_DEADLOCKED = 122
};

/* Reading a result: whether it is a refusal; if so its number and its row; if not its value. The 0 of coldroom_check has none. */
static inline int coldroom_refused(uint64_t result) { return result >= 1 && result < COLDROOM_PLUS; }
static inline uint64_t coldroom_number(uint64_t result) { return result % 256; }
static inline uint64_t coldroom_row(uint64_t result) { return result / 256; }
static inline uint64_t coldroom_value(uint64_t result) { return result - COLDROOM_PLUS; }

/* Of coldroom_open, coldroom_deliver and coldroom_step: whether the step did anything. Only then did anything lent change. */
static inline int coldroom_acted(uint64_t result)
{
    return !coldroom_refused(result) && coldroom_value(result) >= COLDROOM_TAKEN;
}

/* A refusal's number, or an answer's value from 100 on, in words. */
static inline const char *coldroom_words(uint64_t code)
{
    switch (code) {
    case 1: return "no such node count, or not six row numbers a node";
    case 2: return "no such kind";
    case 3: return "a set has a member that is no node";
    case 4: return "a node waits on itself";
    case 5: return "the threshold isn't as its kind says";
    case 6: return "a set that its kind doesn't have";
    case 7: return "no set, or one set inside another";
    case 8: return "too many edges";
    case 9: return "no such node";
    case 10: return "no such round, or one that isn't above those before";
    case 11: return "no such message yet, or no such kind of step";
    case 12: return "the new messages don't fit the room";
    case 13: return "a record, message or bench that can't be";
    case 14: return "an entry of the list names no node";
    case 15: return "the lent room is too small";
    case 18: return "the list isn't strictly ascending";
    case COLDROOM_OLD: return "old";
    case COLDROOM_STRAY: return "stray";
    case COLDROOM_REPEAT: return "repeat";
    case COLDROOM_TAKEN: return "taken";
    case COLDROOM_TAKEN_DEADLOCKED: return "taken deadlocked";
    case COLDROOM_TAKEN_NOT_DEADLOCKED: return "taken not-deadlocked";
    case COLDROOM_OPENED: return "opened";
    case COLDROOM_OPENED_DEADLOCKED: return "opened deadlocked";
    case COLDROOM_OPENED_NOT_DEADLOCKED: return "opened not-deadlocked";
    default: return "unknown";
    }
}

/* A message as one number, as a bench keeps it and as a wire may carry it, and back. A kind, a sender and a receiver are below 256. */
static inline uint64_t coldroom_message(uint64_t kind, uint64_t from, uint64_t to, uint64_t round)
{
    return round << 24 | kind << 16 | from << 8 | to;
}
static inline uint64_t coldroom_message_kind(uint64_t message) { return message >> 16 & 255; }
static inline uint64_t coldroom_message_from(uint64_t message) { return message >> 8 & 255; }
static inline uint64_t coldroom_message_to(uint64_t message) { return message & 255; }
static inline uint64_t coldroom_message_round(uint64_t message) { return message >> 24; }

/* Takes the next message out of what a step sends, in the paper's order: NOTIFY, GRANT, ACK, DONE, each by ascending receiver.
 * 1 with *kind and *to, or 0 when none is left. */
static inline int coldroom_next_send(uint64_t sends[COLDROOM_SENDS], uint64_t *kind, uint64_t *to)
{
    for (*kind = 0; *kind < COLDROOM_SENDS; ++*kind)
        for (*to = 0; *to < COLDROOM_NODES; ++*to)
            if (sends[*kind] >> *to & 1) {
                sends[*kind] &= ~(UINT64_C(1) << *to);
                return 1;
            }
    return 0;
}

/* ---- A WHOLE GRAPH ---- */

/* Whether the graph is accepted: 0, or the first refusal of 1 to 8. */
uint64_t coldroom_check(uint64_t nodes, const uint64_t *rows, uint64_t rows_length);

/* Whether a node is deadlocked: no order of granting ever frees it. Value 0 not deadlocked, 1 deadlocked.
 * Refused by 1 to 8, 9. */
uint64_t coldroom_deadlocked(uint64_t nodes, const uint64_t *rows, uint64_t rows_length, uint64_t node);

/* All deadlocked nodes. Value 0, and *set is written. Refused by 1 to 8; then *set stays. */
uint64_t coldroom_all_deadlocked(uint64_t nodes, const uint64_t *rows, uint64_t rows_length, uint64_t *set);

/* Writes the evidence that a node is deadlocked: every deadlocked node that it reaches by any path of waits, itself included,
 * ascending, a byte each. The value is how many bytes were written: none if it isn't deadlocked. The bytes after them stay. What
 * was written is never refused as a list below. Refused by 1 to 8, 9, and 15 if room_length is below nodes. */
uint64_t coldroom_write_evidence(uint64_t nodes, const uint64_t *rows, uint64_t rows_length, uint64_t node,
                                 uint8_t *room, uint64_t room_length);

/* Whether a list of nodes, a byte each, strictly ascending, passes as evidence for a node: the node is in it, and no member's
 * condition holds when every node outside the list grants; and if it fails, why. Value 1, and only 1: it passes. 2: the node isn't
 * in it. 256 + k: the node is in it, and k is the first member, the lowest, whose condition so holds; k may be active, and may be
 * the node itself. Refused by 1 to 8, 9; then 14 if any entry names no node; then 18 if any entry isn't above the one before it. */
uint64_t coldroom_check_evidence(uint64_t nodes, const uint64_t *rows, uint64_t rows_length, uint64_t node,
                                 const uint8_t *list, uint64_t list_length);

/* Where a node stands. Value 0 not deadlocked; 1 deadlocked and in the ring: a path of waits leads from it back to itself through
 * deadlocked nodes only; 2 deadlocked and behind the ring: no such path leads back, but one leads to a node that is in the ring.
 * Refused by 1 to 8, 9. */
uint64_t coldroom_ring(uint64_t nodes, const uint64_t *rows, uint64_t rows_length, uint64_t node);

/* IN of a node: everybody who waits on it. Value 0, and *set is written. Refused by 1 to 8, 9; then *set stays. */
uint64_t coldroom_in(uint64_t nodes, const uint64_t *rows, uint64_t rows_length, uint64_t node, uint64_t *set);

/* ---- ONE CONTROLLER ----
 *
 * A controller knows the node count, its own number `me`, its own `row` of six numbers, and `in`, the set of the nodes that wait
 * on it, which coldroom_in gives to whoever has all rows. It keeps one record of seven numbers, whose places are named above, all 0
 * before the first round.
 * When a round is opened or a message is taken, the record is written, and sends[0] to sends[3]: the sets of nodes to which the
 * controller now sends NOTIFY, GRANT, ACK and DONE of the record's round, empty ones as 0. Otherwise neither is written. A verdict
 * belongs to the round that the record is in then, record[COLDROOM_ROUND].
 *
 * Refused, in this order: 1 if there are 0 or over 64 nodes or row_length isn't 6; 9 if `me` is no node; 2 to 7 for the row, with
 * `me` as the row of the refusal; 13 if the record, `in` or the message names a node or a kind that doesn't exist or a round above
 * 65,535, or the message is of round 0; 10 for an opening.
 *
 * What is promised of all controllers together: whatever is lost, repeated, late or out of order, no round gives a false verdict;
 * and a round after which no other is opened gives the right one once each of its messages has arrived. So an initiator that waits
 * too long opens a higher round. That asks of them, and a controller sees none of it by itself:
 *   - They are told the rows and INs of one graph, whose waits stand still. After a claim has changed, ask by a round that is opened
 *     when everybody concerned has the new row and IN.
 *   - Each keeps its record from call to call, stored before anything that the step sends leaves. A controller that has lost its
 *     record, as by a power cut, must not go on with a fresh one while the others go on with theirs: it could be called again in a
 *     round that it has answered in, and the verdict could be false. Either all start afresh together, from records of 0 and with
 *     every message of before thrown away, or it stays silent.
 *   - Only messages are delivered that were sent.
 *   - Each round has a higher number than every round opened before, by whichever controller. */

/* The controller opens a round. Value 120 opened; 122 opened, and the round has ended, not deadlocked, which it does at once at a
 * node that waits for nobody and on which nobody waits, and at no other.
 *
 * WHERE THE NUMBER COMES FROM. Not from the record: "my record's round plus one" gives false verdicts as soon as two controllers open
 * rounds. Say that 1 waits on 0, that 0 waits for nobody, and that both open round 1. 0 sends GRANT to 1; 1 sends NOTIFY to 0, and 0,
 * which has opened that round itself, answers DONE at once. If DONE comes before GRANT, 1 says "deadlocked", and it isn't. No call is
 * refused: 10 is given by the record of this controller, which can't see what another has opened. With one initiator alone the
 * record would do. With more, one of them keeps a counter for all: it adds one, stores the sum, and only then hands it out, to itself
 * too; every round takes the next number, and a number whose round was never opened is just skipped. Numbers are used in the order in
 * which they are handed out: the next one is handed out when the last has been opened or given up, since nothing is promised of a
 * round that is opened after a higher one. examples/controller.c does it so. */
uint64_t coldroom_open(uint64_t nodes, uint64_t me, const uint64_t *row, uint64_t row_length, uint64_t in,
                       uint64_t record[COLDROOM_RECORD], uint64_t round, uint64_t sends[COLDROOM_SENDS]);

/* A message of a kind, from a node, to a node, of a round, has arrived at the controller. Value 100 old, 101 stray, 102 repeat,
 * 110 taken; 111 or 112 taken, and this controller's own round has ended, deadlocked or not deadlocked. */
uint64_t coldroom_deliver(uint64_t nodes, uint64_t me, const uint64_t *row, uint64_t row_length, uint64_t in,
                          uint64_t record[COLDROOM_RECORD], uint64_t kind, uint64_t from, uint64_t to, uint64_t round,
                          uint64_t sends[COLDROOM_SENDS]);

/* ---- A BENCH: all controllers of a graph in one place, under any order of delivery ----
 *
 * records has seven numbers for each node, as above. messages holds every message ever sent, numbered from 0:
 *   round * 2^24 + kind * 2^16 + sender * 2^8 + receiver
 * *sent is how many there are, *highest the highest round opened. A fresh bench: all records 0, *sent 0, *highest 0, and anything in
 * the places for messages. The room is messages_length, or 4,096 if that is more; places from *sent on are written when messages are
 * sent, those past the room never. Places aren't used again. A round sends at most four messages an edge, so from a fresh start 12
 * can't occur while 4 * edges * rounds opened, the next one included, is within the room.
 * A step of kind 0 opens node a in round b; one of kind 1 delivers message a, for the first time or again.
 *
 * Refused, in this order: 13 if the graph isn't accepted, records_length isn't 7 * nodes, *sent is over the room, *highest is above
 * 65,535, or a record or sent message names a node or a kind that doesn't exist or a round above *highest, or a message is of
 * round 0; then for an opening 9 and 10, for a delivery and for any other kind 11; then 12 if the new messages don't fit the room.
 * All of these have row 0. */

/* One step. Values 100 to 122, as above. The whole state is looked over first: for many steps use coldroom_run. */
uint64_t coldroom_step(uint64_t nodes, const uint64_t *rows, uint64_t rows_length,
                       uint64_t *records, uint64_t records_length, uint64_t *messages, uint64_t messages_length,
                       uint64_t *sent, uint64_t *highest, uint64_t kind, uint64_t a, uint64_t b);

/* A list of steps, one after the other, each coded as kind * 2^48 + a * 2^24 + b, a and b being below 2^24 and kind below 2^16. A
 * step that is refused changes nothing, and the next goes on. Value 0; answers[j] is the answer to steps[j]: sent so far * 2^16 +
 * code, which is 100 to 122 or the number of the refusal. Answer places past the steps stay. The list is refused as a whole by 13,
 * and by 15 if answers_length is below steps_length; then nothing is changed. */
uint64_t coldroom_run(uint64_t nodes, const uint64_t *rows, uint64_t rows_length,
                      uint64_t *records, uint64_t records_length, uint64_t *messages, uint64_t messages_length,
                      uint64_t *sent, uint64_t *highest, const uint64_t *steps, uint64_t steps_length,
                      uint64_t *answers, uint64_t answers_length);

#ifdef __cplusplus
}
#endif

#endif

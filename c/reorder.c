/*
 * A line of text over a channel that delays and loses packets, to a receiver that holds: a packet that comes too early
 * waits for those before it. Half way the sender begins anew. Prints the record, with a mark for every block that was
 * lost for good.
 */
#include <stdio.h>
#include <stdlib.h>
#include <string.h>

#include "stewpigeon.h"

enum { T140 = 98, RED = 100, LEVEL = 1, TICK_MS = 50, ANEW = 8, LOST = -1 };

/*
 * How many ms each packet is on its way. The fourth one waits for the second, which comes behind it. The eighth waits
 * for the two before it until the sender has begun anew, and the last one until its time is over.
 */
static const int delays[] = {50, 700, 500, 50, 50, LOST, LOST, 50, 50, 50, LOST, LOST, 50};

enum { PACKETS = sizeof delays / sizeof delays[0] };

struct packet {
    uint8_t bytes[STEWPIGEON_LONGEST];
    size_t length;
};

struct line {
    struct stewpigeon_holding_receiver receiver;
    struct packet held; /* a copy of the packet that it said to keep */
};

static void check(uint8_t refusal, const char *call)
{
    if (refusal != STEWPIGEON_ACCEPTED) {
        fprintf(stderr, "reorder: %s was refused with number %u; see enum stewpigeon_refusal\n", call,
                (unsigned)refusal);
        exit(1);
    }
}

static void print_marks(size_t count)
{
    uint8_t space[16 * STEWPIGEON_MARK];
    while (count > 0) {
        size_t written = stewpigeon_write_marks(count, space, sizeof space);
        fwrite(space, STEWPIGEON_MARK, written, stdout);
        count -= written;
    }
}

static void print(const struct packet *packet, const struct stewpigeon_step *step)
{
    print_marks(step->loss);
    fwrite(packet->bytes + step->from, 1, step->to - step->from, stdout);
}

/* Without a packet: the one held comes when nothing is missing before it any more, or when its time is over. */
static void idle(struct line *line, uint64_t clock)
{
    struct packet *held = &line->held;
    struct stewpigeon_holding_step answer;
    do {
        check(stewpigeon_holding_receiver_wait(&line->receiver, clock, held->bytes, held->length, &answer), "the wait");
        print(held, &answer.step);
    } while (answer.of != STEWPIGEON_NEITHER);
}

static void receive(struct line *line, uint64_t clock, const struct packet *packet)
{
    struct packet *held = &line->held;
    struct stewpigeon_holding_step answer;
    do {
        check(stewpigeon_holding_receiver_step(&line->receiver, clock, held->bytes, held->length, packet->bytes,
                                               packet->length, &answer),
              "the step");
        print(answer.of == STEWPIGEON_HELD ? held : packet, &answer.step);
        if (answer.keep == STEWPIGEON_NEW)
            *held = *packet;
    } while (answer.again);
    idle(line, clock);
}

/* Sends the next word, or without one what is still to be repeated. */
static void send(struct stewpigeon_sender *sender, uint64_t clock, const char *word, struct packet *packet)
{
    if (word != NULL)
        check(stewpigeon_sender_offer(sender, clock, (const uint8_t *)word, strlen(word)), "the offer");
    int64_t length = stewpigeon_sender_clock(sender, clock, packet->bytes, sizeof packet->bytes);
    if (length < 0)
        check((uint8_t)-length, "the clock call");
    packet->length = (size_t)length;
}

static void open_sender(struct stewpigeon_sender *sender, uint16_t sequence)
{
    check(stewpigeon_sender_open(sender, LEVEL, STEWPIGEON_BUFFERING_MS, STEWPIGEON_RATE, T140, RED, sequence, 1000,
                                 0x5eed),
          "opening the sender");
}

int main(void)
{
    static const char *const words[PACKETS] = {"buy ",  "400 ", "May ",  "wheat ", "at ", "612; ",
                                               "sell ", "20 ",  "July ", "corn ",  "at ", "431\n"};
    const uint64_t end = PACKETS * STEWPIGEON_BUFFERING_MS + STEWPIGEON_HOLDING_MS;
    static struct packet sent[PACKETS];
    static struct line line;
    struct stewpigeon_sender sender;

    open_sender(&sender, 65530);
    check(stewpigeon_holding_receiver_open(&line.receiver, T140, RED), "opening the receiver");

    for (uint64_t clock = 0; clock < end; clock += TICK_MS) {
        size_t next = clock / STEWPIGEON_BUFFERING_MS;
        if (clock % STEWPIGEON_BUFFERING_MS == 0 && next < PACKETS) {
            if (next == ANEW)
                open_sender(&sender, 20000);
            send(&sender, clock, words[next], &sent[next]);
        }
        for (size_t k = 0; k < PACKETS; k++)
            if (delays[k] != LOST && clock == k * STEWPIGEON_BUFFERING_MS + (uint64_t)delays[k])
                receive(&line, clock, &sent[k]);
        idle(&line, clock);
    }
    return 0;
}

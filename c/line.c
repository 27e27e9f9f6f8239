/*
 * A line of text from a sender over a lossy channel to a receiver: prints the record, with a mark for every block that
 * was lost for good.
 */
#include <stdbool.h>
#include <stdio.h>
#include <stdlib.h>
#include <string.h>

#include "stewpigeon.h"

enum { T140 = 98, RED = 100, LEVEL = 2 };

static void check(uint8_t refusal, const char *call)
{
    if (refusal != STEWPIGEON_ACCEPTED) {
        fprintf(stderr, "line: %s was refused with number %u; see enum stewpigeon_refusal\n", call, (unsigned)refusal);
        exit(1);
    }
}

/* Packets 2, 5, 6, 7 and 8 are lost: one loss is repaired by the repeats, of four in a row two are. */
static bool is_lost(unsigned packet)
{
    return packet == 2 || (packet >= 5 && packet <= 8);
}

static void print_marks(size_t count)
{
    uint8_t space[16 * STEWPIGEON_MARK];
    while (count > 0) {
        size_t written = stewpigeon_write_marks(count, space, sizeof space);
        fwrite(space, STEWPIGEON_MARK, written, stdout);
        count -= written;
    }
}

static void receive(struct stewpigeon_receiver *receiver, const uint8_t *packet, size_t length)
{
    struct stewpigeon_step step;
    check(stewpigeon_receiver_step(receiver, packet, length, &step), "the step");
    print_marks(step.loss);
    fwrite(packet + step.from, 1, step.to - step.from, stdout);
}

int main(void)
{
    static const char *const words[] = {"buy ", "400 ", "May ", "wheat ", "at ", "612; ", "sell ", "20 ", "July ", "corn ", "at ", "431\n"};
    const size_t count = sizeof words / sizeof words[0];
    struct stewpigeon_sender sender;
    struct stewpigeon_receiver receiver;
    uint8_t packet[STEWPIGEON_LONGEST_WRITTEN];
    unsigned sent = 0;

    check(stewpigeon_sender_open(&sender, LEVEL, STEWPIGEON_BUFFERING_MS, STEWPIGEON_RATE, T140, RED, 65530, 1000, 0x5eed),
          "opening the sender");
    check(stewpigeon_receiver_open(&receiver, T140, RED), "opening the receiver");

    for (uint64_t clock = 0; clock < (count + LEVEL + 1) * STEWPIGEON_BUFFERING_MS; clock += STEWPIGEON_BUFFERING_MS) {
        size_t word = clock / STEWPIGEON_BUFFERING_MS;
        if (word < count)
            check(stewpigeon_sender_offer(&sender, clock, (const uint8_t *)words[word], strlen(words[word])), "the offer");
        int64_t length = stewpigeon_sender_clock(&sender, clock, packet, sizeof packet);
        if (length < 0)
            check((uint8_t)-length, "the clock call");
        if (length > 0 && !is_lost(sent++))
            receive(&receiver, packet, (size_t)length);
    }
    return 0;
}

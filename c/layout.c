/*
 * Holds the records of stewpigeon.h against the library: every field is where the library writes it, the library
 * writes nothing outside the records and the bytes that it is lent, and nothing at all where it refuses.
 */
#include <stddef.h>

#include "layout.h"

_Static_assert(sizeof(struct stewpigeon_receiver) == STEWPIGEON_RECEIVER_SIZE, "receiver");
_Static_assert(offsetof(struct stewpigeon_receiver, has_kept) == 3, "the second flag");
_Static_assert(offsetof(struct stewpigeon_receiver, kept) == 10, "the number kept");
_Static_assert(sizeof(struct stewpigeon_step) == STEWPIGEON_STEP_SIZE, "step");
_Static_assert(sizeof(struct stewpigeon_holding_receiver) == STEWPIGEON_HOLDING_RECEIVER_SIZE, "holding receiver");
_Static_assert(offsetof(struct stewpigeon_holding_receiver, has_held) == 12, "whether one is held");
_Static_assert(offsetof(struct stewpigeon_holding_receiver, held) == 14, "the number held");
_Static_assert(offsetof(struct stewpigeon_holding_receiver, arrival) == 16, "its arrival");
_Static_assert(offsetof(struct stewpigeon_holding_receiver, clock) == 24, "the clock");
_Static_assert(sizeof(struct stewpigeon_holding_step) == STEWPIGEON_HOLDING_STEP_SIZE, "holding step");
_Static_assert(offsetof(struct stewpigeon_holding_step, again) == 2, "whether to give it again");
_Static_assert(offsetof(struct stewpigeon_holding_step, step) == 8, "the step in it");
_Static_assert(sizeof(struct stewpigeon_sender_record) == STEWPIGEON_SENDER_RECORD_SIZE, "sender's record");
_Static_assert(offsetof(struct stewpigeon_sender_record, lens) == 80, "the lengths");
_Static_assert(offsetof(struct stewpigeon_sender_record, ats) == 80 + 8 * STEWPIGEON_LEVELS, "the times");
_Static_assert(offsetof(struct stewpigeon_sender_record, count) == 80 + 16 * STEWPIGEON_LEVELS, "their number");
_Static_assert(offsetof(struct stewpigeon_sender_record, progress) == 104 + 16 * STEWPIGEON_LEVELS, "the progress");
_Static_assert(sizeof(struct stewpigeon_sender) == STEWPIGEON_SENDER_SIZE, "sender");
_Static_assert(sizeof(struct stewpigeon_block) == 24, "older block");
_Static_assert(sizeof(struct stewpigeon_packet) == STEWPIGEON_PACKET_SIZE, "packet");
_Static_assert(offsetof(struct stewpigeon_packet, older) == 24, "the older blocks");
_Static_assert(offsetof(struct stewpigeon_packet, primary) == 24 + 24 * STEWPIGEON_LEVELS, "the primary");
_Static_assert(sizeof(struct stewpigeon_text_answer) == STEWPIGEON_TEXT_ANSWER_SIZE, "text answer");
_Static_assert(STEWPIGEON_LEVELS >= 1 && STEWPIGEON_LONGEST_WRITTEN <= STEWPIGEON_LONGEST, "1 to 7 repeats");
_Static_assert(STEWPIGEON_LONGEST_WRITTEN == 12 + 4 * STEWPIGEON_LEVELS + 1 + STEWPIGEON_TEXTS, "headers and texts");
_Static_assert(STEWPIGEON_LOG == 1000, "log");
_Static_assert(offsetof(struct stewpigeon_sender, texts) == STEWPIGEON_SENDER_RECORD_SIZE, "nothing between them");
_Static_assert(offsetof(struct stewpigeon_sender, log) == STEWPIGEON_SENDER_RECORD_SIZE + STEWPIGEON_TEXTS, "nor here");

uint8_t fill;

static void marks(void)
{
    uint8_t space[GUARD];
    memset(space, fill, sizeof space);
    EXPECT(stewpigeon_write_marks(5, space, 8) == 2);
    EXPECT(memcmp(space, "\xEF\xBF\xBD\xEF\xBF\xBD", 6) == 0 && are(space + 6, sizeof space - 6, fill));
}

int main(void)
{
    static const uint8_t fills[] = {0xA5, 0x5A, 0x00, 0x01, 0xFF};

    for (size_t i = 0; i < sizeof fills; i++) {
        fill = fills[i];
        layout_of_the_sender();
        layout_of_the_rate();
        layout_of_the_receiver();
        layout_of_the_holding_receiver();
        layout_of_the_reader();
        marks();
    }
    puts("layout: the records are the library's");
    return 0;
}

/* The receiver that holds. */
#include "layout.h"

enum { T140 = 98, RED = 100, LENGTH = 20 };

/* RED with one older block of two bytes and a primary of one. */
static const uint8_t pattern[LENGTH] = {0x80, 0x64, 0,    0,    0,    0,    0,    0,   0x11, 0x22,
                                        0x33, 0x44, 0xE2, 0x04, 0x00, 0x02, 0x62, 'a', 'b',  'c'};

static void number_packet(uint8_t *packet, unsigned number)
{
    memcpy(packet, pattern, LENGTH);
    packet[2] = (uint8_t)(number >> 8);
    packet[3] = (uint8_t)number;
}

/* The receiver of the packets handed out, with a number kept and without. */
#define KEEPING(expected, kept) {T140, RED, 1, 1, 0x11223344, expected, kept}
#define CLEARED(expected) {T140, RED, 1, 0, 0x11223344, expected, 0}

/* 5 is the newest number and 20,001 is kept, without and with a packet held. */
static const struct stewpigeon_holding_receiver none_held = {KEEPING(6, 20001), 0, 0, 0, 30};
static const struct stewpigeon_holding_receiver nine_held = {KEEPING(6, 20001), 1, 9, 10, 30};

/* Writes the fields, and fills what lies around and between them. */
static void lend(struct guarded_holding_receiver *line, const struct stewpigeon_holding_receiver *from)
{
    struct stewpigeon_holding_receiver *to = &line->record;

    FILLED(*line);
    to->receiver = from->receiver;
    to->has_held = from->has_held;
    to->held = from->held;
    to->arrival = from->arrival;
    to->clock = from->clock;
}

static bool is_receiver(const struct stewpigeon_holding_receiver *one, const struct stewpigeon_holding_receiver *other)
{
    const struct stewpigeon_receiver *a = &one->receiver, *b = &other->receiver;

    return a->t140 == b->t140 && a->red == b->red && a->has_source == b->has_source && a->has_kept == b->has_kept &&
           a->source == b->source && a->expected == b->expected && a->kept == b->kept &&
           one->has_held == other->has_held && one->held == other->held && one->arrival == other->arrival &&
           one->clock == other->clock;
}

static bool is_step(const struct stewpigeon_holding_step *one, const struct stewpigeon_holding_step *other)
{
    const struct stewpigeon_step *a = &one->step, *b = &other->step;

    return one->of == other->of && one->keep == other->keep && one->again == other->again && a->course == b->course &&
           a->loss == b->loss && a->distance == b->distance && a->older == b->older && a->given == b->given &&
           a->from == b->from && a->to == b->to;
}

enum { NEITHER = STEWPIGEON_NEITHER, HELD = STEWPIGEON_HELD, NEW = STEWPIGEON_NEW, NO_PACKET = -1 };

/* With a packet held, and without. */
#define HOLDS(receiver, held, arrival, clock) (struct stewpigeon_holding_receiver){receiver, 1, held, arrival, clock}
#define FREE(receiver, clock) (struct stewpigeon_holding_receiver){receiver, 0, 0, 0, clock}

#define STEP(of, keep, again, ...) (struct stewpigeon_holding_step){of, keep, again, {__VA_ARGS__}}
#define NOTHING(keep, course, distance) STEP(NEITHER, keep, 0, STEWPIGEON_##course, 0, distance, 0, 0, 0, 0)
#define ONE(of, keep, loss, distance) STEP(of, keep, 0, STEWPIGEON_FORWARD, loss, distance, 1, 1, 19, 20)
#define BOTH(of, keep, again, course, loss, distance) \
    STEP(of, keep, again, STEWPIGEON_##course, loss, distance, 1, 2, 17, 20)

/* Whether a call, with a packet of this number or without one, leaves these records. */
static bool leaves(const struct stewpigeon_holding_receiver *before, uint64_t clock, int number,
                   struct stewpigeon_holding_receiver after, struct stewpigeon_holding_step told)
{
    struct guarded_holding_receiver line;
    struct guarded_holding_step step;
    uint8_t held[LENGTH], packet[LENGTH];

    lend(&line, before);
    FILLED(step);
    number_packet(held, before->held);
    number_packet(packet, (unsigned)number);
    if (number == NO_PACKET)
        EXPECT(stewpigeon_holding_receiver_wait(&line.record, clock, held, LENGTH, &step.record) == 0);
    else
        EXPECT(stewpigeon_holding_receiver_step(&line.record, clock, held, LENGTH, packet, LENGTH, &step.record) == 0);
    EXPECT(UNTOUCHED(line) && UNTOUCHED(step));
    return is_receiver(&line.record, &after) && is_step(&step.record, &told);
}

static void with_none_held(void)
{
    const struct stewpigeon_holding_receiver *line = &none_held;

    EXPECT(leaves(line, 31, 6, FREE(CLEARED(7), 31), ONE(NEW, NEITHER, 0, 0)));
    EXPECT(leaves(line, 31, 7, FREE(CLEARED(8), 31), BOTH(NEW, NEITHER, 0, FORWARD, 0, 1)));
    EXPECT(leaves(line, 31, 8, HOLDS(CLEARED(6), 8, 31, 31), NOTHING(NEW, FORWARD, 2)));
    EXPECT(leaves(line, 31, 5, FREE(KEEPING(6, 20001), 31), NOTHING(NEITHER, LATE, -1)));
    EXPECT(leaves(line, 31, 30000, FREE(KEEPING(6, 30001), 31), NOTHING(NEITHER, JUMP, 29994)));
    EXPECT(leaves(line, 31, 20001, FREE(CLEARED(20002), 31), BOTH(NEW, NEITHER, 0, BREAK, 0, 0)));
    EXPECT(leaves(line, 30, NO_PACKET, FREE(KEEPING(6, 20001), 30), NOTHING(NEITHER, FORWARD, 0)));
}

static void with_one_held(void)
{
    const struct stewpigeon_holding_receiver *line = &nine_held, closed = HOLDS(CLEARED(8), 9, 10, 30);

    EXPECT(leaves(line, 31, 6, HOLDS(CLEARED(7), 9, 10, 31), ONE(NEW, HELD, 0, 0)));
    EXPECT(leaves(line, 31, 8, HOLDS(CLEARED(9), 9, 10, 31), BOTH(NEW, HELD, 0, FORWARD, 1, 2)));
    EXPECT(leaves(line, 31, 11, HOLDS(CLEARED(10), 11, 31, 31), BOTH(HELD, NEW, 0, FORWARD, 2, 3)));
    EXPECT(leaves(line, 31, 9, HOLDS(KEEPING(6, 20001), 9, 10, 31), NOTHING(HELD, LATE, 3)));
    EXPECT(leaves(line, 5000, 4, HOLDS(KEEPING(6, 20001), 9, 10, 5000), NOTHING(HELD, LATE, -2)));
    EXPECT(leaves(line, 5000, 30000, HOLDS(KEEPING(6, 30001), 9, 10, 5000), NOTHING(HELD, JUMP, 29994)));
    EXPECT(leaves(line, 31, 20001, FREE(KEEPING(10, 20001), 31), BOTH(HELD, NEITHER, 1, FORWARD, 2, 3)));
    EXPECT(leaves(line, 1009, NO_PACKET, HOLDS(KEEPING(6, 20001), 9, 10, 1009), NOTHING(HELD, FORWARD, 0)));
    EXPECT(leaves(line, 1010, NO_PACKET, FREE(KEEPING(10, 20001), 1010), BOTH(HELD, NEITHER, 0, FORWARD, 2, 3)));
    EXPECT(leaves(&closed, 30, NO_PACKET, FREE(CLEARED(10), 30), BOTH(HELD, NEITHER, 0, FORWARD, 0, 1)));
}

/* Records such as no call leaves: a held packet goes by its distance alone, and any flag but 0 is true. */
static void any_values(void)
{
    struct stewpigeon_holding_receiver line = nine_held;
    const struct stewpigeon_holding_receiver behind = HOLDS(CLEARED(10), 9, 10, 30);

    line.receiver.has_source = 0;
    EXPECT(leaves(&line, 31, 7, HOLDS(CLEARED(8), 9, 10, 31), BOTH(NEW, HELD, 0, FORWARD, 0, 0)));
    EXPECT(leaves(&line, 1010, NO_PACKET, FREE(KEEPING(10, 20001), 1010), BOTH(HELD, NEITHER, 0, FORWARD, 2, 3)));
    EXPECT(leaves(&behind, 1009, NO_PACKET, HOLDS(CLEARED(10), 9, 10, 1009), NOTHING(HELD, FORWARD, 0)));
    EXPECT(leaves(&behind, 1010, NO_PACKET, FREE(CLEARED(10), 1010), BOTH(HELD, NEITHER, 0, FORWARD, 65534, -1)));
    line = nine_held;
    for (unsigned flag = 1; flag < 256; flag++) {
        line.has_held = (uint8_t)flag;
        EXPECT(leaves(&line, 1010, NO_PACKET, FREE(KEEPING(10, 20001), 1010), BOTH(HELD, NEITHER, 0, FORWARD, 2, 3)));
    }
}

/* A call that is refused leaves both records. */
static uint8_t refused(const struct stewpigeon_holding_receiver *before, uint64_t clock, unsigned held_number,
                       size_t held_length, size_t length)
{
    struct guarded_holding_receiver line, earlier;
    struct guarded_holding_step step;
    uint8_t held[LENGTH], packet[LENGTH], number, waited;

    lend(&line, before);
    KEEP(earlier, line);
    FILLED(step);
    number_packet(held, held_number);
    number_packet(packet, 6);
    number = stewpigeon_holding_receiver_step(&line.record, clock, held, held_length, packet, length, &step.record);
    EXPECT(number != 0 && SAME(earlier, line) && STILL_FILLED(step));
    if (number == STEWPIGEON_REFUSED_SHORT)
        return number;
    waited = stewpigeon_holding_receiver_wait(&line.record, clock, held, held_length, &step.record);
    EXPECT(waited == number && SAME(earlier, line) && STILL_FILLED(step));
    return number;
}

static void refusals(void)
{
    struct stewpigeon_holding_receiver line = nine_held;

    EXPECT(refused(&none_held, 29, 9, LENGTH, LENGTH) == STEWPIGEON_REFUSED_CLOCK);
    EXPECT(refused(&nine_held, 29, 9, LENGTH, LENGTH) == STEWPIGEON_REFUSED_CLOCK);
    EXPECT(refused(&nine_held, 29, 7, 0, 0) == STEWPIGEON_REFUSED_CLOCK);
    EXPECT(refused(&nine_held, 30, 7, LENGTH, LENGTH) == STEWPIGEON_REFUSED_HELD_PACKET);
    EXPECT(refused(&nine_held, 9999, 7, LENGTH, 0) == STEWPIGEON_REFUSED_HELD_PACKET);
    EXPECT(refused(&nine_held, 9999, 9, 11, LENGTH) == STEWPIGEON_REFUSED_HELD_PACKET);
    EXPECT(refused(&nine_held, 9999, 9, LENGTH, 0) == STEWPIGEON_REFUSED_SHORT);
    EXPECT(refused(&none_held, 9999, 9, 0, 0) == STEWPIGEON_REFUSED_SHORT);
    for (unsigned flag = 1; flag < 256; flag++) {
        line.has_held = (uint8_t)flag;
        EXPECT(refused(&line, 9999, 7, LENGTH, LENGTH) == STEWPIGEON_REFUSED_HELD_PACKET);
    }
    line.receiver.source = 7;
    EXPECT(refused(&line, 9999, 9, LENGTH, LENGTH) == STEWPIGEON_REFUSED_HELD_PACKET);
    line.receiver.red = T140;
    EXPECT(refused(&line, 29, 7, 0, 0) == STEWPIGEON_REFUSED_PAYLOAD_TYPES);
}

static void openings(void)
{
    static const struct stewpigeon_holding_receiver zeros, fresh = {{T140, RED, 0, 0, 0, 0, 0}, 0, 0, 0, 0};
    struct guarded_holding_receiver line;

    FILLED(line);
    EXPECT(stewpigeon_holding_receiver_open(&line.record, T140, RED) == 0);
    EXPECT(UNTOUCHED(line) && is_receiver(&line.record, &fresh));
    FILLED(line);
    EXPECT(stewpigeon_holding_receiver_open(&line.record, T140, T140) == STEWPIGEON_REFUSED_PAYLOAD_TYPES);
    EXPECT(UNTOUCHED(line) && is_receiver(&line.record, &zeros));
}

void layout_of_the_holding_receiver(void)
{
    openings();
    with_none_held();
    with_one_held();
    any_values();
    refusals();
}

/* The receiver. */
#include "layout.h"

enum { T140 = 98, RED = 100 };

/* RED with one older block and this sequence number. */
#define PACKET(number)                                                                                               \
    {                                                                                                                \
        0x80, 0x64, (number) >> 8, (number) & 0xFF, 0, 0, 0, 0, 0x11, 0x22, 0x33, 0x44, 0xE2, 0x04, 0x00, 0x02, 0x62, \
            'a', 'b', 'c'                                                                                            \
    }

enum { LENGTH = 20 };

static const uint8_t first[LENGTH] = PACKET(0x1234);
static const uint8_t fourth[LENGTH] = PACKET(0x1237);
static const uint8_t distant[LENGTH] = PACKET(0x5678);
static const uint8_t after_distant[LENGTH] = PACKET(0x5679);
static const uint8_t zeros[STEWPIGEON_LONGEST + 1];

static void open(struct guarded_receiver *line)
{
    const struct stewpigeon_receiver *receiver = &line->record;

    FILLED(*line);
    EXPECT(stewpigeon_receiver_open(&line->record, T140, RED) == 0);
    EXPECT(UNTOUCHED(*line));
    EXPECT(receiver->t140 == T140 && receiver->red == RED && receiver->has_source == 0 && receiver->has_kept == 0);
    EXPECT(receiver->source == 0 && receiver->expected == 0 && receiver->kept == 0);
}

/* A packet that is accepted. */
static void accepted(struct guarded_receiver *line, const uint8_t *packet, struct guarded_step *step)
{
    FILLED(*step);
    EXPECT(stewpigeon_receiver_step(&line->record, packet, LENGTH, &step->record) == 0);
    EXPECT(UNTOUCHED(*line) && UNTOUCHED(*step));
}

/* Forward, or a break: both blocks are given, and no number is kept. */
static void gave(const struct guarded_receiver *line, uint16_t expected, const struct guarded_step *step)
{
    const struct stewpigeon_receiver *receiver = &line->record;

    EXPECT(receiver->t140 == T140 && receiver->red == RED && receiver->has_source == 1 && receiver->has_kept == 0);
    EXPECT(receiver->source == 0x11223344 && receiver->expected == expected && receiver->kept == 0);
    EXPECT(step->record.older == 1 && step->record.given == 2 && step->record.from == 17 && step->record.to == 20);
}

/* Late, or a jump. */
static void gave_nothing(const struct guarded_step *step)
{
    EXPECT(step->record.loss == 0 && step->record.older == 0 && step->record.given == 0);
    EXPECT(step->record.from == 0 && step->record.to == 0);
}

/* A jump: its number plus 1 is kept. */
static void jumped(const struct guarded_receiver *line, uint16_t expected, uint16_t kept,
                   const struct guarded_step *step)
{
    const struct stewpigeon_receiver *receiver = &line->record;

    EXPECT(receiver->t140 == T140 && receiver->red == RED && receiver->has_source == 1 && receiver->has_kept == 1);
    EXPECT(receiver->source == 0x11223344 && receiver->expected == expected && receiver->kept == kept);
    EXPECT(step->record.course == STEWPIGEON_JUMP);
    gave_nothing(step);
}

static void every_field(void)
{
    struct guarded_receiver line, earlier;
    struct guarded_step told;
    const struct stewpigeon_step *step = &told.record;

    open(&line);
    accepted(&line, first, &told);
    gave(&line, 0x1235, &told);
    EXPECT(step->course == STEWPIGEON_FORWARD && step->loss == 0 && step->distance == 0);

    accepted(&line, fourth, &told);
    gave(&line, 0x1238, &told);
    EXPECT(step->course == STEWPIGEON_FORWARD && step->loss == 1 && step->distance == 2);

    accepted(&line, distant, &told);
    jumped(&line, 0x1238, 0x5679, &told);
    EXPECT(step->distance == 0x4440);

    KEEP(earlier, line);
    accepted(&line, first, &told);
    EXPECT(SAME(earlier, line));
    EXPECT(step->course == STEWPIGEON_LATE && step->distance == -4);
    gave_nothing(&told);

    accepted(&line, after_distant, &told);
    gave(&line, 0x567A, &told);
    EXPECT(step->course == STEWPIGEON_BREAK && step->loss == 0 && step->distance == 0);

    accepted(&line, fourth, &told);
    jumped(&line, 0x567A, 0x1238, &told);
    EXPECT(step->distance == -0x4443);
}

static uint8_t refused(struct guarded_receiver *line, const uint8_t *packet, size_t length)
{
    struct guarded_receiver earlier;
    struct guarded_step step;
    uint8_t number;

    KEEP(earlier, *line);
    FILLED(step);
    number = stewpigeon_receiver_step(&line->record, packet, length, &step.record);
    EXPECT(SAME(earlier, *line) && STILL_FILLED(step));
    return number;
}

/* The first packet with one byte changed. */
static uint8_t changed(struct guarded_receiver *line, size_t place, uint8_t value)
{
    uint8_t packet[LENGTH];

    memcpy(packet, first, sizeof packet);
    packet[place] = value;
    return refused(line, packet, sizeof packet);
}

/* Refused packets leave receiver and step, fresh or not. */
static void refusals(void)
{
    struct guarded_receiver line;
    struct guarded_step step;

    open(&line);
    for (int heard = 0; heard < 2; heard++) {
        EXPECT(refused(&line, first, 11) == STEWPIGEON_REFUSED_SHORT);
        EXPECT(refused(&line, zeros, sizeof zeros) == STEWPIGEON_REFUSED_LONG);
        EXPECT(changed(&line, 0, 0x40) == STEWPIGEON_REFUSED_VERSION);
        EXPECT(changed(&line, 0, 0x8F) == STEWPIGEON_REFUSED_HEADER);
        EXPECT(changed(&line, 0, 0xA0) == STEWPIGEON_REFUSED_PADDING);
        EXPECT(changed(&line, 1, 99) == STEWPIGEON_REFUSED_PAYLOAD_TYPE);
        EXPECT(refused(&line, first, 16) == STEWPIGEON_REFUSED_BLOCK_HEADERS);
        EXPECT(changed(&line, 12, 0xE3) == STEWPIGEON_REFUSED_BLOCK_TYPE);
        EXPECT(changed(&line, 15, 4) == STEWPIGEON_REFUSED_BLOCK_LENGTHS);
        EXPECT(changed(&line, 13, 0) == STEWPIGEON_REFUSED_BLOCK_AGES);
        EXPECT(changed(&line, 19, 0xFF) == STEWPIGEON_REFUSED_BLOCK_TEXT);
        accepted(&line, first, &step);
        EXPECT(changed(&line, 8, 0x12) == STEWPIGEON_REFUSED_SOURCE);
    }

    FILLED(line);
    EXPECT(stewpigeon_receiver_open(&line.record, T140, T140) == STEWPIGEON_REFUSED_PAYLOAD_TYPES);
    EXPECT(UNTOUCHED(line));
    EXPECT(are((const uint8_t *)&line.record, sizeof line.record, 0));
    EXPECT(refused(&line, first, LENGTH) == STEWPIGEON_REFUSED_PAYLOAD_TYPES);
}

/* A receiver that expects the first packet and keeps the distant one's number, with these bytes in its flags. */
static void flagged(struct guarded_receiver *line, unsigned has_source, unsigned has_kept)
{
    open(line);
    line->record.has_source = (uint8_t)has_source;
    line->record.has_kept = (uint8_t)has_kept;
    line->record.source = 0x11223344;
    line->record.expected = 0x1234;
    line->record.kept = 0x5678;
}

/* 0 is false, all else true: refused and late packets leave the bytes, and all others make them 0 or 1. */
static void flags(unsigned has_source, unsigned has_kept)
{
    struct guarded_receiver line, earlier;
    struct guarded_step step;

    flagged(&line, has_source, has_kept);
    EXPECT(refused(&line, first, 11) == STEWPIGEON_REFUSED_SHORT);
    if (has_source != 0)
        EXPECT(changed(&line, 8, 0x12) == STEWPIGEON_REFUSED_SOURCE);
    accepted(&line, fourth, &step);
    gave(&line, 0x1238, &step);
    EXPECT(step.record.course == STEWPIGEON_FORWARD);
    EXPECT(step.record.loss == (has_source == 0 ? 0 : 2) && step.record.distance == (has_source == 0 ? 0 : 3));

    flagged(&line, has_source, has_kept);
    line.record.expected = 0x1235;
    KEEP(earlier, line);
    accepted(&line, first, &step);
    EXPECT(step.record.course == (has_source == 0 ? STEWPIGEON_FORWARD : STEWPIGEON_LATE));
    EXPECT(step.record.distance == (has_source == 0 ? 0 : -1));
    EXPECT(has_source == 0 || SAME(earlier, line));

    flagged(&line, has_source, has_kept);
    accepted(&line, after_distant, &step);
    if (has_source == 0)
        gave(&line, 0x567A, &step);
    else
        jumped(&line, 0x1234, 0x567A, &step);

    flagged(&line, has_source, has_kept);
    accepted(&line, distant, &step);
    if (has_source != 0 && has_kept == 0) {
        jumped(&line, 0x1234, 0x5679, &step);
    } else {
        gave(&line, 0x5679, &step);
        EXPECT(step.record.course == (has_source == 0 ? STEWPIGEON_FORWARD : STEWPIGEON_BREAK));
        EXPECT(step.record.loss == 0 && step.record.distance == 0);
    }
}

static void every_flag(void)
{
    for (unsigned flag = 0; flag < 256; flag++) {
        flags(flag, 0);
        flags(flag, 1);
        flags(0, flag);
        flags(1, flag);
        flags(flag, flag);
    }
}

void layout_of_the_receiver(void)
{
    every_field();
    refusals();
    every_flag();
}

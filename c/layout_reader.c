/* The packet reader and the UTF-8 check. */
#include "layout.h"

enum { T140 = 98, RED = 100, MOST = STEWPIGEON_LEVELS, HEADERS = 12, LETTERS = 4 };

/* Older block k of so many: the time offsets fall from the highest one, and the lengths are 0 to 3. */
static uint16_t offset_of(size_t k, size_t count)
{
    return (uint16_t)(k == 0 ? 16383 : 200 * (count - k) - 199);
}

static uint8_t length_of(size_t k)
{
    return (k + 1) % 4;
}

static void date(uint8_t *header, uint16_t offset)
{
    header[1] = (uint8_t)(offset >> 6);
    header[2] = (uint8_t)(offset << 2);
}

/* Writes a packet of so many older blocks, M set where they are as many as there may be. Gives its length. */
static size_t make(uint8_t *bytes, size_t count)
{
    static const uint8_t start[HEADERS] = {0x80, RED, 0x12, 0x34, 0x01, 0x02, 0x03, 0x04, 0x11, 0x22, 0x33, 0x44};
    size_t end = HEADERS + 4 * count + 1;
    size_t letters = LETTERS;

    memcpy(bytes, start, sizeof start);
    if (count == MOST)
        bytes[1] |= 0x80;
    for (size_t k = 0; k < count; k++) {
        uint8_t *header = bytes + HEADERS + 4 * k;
        header[0] = 0x80 | T140;
        date(header, offset_of(k, count));
        header[3] = length_of(k);
        letters += length_of(k);
    }
    bytes[end - 1] = T140;
    memset(bytes + end, 'x', letters);
    return end + letters;
}

static bool is_block(const struct stewpigeon_block *block, uint16_t offset, size_t at, size_t len)
{
    return block->offset == offset && block->at == at && block->len == len;
}

/* With every number of older blocks: those past the count are zeros. */
static void every_field(void)
{
    uint8_t bytes[STEWPIGEON_LONGEST];
    struct guarded_packet answer;
    const struct stewpigeon_packet *packet = &answer.record;

    for (size_t count = 0; count <= MOST; count++) {
        size_t end = make(bytes, count), at = HEADERS + 4 * count + 1;
        bool most = count == MOST;
        FILLED(answer);
        EXPECT(stewpigeon_read(most, most ? 0x11223344 : 7, T140, RED, bytes, end, &answer.record) == 0);
        EXPECT(UNTOUCHED(answer));
        EXPECT(packet->marker == most && packet->sequence == 0x1234 && packet->timestamp == 0x01020304);
        EXPECT(packet->source == 0x11223344 && packet->count == count);
        for (size_t k = 0; k < count; at += length_of(k++))
            EXPECT(is_block(&packet->older[k], offset_of(k, count), at, length_of(k)));
        for (size_t k = count; k < MOST; k++)
            EXPECT(is_block(&packet->older[k], 0, 0, 0));
        EXPECT(packet->primary == at && packet->end == end && end == at + LETTERS);
    }
}

static uint8_t refused(uint8_t expects, uint8_t t140, const uint8_t *bytes, size_t length)
{
    struct guarded_packet answer;
    uint8_t kept[STEWPIGEON_LONGEST + 1], lent[STEWPIGEON_LONGEST + 1], number;

    memset(lent, fill, sizeof lent);
    memcpy(lent, bytes, length);
    memcpy(kept, lent, sizeof kept);
    FILLED(answer);
    number = stewpigeon_read(expects, 7, t140, RED, lent, length, &answer.record);
    EXPECT(STILL_FILLED(answer) && memcmp(lent, kept, sizeof kept) == 0);
    return number;
}

/* The packet of all older blocks with one byte changed. */
static uint8_t changed(size_t place, uint8_t value, size_t length)
{
    uint8_t bytes[STEWPIGEON_LONGEST];

    make(bytes, MOST);
    bytes[place] = value;
    return refused(0, T140, bytes, length);
}

/* And with one block's time offset changed. */
static uint8_t dated(size_t k, uint16_t offset, size_t length)
{
    uint8_t bytes[STEWPIGEON_LONGEST];

    make(bytes, MOST);
    date(bytes + HEADERS + 4 * k, offset);
    return refused(0, T140, bytes, length);
}

/* Each refusal leaves the answer as it was. */
static void refusals(void)
{
    enum { LAST = HEADERS + 4 * MOST }; /* where the primary's header is */
    static const uint8_t zeros[STEWPIGEON_LONGEST + 1];
    uint8_t bytes[STEWPIGEON_LONGEST];
    const size_t all = make(bytes, MOST);

    EXPECT(refused(0, RED, bytes, all) == STEWPIGEON_REFUSED_PAYLOAD_TYPES);
    EXPECT(refused(0, T140, bytes, 11) == STEWPIGEON_REFUSED_SHORT);
    EXPECT(refused(0, T140, zeros, sizeof zeros) == STEWPIGEON_REFUSED_LONG);
    EXPECT(changed(0, 0x40, all) == STEWPIGEON_REFUSED_VERSION);
    EXPECT(changed(0, 0x8F, all) == STEWPIGEON_REFUSED_HEADER);
    EXPECT(changed(0, 0xA0, all) == STEWPIGEON_REFUSED_PADDING);
    EXPECT(changed(1, 99, all) == STEWPIGEON_REFUSED_PAYLOAD_TYPE);
    EXPECT(refused(1, T140, bytes, all) == STEWPIGEON_REFUSED_SOURCE);
    EXPECT(refused(255, T140, bytes, all) == STEWPIGEON_REFUSED_SOURCE);
    EXPECT(refused(0, T140, bytes, LAST) == STEWPIGEON_REFUSED_BLOCK_HEADERS);
    EXPECT(changed(LAST, 0xE2, all) == STEWPIGEON_REFUSED_BLOCK_COUNT);
    EXPECT(changed(LAST, 0xE2, LAST + 1) == STEWPIGEON_REFUSED_BLOCK_COUNT);
    EXPECT(changed(LAST, 0xE1, LAST + 4) == STEWPIGEON_REFUSED_BLOCK_COUNT);
    EXPECT(changed(LAST, 0x61, LAST + 1) == STEWPIGEON_REFUSED_BLOCK_TYPE);
    EXPECT(changed(LAST - 1, 99, all) == STEWPIGEON_REFUSED_BLOCK_LENGTHS);
    EXPECT(dated(MOST - 1, 0, all) == STEWPIGEON_REFUSED_BLOCK_AGES);
    EXPECT(MOST == 1 || dated(MOST - 1, 16383, all) == STEWPIGEON_REFUSED_BLOCK_AGES); /* not below the one before it */
    EXPECT(dated(MOST - 1, 0, all - LETTERS - 1) == STEWPIGEON_REFUSED_BLOCK_LENGTHS);
    EXPECT(changed(all - 1, 0xFF, all) == STEWPIGEON_REFUSED_BLOCK_TEXT);
}

#define A15 "AAAAAAAAAAAAAAA"
#define A63 A15 "A" A15 "A" A15 "A" A15
#define A64 A63 "A"
#define B16 "BBBBBBBBBBBBBBBB"
#define B64 B16 B16 B16 B16

static void text(const char *bytes, size_t length, uint8_t is_text, size_t characters, size_t place)
{
    struct guarded_text_answer answer;

    FILLED(answer);
    stewpigeon_text((const uint8_t *)bytes, length, &answer.record);
    EXPECT(UNTOUCHED(answer));
    EXPECT(answer.record.is_text == is_text);
    EXPECT(answer.record.characters == characters && answer.record.place == place);
}

void layout_of_the_reader(void)
{
    every_field();
    refusals();
    text("", 0, 1, 0, 0);
    text("A\xC3\xA9\xE2\x82\xAC", 6, 1, 3, 0);
    text("\xFF", 1, 0, 0, 0);
    text("A\xED\xA0\x80", 4, 0, 0, 2);
    text("AB\xE2\x82", 4, 0, 0, 4);
    text("\x7F", 1, 1, 1, 0);
    text("\x80", 1, 0, 0, 0);
    text(A64, 64, 1, 64, 0);
    text(A63 "\x80", 64, 0, 0, 63);
    text(A64 "\xC3", 65, 0, 0, 65);
    text(A64 "\xC3\xA5", 66, 1, 65, 0);
    text(A63 "\xC3\xA5" B64, 129, 1, 128, 0);
    text("\xE2\x82" A64, 66, 0, 0, 2);
    text(A64 A63 "\xFF", 128, 0, 0, 127);
}

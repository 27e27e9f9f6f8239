/* The rate and the log of a sender. */
#include "layout_sender.h"

static const uint8_t letters[] = "abcdefghijklmnopqrstuvwxyz";

/* A packet with so many bytes of new text, which are these; `older` bytes lie between its header and them. */
static void sends(struct parts *parts, uint64_t clock, size_t older, const uint8_t *text, size_t len)
{
    uint8_t packet[STEWPIGEON_LONGEST];
    size_t start = 12 + older + 1;

    EXPECT(clock_call(parts, clock, packet, sizeof packet) == (int64_t)(start + len));
    EXPECT(memcmp(packet + start, text, len) == 0);
    EXPECT(ALL_UNTOUCHED(*parts));
    EXPECT(parts->line.record.clock == clock && parts->line.record.progress.last == clock);
}

/* Slots of the log from one on, so many, hold this clock. */
static bool hold(const struct parts *parts, size_t slot, size_t count, uint64_t clock)
{
    for (size_t i = slot; i < slot + count; i++)
        if (parts->log.record[i] != clock)
            return false;
    return true;
}

/* At rate 1 ten slots are used, in a circle. */
static void circle(void)
{
    struct parts parts;
    const struct stewpigeon_sender_record *sender = &parts.line.record;
    uint8_t texts[STEWPIGEON_TEXTS];

    opened_fields(&parts, 1);
    memset(texts, fill, sizeof texts);
    memcpy(texts, letters, 25);
    EXPECT(offer(&parts, 0, letters, 25) == 0);
    EXPECT(sender->len == 25 && sender->characters == 25);

    /* What a packet leaves behind lies in front of the next slot. */
    sends(&parts, 7, 0, letters, 10);
    memcpy(texts + STEWPIGEON_ROOM, letters + 10, 15);
    EXPECT(memcmp(parts.texts.record, texts, sizeof texts) == 0);
    EXPECT(sender->room == 1 && sender->len == 15 && sender->characters == 15 && sender->since == 7);
    EXPECT(sender->lens[0] == 10 && sender->ats[0] == 7 && sender->count == 1);
    EXPECT(sender->pace.next == 0 && sender->pace.used == 10);
    EXPECT(hold(&parts, 0, 10, 7) && unused(&parts, 10));

    /* Repeats go on while text waits, and spend nothing. */
    for (size_t k = 1; k <= STEWPIGEON_LEVELS; k++) {
        size_t slot = (k + 1) % (STEWPIGEON_LEVELS + 1);
        sends(&parts, 7 + 300 * k, 10 + 4 * k, letters, 0);
        memcpy(texts + STEWPIGEON_ROOM * slot, letters + 10, 15);
        EXPECT(memcmp(parts.texts.record, texts, sizeof texts) == 0);
        EXPECT(sender->room == slot && sender->len == 15 && sender->characters == 15 && sender->since == 7);
        EXPECT(sender->lens[0] == 0 && sender->progress.last_text == 7);
        EXPECT(k == STEWPIGEON_LEVELS || sender->lens[k] == 10);
        EXPECT(sender->pace.next == 0 && sender->pace.used == 10);
        EXPECT(hold(&parts, 0, 10, 7) && unused(&parts, 10));
    }
    quiet(&parts, 7 + 300 * (STEWPIGEON_LEVELS + 1));
    quiet(&parts, 10007);

    sends(&parts, 10008, 4 * STEWPIGEON_LEVELS, letters + 10, 10);
    EXPECT(sender->len == 5 && sender->characters == 5 && sender->since == 10008);
    EXPECT(sender->pace.next == 0 && sender->pace.used == 10);
    EXPECT(hold(&parts, 0, 10, 10008) && unused(&parts, 10));

    /* Half the circle, and then over its end. */
    sends(&parts, 20009, 4 + 10, letters + 20, 5);
    EXPECT(sender->pace.next == 5 && sender->pace.used == 10);
    EXPECT(hold(&parts, 0, 5, 20009) && hold(&parts, 5, 5, 10008) && unused(&parts, 10));
    EXPECT(offer(&parts, 20009, letters, 26) == 0);
    sends(&parts, 20309, STEWPIGEON_LEVELS == 1 ? 4 + 5 : 4 + 5 + 4 + 10, letters, 5);
    EXPECT(sender->len == 21 && sender->characters == 21 && sender->since == 20309);
    EXPECT(sender->pace.next == 0 && sender->pace.used == 10);
    EXPECT(hold(&parts, 0, 5, 20009) && hold(&parts, 5, 5, 20309) && unused(&parts, 10));
}

/* At the highest rate every slot is used. */
static void whole_log(void)
{
    struct parts parts;
    const struct stewpigeon_sender_record *sender = &parts.line.record;
    uint8_t packet[STEWPIGEON_LONGEST], text[100];

    opened_fields(&parts, STEWPIGEON_HIGHEST_RATE);
    memset(text, 'A', sizeof text);
    for (size_t k = 0; k < 10; k++) {
        EXPECT(sender->pace.next == 100 * k && sender->pace.used == 100 * k && unused(&parts, 100 * k));
        EXPECT(offer(&parts, 300 * k, text, sizeof text) == 0);
        EXPECT(clock_call(&parts, 300 * k, packet, sizeof packet) > 0);
        EXPECT(hold(&parts, 100 * k, 100, 300 * k) && ALL_UNTOUCHED(parts));
    }
    EXPECT(sender->pace.next == 0 && sender->pace.used == STEWPIGEON_LOG);
    EXPECT(offer(&parts, 2700, text, 1) == 0);
    for (size_t k = 1; k <= STEWPIGEON_LEVELS; k++) {
        EXPECT(clock_call(&parts, 2700 + 300 * k, packet, sizeof packet) > 0);
        EXPECT(sender->len == 1 && sender->since == 2700);
    }
    quiet(&parts, 10000);
    EXPECT(clock_call(&parts, 10001, packet, sizeof packet) > 0);
    EXPECT(sender->len == 0 && sender->pace.next == 1 && sender->pace.used == STEWPIGEON_LOG);
    EXPECT(hold(&parts, 0, 1, 10001) && hold(&parts, 1, 99, 0));
}

/* 9 is answered at the opening, and on every call; nothing of a rate is cut off. */
static void bad_rates(void)
{
    static const size_t bad[] = {0, STEWPIGEON_HIGHEST_RATE + 1, 257, 65537, SIZE_MAX};
    struct parts parts, kept;
    struct stewpigeon_sender_record *sender = &parts.line.record;
    uint8_t space[STEWPIGEON_LONGEST];

    memset(space, fill, sizeof space);
    for (size_t i = 0; i < sizeof bad / sizeof bad[0]; i++) {
        FILLED(parts);
        EXPECT(stewpigeon_sender_open_in(sender, parts.texts.record, 0, 1, bad[i], 98, 100, 1, 1, 1) ==
               STEWPIGEON_REFUSED_RATE);
        EXPECT(ALL_UNTOUCHED(parts) && STILL_FILLED(parts.log) && are(parts.texts.record, STEWPIGEON_TEXTS, 0));
        EXPECT(sender->settings.rate == 0 && sender->settings.t140 == 0 && sender->pace.used == 0);
        EXPECT(stewpigeon_sender_open_in(sender, parts.texts.record, 0, 1, bad[i], 98, 98, 1, 1, 1) ==
               STEWPIGEON_REFUSED_PAYLOAD_TYPES);
        EXPECT(stewpigeon_sender_open_in(sender, parts.texts.record, 0, 0, bad[i], 98, 98, 1, 1, 1) ==
               STEWPIGEON_REFUSED_BUFFERING);

        opened_fields(&parts, 1);
        EXPECT(offer(&parts, 0, letters, 3) == 0);
        sender->settings.rate = bad[i];
        refilled(&parts.line);
        KEEP(kept, parts);
        EXPECT(offer(&parts, 1, letters, 1) == STEWPIGEON_REFUSED_RATE);
        EXPECT(clock_call(&parts, 1, space, sizeof space) == -STEWPIGEON_REFUSED_RATE);
        EXPECT(SAME(kept, parts) && are(space, sizeof space, fill));
    }
}

/* Letters of several bytes are one each, and a refused call spends nothing. */
static void fronts(void)
{
    static const uint8_t text[] = "\xC3\xA5\xE2\x82\xAC\xF0\x9F\x98\x80" "abcdefg" "\xC3\xA5";
    struct parts parts, kept;
    struct stewpigeon_sender_record *sender = &parts.line.record;
    uint8_t space[STEWPIGEON_LONGEST];

    opened_fields(&parts, 1);
    EXPECT(offer(&parts, 0, text, 18) == 0);
    EXPECT(sender->len == 18 && sender->characters == 11);
    memset(space, fill, sizeof space);
    refilled(&parts.line);
    KEEP(kept, parts);
    EXPECT(clock_call(&parts, 0, space, 12 + 1 + 15) == -STEWPIGEON_REFUSED_SPACE);
    EXPECT(SAME(kept, parts) && are(space, sizeof space, fill));
    sends(&parts, 0, 0, text, 16);
    EXPECT(sender->len == 2 && sender->characters == 1 && sender->pace.used == 10);
    EXPECT(memcmp(parts.texts.record + STEWPIGEON_ROOM, text + 16, 2) == 0);
}

void layout_of_the_rate(void)
{
    circle();
    whole_log();
    bad_rates();
    fronts();
}

/* The sender, its record, texts and log lent apart. */
#include "layout_sender.h"

void opened_fields(struct parts *parts, size_t rate)
{
    const struct stewpigeon_sender_record *sender = &parts->line.record;
    uint8_t *texts = parts->texts.record;

    FILLED(*parts);
    EXPECT(stewpigeon_sender_open_in(&parts->line.record, texts, STEWPIGEON_LEVELS, 300, rate, 98, 100, 65535, 1000,
                                     0x11223344) == 0);
    EXPECT(ALL_UNTOUCHED(*parts) && STILL_FILLED(parts->log));
    EXPECT(sender->settings.level == STEWPIGEON_LEVELS);
    EXPECT(sender->settings.buffering == 300 && sender->settings.rate == rate);
    EXPECT(sender->settings.t140 == 98 && sender->settings.red == 100);
    EXPECT(sender->settings.sequence == 65535 && sender->settings.timestamp == 1000);
    EXPECT(sender->settings.source == 0x11223344);
    EXPECT(sender->clock == 0 && sender->count == 0);
    EXPECT(sender->room == 0 && sender->len == 0 && sender->characters == 0 && sender->since == 0);
    for (size_t k = 0; k < STEWPIGEON_LEVELS; k++)
        EXPECT(sender->lens[k] == 0 && sender->ats[k] == 0);
    EXPECT(sender->pace.next == 0 && sender->pace.used == 0);
    EXPECT(sender->progress.sent == 0 && sender->progress.last == 0 && sender->progress.last_text == 0);
    EXPECT(sender->progress.next == 65535);
    EXPECT(are(texts, STEWPIGEON_TEXTS, 0));
    /* Bytes that no text covers stay, whatever they are. */
    memset(texts, fill, STEWPIGEON_TEXTS);
}

/* Fills what lies around the record and between its fields, whatever a call has left there. */
void refilled(struct guarded_record *line)
{
    const struct stewpigeon_sender_record from = line->record;
    struct stewpigeon_sender_record *to = &line->record;

    FILLED(*line);
    to->settings.level = from.settings.level;
    to->settings.buffering = from.settings.buffering;
    to->settings.rate = from.settings.rate;
    to->settings.t140 = from.settings.t140;
    to->settings.red = from.settings.red;
    to->settings.sequence = from.settings.sequence;
    to->settings.timestamp = from.settings.timestamp;
    to->settings.source = from.settings.source;
    to->clock = from.clock;
    to->room = from.room;
    to->len = from.len;
    to->characters = from.characters;
    to->since = from.since;
    memcpy(to->lens, from.lens, sizeof to->lens);
    memcpy(to->ats, from.ats, sizeof to->ats);
    to->count = from.count;
    to->pace.next = from.pace.next;
    to->pace.used = from.pace.used;
    to->progress.sent = from.progress.sent;
    to->progress.last = from.progress.last;
    to->progress.last_text = from.progress.last_text;
    to->progress.next = from.progress.next;
}

static void every_field(void)
{
    static const uint8_t text[] = {'A', 0xC3, 0xA9};
    struct parts parts;
    const struct stewpigeon_sender_record *sender = &parts.line.record;
    uint8_t kept[STEWPIGEON_TEXTS], packet[STEWPIGEON_LONGEST];

    opened_fields(&parts, 30);
    memset(kept, fill, sizeof kept);
    memcpy(kept, text, sizeof text);
    EXPECT(offer(&parts, 7, text, sizeof text) == 0);
    EXPECT(ALL_UNTOUCHED(parts) && STILL_FILLED(parts.log));
    EXPECT(sender->clock == 7 && sender->room == 0 && sender->len == sizeof text && sender->characters == 2);
    EXPECT(sender->since == 7);
    EXPECT(memcmp(parts.texts.record, kept, sizeof kept) == 0);

    memset(packet, fill, sizeof packet);
    EXPECT(clock_call(&parts, 9, packet, sizeof packet) == 16);
    EXPECT(ALL_UNTOUCHED(parts));
    EXPECT(are(packet + 16, sizeof packet - 16, fill));
    EXPECT(memcmp(packet + 13, text, sizeof text) == 0);
    EXPECT(sender->clock == 9 && sender->room == 1 && sender->len == 0 && sender->characters == 0);
    EXPECT(sender->since == 9 && sender->count == 1);
    EXPECT(sender->lens[0] == sizeof text && sender->ats[0] == 9);
    EXPECT(sender->pace.next == 2 && sender->pace.used == 2);
    EXPECT(parts.log.record[0] == 9 && parts.log.record[1] == 9 && unused(&parts, 2));
    EXPECT(sender->progress.sent == 1 && sender->progress.last == 9 && sender->progress.last_text == 9);
    EXPECT(sender->progress.next == 0);
    EXPECT(memcmp(parts.texts.record, kept, sizeof kept) == 0);
}

/* Every slot, length and time in its place, for more packets than there are slots. */
static void slots(void)
{
    enum { SLOTS = STEWPIGEON_LEVELS + 1, PACKETS = 2 * SLOTS + 1, APART = 2000 };
    struct parts parts;
    const struct stewpigeon_sender_record *sender = &parts.line.record;
    uint8_t kept[STEWPIGEON_TEXTS], packet[STEWPIGEON_LONGEST], text[STEWPIGEON_ROOM];

    opened_fields(&parts, STEWPIGEON_HIGHEST_RATE);
    memset(kept, fill, sizeof kept);
    for (size_t k = 0; k < PACKETS; k++) {
        size_t slot = k % SLOTS, len = STEWPIGEON_ROOM - k;
        uint64_t clock = APART * k;
        memset(text, 'a' + (int)k, sizeof text);
        memcpy(kept + STEWPIGEON_ROOM * slot, text, len);
        /* In two parts, the second behind the first. */
        EXPECT(offer(&parts, clock, text, 3) == 0);
        EXPECT(sender->room == slot && sender->len == 3 && sender->since == clock);
        EXPECT(offer(&parts, clock + 1, text, len - 3) == 0);
        EXPECT(sender->room == slot && sender->len == len && sender->since == clock && sender->clock == clock + 1);
        EXPECT(memcmp(parts.texts.record, kept, sizeof kept) == 0);
        EXPECT(clock_call(&parts, clock + 2, packet, sizeof packet) > 0);
        EXPECT(sender->room == (slot + 1) % SLOTS && sender->len == 0 && sender->since == clock + 2);
        EXPECT(sender->count == (k + 1 < STEWPIGEON_LEVELS ? k + 1 : STEWPIGEON_LEVELS));
        for (size_t back = 0; back < sender->count; back++)
            EXPECT(sender->lens[back] == len + back && sender->ats[back] == clock + 2 - APART * back);
        for (size_t back = sender->count; back < STEWPIGEON_LEVELS; back++)
            EXPECT(sender->lens[back] == 0 && sender->ats[back] == 0);
        EXPECT(memcmp(parts.texts.record, kept, sizeof kept) == 0);
        EXPECT(ALL_UNTOUCHED(parts));
    }
}

/* Whole rooms of text, up to the longest packet. One byte less of space is refused, and nothing changes. */
static void longest(void)
{
    static const size_t lengths[] = {173, 337, 501, 665, 829, 993, 1157, 1321};
    struct parts parts, kept;
    struct stewpigeon_packet read;
    uint8_t space[STEWPIGEON_LONGEST], text[STEWPIGEON_ROOM];
    int64_t last = 0;

    for (size_t i = 0; i < sizeof text; i += 2)
        memcpy(text + i, "\xC3\xA5", 2);
    opened_fields(&parts, STEWPIGEON_HIGHEST_RATE);
    for (size_t k = 0; k <= STEWPIGEON_LEVELS; k++) {
        EXPECT(offer(&parts, 300 * k, text, sizeof text) == 0);
        memset(space, fill, sizeof space);
        refilled(&parts.line);
        KEEP(kept, parts);
        EXPECT(clock_call(&parts, 300 * k, space, lengths[k] - 1) == -STEWPIGEON_REFUSED_SPACE);
        EXPECT(SAME(kept, parts) && are(space, sizeof space, fill));
        last = clock_call(&parts, 300 * k, space, lengths[k]);
        EXPECT(last == (int64_t)lengths[k] && are(space + last, sizeof space - lengths[k], fill));
        EXPECT(ALL_UNTOUCHED(parts) && stewpigeon_read(0, 0, 98, 100, space, lengths[k], &read) == 0);
        EXPECT(read.count == k && memcmp(space + read.primary, text, sizeof text) == 0);
    }
    EXPECT(last == STEWPIGEON_LONGEST_WRITTEN);
    last = clock_call(&parts, 300 * (STEWPIGEON_LEVELS + 1), space, STEWPIGEON_LONGEST_WRITTEN);
    EXPECT(last == STEWPIGEON_LONGEST_WRITTEN - STEWPIGEON_ROOM);
    EXPECT(stewpigeon_read(0, 0, 98, 100, space, (size_t)last, &read) == 0);
    EXPECT(read.count == STEWPIGEON_LEVELS && read.primary == read.end);
}

/* Refused calls on a sender in which "AB" has waited since 5 leave record, texts, log and space. */
static void refused(struct parts *parts)
{
    static const uint8_t more[] = {'C', 0xFF};
    struct parts kept;
    uint8_t space[STEWPIGEON_LONGEST], whole_room[STEWPIGEON_ROOM];

    memset(whole_room, 'D', sizeof whole_room);
    memset(space, fill, sizeof space);
    refilled(&parts->line);
    KEEP(kept, *parts);
    EXPECT(offer(parts, 4, more, 1) == STEWPIGEON_REFUSED_CLOCK);
    EXPECT(SAME(kept, *parts));
    EXPECT(offer(parts, 6, more, 0) == STEWPIGEON_REFUSED_NO_TEXT);
    EXPECT(SAME(kept, *parts));
    EXPECT(offer(parts, 6, more, 2) == STEWPIGEON_REFUSED_TEXT);
    EXPECT(SAME(kept, *parts));
    EXPECT(offer(parts, 6, whole_room, 159) == STEWPIGEON_REFUSED_WAITING_ROOM);
    EXPECT(SAME(kept, *parts));
    EXPECT(clock_call(parts, 999, space, 14) == -STEWPIGEON_REFUSED_SPACE);
    EXPECT(SAME(kept, *parts) && are(space, sizeof space, fill));
    EXPECT(clock_call(parts, 4, space, sizeof space) == -STEWPIGEON_REFUSED_CLOCK);
    EXPECT(SAME(kept, *parts) && are(space, sizeof space, fill));
}

/* A quiet call keeps the clock, and changes nothing else. */
void quiet(struct parts *parts, uint64_t clock)
{
    struct parts kept;
    uint8_t space[STEWPIGEON_LONGEST];

    memset(space, fill, sizeof space);
    refilled(&parts->line);
    KEEP(kept, *parts);
    EXPECT(clock_call(parts, clock, space, sizeof space) == 0);
    EXPECT(parts->line.record.clock == clock);
    kept.line.record.clock = clock;
    EXPECT(SAME(kept, *parts) && are(space, sizeof space, fill));
}

static void stays(void)
{
    struct parts parts, kept;
    struct stewpigeon_sender_record *sender = &parts.line.record;
    uint8_t space[STEWPIGEON_LONGEST];

    opened_fields(&parts, 30);
    EXPECT(offer(&parts, 5, (const uint8_t *)"AB", 2) == 0);
    refused(&parts);
    EXPECT(clock_call(&parts, 6, space, sizeof space) == 15);
    quiet(&parts, 305);

    /* A refused opening gives zeros; the level comes before the buffering time. */
    FILLED(parts);
    EXPECT(stewpigeon_sender_open_in(sender, parts.texts.record, STEWPIGEON_LEVELS + 1, 0, 30, 98, 100, 1, 1, 1) ==
           STEWPIGEON_REFUSED_LEVEL);
    EXPECT(ALL_UNTOUCHED(parts) && STILL_FILLED(parts.log));
    EXPECT(sender->settings.level == 0 && sender->settings.buffering == 0 && sender->settings.rate == 0);
    EXPECT(sender->settings.t140 == 0 && sender->settings.red == 0);
    EXPECT(sender->settings.sequence == 0 && sender->settings.timestamp == 0 && sender->settings.source == 0);
    EXPECT(sender->clock == 0 && sender->room == 0 && sender->len == 0 && sender->characters == 0);
    EXPECT(sender->since == 0);
    for (size_t k = 0; k < STEWPIGEON_LEVELS; k++)
        EXPECT(sender->lens[k] == 0 && sender->ats[k] == 0);
    EXPECT(sender->count == 0 && sender->pace.next == 0 && sender->pace.used == 0);
    EXPECT(sender->progress.sent == 0 && sender->progress.last == 0);
    EXPECT(sender->progress.last_text == 0 && sender->progress.next == 0);
    EXPECT(are(parts.texts.record, STEWPIGEON_TEXTS, 0));

    /* And it refuses every call. */
    refilled(&parts.line);
    KEEP(kept, parts);
    memset(space, fill, sizeof space);
    EXPECT(offer(&parts, 0, space, 1) == STEWPIGEON_REFUSED_BUFFERING);
    EXPECT(clock_call(&parts, 0, space, sizeof space) == -STEWPIGEON_REFUSED_BUFFERING);
    EXPECT(SAME(kept, parts) && are(space, sizeof space, fill));
}

/* 0 is false, all else true: a packet sent makes the byte 1, and every other call leaves it. */
static void every_flag(void)
{
    struct parts parts;
    struct stewpigeon_sender_record *sender = &parts.line.record;
    uint8_t space[STEWPIGEON_LONGEST];

    for (unsigned flag = 0; flag < 256; flag++) {
        opened_fields(&parts, 30);
        sender->progress.sent = (uint8_t)flag;
        quiet(&parts, 5);
        EXPECT(offer(&parts, 5, (const uint8_t *)"AB", 2) == 0);
        EXPECT(sender->progress.sent == flag);
        refused(&parts);
        /* Before the buffering time is over, nothing is due unless no packet was sent yet. */
        if (flag != 0)
            quiet(&parts, 299);
        EXPECT(clock_call(&parts, 300, space, sizeof space) == 15);
        EXPECT(sender->progress.sent == 1 && space[1] == (flag == 0 ? 0xE4 : 0x64));
        EXPECT(ALL_UNTOUCHED(parts));
    }
}

/* The calls on a whole sender are those on its parts. */
static void whole_sender(void)
{
    struct guarded_sender line;
    const struct stewpigeon_sender *sender = &line.record;
    uint8_t packet[STEWPIGEON_LONGEST];

    FILLED(line);
    EXPECT(stewpigeon_sender_open(&line.record, 1, 1, STEWPIGEON_RATE, 98, 100, 7, 1000, 0x11223344) == 0);
    EXPECT(UNTOUCHED(line) && are(sender->texts, STEWPIGEON_TEXTS, 0) && sender->record.settings.level == 1);
    EXPECT(sender->record.settings.rate == 30 && are((const uint8_t *)sender->log, sizeof sender->log, 0));
    EXPECT(stewpigeon_sender_offer(&line.record, 3, (const uint8_t *)"AB", 2) == 0);
    EXPECT(UNTOUCHED(line) && memcmp(sender->texts, "AB", 2) == 0 && are(sender->texts + 2, STEWPIGEON_TEXTS - 2, 0));
    EXPECT(stewpigeon_sender_clock(&line.record, 3, packet, sizeof packet) == 15);
    EXPECT(UNTOUCHED(line) && memcmp(packet + 13, "AB", 2) == 0 && sender->record.progress.next == 8);
    EXPECT(sender->log[0] == 3 && sender->log[1] == 3);
    EXPECT(are((const uint8_t *)(sender->log + 2), sizeof sender->log - 16, 0));

    /* Refused, an opening leaves no other value than 0 in texts and log. */
    EXPECT(stewpigeon_sender_open(&line.record, 1, 1, 0, 98, 100, 7, 1000, 1) == STEWPIGEON_REFUSED_RATE);
    EXPECT(UNTOUCHED(line) && sender->record.settings.level == 0 && are(sender->texts, STEWPIGEON_TEXTS, 0));
    EXPECT(are((const uint8_t *)sender->log, sizeof sender->log, 0));
}

void layout_of_the_sender(void)
{
    every_field();
    slots();
    longest();
    stays();
    every_flag();
    whole_sender();
}

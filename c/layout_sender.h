/* What the tests of the sender share. */
#ifndef LAYOUT_SENDER_H
#define LAYOUT_SENDER_H

#include "layout.h"

/* What a sender's calls are lent. */
struct parts {
    struct guarded_record line;
    struct guarded_texts texts;
    struct guarded_log log;
};

#define ALL_UNTOUCHED(parts) (UNTOUCHED((parts).line) && UNTOUCHED((parts).texts) && UNTOUCHED((parts).log))

static inline uint8_t offer(struct parts *parts, uint64_t clock, const uint8_t *text, size_t text_len)
{
    return stewpigeon_sender_offer_in(&parts->line.record, parts->texts.record, clock, text, text_len);
}

static inline int64_t clock_call(struct parts *parts, uint64_t clock, uint8_t *space, size_t space_len)
{
    return stewpigeon_sender_clock_in(&parts->line.record, parts->texts.record, parts->log.record, clock, space,
                                      space_len);
}

/* The log from this slot on is as it was filled. */
static inline bool unused(const struct parts *parts, size_t slot)
{
    return are((const uint8_t *)(parts->log.record + slot), sizeof(uint64_t) * (STEWPIGEON_LOG - slot), fill);
}

/* Opens a sender over parts that are filled; fills a record again but for its fields; makes a quiet call. */
void opened_fields(struct parts *parts, size_t rate);
void refilled(struct guarded_record *line);
void quiet(struct parts *parts, uint64_t clock);

#endif

/*
 * Stewpigeon: a proved sender and receiver of RTP text (RFC 4103), and a packet reader.
 *
 * Link with libstewpigeon.a: `pkg-config --cflags --libs stewpigeon` tells how where it is installed (`make install`);
 * `tools/build library` writes it to target/staticlib.
 *
 * Records belong to the caller, who lends them for the time of a call. Any values of their fields get an answer; only
 * a record that the opening filled and nobody else wrote to does what a line should. In a flag 0 is false and all else
 * true. A refusal changes nothing: every byte that was lent stays, in records, texts, log and space. Only an opening
 * writes where it is refused: zeros. No pointer may be null, also where a length is 0, and what one call is lent must
 * not overlap. Calls on different records may run at once.
 */
#ifndef STEWPIGEON_H
#define STEWPIGEON_H

#include <stddef.h>
#include <stdint.h>

/* The version: all else that names it is made from this, or held to it. */
#define STEWPIGEON_VERSION_MAJOR 0
#define STEWPIGEON_VERSION_MINOR 6
#define STEWPIGEON_VERSION_PATCH 0

#ifdef __cplusplus
extern "C" {
#endif

/* The refusals, by the numbers that calls answer. */
enum stewpigeon_refusal {
    STEWPIGEON_ACCEPTED = 0,
    STEWPIGEON_REFUSED_LEVEL = 1,          /* more repeats than STEWPIGEON_LEVELS */
    STEWPIGEON_REFUSED_BUFFERING = 2,      /* buffering time 0 or above 500 ms */
    STEWPIGEON_REFUSED_PAYLOAD_TYPES = 3,  /* payload types outside 96 to 127, or equal */
    STEWPIGEON_REFUSED_WAITING_ROOM = 4,   /* the text does not fit in the waiting room */
    STEWPIGEON_REFUSED_CLOCK = 5,          /* a sender's or holding receiver's clock is below the latest accepted one */
    STEWPIGEON_REFUSED_TEXT = 6,           /* the text is not UTF-8 */
    STEWPIGEON_REFUSED_NO_TEXT = 7,        /* the text is empty */
    STEWPIGEON_REFUSED_SPACE = 8,          /* the space is shorter than the packet that is due */
    STEWPIGEON_REFUSED_RATE = 9,           /* rate 0 or above STEWPIGEON_HIGHEST_RATE */
    STEWPIGEON_REFUSED_SHORT = 10,         /* a packet under 12 bytes */
    STEWPIGEON_REFUSED_LONG = 11,          /* a packet over 1,472 bytes */
    STEWPIGEON_REFUSED_VERSION = 12,       /* the RTP version is not 2 */
    STEWPIGEON_REFUSED_HEADER = 13,        /* source list or extension pass the packet's end */
    STEWPIGEON_REFUSED_PADDING = 14,       /* padding count 0, above the payload, or no payload to hold it */
    STEWPIGEON_REFUSED_PAYLOAD_TYPE = 15,  /* the payload type is neither T140 nor RED */
    STEWPIGEON_REFUSED_SOURCE = 16,        /* another source than that of the first accepted packet */
    STEWPIGEON_REFUSED_BLOCK_HEADERS = 17, /* block headers pass the end */
    STEWPIGEON_REFUSED_BLOCK_COUNT = 18,   /* more older blocks than STEWPIGEON_LEVELS */
    STEWPIGEON_REFUSED_BLOCK_TYPE = 19,    /* a block's type is not T140 */
    STEWPIGEON_REFUSED_BLOCK_LENGTHS = 20, /* the older blocks' lengths pass the end */
    STEWPIGEON_REFUSED_BLOCK_TEXT = 21,    /* a block is not UTF-8 */
    STEWPIGEON_REFUSED_BLOCK_AGES = 22,    /* the older blocks' time offsets do not fall to 1 or more */
    STEWPIGEON_REFUSED_HELD_PACKET = 27    /* the packet lent as held is refused or has another number */
};

/*
 * The highest number of repeats, 1 to 7. It must be the one that the library was built with: the sizes of records follow
 * from it, and what a call does with records of another size is undefined.
 */
#define STEWPIGEON_LEVELS 7

#define STEWPIGEON_BUFFERING_MS 300 /* the usual buffering time */
#define STEWPIGEON_RATE 30          /* the usual rate, where a client states no "cps" (RFC 4103, section 6) */
#define STEWPIGEON_HIGHEST_RATE 100 /* the highest rate */
#define STEWPIGEON_ROOM 160         /* the bytes that a waiting room, and so a block, holds */
#define STEWPIGEON_SHORTEST 12      /* the shortest packet that is read */
#define STEWPIGEON_LONGEST 1472     /* and the longest */
#define STEWPIGEON_MARK 3           /* the bytes of a loss mark, EF BF BD */
#define STEWPIGEON_HOLDING_MS 1000  /* how long a packet is held at most */

/* The longest packet that is written: lend a clock call so much space. */
#define STEWPIGEON_LONGEST_WRITTEN (173 + 164 * STEWPIGEON_LEVELS)

/* A receiver. */
struct stewpigeon_receiver {
    uint8_t t140;
    uint8_t red;
    uint8_t has_source; /* a flag: 0 until a packet was accepted; any other value counts as 1 */
    uint8_t has_kept;   /* a flag: 0 where no number is kept; any other value counts as 1 */
    uint32_t source;    /* of the first accepted packet */
    uint16_t expected;  /* the sequence number that is expected next */
    uint16_t kept;      /* the number after the last jump's, which a break has; 0 where none is kept */
};

#define STEWPIGEON_RECEIVER_SIZE 12

/* The course of an accepted packet: how its number stands to the newest one, which is `expected` minus 1. */
enum stewpigeon_course {
    STEWPIGEON_FORWARD = 0, /* the first packet, or 1 to 2,999 ahead: it is the newest now */
    STEWPIGEON_LATE = 1,    /* a copy of the newest, or 1 to 99 behind it: gives nothing */
    STEWPIGEON_JUMP = 2,    /* any other number: gives nothing, and the number after it is kept */
    STEWPIGEON_BREAK = 3    /* any other, but the one that is kept: the sender began anew; all blocks are given */
};

/* What the receiver's step says of an accepted packet. */
struct stewpigeon_step {
    uint8_t course;   /* of enum stewpigeon_course; late or a jump: all but course and distance is 0 */
    uint16_t loss;    /* how many blocks were lost before it: so many marks stand before its text */
    int16_t distance; /* from the expected number: forward 0 to 2,998, late -100 to -1, a break 0, a jump any other */
    size_t older;     /* how many older blocks the packet has */
    size_t given;     /* how many of its last blocks are given, the primary among them */
    size_t from;      /* their bytes are those of the packet from here */
    size_t to;        /* up to here */
};

#define STEWPIGEON_STEP_SIZE 40

/* A receiver that holds: where blocks before a packet are missing, the packet waits for those that are late. */
struct stewpigeon_holding_receiver {
    struct stewpigeon_receiver receiver; /* of the packets handed out, by the newest of which numbers are judged */
    uint8_t has_held;                    /* a flag: 0 where no packet is held; any other value counts as 1 */
    uint16_t held;                       /* the number of the packet held; 0 where none is */
    uint64_t arrival;                    /* the clock at which it arrived; 0 where none is held */
    uint64_t clock;                      /* the latest accepted one, 0 at first */
};

#define STEWPIGEON_HOLDING_RECEIVER_SIZE 32

/* Which of the two packets that a holding receiver is lent. */
enum stewpigeon_which {
    STEWPIGEON_NEITHER = 0,
    STEWPIGEON_HELD = 1, /* the one lent as held */
    STEWPIGEON_NEW = 2   /* the one that arrived */
};

/* What a holding receiver says in an accepted call. */
struct stewpigeon_holding_step {
    uint8_t of;    /* of enum stewpigeon_which: the packet that the text is part of; neither: none is given */
    uint8_t keep;  /* of enum stewpigeon_which: the packet to keep, and to lend as held with the next call */
    uint8_t again; /* 1 where the same packet is to be given again, else 0 */
    struct stewpigeon_step step; /* of the packet given; none given: the new one's course and distance, all else 0 */
};

#define STEWPIGEON_HOLDING_STEP_SIZE 48

/* What a sender was opened with. */
struct stewpigeon_settings {
    size_t level;       /* the number of repeats */
    uint64_t buffering; /* in ms */
    size_t rate;        /* in characters (code points) per second */
    uint8_t t140;
    uint8_t red;
    uint16_t sequence;  /* of the first packet */
    uint32_t timestamp; /* at clock 0 */
    uint32_t source;
};

/*
 * How far a sender has come in its log, of which it uses the first 10 * rate slots, in a circle. A `next` past the last
 * of these counts as 0, and `used` up to their number.
 */
struct stewpigeon_pace {
    size_t next; /* the slot of the next character */
    size_t used; /* how many slots were used: those before it, the newest nearest */
};

struct stewpigeon_progress {
    uint8_t sent;       /* a flag: 0 until a packet was sent; any other value counts as 1 */
    uint64_t last;      /* when the last one was sent */
    uint64_t last_text; /* and the last one with text */
    uint16_t next;      /* the next sequence number */
};

/*
 * A sender without its texts and its log. Texts lie in slots of STEWPIGEON_ROOM bytes, used in a circle: text waits in
 * slot `room`, and the last blocks sent lie in the slots before it, the newest nearest. A `room` past the last slot
 * counts as 0, and lengths, `characters` and `count` up to what there is.
 */
struct stewpigeon_sender_record {
    struct stewpigeon_settings settings;
    uint64_t clock;                  /* the latest accepted */
    size_t room;                     /* the slot in which text waits, 0 to STEWPIGEON_LEVELS */
    size_t len;                      /* how many bytes wait there */
    size_t characters;               /* and how many characters they are */
    uint64_t since;                  /* when the first of them was offered, or a packet left it behind */
    size_t lens[STEWPIGEON_LEVELS];  /* the lengths of the last blocks sent, newest first */
    uint64_t ats[STEWPIGEON_LEVELS]; /* and when each was sent */
    size_t count;                    /* how many of them there are */
    struct stewpigeon_pace pace;
    struct stewpigeon_progress progress;
};

#define STEWPIGEON_SENDER_RECORD_SIZE (136 + 16 * STEWPIGEON_LEVELS)

#define STEWPIGEON_TEXTS ((STEWPIGEON_LEVELS + 1) * STEWPIGEON_ROOM) /* the bytes of all slots */
#define STEWPIGEON_LOG (10 * STEWPIGEON_HIGHEST_RATE)                /* the times in a log: 1,000 */

/* A sender. */
struct stewpigeon_sender {
    struct stewpigeon_sender_record record;
    uint8_t texts[STEWPIGEON_TEXTS];
    uint64_t log[STEWPIGEON_LOG];
};

#define STEWPIGEON_SENDER_SIZE (STEWPIGEON_SENDER_RECORD_SIZE + STEWPIGEON_TEXTS + 8 * STEWPIGEON_LOG)

/* Opens a receiver. Answers 0; or 3, and then the receiver is all zeros. */
uint8_t stewpigeon_receiver_open(struct stewpigeon_receiver *receiver, uint8_t t140, uint8_t red);

/*
 * Gives a packet to the receiver. Answers 0 where it is accepted, and writes the step. With a forward packet or a break
 * the receiver moves on in place, `has_source` is 1, and `has_kept` and `kept` are 0. A jump makes both flags 1 and
 * `kept` its number plus 1, wrapped, and leaves the rest. A late packet leaves the receiver. Else answers the refusal's
 * number, and then receiver and step stay.
 *
 * So the second of two jumps whose numbers follow each other is a break, also with late and refused packets between
 * them, but not with a forward one. What was lost before a break cannot be told: its text follows without a mark.
 */
uint8_t stewpigeon_receiver_step(struct stewpigeon_receiver *receiver, const uint8_t *packet, size_t packet_len,
                                 struct stewpigeon_step *step);

/* Opens a holding receiver. Answers 0; or 3, and then the receiver is all zeros. */
uint8_t stewpigeon_holding_receiver_open(struct stewpigeon_holding_receiver *receiver, uint8_t t140, uint8_t red);

/*
 * Gives a packet to a holding receiver, at a clock in ms that never goes back. With it the packet held is lent, whose
 * bytes the caller owns; where none is held, any bytes do, and are not looked at. Answers 0 where both are accepted,
 * and writes receiver and step. Else answers the refusal's number, and then both stay, the clock too, and the held
 * packet is still to be kept. 3 comes first, then 5, then 27, then the packet's own 10 to 22.
 *
 * A call gives at most one text, of one packet, by how far that one is from `expected`. The first packet is given. A
 * forward packet that would cause no loss is given, any other is held. Where one is held already, the nearer of the two
 * is given, with its loss, and the other one is kept, each with its own arrival. Late packets and jumps give nothing;
 * one with the held one's number is late, with a distance of 0 or more. A break is given where none is held; else the
 * held one is given, and `again` asks for the same packet. Forward packets clear the kept number when they arrive;
 * handing out the held one leaves it.
 *
 * So for each packet: give it; record `step.loss` marks and the bytes from `step.from` to `step.to` of the packet that
 * `of` names; then keep a copy of the packet, if `keep` names the new one; and give the same packet again while `again`
 * is said. Then call stewpigeon_holding_receiver_wait at the same clock until nothing is given. Call it too when the
 * held packet's STEWPIGEON_HOLDING_MS are over, also behind the last packet: what is still held is not in the record.
 */
uint8_t stewpigeon_holding_receiver_step(struct stewpigeon_holding_receiver *receiver, uint64_t clock,
                                         const uint8_t *held, size_t held_len, const uint8_t *packet,
                                         size_t packet_len, struct stewpigeon_holding_step *step);

/*
 * Tells a holding receiver the clock, without a packet. The held one is given if it causes no loss any more, or if
 * STEWPIGEON_HOLDING_MS have passed since its arrival; else nothing is, and course and distance are 0. Answers as the
 * step does: 0, 3, 5 or 27.
 */
uint8_t stewpigeon_holding_receiver_wait(struct stewpigeon_holding_receiver *receiver, uint64_t clock,
                                         const uint8_t *held, size_t held_len, struct stewpigeon_holding_step *step);

/*
 * Fills the space from its start with whole loss marks, the smaller of `count` and a third of the space. Answers how
 * many; the other bytes stay.
 */
size_t stewpigeon_write_marks(size_t count, uint8_t *space, size_t space_len);

/*
 * The three calls of a sender, described below, on a record, texts and a log that lie elsewhere.
 *
 * An opening, also a refused one, makes the texts all zeros, an accepted offer writes its text behind what waits, a
 * packet that leaves text behind moves that to the next slot, and nothing else writes to them.
 *
 * The log holds when each of the last characters was sent. It may hold anything at the opening. Lend the same one, as
 * the last call left it, with every clock call of this sender: a packet writes its clock to one slot for each character
 * of new text, and leaves the others; quiet and refused calls leave all.
 */
uint8_t stewpigeon_sender_open_in(struct stewpigeon_sender_record *record, uint8_t texts[STEWPIGEON_TEXTS],
                                  size_t level, uint64_t buffering, size_t rate, uint8_t t140, uint8_t red,
                                  uint16_t sequence, uint32_t timestamp, uint32_t source);

uint8_t stewpigeon_sender_offer_in(struct stewpigeon_sender_record *record, uint8_t texts[STEWPIGEON_TEXTS],
                                   uint64_t clock, const uint8_t *text, size_t text_len);

int64_t stewpigeon_sender_clock_in(struct stewpigeon_sender_record *record, uint8_t texts[STEWPIGEON_TEXTS],
                                   uint64_t log[STEWPIGEON_LOG], uint64_t clock, uint8_t *space, size_t space_len);

/*
 * Opens a sender, at clock 0. Answers 0; or 1, 2, 3 or 9, and then the sender is all zeros, its texts and log too.
 *
 * Over any 10,000 ms, both ends included, its packets have at most 10 * rate characters of new text.
 */
static inline uint8_t stewpigeon_sender_open(struct stewpigeon_sender *sender, size_t level, uint64_t buffering,
                                             size_t rate, uint8_t t140, uint8_t red, uint16_t sequence,
                                             uint32_t timestamp, uint32_t source)
{
    for (size_t i = 0; i < STEWPIGEON_LOG; i++)
        sender->log[i] = 0;
    return stewpigeon_sender_open_in(&sender->record, sender->texts, level, buffering, rate, t140, red, sequence,
                                     timestamp, source);
}

/* Offers text at a clock, in ms since the opening. Answers 0; else the refusal's number, and the sender stays. */
static inline uint8_t stewpigeon_sender_offer(struct stewpigeon_sender *sender, uint64_t clock, const uint8_t *text,
                                              size_t text_len)
{
    return stewpigeon_sender_offer_in(&sender->record, sender->texts, clock, text, text_len);
}

/*
 * Tells the sender the clock. Answers the length of the packet, written to the front of the space, if one is due, and
 * `sent` is 1; 0 where none is, and then the sender keeps the clock and no more is written; or the refusal's number
 * below 0, and then sender and space stay. Bytes past the packet stay.
 *
 * A packet takes the text that waits, or as many of its first characters as the rate lets go. The rest waits on.
 */
static inline int64_t stewpigeon_sender_clock(struct stewpigeon_sender *sender, uint64_t clock, uint8_t *space,
                                              size_t space_len)
{
    return stewpigeon_sender_clock_in(&sender->record, sender->texts, sender->log, clock, space, space_len);
}

/* An older block of a packet. */
struct stewpigeon_block {
    uint16_t offset; /* its time offset, in ms: 1 or more, and above that of the block behind it */
    size_t at;       /* where it starts in the packet */
    size_t len;      /* and its length */
};

/* What an accepted packet holds. */
struct stewpigeon_packet {
    uint8_t marker; /* the M bit, 0 or 1 */
    uint16_t sequence;
    uint32_t timestamp;
    uint32_t source;
    size_t count;                                     /* how many older blocks there are */
    struct stewpigeon_block older[STEWPIGEON_LEVELS]; /* oldest first; zeros past the count */
    size_t primary;                                   /* where the primary starts */
    size_t end;                                       /* and ends */
};

#define STEWPIGEON_PACKET_SIZE (40 + 24 * STEWPIGEON_LEVELS)

/*
 * Reads a packet by itself. With `expects` 0 any source is accepted, else only `source`. Answers 0, and the packet in
 * *answer; else the refusal's number, and then *answer stays.
 */
uint8_t stewpigeon_read(uint8_t expects, uint32_t source, uint8_t t140, uint8_t red, const uint8_t *packet,
                        size_t packet_len, struct stewpigeon_packet *answer);

/* What bytes are as UTF-8. */
struct stewpigeon_text_answer {
    uint8_t is_text;   /* 1 where they are UTF-8, else 0 */
    size_t characters; /* where they are, how many characters; else 0 */
    size_t place;      /* where they are not, the first byte at which they can no longer be, or their end; else 0 */
};

#define STEWPIGEON_TEXT_ANSWER_SIZE 24

/* Looks whether bytes are UTF-8. There is no refusal. */
void stewpigeon_text(const uint8_t *bytes, size_t bytes_len, struct stewpigeon_text_answer *answer);

#ifdef __cplusplus
}
#endif

#endif

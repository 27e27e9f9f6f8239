/* What the parts of the layout test share: records between guards, filled before every call that writes to them. */
#ifndef LAYOUT_H
#define LAYOUT_H

#include <stdbool.h>
#include <stdio.h>
#include <stdlib.h>
#include <string.h>

#include "stewpigeon.h"

enum { GUARD = 64 };

/* What records and guards are filled with; the parts are run for several values. */
extern uint8_t fill;

#define EXPECT(condition)                                                              \
    do {                                                                               \
        if (!(condition)) {                                                            \
            fprintf(stderr, "%s:%d: not so: %s (fill %02x)\n", __FILE__, __LINE__, #condition, fill); \
            exit(1);                                                                   \
        }                                                                              \
    } while (0)

static inline bool are(const uint8_t *bytes, size_t count, uint8_t value)
{
    for (size_t i = 0; i < count; i++)
        if (bytes[i] != value)
            return false;
    return true;
}

#define GUARDED(name, type)      \
    struct name {                \
        uint8_t before[GUARD];   \
        type record;             \
        uint8_t after[GUARD];    \
    }

GUARDED(guarded_receiver, struct stewpigeon_receiver);
GUARDED(guarded_step, struct stewpigeon_step);
GUARDED(guarded_holding_receiver, struct stewpigeon_holding_receiver);
GUARDED(guarded_holding_step, struct stewpigeon_holding_step);
GUARDED(guarded_record, struct stewpigeon_sender_record);
GUARDED(guarded_sender, struct stewpigeon_sender);
GUARDED(guarded_packet, struct stewpigeon_packet);
GUARDED(guarded_text_answer, struct stewpigeon_text_answer);

/* Texts and log apart from their record. */
struct guarded_texts {
    uint8_t before[GUARD];
    uint8_t record[STEWPIGEON_TEXTS];
    uint8_t after[GUARD];
};

struct guarded_log {
    uint8_t before[GUARD];
    uint64_t record[STEWPIGEON_LOG];
    uint8_t after[GUARD];
};

#define FILLED(guarded) memset(&(guarded), fill, sizeof(guarded))

/* The guards are as they were filled. */
#define UNTOUCHED(guarded) (are((guarded).before, GUARD, fill) && are((guarded).after, GUARD, fill))

/* All bytes, guards and those between fields included, are as they were filled. */
#define STILL_FILLED(guarded) are((const uint8_t *)&(guarded), sizeof(guarded), fill)

/* Keeps all bytes, and looks whether they are still the same. */
#define KEEP(kept, guarded) memcpy(&(kept), &(guarded), sizeof(guarded))
#define SAME(kept, guarded) (memcmp(&(kept), &(guarded), sizeof(guarded)) == 0)

void layout_of_the_sender(void);
void layout_of_the_rate(void);
void layout_of_the_receiver(void);
void layout_of_the_holding_receiver(void);
void layout_of_the_reader(void);

#endif

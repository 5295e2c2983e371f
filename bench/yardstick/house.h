/* The break answer as the yardstick's own parts pass it on. */
#ifndef YARDSTICK_HOUSE_H
#define YARDSTICK_HOUSE_H

#include "parts.h"

/* In the order of the numbers that stand for them. */
enum break_kind { BREAK_NONE, BREAK_MEASURED, BREAK_UNMEASURED, BREAK_UNREAD };

struct break_answer {
    enum break_kind kind;
    uint64_t ticks;
};

/* The first row of 1 to 10 that refuses the section; where none does, the answer is filled in. */
enum row yardstick_break_answer(const uint8_t *section, size_t len, struct break_answer *answer);

#endif

/* The yardstick's break answer and effective time. The section is accepted first, so that nothing
   is checked here. */
#include "yardstick.h"
#include "house.h"

static bool opens_break(uint8_t segmentation_type_id)
{
    switch (segmentation_type_id) {
    case 0x22: case 0x30: case 0x32: case 0x34: case 0x36:
        return true;
    default:
        return false;
    }
}

static struct break_answer opened(bool measured, uint64_t ticks)
{
    return (struct break_answer){measured ? BREAK_MEASURED : BREAK_UNMEASURED, ticks};
}

/* Where an insert's splice_time() or the components end. */
static const uint8_t *behind_times(const uint8_t *at, bool program, bool immediate)
{
    if (program)
        return immediate ? at : at + (at[0] & 0x80 ? 5 : 1);
    unsigned count = *at++;
    if (immediate)
        return at + count;
    while (count-- > 0)
        at += at[1] & 0x80 ? 6 : 2;
    return at;
}

static struct break_answer insert_break(const uint8_t *at)
{
    bool cancelled = at[4] & 0x80;
    if (cancelled || !(at[5] & 0x80))
        return (struct break_answer){BREAK_NONE, 0};
    if (!(at[5] & 0x20))
        return opened(false, 0);
    return opened(true, clock_33(behind_times(at + 6, at[5] & 0x40, at[5] & 0x10)));
}

/* Only a descriptor that opens a break measures it. */
static struct break_answer signal_break(struct loop loop)
{
    bool opens = false, measured = false;
    uint64_t longest = 0;
    for (const uint8_t *next; loop.at != loop.end; loop.at = next) {
        const uint8_t *at = loop.at + 6;
        next = loop.at + 2 + loop.at[1];
        if (loop.at[0] != 2 || !is_known(loop.at) || at[4] & 0x80)
            continue;
        bool program = at[5] & 0x80, duration = at[5] & 0x40;
        at += 6;
        if (!program)
            at += 1 + 6 * (size_t)at[0];
        const uint8_t *upid = at + (duration ? 5 : 0);
        if (!opens_break(upid[2 + upid[1]]))
            continue;
        opens = true;
        if (duration) {
            uint64_t ticks = big_endian_40(at);
            longest = ticks > longest ? ticks : longest;
            measured = true;
        }
    }
    return opens ? opened(measured, longest) : (struct break_answer){BREAK_NONE, 0};
}

static struct break_answer break_of(const uint8_t *section, struct loop loop)
{
    if (is_sealed(section))
        return (struct break_answer){BREAK_UNREAD, 0};
    switch (section[13]) {
    case 0x05:
        return insert_break(section + 14);
    case 0x06:
        return signal_break(loop);
    case 0x00: case 0x04: case 0x07: case 0xFF:
        return (struct break_answer){BREAK_NONE, 0};
    default:
        return (struct break_answer){BREAK_UNREAD, 0};
    }
}

enum row yardstick_break_answer(const uint8_t *section, size_t len, struct break_answer *answer)
{
    struct loop loop = {0};
    enum row row = yardstick_open(section, len, &loop);
    if (row == ACCEPTED)
        *answer = break_of(section, loop);
    return row;
}

int32_t yardstick_break(const uint8_t *section, size_t len, uint64_t *out, size_t room)
{
    struct break_answer answer;
    enum row row = yardstick_break_answer(section, len, &answer);
    if (row != ACCEPTED)
        return -(int32_t)row;
    size_t count = answer.kind == BREAK_MEASURED ? 2 : 1;
    if (room < count)
        return -ROOM;
    out[0] = answer.kind;
    if (count == 2)
        out[1] = answer.ticks;
    return (int32_t)count;
}

/* The given time of the command, or NULL. */
static const uint8_t *given_time(const uint8_t *section)
{
    const uint8_t *at = section + 14;
    if (section[13] == 0x05) {
        bool cancelled = at[4] & 0x80;
        if (cancelled || (at[5] & 0x50) != 0x40)
            return NULL;
        at += 6;
    } else if (section[13] != 0x06) {
        return NULL;
    }
    return at[0] & 0x80 ? at : NULL;
}

int32_t yardstick_effective_time(const uint8_t *section, size_t len, uint64_t *out, size_t room)
{
    struct loop loop;
    enum row row = yardstick_open(section, len, &loop);
    if (row == ACCEPTED && is_sealed(section))
        row = SEALED;
    if (row != ACCEPTED)
        return -(int32_t)row;
    const uint8_t *time = given_time(section);
    size_t count = time ? 2 : 1;
    if (room < count)
        return -ROOM;
    out[0] = count - 1;
    if (time)
        out[1] = (clock_33(section + 4) + clock_33(time)) & 0x1FFFFFFFF;
    return (int32_t)count;
}

/* The yardstick's command and known descriptors, as the numbers of docs/READINGS.md. The section is
   accepted first, so that nothing is checked here. */
#include "yardstick.h"
#include "parts.h"

#include <string.h>

/* An answer while it is made; none has more numbers. Only the count is set beforehand. */
struct list {
    size_t count;
    uint64_t numbers[19];
};

static void add(struct list *list, uint64_t number)
{
    list->numbers[list->count++] = number;
}

static int32_t give(const struct list *list, uint64_t *out, size_t room)
{
    if (room < list->count)
        return -ROOM;
    memcpy(out, list->numbers, list->count * sizeof *out);
    return (int32_t)list->count;
}

/* Rows 1 to 10, then SEALED. */
static enum row open(const uint8_t *section, size_t len, struct loop *loop)
{
    enum row row = yardstick_open(section, len, loop);
    return row == ACCEPTED && is_sealed(section) ? SEALED : row;
}

static void splice_time(struct list *list, const uint8_t *at)
{
    bool given = at[0] & 0x80;
    add(list, given ? 2 : 1);
    if (given)
        add(list, clock_33(at));
}

static void avails(struct list *list, const uint8_t *at, bool duration)
{
    add(list, duration);
    if (duration) {
        add(list, at[0] >> 7);
        add(list, clock_33(at));
        at += 5;
    }
    add(list, big_endian_16(at));
    add(list, at[2]);
    add(list, at[3]);
}

static void insert(struct list *list, const uint8_t *at, const uint8_t *end)
{
    bool cancelled = at[4] & 0x80;
    add(list, cancelled ? 3 : 2);
    add(list, big_endian_32(at));
    if (cancelled)
        return;
    bool program = at[5] & 0x40, duration = at[5] & 0x20, immediate = at[5] & 0x10;
    add(list, at[5] >> 7);
    if (immediate)
        add(list, 0);
    else if (program)
        splice_time(list, at + 6);
    else
        add(list, 1);
    add(list, !program);
    if (!program)
        add(list, at[6]);
    avails(list, end - (duration ? 9 : 4), duration);
}

/* The command of a section whose descriptor_loop_length stands at end. */
static void command(struct list *list, const uint8_t *section, const uint8_t *end)
{
    const uint8_t *at = section + 14;
    switch (section[13]) {
    case 0x00:
        add(list, 0);
        break;
    case 0x04:
        add(list, 1);
        add(list, at[0]);
        break;
    case 0x05:
        insert(list, at, end);
        break;
    case 0x06:
        add(list, 4);
        splice_time(list, at);
        break;
    case 0x07:
        add(list, 5);
        break;
    case 0xFF:
        add(list, 6);
        add(list, big_endian_32(at));
        add(list, (uint64_t)(end - at - 4));
        break;
    default:
        add(list, 7);
    }
}

int32_t yardstick_command(const uint8_t *section, size_t len, uint64_t *out, size_t room)
{
    struct loop loop;
    enum row row = open(section, len, &loop);
    if (row != ACCEPTED)
        return -(int32_t)row;
    struct list list;
    list.count = 0;
    command(&list, section, loop.at - 2);
    return give(&list, out, room);
}

static void delivery(struct list *list, uint8_t flags)
{
    bool restricted = !(flags & 0x20);
    add(list, restricted);
    if (!restricted)
        return;
    add(list, flags >> 4 & 1);
    add(list, flags >> 3 & 1);
    add(list, flags >> 2 & 1);
    add(list, flags & 3);
}

static void segmentation(struct list *list, const uint8_t *at, const uint8_t *end)
{
    bool cancelled = at[4] & 0x80;
    add(list, cancelled ? 3 : 2);
    add(list, big_endian_32(at));
    if (cancelled)
        return;
    uint8_t flags = at[5];
    bool program = flags & 0x80, duration = flags & 0x40;
    at += 6;
    add(list, !program);
    if (!program) {
        add(list, at[0]);
        at += 1 + 6 * (size_t)at[0];
    }
    delivery(list, flags);
    add(list, duration);
    if (duration) {
        add(list, big_endian_40(at));
        at += 5;
    }
    add(list, at[0]);
    add(list, at[1]);
    at += 2 + at[1];
    for (int i = 0; i < 3; i++)
        add(list, at[i]);
    bool sub_segments = end - at == 5;
    add(list, sub_segments);
    if (sub_segments) {
        add(list, at[3]);
        add(list, at[4]);
    }
}

/* The known descriptor at this place. */
static void descriptor(struct list *list, const uint8_t *at)
{
    const uint8_t *body = at + 6;
    switch (at[0]) {
    case 0:
        add(list, 0);
        add(list, big_endian_32(body));
        break;
    case 1:
        add(list, 1);
        add(list, body[0]);
        add(list, body[1] >> 5);
        break;
    case 2:
        segmentation(list, body, at + 2 + at[1]);
        break;
    case 3:
        add(list, 4);
        add(list, (uint64_t)big_endian_16(body) << 32 | big_endian_32(body + 2));
        add(list, big_endian_32(body + 6));
        add(list, big_endian_16(body + 10));
        break;
    case 4:
        add(list, 5);
        add(list, body[0] >> 4);
    }
}

int32_t yardstick_known_descriptor(const uint8_t *section, size_t len, size_t n, uint64_t *out,
                                   size_t room)
{
    struct loop loop;
    enum row row = open(section, len, &loop);
    if (row != ACCEPTED)
        return -(int32_t)row;
    for (; loop.at != loop.end; loop.at += 2 + loop.at[1]) {
        if (!is_known(loop.at) || n-- > 0)
            continue;
        struct list list;
        list.count = 0;
        descriptor(&list, loop.at);
        return give(&list, out, room);
    }
    return -NOTHERE;
}

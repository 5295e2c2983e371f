/* What the yardstick's parts share: the rows, some limits, how bytes are read, and the place of a
   section's descriptors. */
#ifndef YARDSTICK_PARTS_H
#define YARDSTICK_PARTS_H

#include <stdbool.h>
#include <stddef.h>
#include <stdint.h>

enum row {
    ACCEPTED, SHORT, TABLE, SYNTAX, SIZE, CRC, VERSION, CRYPT, COMMAND, LOOP, DESCRIPTOR,
    ROOM, TEXTLEN, TEXTCHAR, TEXTBITS, SHEET, NOTHERE, SEALED,
};

enum { CUEI = 0x43554549, UNSTATED = 0xFFF, LONGEST_SECTION = 4096, LONGEST_SHEET = 4554 };

/* The descriptors of a section that is not sealed. */
struct loop {
    const uint8_t *at, *end;
};

/* The first row of 1 to 10 that refuses the section; where none does and the section is not sealed,
   the loop is found too. */
enum row yardstick_open(const uint8_t *section, size_t len, struct loop *loop);

static inline bool is_sealed(const uint8_t *section)
{
    return section[4] & 0x80;
}

/* The types that may carry sub_segment_num and sub_segments_expected. */
static inline bool has_sub_segments(uint64_t segmentation_type_id)
{
    switch (segmentation_type_id) {
    case 0x30: case 0x32: case 0x34: case 0x36: case 0x38: case 0x3A: case 0x44: case 0x46:
        return true;
    default:
        return false;
    }
}

static inline uint32_t big_endian_16(const uint8_t *at)
{
    return (uint32_t)at[0] << 8 | at[1];
}

static inline uint32_t big_endian_32(const uint8_t *at)
{
    return (uint32_t)at[0] << 24 | (uint32_t)at[1] << 16 | (uint32_t)at[2] << 8 | at[3];
}

static inline uint64_t big_endian_40(const uint8_t *at)
{
    return (uint64_t)at[0] << 32 | big_endian_32(at + 1);
}

/* The last 33 bits of five bytes. */
static inline uint64_t clock_33(const uint8_t *at)
{
    return (uint64_t)(at[0] & 1) << 32 | big_endian_32(at + 1);
}

/* Whether a descriptor is one of the standard's own, with a tag that the standard has. */
static inline bool is_known(const uint8_t *descriptor)
{
    return descriptor[0] <= 4 && big_endian_32(descriptor + 2) == CUEI;
}

#endif

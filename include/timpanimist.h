/* Timpanimist, a proved reader of SCTE 35 cues: the functions of libtimpanimist.a, for C and C++.
 *
 * Memory. A list passes as a pointer and then the count of its elements, bytes or numbers. Where the count is 0 the pointer
 * is not followed and may be null. What is asked about is only read. `out` is lent to be written: an answer goes to its
 * front and everything behind it stays; after a refusal all of it is as it was. One thing is written that no answer tells: a
 * turn over lines that stops for want of room may have written to `carry` behind the characters that are held, which matters
 * to no later turn. Memory that is lent to be written must overlap no other memory of the same call. No function allocates,
 * keeps a pointer or has a state of its own, so any number of threads may call them.
 *
 * Stack. Measured on x86-64 and on Arm, and not proved (docs/BENCHMARKS.md): timpanimist_sheet_to_section takes 72 KiB,
 * timpanimist_section_to_sheet 35 KiB, timpanimist_text_to_section 5 KiB, the three functions on lines 10 KiB each,
 * and every other function less than 1 KiB.
 *
 * Answers. Every input has an answer, and nothing but the above is asked of the caller. A function with an `out` returns
 * one number: how many elements it wrote, or 2^63 plus the number of a refusal. Even the bill label, which is never refused
 * itself, is refused by ROOM where `out` is too short for its numbers. The way to tell the two apart is
 *
 *     uint64_t answer = timpanimist_break(section, n, out, TIMPANIMIST_MOST_BREAK);
 *     uint32_t refusal = timpanimist_refusal(answer);
 *     if (refusal != 0) puts(timpanimist_refusal_words(refusal));
 *
 * Times and durations are in ticks of 90 kHz. A list of the standard is asked by number, from 0 on, until the answer is
 * TIMPANIMIST_REFUSAL_NOTHERE. docs/READINGS.md has the numbers of each answer, docs/SHEET.md those of a field sheet.
 */
#ifndef TIMPANIMIST_H
#define TIMPANIMIST_H

#include <stdbool.h>
#include <stddef.h>
#include <stdint.h>

#ifdef __cplusplus
extern "C" {
#endif

/* ---- Refusals: the table's names and numbers, in the order in which they are looked at ---- */

enum {
    TIMPANIMIST_REFUSAL_SHORT = 1,       /* fewer than 20 bytes */
    TIMPANIMIST_REFUSAL_TABLE = 2,       /* byte 0 is not 0xFC */
    TIMPANIMIST_REFUSAL_SYNTAX = 3,      /* section_syntax_indicator or private_indicator is 1 */
    TIMPANIMIST_REFUSAL_SIZE = 4,        /* section_length exceeds 4,093, or plus 3 is not the count of bytes */
    TIMPANIMIST_REFUSAL_CRC = 5,         /* the CRC over the whole section is not 0 */
    TIMPANIMIST_REFUSAL_VERSION = 6,     /* protocol_version is not 0 */
    TIMPANIMIST_REFUSAL_CRYPT = 7,       /* encrypted_packet is 1 and there are fewer than 24 bytes */
    TIMPANIMIST_REFUSAL_COMMAND = 8,     /* the command breaks its grammar or its length */
    TIMPANIMIST_REFUSAL_LOOP = 9,        /* the descriptor loop, or its length field, does not fit before the CRC */
    TIMPANIMIST_REFUSAL_DESCRIPTOR = 10, /* the descriptors do not fill the loop, or one breaks its grammar */
    TIMPANIMIST_REFUSAL_ROOM = 11,       /* the answer is longer than `out`; looked at last of all */
    TIMPANIMIST_REFUSAL_TEXTLEN = 12,    /* a text's length is not a multiple of 4, or exceeds 5,464 */
    TIMPANIMIST_REFUSAL_TEXTCHAR = 13,   /* a text has a character outside the base64 alphabet */
    TIMPANIMIST_REFUSAL_TEXTBITS = 14,   /* the spare bits before a text's padding are not 0 */
    TIMPANIMIST_REFUSAL_SHEET = 15,      /* the numbers are the field sheet of no accepted section */
    TIMPANIMIST_REFUSAL_NOTHERE = 16,    /* there is no part of that number */
    TIMPANIMIST_REFUSAL_SEALED = 17      /* the section is encrypted, and the question is on what is inside */
};

/* The refusal in an answer: 0 where the answer is a count, or else one of the numbers above. */
static inline uint32_t timpanimist_refusal(uint64_t answer) {
    return answer >> 63 ? (uint32_t)answer : 0;
}

/* The table's name of a refusal. */
static inline const char *timpanimist_refusal_name(uint32_t refusal) {
    static const char *const names[] = {
        "NONE", "SHORT", "TABLE", "SYNTAX", "SIZE", "CRC", "VERSION", "CRYPT", "COMMAND", "LOOP", "DESCRIPTOR", "ROOM",
        "TEXTLEN", "TEXTCHAR", "TEXTBITS", "SHEET", "NOTHERE", "SEALED"};
    return refusal < sizeof names / sizeof *names ? names[refusal] : "UNKNOWN";
}

/* A refusal in plain words. */
static inline const char *timpanimist_refusal_words(uint32_t refusal) {
    static const char *const words[] = {
        "nothing is refused",
        "the section has fewer than 20 bytes",
        "the first byte is not 0xFC, by which every cue starts",
        "section_syntax_indicator or private_indicator is 1",
        "section_length does not fit the bytes, or there are more than 4,096 of them",
        "the CRC does not come out, so the bytes are not those that were sent",
        "protocol_version is not 0",
        "the section is encrypted and has fewer than 24 bytes",
        "the command breaks its grammar, or splice_command_length is not the length it has",
        "descriptor_loop_length, or the loop that it announces, does not fit before the CRC",
        "the descriptors do not fill their loop exactly, or one of them breaks its grammar",
        "the answer is longer than the memory that was lent for it",
        "the text's length is not a multiple of 4, or is more than 5,464 characters",
        "the text has a character outside the base64 alphabet, or padding before its end",
        "the spare bits before the text's padding are not zero",
        "the numbers are not the field sheet of any section",
        "there is no part of that number",
        "the section is encrypted, so what is inside cannot be told"};
    return refusal < sizeof words / sizeof *words ? words[refusal] : "this number is no refusal's";
}

/* ---- Limits ---- */

#define TIMPANIMIST_LONGEST_SECTION 4096 /* bytes of a section */
#define TIMPANIMIST_LONGEST_TEXT 5464    /* characters of a text */
#define TIMPANIMIST_MOST_TEXT_BYTES 4098 /* bytes that a text can have, which is more than a section can */
#define TIMPANIMIST_MOST_SHEET 4554      /* numbers of a field sheet, by counting and not by proof (docs/SHEET.md) */
#define TIMPANIMIST_LONGEST_LINE 23      /* bytes of an answer line, its newline among them */
#define TIMPANIMIST_LINE_TOO_LONG 5465   /* `held` of a line that has more than TIMPANIMIST_LONGEST_TEXT characters */
#define TIMPANIMIST_TURN 3               /* numbers of a turn over lines */

/* The most numbers of each typed answer. */
#define TIMPANIMIST_MOST_COMMAND 12
#define TIMPANIMIST_MOST_INSERT_COMPONENT 3
#define TIMPANIMIST_MOST_SCHEDULE_EVENT 11
#define TIMPANIMIST_MOST_EVENT_COMPONENT 2
#define TIMPANIMIST_MOST_PRIVATE_BYTE 1
#define TIMPANIMIST_MOST_KNOWN_COUNT 1
#define TIMPANIMIST_MOST_KNOWN_DESCRIPTOR 19
#define TIMPANIMIST_MOST_DTMF_CHAR 1
#define TIMPANIMIST_MOST_SEGMENTATION_COMPONENT 2
#define TIMPANIMIST_MOST_AUDIO_COMPONENT 5
#define TIMPANIMIST_MOST_UPID 2
#define TIMPANIMIST_MOST_BREAK 2
#define TIMPANIMIST_MOST_EFFECTIVE_TIME 2
#define TIMPANIMIST_MOST_DVB 1
#define TIMPANIMIST_MOST_DASH_DURATION 2
#define TIMPANIMIST_MOST_BILL_LABEL 3

/* ---- Texts, sections and field sheets ---- */

/* The CRC-32 of ISO/IEC 13818-1. It is 0 over a whole section that is undamaged. */
uint32_t timpanimist_crc32(const uint8_t *bytes, size_t bytes_len);

/* The bytes of a base64 text (RFC 4648, section 4), at most TIMPANIMIST_MOST_TEXT_BYTES. An empty text has none.
   Refused by TEXTLEN, TEXTCHAR, TEXTBITS, ROOM. Whether the bytes are a section is another question. */
uint64_t timpanimist_text_to_section(const uint8_t *text, size_t text_len, uint8_t *out, size_t room);

/* The base64 text of any bytes, at most TIMPANIMIST_LONGEST_TEXT characters, with no zero byte behind it.
   Refused by SIZE where there are more than TIMPANIMIST_LONGEST_SECTION bytes, then by ROOM. */
uint64_t timpanimist_section_to_text(const uint8_t *section, size_t section_len, uint8_t *out, size_t room);

/* Whether the bytes are a section. Returns 0 where they are, or else the number of the refusal itself, SHORT to
   DESCRIPTOR: the first of them that applies. */
uint32_t timpanimist_accept(const uint8_t *section, size_t section_len);

/* The field sheet of a section: every field in order, a number each, at most TIMPANIMIST_MOST_SHEET.
   Refused by SHORT to DESCRIPTOR, then by ROOM. */
uint64_t timpanimist_section_to_sheet(const uint8_t *section, size_t section_len, uint64_t *out, size_t room);

/* The bytes of the one section that has this field sheet, at most TIMPANIMIST_LONGEST_SECTION. Refused by SHEET, ROOM. */
uint64_t timpanimist_sheet_to_section(const uint64_t *sheet, size_t sheet_len, uint8_t *out, size_t room);

/* ---- What a cue says: refused by SHORT to DESCRIPTOR, then by SEALED, then by NOTHERE, and by ROOM last ---- */

/* The first number of a command, and what follows it. */
enum {
    TIMPANIMIST_COMMAND_NULL = 0,
    TIMPANIMIST_COMMAND_SCHEDULE = 1,         /* splice_count */
    TIMPANIMIST_COMMAND_INSERT = 2,           /* splice_event_id, out_of_network_indicator, a time, a mode, a break_duration,
                                                 unique_program_id, avail_num, avails_expected */
    TIMPANIMIST_COMMAND_CANCELLED_INSERT = 3, /* splice_event_id */
    TIMPANIMIST_COMMAND_TIME_SIGNAL = 4,      /* a time */
    TIMPANIMIST_COMMAND_BANDWIDTH_RESERVATION = 5,
    TIMPANIMIST_COMMAND_PRIVATE = 6,          /* identifier, and how many bytes follow it */
    TIMPANIMIST_COMMAND_UNREAD = 7            /* the standard has no such splice_command_type */
};

/* The first number of a time. That of an insert by components is never given, since each component has its own. */
enum {
    TIMPANIMIST_TIME_IMMEDIATE = 0,
    TIMPANIMIST_TIME_NOT_GIVEN = 1,
    TIMPANIMIST_TIME_GIVEN = 2 /* pts_time */
};

/* The first number of a mode: of an insert, a scheduled event or a segmentation descriptor. */
enum {
    TIMPANIMIST_MODE_PROGRAM = 0,   /* of an event: utc_splice_time. Of the others: nothing */
    TIMPANIMIST_MODE_COMPONENTS = 1 /* component_count */
};

/* The first number of a part that may be absent: break_duration (auto_return, duration), a segmentation's duration
   (segmentation_duration) and its sub-segments (sub_segment_num, sub_segments_expected). An absent one is never a 0. */
enum { TIMPANIMIST_ABSENT = 0, TIMPANIMIST_PRESENT = 1 };

/* The first number of an event of a schedule. */
enum {
    TIMPANIMIST_EVENT_SCHEDULED = 0, /* splice_event_id, out_of_network_indicator, a mode, a break_duration,
                                        unique_program_id, avail_num, avails_expected */
    TIMPANIMIST_EVENT_CANCELLED = 1  /* splice_event_id */
};

/* The first number of a known descriptor. */
enum {
    TIMPANIMIST_DESCRIPTOR_AVAIL = 0,        /* provider_avail_id */
    TIMPANIMIST_DESCRIPTOR_DTMF = 1,         /* preroll, dtmf_count */
    TIMPANIMIST_DESCRIPTOR_SEGMENTATION = 2, /* segmentation_event_id, a mode, a delivery, a duration,
                                                segmentation_upid_type, segmentation_upid_length, segmentation_type_id,
                                                segment_num, segments_expected, sub-segments */
    TIMPANIMIST_DESCRIPTOR_CANCELLED_SEGMENTATION = 3, /* segmentation_event_id */
    TIMPANIMIST_DESCRIPTOR_TIME = 4,                   /* TAI_seconds, TAI_ns, UTC_offset */
    TIMPANIMIST_DESCRIPTOR_AUDIO = 5                   /* audio_count */
};

/* The first number of a delivery. */
enum {
    TIMPANIMIST_DELIVERY_NOT_RESTRICTED = 0,
    TIMPANIMIST_DELIVERY_RESTRICTED = 1 /* web_delivery_allowed_flag, no_regional_blackout_flag, archive_allowed_flag,
                                           device_restrictions */
};

/* The command, at most TIMPANIMIST_MOST_COMMAND numbers. It is never NOTHERE. */
uint64_t timpanimist_command(const uint8_t *section, size_t section_len, uint64_t *out, size_t room);

/* Component n of an insert, at most TIMPANIMIST_MOST_INSERT_COMPONENT numbers: component_tag, a time. */
uint64_t timpanimist_insert_component(const uint8_t *section, size_t section_len, size_t n, uint64_t *out, size_t room);

/* Event n of a schedule, at most TIMPANIMIST_MOST_SCHEDULE_EVENT numbers. */
uint64_t timpanimist_schedule_event(const uint8_t *section, size_t section_len, size_t n, uint64_t *out, size_t room);

/* Component m of event n of a schedule, TIMPANIMIST_MOST_EVENT_COMPONENT numbers: component_tag, utc_splice_time. */
uint64_t timpanimist_event_component(const uint8_t *section, size_t section_len, size_t n, size_t m, uint64_t *out,
                                     size_t room);

/* Byte n of a private command behind its identifier, as one number. */
uint64_t timpanimist_private_byte(const uint8_t *section, size_t section_len, size_t n, uint64_t *out, size_t room);

/* How many known descriptors there are, as one number in `out`. Unknown ones are not counted. It is never NOTHERE. */
uint64_t timpanimist_known_count(const uint8_t *section, size_t section_len, uint64_t *out, size_t room);

/* Known descriptor n, at most TIMPANIMIST_MOST_KNOWN_DESCRIPTOR numbers. */
uint64_t timpanimist_known_descriptor(const uint8_t *section, size_t section_len, size_t n, uint64_t *out, size_t room);

/* Character m of known descriptor n, as one number. NOTHERE too where it is no DTMF descriptor. */
uint64_t timpanimist_dtmf_char(const uint8_t *section, size_t section_len, size_t n, size_t m, uint64_t *out, size_t room);

/* Component m of known descriptor n, TIMPANIMIST_MOST_SEGMENTATION_COMPONENT numbers: component_tag, pts_offset.
   NOTHERE too where it is no uncancelled segmentation descriptor by components. */
uint64_t timpanimist_segmentation_component(const uint8_t *section, size_t section_len, size_t n, size_t m, uint64_t *out,
                                            size_t room);

/* Component m of known descriptor n, TIMPANIMIST_MOST_AUDIO_COMPONENT numbers: component_tag, ISO_code, Bit_Stream_Mode,
   Num_Channels, Full_Srvc_Audio. NOTHERE too where it is no audio descriptor. */
uint64_t timpanimist_audio_component(const uint8_t *section, size_t section_len, size_t n, size_t m, uint64_t *out,
                                     size_t room);

/* Where the UPID of known descriptor n lies, TIMPANIMIST_MOST_UPID numbers: the place of its first byte in the section, and
   how many bytes it has, which may be 0. NOTHERE too where it is no uncancelled segmentation descriptor. */
uint64_t timpanimist_upid(const uint8_t *section, size_t section_len, size_t n, uint64_t *out, size_t room);

/* ---- The house's answers ---- */

/* The first number of a break. */
enum {
    TIMPANIMIST_BREAK_NONE = 0,
    TIMPANIMIST_BREAK_MEASURED = 1,        /* its ticks */
    TIMPANIMIST_BREAK_WITHOUT_MEASURE = 2, /* the cue has no duration, which is not a duration of 0 */
    TIMPANIMIST_BREAK_UNREAD = 3           /* sealed, or the standard has no such splice_command_type */
};

/* Whether the section opens a break and how long it lasts, at most TIMPANIMIST_MOST_BREAK numbers. A time signal's break
   lasts as long as the longest duration among the descriptors that open one; no other descriptor measures it.
   Refused by SHORT to DESCRIPTOR, then by ROOM; a sealed section is unread. */
uint64_t timpanimist_break(const uint8_t *section, size_t section_len, uint64_t *out, size_t room);

/* The first number of an effective time. */
enum {
    TIMPANIMIST_EFFECTIVE_TIME_NONE = 0,
    TIMPANIMIST_EFFECTIVE_TIME_GIVEN = 1 /* its ticks */
};

/* When the splice takes place, pts_adjustment added, at most TIMPANIMIST_MOST_EFFECTIVE_TIME numbers.
   Refused by SHORT to DESCRIPTOR, then by SEALED, then by ROOM. */
uint64_t timpanimist_effective_time(const uint8_t *section, size_t section_len, uint64_t *out, size_t room);

/* The first DVB-DASH check, as one number in `out`: 1 where the section passes, or else 0.
   Refused by SHORT to DESCRIPTOR, then by SEALED, then by ROOM. */
uint64_t timpanimist_dvb(const uint8_t *section, size_t section_len, uint64_t *out, size_t room);

/* The first number of a DASH duration. */
enum {
    TIMPANIMIST_DASH_DURATION_NONE = 0,
    TIMPANIMIST_DASH_DURATION_MEASURED = 1 /* its ticks */
};

/* How long the DASH event of a time signal lasts: the longest duration among all its uncancelled segmentation descriptors,
   whether or not it opens a break, at most TIMPANIMIST_MOST_DASH_DURATION numbers. It bills nothing: what a break is billed by
   is timpanimist_break's. Refused by SHORT to DESCRIPTOR, then by SEALED, then by ROOM. */
uint64_t timpanimist_dash_duration(const uint8_t *section, size_t section_len, uint64_t *out, size_t room);

/* The first number of a bill label: the slice in which it lies. */
enum { TIMPANIMIST_BILL_LABEL_SECTION = 0, TIMPANIMIST_BILL_LABEL_HOUSE = 1 };

/* Which bytes the break is billed under, TIMPANIMIST_MOST_BILL_LABEL numbers: the slice, the place of the first byte in it,
   and how many they are. The house's name stands in where the section is refused or sealed or has no UPID.
   The label is never refused; ROOM alone refuses this call, where there is no room for its three numbers. */
uint64_t timpanimist_bill_label(const uint8_t *section, size_t section_len, const uint8_t *house, size_t house_len,
                                uint64_t *out, size_t room);

/* ---- Lines: texts in, one a line, and an answer line for each: `A m`, `B`, `N`, `X` or `R n` ---- */

/* The answer line of one text, its newline at the end, at most TIMPANIMIST_LONGEST_LINE bytes. The text is a line without
   its newline, of any bytes. Refused by ROOM alone: any other refusal is an answer, `R n`. */
uint64_t timpanimist_line(const uint8_t *text, size_t text_len, uint8_t *out, size_t room);

/* One turn over a stream of lines: `input` is what is at hand of it, cut anywhere.
   - `held`: how many characters of a cut line stand at the front of `carry`. A stream starts with 0, and each turn hands
     back what the next one takes. TIMPANIMIST_LINE_TOO_LONG, or more, says that the line is too long already.
   - `carry`: memory of TIMPANIMIST_LONGEST_TEXT bytes at least, which the caller keeps from turn to turn.
   - `out`: gets the answers of the lines that end in this input, whole lines. The turn stops before a line whose answer is
     longer than what is left of it. TIMPANIMIST_LONGEST_LINE bytes are enough for the stream to move on.
   - `turn`: gets TIMPANIMIST_TURN numbers: `held` for the next turn, how many bytes of the input were taken, and how many
     bytes of `out` were written. Where fewer were taken than there are, `out` is full: write it out, and go on with the
     rest of the input. A last part without a newline is taken and held.
   Returns TIMPANIMIST_TURN. Refused by ROOM alone, where `carry` or `turn` is too short. */
uint64_t timpanimist_lines(uint64_t held, const uint8_t *input, size_t input_len, uint8_t *carry, size_t carry_len,
                           uint8_t *out, size_t room, uint64_t *turn, size_t turn_len);

/* The end of the stream: the answer line of what is held, at most TIMPANIMIST_LONGEST_LINE bytes, or nothing where `held`
   is 0. Refused by ROOM alone, where `carry` or `out` is too short. */
uint64_t timpanimist_last_line(uint64_t held, const uint8_t *carry, size_t carry_len, uint8_t *out, size_t room);

/* ---- Ticks and bits ---- */

/* The whole milliseconds in t ticks. */
uint64_t timpanimist_ticks_to_millis(uint64_t t);

/* The sum of two times on the 33-bit clock, which wraps. */
uint64_t timpanimist_clock_sum(uint64_t a, uint64_t b);

/* The field of `width` bits at bit `at`, most significant bit first; 0 where it is wider than 48 bits or runs past the
   end. */
uint64_t timpanimist_field_read(const uint8_t *bytes, size_t bytes_len, size_t at, size_t width);

/* Gives that field the value, and says whether it did: not where the field is wider than 48 bits or runs past the end, nor
   where the value does not fit its bits. Then nothing is written. */
bool timpanimist_field_write(uint8_t *bytes, size_t bytes_len, size_t at, size_t width, uint64_t value);

#ifdef __cplusplus
}
#endif

#endif

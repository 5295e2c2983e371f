/* A plain C reader of SCTE 35 cues, by which the proved library's times are judged. It allocates
   nothing. A row is the number of a refusal, as the proved library numbers them; 0 is acceptance.
   Where a function writes to out, it answers how many bytes or numbers, or minus the row that
   refuses; a refusal leaves out as it was. */
#ifndef YARDSTICK_H
#define YARDSTICK_H

#include <stddef.h>
#include <stdint.h>

/* Fills the tables of the CRC; called once, before anything else. */
void yardstick_prepare(void);

/* The CRC-32 of ISO/IEC 13818-1. */
uint32_t yardstick_crc32(const uint8_t *bytes, size_t len);

/* The first row of 1 to 10 that refuses the section. */
uint32_t yardstick_accept(const uint8_t *section, size_t len);

/* The bytes of a base64 text, and back. */
int32_t yardstick_text_to_section(const uint8_t *text, size_t len, uint8_t *out, size_t room);
int32_t yardstick_section_to_text(const uint8_t *section, size_t len, uint8_t *out, size_t room);

/* The field sheet of a section, and back. */
int32_t yardstick_section_to_sheet(const uint8_t *section, size_t len, uint64_t *out, size_t room);
int32_t yardstick_sheet_to_section(const uint64_t *sheet, size_t len, uint8_t *out, size_t room);

/* By the numbers of docs/READINGS.md: the command, known descriptor n, the break, the effective
   time. */
int32_t yardstick_command(const uint8_t *section, size_t len, uint64_t *out, size_t room);
int32_t yardstick_known_descriptor(const uint8_t *section, size_t len, size_t n, uint64_t *out,
                                   size_t room);
int32_t yardstick_break(const uint8_t *section, size_t len, uint64_t *out, size_t room);
int32_t yardstick_effective_time(const uint8_t *section, size_t len, uint64_t *out, size_t room);

/* The longest text, and room for every answer line. */
enum { YARDSTICK_TEXT = 5464, YARDSTICK_LINE = 23 };

/* The answer line of a text, its newline included: how many bytes. out has room for a line. */
size_t yardstick_line(const uint8_t *text, size_t len, uint8_t *out);

/* What is held of a line that the input cut: so many characters, or YARDSTICK_TEXT + 1 where the
   line is too long. A stream starts with 0. */
struct yardstick_stream {
    size_t held;
    uint8_t line[YARDSTICK_TEXT + 1];
};

/* The answers to the lines that end in this input: how many bytes. out has room for four bytes a
   byte of the input, since an empty line gives four, and for one line more. */
size_t yardstick_lines(struct yardstick_stream *stream, const uint8_t *input, size_t len,
                       uint8_t *out);

/* The answer to what is held at the end of the stream: how many bytes, 0 where nothing is. */
size_t yardstick_last_line(const struct yardstick_stream *stream, uint8_t *out);

#endif

/* biTStream (libbitstream-dev, headers alone) on sections of a file. Written from memory of its
   published interface, and not compiled yet where the package is installed. It reads fields where they
   stand and checks little: the length is held to the bytes here, the CRC to its psi_check_crc, and the
   rest to its scte35_validate. So it may answer for sections that the proved library refuses. */
#include "times.h"

#include <bitstream/mpeg/psi.h>
#include <bitstream/scte/35.h>

/* Where command_length is not given it is 0xFFF, and the descriptors are not found. */
enum { NOT_GIVEN = 0xFFF };

static struct answer of_insert(const uint8_t *section)
{
    bool measured = scte35_insert_has_duration(section);
    uint64_t ticks = 0;
    if (scte35_insert_has_cancel(section))
        return insert_answer(true, false, false, 0);
    if (measured)
        ticks = scte35_break_duration_get_duration(scte35_insert_get_break_duration(section));
    return insert_answer(false, scte35_insert_has_out_of_network(section), measured, ticks);
}

static struct answer of_signal(const uint8_t *section, size_t len)
{
    struct answer answer = {ANSWER_NONE, 0};
    size_t command = scte35_get_command_length(section), at = SCTE35_HEADER_SIZE + command;
    if (command == NOT_GIVEN || at + 2 + PSI_CRC_SIZE > len)
        return (struct answer){ANSWER_UNREAD, 0};
    size_t end = at + 2 + ((size_t)section[at] << 8 | section[at + 1]);
    if (end + PSI_CRC_SIZE > len)
        return (struct answer){ANSWER_REFUSED, 0};
    for (at += 2; at + 2 <= end; at += 2 + (size_t)section[at + 1]) {
        if (at + 2 + section[at + 1] > end)
            return (struct answer){ANSWER_REFUSED, 0};
        take_descriptor(&answer, section + at, 2 + (size_t)section[at + 1]);
    }
    return answer;
}

struct answer answer_of(const uint8_t *section, size_t len)
{
    if (len < SCTE35_HEADER_SIZE + 2 + PSI_CRC_SIZE || psi_get_tableid(section) != 0xFC ||
        psi_get_length(section) + (size_t)PSI_HEADER_SIZE != len || !psi_check_crc(section) ||
        !scte35_validate(section))
        return (struct answer){ANSWER_REFUSED, 0};
    if (section[4] & 0x80) /* encrypted_packet */
        return (struct answer){ANSWER_UNREAD, 0};
    switch (scte35_get_command_type(section)) {
    case 0x05:
        return of_insert(section);
    case 0x06:
        return of_signal(section, len);
    case 0x00: case 0x04: case 0x07: case 0xFF:
        return (struct answer){ANSWER_NONE, 0};
    default:
        return (struct answer){ANSWER_UNREAD, 0};
    }
}

int main(int count_of_words, char **words)
{
    return time_file(count_of_words, words);
}

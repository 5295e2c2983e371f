// Calls every function from C++ with lists of nothing, whose pointers are null, and prints the first answer that is not the
// one expected. The exit status is 0 where there is none.
#include <cstdio>

#include "timpanimist.h"

namespace {

const uint8_t *const no_bytes = 0;
const uint64_t *const no_numbers = 0;
uint8_t *const no_room = 0;
uint64_t *const no_room_for_numbers = 0;

bool all = true;

void check(const char *question, uint64_t answer, uint64_t expected) {
    if (answer == expected) return;
    std::printf("%s: %llu\n", question, static_cast<unsigned long long>(answer));
    all = false;
}

// The question is refused.
void refused(const char *question, uint64_t answer, uint32_t refusal) {
    check(question, timpanimist_refusal(answer), refusal);
}

// The question on no bytes is refused with SHORT, whatever the room.
void short_section(const char *question, uint64_t answer) { refused(question, answer, TIMPANIMIST_REFUSAL_SHORT); }

void sections() {
    check("crc32", timpanimist_crc32(no_bytes, 0), 0xFFFFFFFFu);
    check("text_to_section", timpanimist_text_to_section(no_bytes, 0, no_room, 0), 0);
    check("section_to_text", timpanimist_section_to_text(no_bytes, 0, no_room, 0), 0);
    check("accept", timpanimist_accept(no_bytes, 0), TIMPANIMIST_REFUSAL_SHORT);
    short_section("section_to_sheet", timpanimist_section_to_sheet(no_bytes, 0, no_room_for_numbers, 0));
    refused("sheet_to_section", timpanimist_sheet_to_section(no_numbers, 0, no_room, 0), TIMPANIMIST_REFUSAL_SHEET);
}

void readings() {
    uint64_t *out = no_room_for_numbers;
    short_section("command", timpanimist_command(no_bytes, 0, out, 0));
    short_section("insert_component", timpanimist_insert_component(no_bytes, 0, 0, out, 0));
    short_section("schedule_event", timpanimist_schedule_event(no_bytes, 0, 0, out, 0));
    short_section("event_component", timpanimist_event_component(no_bytes, 0, 0, 0, out, 0));
    short_section("private_byte", timpanimist_private_byte(no_bytes, 0, 0, out, 0));
    short_section("known_count", timpanimist_known_count(no_bytes, 0, out, 0));
    short_section("known_descriptor", timpanimist_known_descriptor(no_bytes, 0, 0, out, 0));
    short_section("dtmf_char", timpanimist_dtmf_char(no_bytes, 0, 0, 0, out, 0));
    short_section("segmentation_component", timpanimist_segmentation_component(no_bytes, 0, 0, 0, out, 0));
    short_section("audio_component", timpanimist_audio_component(no_bytes, 0, 0, 0, out, 0));
    short_section("upid", timpanimist_upid(no_bytes, 0, 0, out, 0));
}

void house() {
    uint64_t *out = no_room_for_numbers, label[TIMPANIMIST_MOST_BILL_LABEL];
    short_section("break", timpanimist_break(no_bytes, 0, out, 0));
    short_section("effective_time", timpanimist_effective_time(no_bytes, 0, out, 0));
    short_section("dvb", timpanimist_dvb(no_bytes, 0, out, 0));
    short_section("dash_duration", timpanimist_dash_duration(no_bytes, 0, out, 0));
    refused("bill_label", timpanimist_bill_label(no_bytes, 0, no_bytes, 0, out, 0), TIMPANIMIST_REFUSAL_ROOM);
    check("bill_label", timpanimist_bill_label(no_bytes, 0, no_bytes, 0, label, TIMPANIMIST_MOST_BILL_LABEL), 3);
    check("bill_label's slice", label[0], TIMPANIMIST_BILL_LABEL_HOUSE);
}

void lines() {
    uint8_t carry[TIMPANIMIST_LONGEST_TEXT];
    uint64_t turn[TIMPANIMIST_TURN];
    refused("line", timpanimist_line(no_bytes, 0, no_room, 0), TIMPANIMIST_REFUSAL_ROOM);
    refused("lines", timpanimist_lines(0, no_bytes, 0, no_room, 0, no_room, 0, turn, TIMPANIMIST_TURN),
            TIMPANIMIST_REFUSAL_ROOM);
    check("lines", timpanimist_lines(0, no_bytes, 0, carry, sizeof carry, no_room, 0, turn, TIMPANIMIST_TURN), 3);
    check("lines' held", turn[0], 0);
    check("lines' taken", turn[1], 0);
    check("lines' written", turn[2], 0);
    refused("last_line", timpanimist_last_line(0, no_bytes, 0, no_room, 0), TIMPANIMIST_REFUSAL_ROOM);
    check("last_line", timpanimist_last_line(0, carry, sizeof carry, no_room, 0), 0);
}

void ticks_and_bits() {
    check("ticks_to_millis", timpanimist_ticks_to_millis(90), 1);
    check("clock_sum", timpanimist_clock_sum(8589934591u, 1), 0);
    check("field_read", timpanimist_field_read(no_bytes, 0, 0, 1), 0);
    check("field_write", timpanimist_field_write(no_room, 0, 0, 1, 0), 0);
}

} // namespace

int main() {
    sections();
    readings();
    house();
    lines();
    ticks_and_bits();
    return all ? 0 : 1;
}

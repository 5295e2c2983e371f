/* GStreamer's mpegts library (libgstreamer-plugins-bad1.0-dev, from 1.20 on) on sections of a file.
   Written from memory of its published interface, and not compiled yet where the package is installed.
   It checks the CRC and reads every field but those in descriptors. A section owns the bytes that it
   is made of, so that each call copies them, as whoever takes them from a stream does. */
#include "times.h"

#include <gst/gst.h>
#include <gst/mpegts/mpegts.h>
#include <string.h>

/* A pid that no other table has. */
enum { PID = 500 };

static struct answer of_insert(const GstMpegtsSCTESIT *table)
{
    if (!table->splices || table->splices->len == 0)
        return (struct answer){ANSWER_NONE, 0};
    const GstMpegtsSCTESpliceEvent *event = g_ptr_array_index(table->splices, 0);
    return insert_answer(event->splice_event_cancel_indicator, event->out_of_network_indicator,
                         event->duration_flag, event->break_duration);
}

/* The data of a descriptor has its tag and its length in front. */
static struct answer of_signal(const GstMpegtsSCTESIT *table)
{
    struct answer answer = {ANSWER_NONE, 0};
    for (guint i = 0; table->descriptors && i < table->descriptors->len; i++) {
        const GstMpegtsDescriptor *descriptor = g_ptr_array_index(table->descriptors, i);
        take_descriptor(&answer, descriptor->data, 2 + (size_t)descriptor->length);
    }
    return answer;
}

static struct answer read_table(const GstMpegtsSCTESIT *table)
{
    if (!table)
        return (struct answer){ANSWER_REFUSED, 0};
    if (table->encrypted_packet)
        return (struct answer){ANSWER_UNREAD, 0};
    switch ((int)table->splice_command_type) {
    case GST_MTS_SCTE_SPLICE_COMMAND_INSERT:
        return of_insert(table);
    case GST_MTS_SCTE_SPLICE_COMMAND_TIME:
        return of_signal(table);
    case 0x00: case 0x04: case 0x07: case 0xFF:
        return (struct answer){ANSWER_NONE, 0};
    default:
        return (struct answer){ANSWER_UNREAD, 0};
    }
}

struct answer answer_of(const uint8_t *section, size_t len)
{
    guint8 *data = g_malloc(len);
    memcpy(data, section, len);
    GstMpegtsSection *given = gst_mpegts_section_new(PID, data, len);
    if (!given)
        return (struct answer){ANSWER_REFUSED, 0};
    struct answer answer = read_table(gst_mpegts_section_get_scte_sit(given));
    gst_mpegts_section_unref(given);
    return answer;
}

int main(int count_of_words, char **words)
{
    gst_init(NULL, NULL);
    gst_mpegts_initialize();
    return time_file(count_of_words, words);
}

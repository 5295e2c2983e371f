/* The known descriptors of a cue in words. A list is asked by number until the answer is a refusal, which is NOTHERE: the
 * section was accepted before. */
#include "cue.h"

static void print_dtmf(const struct cue *cue, size_t n, const uint64_t *next) {
    uint64_t character;
    field("preroll", &next);
    printf("  DTMF_char");
    for (size_t m = 0;; m++) {
        uint64_t answer = timpanimist_dtmf_char(cue->section, cue->count, n, m, &character, TIMPANIMIST_MOST_DTMF_CHAR);
        if (timpanimist_refusal(answer) != 0) break;
        printf(" %02" PRIx64, character);
    }
    printf("\n");
}

static void print_delivery(const uint64_t **next) {
    if (take(next) == TIMPANIMIST_DELIVERY_NOT_RESTRICTED) {
        printf("  delivery not restricted\n");
        return;
    }
    field("web_delivery_allowed_flag", next);
    field("no_regional_blackout_flag", next);
    field("archive_allowed_flag", next);
    field("device_restrictions", next);
}

static void print_upid(const struct cue *cue, size_t n) {
    uint64_t out[TIMPANIMIST_MOST_UPID];
    if (answered("  segmentation_upid ", timpanimist_upid(cue->section, cue->count, n, out, TIMPANIMIST_MOST_UPID)))
        print_bytes("  segmentation_upid", cue->section + out[0], out[1]);
}

static void print_segmentation_components(const struct cue *cue, size_t n) {
    uint64_t out[TIMPANIMIST_MOST_SEGMENTATION_COMPONENT];
    for (size_t m = 0;; m++) {
        uint64_t answer = timpanimist_segmentation_component(cue->section, cue->count, n, m, out,
                                                             TIMPANIMIST_MOST_SEGMENTATION_COMPONENT);
        if (timpanimist_refusal(answer) != 0) break;
        printf("  component_tag %" PRIu64 ", pts_offset %" PRIu64 "\n", out[0], out[1]);
    }
}

static void print_segmentation(const struct cue *cue, size_t n, const uint64_t *next) {
    field("segmentation_event_id", &next);
    if (take(&next) == TIMPANIMIST_MODE_COMPONENTS)
        field("component_count", &next);
    else
        printf("  program\n");
    print_delivery(&next);
    if (take(&next) == TIMPANIMIST_PRESENT)
        print_ticks("  segmentation_duration", take(&next));
    else
        printf("  segmentation_duration absent\n");
    field("segmentation_upid_type", &next);
    field("segmentation_upid_length", &next);
    print_upid(cue, n);
    printf("  segmentation_type_id 0x%02" PRIx64 "\n", take(&next));
    field("segment_num", &next);
    field("segments_expected", &next);
    if (take(&next) == TIMPANIMIST_PRESENT) {
        field("sub_segment_num", &next);
        field("sub_segments_expected", &next);
    }
    print_segmentation_components(cue, n);
}

static void print_audio(const struct cue *cue, size_t n, const uint64_t *next) {
    uint64_t out[TIMPANIMIST_MOST_AUDIO_COMPONENT];
    field("audio_count", &next);
    for (size_t m = 0;; m++) {
        uint64_t answer =
            timpanimist_audio_component(cue->section, cue->count, n, m, out, TIMPANIMIST_MOST_AUDIO_COMPONENT);
        if (timpanimist_refusal(answer) != 0) break;
        printf("  component_tag %" PRIu64 ", ISO_code 0x%06" PRIx64, out[0], out[1]);
        printf(", Bit_Stream_Mode %" PRIu64 ", Num_Channels %" PRIu64 ", Full_Srvc_Audio %" PRIu64 "\n", out[2], out[3],
               out[4]);
    }
}

static void print_descriptor(const struct cue *cue, size_t n, const uint64_t *next) {
    static const char *const names[] = {"avail", "DTMF", "segmentation", "segmentation, cancelled", "time", "audio"};
    uint64_t kind = take(&next);
    printf("descriptor %zu: %s\n", n, names[kind]);
    switch (kind) {
    case TIMPANIMIST_DESCRIPTOR_AVAIL: field("provider_avail_id", &next); break;
    case TIMPANIMIST_DESCRIPTOR_DTMF: print_dtmf(cue, n, next); break;
    case TIMPANIMIST_DESCRIPTOR_SEGMENTATION: print_segmentation(cue, n, next); break;
    case TIMPANIMIST_DESCRIPTOR_CANCELLED_SEGMENTATION: field("segmentation_event_id", &next); break;
    case TIMPANIMIST_DESCRIPTOR_TIME:
        field("TAI_seconds", &next);
        field("TAI_ns", &next);
        field("UTC_offset", &next);
        break;
    case TIMPANIMIST_DESCRIPTOR_AUDIO: print_audio(cue, n, next); break;
    }
}

void print_descriptors(const struct cue *cue) {
    uint64_t known, out[TIMPANIMIST_MOST_KNOWN_DESCRIPTOR];
    uint64_t answer = timpanimist_known_count(cue->section, cue->count, &known, TIMPANIMIST_MOST_KNOWN_COUNT);
    if (!answered("known descriptors: ", answer)) return;
    printf("known descriptors: %" PRIu64 "\n", known);
    for (size_t n = 0; n < known; n++) {
        answer = timpanimist_known_descriptor(cue->section, cue->count, n, out, TIMPANIMIST_MOST_KNOWN_DESCRIPTOR);
        if (answered("descriptor ", answer)) print_descriptor(cue, n, out);
    }
}

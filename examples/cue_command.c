/* The command of a cue in words. A list is asked by number until the answer is a refusal, which is NOTHERE: the section was
 * accepted before. */
#include "cue.h"

static void print_time(const char *before, const uint64_t **next) {
    switch (take(next)) {
    case TIMPANIMIST_TIME_IMMEDIATE: printf("%stime immediate\n", before); break;
    case TIMPANIMIST_TIME_NOT_GIVEN: printf("%stime not given\n", before); break;
    case TIMPANIMIST_TIME_GIVEN: printf("%spts_time %" PRIu64 "\n", before, take(next)); break;
    }
}

static void print_avails(const uint64_t **next) {
    if (take(next) == TIMPANIMIST_PRESENT) {
        field("auto_return", next);
        print_ticks("  duration", take(next));
    } else {
        printf("  duration absent\n");
    }
    field("unique_program_id", next);
    field("avail_num", next);
    field("avails_expected", next);
}

static void print_insert_components(const struct cue *cue) {
    uint64_t out[TIMPANIMIST_MOST_INSERT_COMPONENT];
    for (size_t n = 0;; n++) {
        uint64_t answer = timpanimist_insert_component(cue->section, cue->count, n, out, TIMPANIMIST_MOST_INSERT_COMPONENT);
        if (timpanimist_refusal(answer) != 0) break;
        const uint64_t *next = out;
        printf("  component_tag %" PRIu64, take(&next));
        print_time(", ", &next);
    }
}

static void print_insert(const struct cue *cue, const uint64_t *next) {
    field("splice_event_id", &next);
    field("out_of_network_indicator", &next);
    print_time("  ", &next);
    if (take(&next) == TIMPANIMIST_MODE_COMPONENTS)
        field("component_count", &next);
    else
        printf("  program\n");
    print_avails(&next);
    print_insert_components(cue);
}

static void print_event_components(const struct cue *cue, size_t n) {
    uint64_t out[TIMPANIMIST_MOST_EVENT_COMPONENT];
    for (size_t m = 0;; m++) {
        uint64_t answer =
            timpanimist_event_component(cue->section, cue->count, n, m, out, TIMPANIMIST_MOST_EVENT_COMPONENT);
        if (timpanimist_refusal(answer) != 0) break;
        printf("  component_tag %" PRIu64 ", utc_splice_time %" PRIu64 "\n", out[0], out[1]);
    }
}

static void print_event(const struct cue *cue, size_t n, const uint64_t *next) {
    if (take(&next) == TIMPANIMIST_EVENT_CANCELLED) {
        printf(" event %zu: cancelled\n", n);
        field("splice_event_id", &next);
        return;
    }
    printf(" event %zu: scheduled\n", n);
    field("splice_event_id", &next);
    field("out_of_network_indicator", &next);
    field(take(&next) == TIMPANIMIST_MODE_COMPONENTS ? "component_count" : "utc_splice_time", &next);
    print_avails(&next);
    print_event_components(cue, n);
}

static void print_schedule(const struct cue *cue, const uint64_t *next) {
    uint64_t out[TIMPANIMIST_MOST_SCHEDULE_EVENT];
    field("splice_count", &next);
    for (size_t n = 0;; n++) {
        uint64_t answer = timpanimist_schedule_event(cue->section, cue->count, n, out, TIMPANIMIST_MOST_SCHEDULE_EVENT);
        if (timpanimist_refusal(answer) != 0) break;
        print_event(cue, n, out);
    }
}

static void print_private(const struct cue *cue, const uint64_t *next) {
    uint64_t byte;
    printf("  identifier 0x%08" PRIx64 "\n  private_byte", take(&next));
    for (size_t n = 0;; n++) {
        uint64_t answer = timpanimist_private_byte(cue->section, cue->count, n, &byte, TIMPANIMIST_MOST_PRIVATE_BYTE);
        if (timpanimist_refusal(answer) != 0) break;
        printf(" %02" PRIx64, byte);
    }
    printf("\n");
}

void print_command(const struct cue *cue) {
    static const char *const names[] = {"null",        "schedule",              "insert",  "insert, cancelled",
                                        "time signal", "bandwidth reservation", "private", "unread"};
    uint64_t out[TIMPANIMIST_MOST_COMMAND];
    if (!answered("command: ", timpanimist_command(cue->section, cue->count, out, TIMPANIMIST_MOST_COMMAND))) return;
    const uint64_t *next = out + 1;
    printf("command: %s\n", names[out[0]]);
    switch (out[0]) {
    case TIMPANIMIST_COMMAND_SCHEDULE: print_schedule(cue, next); break;
    case TIMPANIMIST_COMMAND_INSERT: print_insert(cue, next); break;
    case TIMPANIMIST_COMMAND_CANCELLED_INSERT: field("splice_event_id", &next); break;
    case TIMPANIMIST_COMMAND_TIME_SIGNAL: print_time("  ", &next); break;
    case TIMPANIMIST_COMMAND_PRIVATE: print_private(cue, next); break;
    }
}

/* Says in words what a cue says: cue TEXT [HOUSE]
 *
 * TEXT is the cue in base64, HOUSE the name under which a break is billed whose cue has no UPID. The exit status is 0 for a
 * cue that is accepted, 1 for one that is refused and 2 for wrong usage. rust/examples/cue.rs prints the same. */
#include "cue.h"

#include <string.h>

static void print_refusal(const char *what, uint32_t refusal) {
    printf("%srefused, %" PRIu32 " %s: %s\n", what, refusal, timpanimist_refusal_name(refusal),
           timpanimist_refusal_words(refusal));
}

bool answered(const char *what, uint64_t answer) {
    uint32_t refusal = timpanimist_refusal(answer);
    if (refusal != 0) print_refusal(what, refusal);
    return refusal == 0;
}

static void print_effective_time(const struct cue *cue) {
    uint64_t out[TIMPANIMIST_MOST_EFFECTIVE_TIME];
    uint64_t answer = timpanimist_effective_time(cue->section, cue->count, out, TIMPANIMIST_MOST_EFFECTIVE_TIME);
    if (!answered("effective time: ", answer)) return;
    if (out[0] == TIMPANIMIST_EFFECTIVE_TIME_GIVEN)
        printf("effective time: %" PRIu64 " ticks\n", out[1]);
    else
        printf("effective time: none\n");
}

static void print_break(const struct cue *cue) {
    uint64_t out[TIMPANIMIST_MOST_BREAK];
    if (!answered("break: ", timpanimist_break(cue->section, cue->count, out, TIMPANIMIST_MOST_BREAK))) return;
    switch (out[0]) {
    case TIMPANIMIST_BREAK_NONE: printf("break: none\n"); break;
    case TIMPANIMIST_BREAK_MEASURED: print_ticks("break:", out[1]); break;
    case TIMPANIMIST_BREAK_WITHOUT_MEASURE: printf("break: without measure\n"); break;
    case TIMPANIMIST_BREAK_UNREAD: printf("break: unread\n"); break;
    }
}

static void print_dvb(const struct cue *cue) {
    uint64_t out[TIMPANIMIST_MOST_DVB];
    if (answered("DVB-DASH check: ", timpanimist_dvb(cue->section, cue->count, out, TIMPANIMIST_MOST_DVB)))
        printf("DVB-DASH check: %s\n", out[0] == 1 ? "yes" : "no");
}

static void print_dash_duration(const struct cue *cue) {
    uint64_t out[TIMPANIMIST_MOST_DASH_DURATION];
    uint64_t answer = timpanimist_dash_duration(cue->section, cue->count, out, TIMPANIMIST_MOST_DASH_DURATION);
    if (!answered("DASH duration: ", answer)) return;
    if (out[0] == TIMPANIMIST_DASH_DURATION_MEASURED)
        print_ticks("DASH duration:", out[1]);
    else
        printf("DASH duration: none\n");
}

static void print_bill_label(const struct cue *cue, const char *house) {
    uint64_t out[TIMPANIMIST_MOST_BILL_LABEL];
    uint64_t answer = timpanimist_bill_label(cue->section, cue->count, (const uint8_t *)house, strlen(house), out,
                                             TIMPANIMIST_MOST_BILL_LABEL);
    if (!answered("bill label: ", answer)) return;
    if (out[0] == TIMPANIMIST_BILL_LABEL_SECTION)
        print_bytes("bill label: UPID", cue->section + out[1], out[2]);
    else
        printf("bill label: house %s\n", house);
}

int main(int count, char **words) {
    struct cue cue;
    if (count < 2 || count > 3) {
        fprintf(stderr, "usage: cue TEXT [HOUSE]\n");
        return 2;
    }
    const uint8_t *text = (const uint8_t *)words[1];
    uint64_t answer = timpanimist_text_to_section(text, strlen(words[1]), cue.section, sizeof cue.section);
    if (!answered("", answer)) return 1;
    cue.count = (size_t)answer;
    uint32_t refusal = timpanimist_accept(cue.section, cue.count);
    if (refusal != 0) {
        print_refusal("", refusal);
        return 1;
    }
    printf("accepted: %zu bytes\n", cue.count);
    print_command(&cue);
    print_descriptors(&cue);
    print_effective_time(&cue);
    print_break(&cue);
    print_dvb(&cue);
    print_dash_duration(&cue);
    print_bill_label(&cue, count == 3 ? words[2] : "HOUSE");
    return 0;
}

//! What the definitions are called in the header and on the page.

/// Each definition, and what it is called elsewhere.
pub struct Named {
    pub definition: &'static str,
    /// In the tables of READINGS, where it has rows there.
    pub page: Option<&'static str>,
    /// What the header's names of its cases start with, where it has such.
    pub header: Option<&'static str>,
    /// The header's limit for it, where it is a whole answer.
    pub limit: Option<&'static str>,
}

const fn named(
    definition: &'static str,
    page: &'static str,
    header: Option<&'static str>,
    limit: Option<&'static str>,
) -> Named {
    let page = Some(page);
    Named {
        definition,
        page,
        header,
        limit,
    }
}

#[rustfmt::skip]
pub const NAMED: [Named; 24] = [
    named("command_numbers", "command", Some("COMMAND_"), Some("COMMAND")),
    named("time_numbers", "time", Some("TIME_"), None),
    named("mode_numbers", "mode", Some("MODE_"), None),
    named("break_numbers", "break_duration", Some(""), None),
    named("insert_component_numbers", "insert component", None, Some("INSERT_COMPONENT")),
    named("event_numbers", "event", Some("EVENT_"), Some("SCHEDULE_EVENT")),
    named("event_time_numbers", "event time", Some("MODE_"), None),
    named("event_component_numbers", "event component", None, Some("EVENT_COMPONENT")),
    named("private_byte_numbers", "private byte", None, Some("PRIVATE_BYTE")),
    named("known_count_numbers", "known count", None, Some("KNOWN_COUNT")),
    named("descriptor_numbers", "known descriptor", Some("DESCRIPTOR_"), Some("KNOWN_DESCRIPTOR")),
    named("delivery_numbers", "delivery", Some("DELIVERY_"), None),
    named("duration_numbers", "duration", Some(""), None),
    named("sub_segment_numbers", "sub-segments", Some(""), None),
    named("dtmf_char_numbers", "DTMF character", None, Some("DTMF_CHAR")),
    named("segmentation_component_numbers", "segmentation component", None, Some("SEGMENTATION_COMPONENT")),
    named("audio_component_numbers", "audio component", None, Some("AUDIO_COMPONENT")),
    named("upid_numbers", "UPID", None, Some("UPID")),
    named("break_answer_numbers", "break", Some("BREAK_"), Some("BREAK")),
    named("effective_time_numbers", "effective time", Some("EFFECTIVE_TIME_"), Some("EFFECTIVE_TIME")),
    // the header says its two numbers in words
    named("dvb_numbers", "DVB-DASH check", None, Some("DVB")),
    named("dash_duration_numbers", "DASH duration", Some("DASH_DURATION_"), Some("DASH_DURATION")),
    named("label_numbers", "bill label", Some("BILL_LABEL_"), Some("BILL_LABEL")),
    // READINGS has its three numbers in words, and the header's limit is TURN
    Named { definition: "turn_numbers", page: None, header: None, limit: None },
];

/// What the cases are called that are an `Option` or a flag in the definitions: `None` or `false`, and `Some` or `true`.
#[rustfmt::skip]
const OPTIONAL: [(&str, &str, &str); 8] = [
    ("break_numbers", "BreakDuration.Absent", "BreakDuration.Present"),
    ("delivery_numbers", "Delivery.NotRestricted", "Delivery.Restricted"),
    ("duration_numbers", "Duration.Absent", "Duration.Present"),
    ("sub_segment_numbers", "SubSegments.Absent", "SubSegments.Present"),
    ("effective_time_numbers", "EffectiveTime.None", "EffectiveTime.At"),
    ("dvb_numbers", "Dvb.No", "Dvb.Yes"),
    ("dash_duration_numbers", "DashDuration.None", "DashDuration.Measured"),
    ("label_numbers", "Label.House", "Label.Upid"),
];

/// The case of a definition that has these words for a pattern: one of an enum has its name there, an answer of one case
/// is `Ok`, and a part of others has none.
pub fn case_of(definition: &str, words: &[&str]) -> String {
    if let Some(case) = words.iter().find(|word| word.contains('.')) {
        return case.to_string();
    }
    let is = |one: &str, other: &str| words.contains(&one) || words.contains(&other);
    let (absent, present) = (is("None", "false"), is("Some", "true"));
    if absent || present {
        let named = OPTIONAL.iter().find(|(name, _, _)| *name == definition);
        let (_, no, yes) = named.unwrap_or_else(|| panic!("{definition} has cases without names"));
        return if absent { no } else { yes }.to_string();
    }
    let answered = if words.contains(&"Ok") { "Ok" } else { "" };
    answered.to_string()
}

/// Cases that the header and the page do not call as the definitions do.
const OTHERWISE: [(&str, &str, &str); 6] = [
    ("Event.Scheduled", "SCHEDULED", "event"),
    ("Event.Cancelled", "CANCELLED", "cancelled event"),
    ("Break.Unmeasured", "WITHOUT_MEASURE", "without measure"),
    ("EffectiveTime.At", "GIVEN", "given"),
    ("Label.Upid", "SECTION", "a part of the section"),
    ("Label.House", "HOUSE", "the house's name"),
];

/// The header's and the page's name of a case: `CANCELLED_INSERT`, `cancelled insert`.
pub fn names(case: &str) -> (String, String) {
    if let Some((_, header, page)) = OTHERWISE.iter().find(|(name, _, _)| *name == case) {
        return (header.to_string(), page.to_string());
    }
    let (_, case) = case.split_once('.').expect("the case of an enum");
    let mut words = String::new();
    for letter in case.chars() {
        if letter.is_uppercase() && !words.is_empty() {
            words.push(' ');
        }
        words.extend(letter.to_lowercase());
    }
    (words.to_uppercase().replace(' ', "_"), words)
}

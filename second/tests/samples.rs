//! docs/SAMPLES.md says what the texts are that the papers print, and what this program answers.

use second::crc::crc32;
use second::hex::{from_hex, to_hex};
use second::lines::answer;
use second::samples::{named, Sample, Text, PUBLISHED};
use second::section::accept;
use second::text::text_to_section;

const PAGE: &str = include_str!("../../docs/SAMPLES.md");

/// What 002 prints behind `Hex=0x`.
const HEX: [(&str, &str); 6] = [
    ("002, 14.1", "FC3034000000000000FFFF00506FE72BD0050001E021C435545494800008E7FCF0001A599B0080800000002CA0A18A3402009AC9D17E"),
    ("002, 14.2", "FC302F00000000000FFFF014054800008F7FEFF2369C02EFE0052CCF50000000000A0008435545490000013562DBA30A"),
    ("002, 14.4", "FC304800000000000FFFF00506FE7A4D88B60032021743554549480000187F9F080800000002CCBC344110000021743554549480000197F9F080800000002CA4DBA01000009972E343"),
    ("002, 14.5", "FC302F00000000000FFFF00506FEAEBFF640019021743554549480000087F9F080800000002CA56CF5170000951DB0A8"),
    ("002, 14.7", "FC302F000000000000FFFF00506FEAEF17C4C0019021743554549480000077F9F080800000002CA56C97110000C4876A2E"),
    ("002, 14.8", "FC306100000000000FFFF00506FEA8CD44ED004B021743554549480000AD7F9F080800000002CB2D79D350200021743554549480000267F9F0808000000002CB2D79D110000021743554549480000277F9F080800000002CB2D7B31000008A18869F"),
];

fn section(text: &str) -> Vec<u8> {
    text_to_section(text.as_bytes(), 4096).expect("a text that is read")
}

/// What the page says of one sample alone.
fn part(sample: &Sample) -> &'static str {
    let heading = format!("\n### {}\n", sample.name);
    let start = PAGE.find(&heading).expect("a heading") + heading.len();
    let rest = &PAGE[start..];
    &rest[..rest.find("\n#").unwrap_or(rest.len())]
}

/// The texts that stand on lines of their own in a part of the page.
fn texts(part: &str) -> Vec<&str> {
    let indented = part.lines().filter_map(|line| line.strip_prefix("    "));
    indented.collect()
}

#[test]
fn the_answers_are_those_of_the_program() {
    for sample in &PUBLISHED {
        for Text { text, answer: said } in [&sample.printed].into_iter().chain(&sample.restored) {
            assert_eq!(answer(text.as_bytes()), *said, "{}", sample.name);
        }
    }
}

#[test]
fn the_printed_crc_comes_out() {
    for sample in &PUBLISHED {
        let Some(crc_32) = sample.crc_32 else {
            continue;
        };
        let section = section(sample.whole().expect("a section"));
        assert_eq!(crc32(&section), 0, "{}", sample.name);
        let (_, last) = section.split_at(section.len() - 4);
        assert_eq!(last, crc_32.to_be_bytes(), "{}", sample.name);
    }
}

/// No restored text has another CRC than the printed one: its last characters are the printed ones.
#[test]
fn the_end_of_a_text_is_never_restored() {
    for sample in &PUBLISHED {
        if let Some(restored) = &sample.restored {
            let (_, end) = restored.text.split_at(restored.text.len() - 8);
            assert!(sample.printed.text.ends_with(end), "{}", sample.name);
        }
    }
}

#[test]
fn one_text_never_was_a_section() {
    let without: Vec<&str> = PUBLISHED
        .iter()
        .filter(|sample| sample.crc_32.is_none())
        .map(|sample| sample.name)
        .collect();
    assert_eq!(without, ["003, second"]);
    let words = "Another test string for encoding to Base64 encoded binary.";
    let sample = named("003, second");
    assert_eq!(section(sample.printed.text), words.as_bytes());
    assert!(part(sample).contains(words));
}

/// The row of a sample in the table.
fn row(sample: &Sample) -> String {
    let restored = sample.restored.as_ref();
    let crc_32 = sample.crc_32.map(|crc_32| format!("{crc_32:#010x}"));
    let cells = [
        sample.name.to_string(),
        sample.printed.text.len().to_string(),
        restored.map_or(String::new(), |text| text.text.len().to_string()),
        crc_32.unwrap_or_default(),
        format!("`{}`", sample.printed.answer),
        restored.map_or(String::new(), |text| format!("`{}`", text.answer)),
    ];
    let cells = cells.map(|cell| match cell.as_str() {
        "" => " ".to_string(),
        cell => format!(" {cell} "),
    });
    format!("|{}|", cells.join("|"))
}

#[test]
fn the_table_is_right() {
    let told: Vec<&str> = PAGE
        .lines()
        .filter(|line| line.starts_with("| 00") && line.contains('`'))
        .collect();
    assert_eq!(told, PUBLISHED.iter().map(row).collect::<Vec<_>>());
}

#[test]
fn each_part_has_the_printed_text_and_the_restored_one() {
    for sample in &PUBLISHED {
        let mut expected = vec![sample.printed.text];
        expected.extend(sample.restored.iter().map(|text| text.text));
        assert_eq!(texts(part(sample)), expected, "{}", sample.name);
        let whole = part(sample).contains("Nothing is wrong with it");
        assert_eq!(whole, sample.whole() == Some(sample.printed.text));
    }
}

/// Where no character was lost or doubled, every one that differs is told.
#[test]
fn misread_letters_are_told() {
    let mut count = 0;
    for sample in &PUBLISHED {
        let Some(restored) = &sample.restored else {
            continue;
        };
        if restored.text.len() != sample.printed.text.len() {
            continue;
        }
        let pairs = sample.printed.text.chars().zip(restored.text.chars());
        for (at, (printed, was)) in pairs.enumerate().filter(|(_, (a, b))| a != b) {
            let told = format!(
                "character {} is printed `{printed}` and was `{was}`",
                at + 1
            );
            assert!(part(sample).contains(&told), "{}: {told}", sample.name);
            count += 1;
        }
    }
    assert_eq!(count, 4);
}

/// What the papers say around their texts is what the restored sections hold.
#[test]
fn the_figures_beside_the_texts() {
    let figures = [
        ("000", vec!["splice_event_id: 760 ", "duration: 1710000 "]),
        (
            "002, 14.1",
            vec!["segmentation_duration: 27630000 (0x1a599b0)"],
        ),
        (
            "002, 14.2",
            vec!["descriptor_loop_length: 10 ", "descriptor_length: 8 "],
        ),
        ("002, 14.4", vec!["(0x7a4d88b6)", "(0x48000019)"]),
        ("002, 14.6", vec!["(0x48000009)"]),
        (
            "002, 14.8",
            vec!["segmentation_upid: 000000002cb2d79d", "(0x48000027)"],
        ),
        (
            "003, first",
            vec!["splice_event_id: 448 ", "duration: 2160000 "],
        ),
    ];
    for (name, expected) in figures {
        let section = accept(&section(named(name).whole().expect("a section")));
        let listing = second::section::listing(&section.expect("accepted"));
        for figure in expected {
            assert!(listing.contains(figure), "{name}: {figure}");
        }
    }
}

/// Each lost digits, and none is a section.
#[test]
fn the_lines_in_hex_are_not_used() {
    for (name, digits) in HEX {
        let whole = to_hex(&section(named(name).whole().expect("a section")));
        let told = format!("| {name} | {} | {} |\n", digits.len(), whole.len());
        assert!(PAGE.contains(&told), "{told}");
        assert!(digits.len() < whole.len());
        let bytes = from_hex(digits).expect("an even number of digits");
        assert!(accept(&bytes).is_err());
        let same = is_left_of(digits, &whole.to_uppercase());
        assert_eq!(same, name != "002, 14.2", "{name}");
    }
    // All but one digit of 14.2, which was misread together with another that was lost.
    let mended = HEX[1].1.replace("FEFF2369", "FEFFE7369");
    let whole = to_hex(&section(named("002, 14.2").whole().expect("a section")));
    assert!(is_left_of(&mended, &whole.to_uppercase()));
}

/// Whether these digits are left of those once some are lost.
fn is_left_of(digits: &str, of: &str) -> bool {
    let mut rest = of.chars();
    digits.chars().all(|digit| rest.any(|other| other == digit))
}

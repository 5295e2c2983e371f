//! docs/SHEET.md works 004's cue through as the second program does. `tests/tables` has its tables.

#[allow(dead_code)]
#[path = "support/fields.rs"]
mod fields;

use fields::fields;
use second::samples::TEXT_OF_004;
use second::sheet::sheet_of;
use second::text::text_to_section;

const PAGE: &str = include_str!("../../docs/SHEET.md");

/// The cells of every table row that has so many, as plain words.
fn rows(cells: usize) -> Vec<Vec<String>> {
    let lines = PAGE.lines().filter(|line| line.starts_with('|'));
    let rows = lines.map(|line| {
        let inside = line.trim_matches('|').split('|');
        inside.map(|cell| cell.trim().replace('`', "")).collect()
    });
    rows.filter(|row: &Vec<String>| row.len() == cells)
        .collect()
}

#[test]
fn the_cue_of_004_is_worked_through() {
    let section = text_to_section(TEXT_OF_004.as_bytes(), 55).unwrap();
    let sheet = sheet_of(&section).unwrap();
    let fields = fields(&section);
    let worked: Vec<Vec<String>> = rows(5)
        .into_iter()
        .filter(|row| row[0].parse::<usize>().is_ok())
        .collect();
    assert_eq!(worked.len(), 43);
    for (place, row) in worked.iter().enumerate() {
        let (name, bits) = fields[place];
        let said = [
            place.to_string(),
            name.to_string(),
            bits.to_string(),
            sheet[place].to_string(),
        ];
        assert_eq!(row[..4], said);
    }
}

#[test]
fn the_section_of_004_is_printed() {
    let section = text_to_section(TEXT_OF_004.as_bytes(), 55).unwrap();
    let bytes: Vec<String> = section.iter().map(|byte| format!("{byte:02x}")).collect();
    for line in bytes.chunks(32) {
        assert!(PAGE.contains(&format!("    {}\n", line.join(" "))));
    }
    assert!(PAGE.contains(TEXT_OF_004));
}

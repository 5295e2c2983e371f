//! Sheets of random sections, both ways: the second program alone, so no archive is needed.

#[allow(dead_code, unused_imports)]
#[path = "support/built/mod.rs"]
mod built;
#[allow(dead_code)]
#[path = "support/fields.rs"]
mod fields;
#[allow(dead_code)]
#[path = "support/random.rs"]
mod random;

use built::{any_section, middling_section, with_crc, Size};
use fields::widths;
use random::{seed, Random};
use second::refusal::SHEET;
use second::section::accept;
use second::sheet::{section_of, sheet_of};

fn random() -> Random {
    println!("seed {:#018x}", seed());
    Random::new(seed())
}

/// The sheet of the section, which must lead back to it.
fn there_and_back(section: &[u8]) -> Vec<u64> {
    let sheet = sheet_of(section).expect("an accepted section");
    assert_eq!(section_of(&sheet).as_deref(), Ok(section), "{sheet:?}");
    sheet
}

/// The numbers make a section whose sheet they are, or none; says whether they make one.
fn back_and_there(sheet: &[u64]) -> bool {
    match section_of(sheet) {
        Ok(section) => {
            assert_eq!(sheet_of(&section).as_deref(), Ok(sheet));
            true
        }
        Err(refused) => {
            assert_eq!(refused, SHEET);
            false
        }
    }
}

#[test]
fn sections_come_back() {
    let random = &mut random();
    for _ in 0..20_000 {
        there_and_back(&any_section(random, Size::Short).bytes);
    }
    for _ in 0..400 {
        there_and_back(&any_section(random, Size::Long).bytes);
    }
}

/// A section with a byte changed is often another section that is accepted.
#[test]
fn changed_sections_come_back() {
    let random = &mut random();
    let mut accepted = 0;
    for _ in 0..300 {
        let built = any_section(random, Size::Short);
        for at in 0..built.bytes.len() {
            let mut section = built.bytes.clone();
            section[at] = random.number() as u8;
            let section = with_crc(&section);
            if accept(&section).is_ok() {
                there_and_back(&section);
                accepted += 1;
            } else {
                assert_eq!(sheet_of(&section).err(), accept(&section).err());
            }
        }
    }
    assert!(accepted > 5_000, "{accepted}");
}

#[test]
fn a_number_too_wide_is_on_no_sheet() {
    let random = &mut random();
    let mut sections: Vec<_> = (0..500).map(|_| any_section(random, Size::Short)).collect();
    sections.push(middling_section(random));
    for built in sections {
        let sheet = there_and_back(&built.bytes);
        let widths = widths(&built.bytes);
        assert_eq!(widths.len(), sheet.len());
        for (place, width) in widths.into_iter().enumerate() {
            for number in [1 << width, sheet[place] + (1 << width), u64::MAX] {
                let mut sheet = sheet.clone();
                sheet[place] = number;
                assert_eq!(section_of(&sheet), Err(SHEET));
            }
        }
    }
}

/// Numbers changed, taken out, put in and changed for others: mostly no sheet, sometimes another.
#[test]
fn changed_sheets_are_sheets_or_none() {
    let random = &mut random();
    let mut counts = [0, 0];
    for _ in 0..30_000 {
        let built = any_section(random, Size::Short);
        let mut sheet = sheet_of(&built.bytes).unwrap();
        let at = random.within(0..=sheet.len() - 1);
        match random.within(0..=4) {
            0 => sheet[at] = sheet[at].wrapping_add(1),
            1 => sheet[at] = random.number_of_any_size(),
            2 => {
                sheet.remove(at);
            }
            3 => {
                let width = random.within(1..=40);
                sheet.insert(at, random.field(width));
            }
            _ => {
                let other = random.within(0..=sheet.len() - 1);
                sheet.swap(at, other);
            }
        }
        counts[usize::from(back_and_there(&sheet))] += 1;
    }
    println!("none: {}, sheets: {}", counts[0], counts[1]);
    assert!(counts.iter().all(|count| *count > 1_000), "{counts:?}");
}

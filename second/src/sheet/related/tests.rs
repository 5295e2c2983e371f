//! Sheets that are related, and sheets that differ in a field that counts.

use super::*;

const SHEET_OF_004: [u64; 43] = [
    252, 0, 0, 3, 0, 0, 0, 0, 0, 0, 5, 6, 1, 63, 3150057, 30, 2, 28, 1129661769, 1073741883, 0,
    127, 1, 1, 0, 0, 1, 1, 3, 18132042, 8, 8, 0, 0, 0, 0, 32, 251, 101, 1, 52, 0, 0,
];

const CUEI_NUMBER: u64 = 0x4355_4549;

/// A sheet with this splice_command_length, and these numbers behind it.
fn sheet(splice_command_length: u64, inside: &[u64]) -> Vec<u64> {
    let header = [252, 0, 0, 0, 0, 0, 0, 0, 0, 0, splice_command_length];
    [&header, inside].concat()
}

/// A splice_null() sheet with these descriptors, in all so many bytes, and this stuffing.
fn null(loop_length: u64, descriptors: &[&[u64]], stuffing: &[u64]) -> Vec<u64> {
    let descriptors = descriptors.concat();
    sheet(
        0,
        &[&[0, loop_length], descriptors.as_slice(), stuffing].concat(),
    )
}

fn are(one: &[u64], other: &[u64]) {
    assert!(related(one, other), "{one:?}, {other:?}");
    assert!(related(other, one));
    assert!(related(one, one) && related(other, other));
}

fn are_not(one: &[u64], other: &[u64]) {
    assert!(!related(one, other), "{one:?}, {other:?}");
    assert!(!related(other, one));
}

/// The sheet is related to those that differ at these places only, which are all that its reserved
/// fields have, and to none that differ at another and are sheets.
fn reserved_at(sheet: &[u64], reserved: &[usize]) {
    assert!(related(sheet, sheet), "{sheet:?}");
    for place in 0..sheet.len() {
        for number in [0, 1, 2, 3, sheet[place] ^ 1, sheet[place] + 1] {
            let mut other = sheet.to_vec();
            other[place] = number;
            if section_of(&other).is_err() || other == sheet {
                continue;
            }
            assert_eq!(related(sheet, &other), reserved.contains(&place), "{place}");
        }
    }
}

#[test]
fn reserved_fields_of_004() {
    reserved_at(&SHEET_OF_004, &[3, 13, 21]);
}

#[test]
fn reserved_fields_of_commands() {
    // The places count the eleven numbers of the header and splice_command_type.
    reserved_at(&sheet(1, &[0x06, 0, 127, 0]), &[3, 13]);
    reserved_at(&sheet(5, &[0x06, 1, 63, 9, 0]), &[3, 13]);
    reserved_at(&sheet(5, &[0x05, 9, 1, 127, 0]), &[3, 14]);
    let program = [
        0x05, 9, 0, 0, 1, 1, 1, 0, 15, 1, 63, 8, 1, 63, 9, 2, 3, 4, 0,
    ];
    reserved_at(&sheet(20, &program), &[3, 14, 19, 21, 24]);
    let components = [
        0x05, 9, 0, 0, 1, 0, 0, 0, 15, 2, 7, 0, 127, 8, 1, 63, 5, 2, 3, 4, 0,
    ];
    reserved_at(&sheet(19, &components), &[3, 14, 19, 23, 26]);
    let immediate = [0x05, 9, 0, 0, 1, 0, 0, 1, 15, 2, 7, 8, 2, 3, 4, 0];
    reserved_at(&sheet(13, &immediate), &[3, 14, 19]);
    let events = [
        0x04, 3, 9, 1, 127, 8, 0, 0, 1, 1, 1, 31, 7, 0, 63, 6, 2, 3, 4, 5, 0, 0, 0, 0, 0, 31, 1, 7,
        8, 2, 3, 4, 0,
    ];
    reserved_at(&sheet(41, &events), &[3, 15, 18, 22, 25, 32, 36]);
    reserved_at(&sheet(6, &[0xFF, 7, 1, 2, 0]), &[3]);
    reserved_at(&sheet(2, &[0x55, 1, 2, 0]), &[3]);
}

#[test]
fn reserved_fields_of_descriptors() {
    let cuei = CUEI_NUMBER;
    // The places count the eleven numbers of the header, splice_command_type and the loop's length.
    reserved_at(&null(10, &[&[0, 8, cuei, 9]], &[]), &[3]);
    reserved_at(&null(10, &[&[1, 8, cuei, 9, 2, 31, 49, 50]], &[]), &[3, 18]);
    reserved_at(&null(11, &[&[2, 9, cuei, 9, 1, 127]], &[]), &[3, 18]);
    reserved_at(&null(18, &[&[3, 16, cuei, 7, 8, 9]], &[]), &[3]);
    let audio = [4, 10, cuei, 1, 15, 255, 6, 7, 15, 1];
    reserved_at(&null(12, &[&audio], &[]), &[3, 17]);
    let free = [2, 15, cuei, 9, 0, 127, 1, 0, 1, 31, 0, 0, 0x10, 1, 1];
    reserved_at(&null(17, &[&free], &[]), &[3, 18, 22]);
    let components = [
        2, 27, cuei, 9, 0, 127, 0, 0, 0, 1, 1, 1, 3, 1, 5, 127, 6, 9, 3, 65, 66, 67, 0x34, 1, 1, 4,
        5,
    ];
    reserved_at(&null(29, &[&components], &[]), &[3, 18, 28]);
}

#[test]
fn stuffing_is_taken_out() {
    are(&null(0, &[], &[]), &null(0, &[], &[1, 2, 3]));
    are(&null(0, &[], &[3, 2]), &null(0, &[], &[1, 2, 3]));
    let avail: &[u64] = &[0, 8, CUEI_NUMBER, 9];
    are(&null(10, &[avail], &[]), &null(10, &[avail], &[255]));
    // The same numbers as stuffing are no descriptor.
    let as_bytes = [0, 8, 0x43, 0x55, 0x45, 0x49, 0, 0, 0, 9];
    are(&null(0, &[], &[]), &null(0, &[], &as_bytes));
    are_not(&null(10, &[avail], &[]), &null(0, &[], &as_bytes));
}

#[test]
fn unknown_descriptors_are_taken_out_anywhere() {
    let avail: &[u64] = &[0, 8, CUEI_NUMBER, 9];
    let other_avail: &[u64] = &[0, 8, CUEI_NUMBER, 8];
    let foreign: &[u64] = &[0, 8, CUEI_NUMBER - 1, 1, 2, 3, 4];
    let another_tag: &[u64] = &[5, 4, CUEI_NUMBER];
    let two = null(20, &[avail, other_avail], &[]);
    are(&two, &null(30, &[foreign, avail, other_avail], &[]));
    are(&two, &null(30, &[avail, foreign, other_avail], &[]));
    are(&two, &null(26, &[avail, other_avail, another_tag], &[7]));
    let many = [foreign, avail, another_tag, foreign, other_avail, foreign];
    are(&two, &null(56, &many, &[]));
    are(&null(0, &[], &[]), &null(16, &[foreign, another_tag], &[]));
    // Known ones count, and so does their order.
    are_not(&two, &null(20, &[other_avail, avail], &[]));
    are_not(&two, &null(10, &[avail], &[]));
    are_not(&two, &null(30, &[avail, avail, other_avail], &[]));
    are_not(&two, &null(30, &[other_avail, foreign, avail], &[]));
}

#[test]
fn splice_command_length_stays() {
    let open = sheet(0xFFF, &[0, 0]);
    assert!(section_of(&open).is_ok());
    are_not(&sheet(0, &[0, 0]), &open);
    let mut open = SHEET_OF_004;
    open[10] = 0xFFF;
    are(&open, &open);
    are_not(&SHEET_OF_004, &open);
}

#[test]
fn sealed_sheets_are_bytes() {
    let sealed = |sap_type, last| {
        let header = [252, 0, 0, sap_type, 0, 1, 0, 0, 0, 0, 5];
        [header.as_slice(), &[6, 127, 0, 0, 1, 2, 3, last]].concat()
    };
    are(&sealed(0, 9), &sealed(3, 9));
    are_not(&sealed(0, 9), &sealed(0, 8));
    are_not(&sealed(0, 9), &sealed(0, 9)[..18]);
}

#[test]
fn what_is_no_sheet_is_related_to_nothing() {
    let none: [&[u64]; 3] = [&[], &SHEET_OF_004[..42], &[7; 43]];
    for none in none {
        assert!(!related(none, none));
        are_not(none, &SHEET_OF_004);
    }
}

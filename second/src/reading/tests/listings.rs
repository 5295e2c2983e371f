//! Answers as they are shown to people: a line for every number of the flat list.

use super::*;

#[test]
fn an_insert_is_listed() {
    let section = with_command("05", "00000009 7F EF FE00000014 FE0000000F 0102 03 04");
    let expected = "\
command: 2 (insert)
splice_event_id: 9
out_of_network_indicator: 1
time: 2 (given)
pts_time: 20 (0x14)
mode: 0 (program)
break_duration: 1 (present)
auto_return: 1
duration: 15 (0xf)
unique_program_id: 258 (0x102)
avail_num: 3
avails_expected: 4
";
    assert_eq!(listing(&command(&section).unwrap()), expected);
}

#[test]
fn a_upid_is_listed() {
    let section = with_known(&[
        (2, "00000001 7F BF 09 02 ABCD 10 01 01"),
        (2, "00000001 7F BF 09 00 10 01 01"),
    ]);
    let full = "offset: 30 (0x1e)\nlength: 2\nsegmentation_upid: abcd\n";
    assert_eq!(listing(&upid(&section, 0).unwrap()), full);
    let empty = "offset: 49 (0x31)\nlength: 0\nsegmentation_upid: no bytes\n";
    assert_eq!(listing(&upid(&section, 1).unwrap()), empty);
}

#[test]
fn bytes_and_counts_are_listed() {
    assert_eq!(listing(&0x31u8), "byte: 49 (0x31)\n");
    assert_eq!(listing(&3u64), "count: 3\n");
    assert_eq!((numbers(&0x31u8), numbers(&3u64)), (vec![49], vec![3]));
}

//! UPIDs: where each lies, its bytes, and where there is none.

use super::*;

fn lies(section: &[u8], n: u64, offset: usize, bytes: &[u8]) {
    assert_eq!(upid(section, n), Ok(Upid { offset, bytes }), "number {n}");
    assert_eq!(section[offset..offset + bytes.len()], *bytes);
    let place = [offset as u64, bytes.len() as u64];
    let bytes: Vec<u64> = bytes.iter().map(|byte| u64::from(*byte)).collect();
    let list = [place.as_slice(), &bytes].concat();
    assert_eq!(flat(upid(section, n)), Ok(list));
}

#[test]
fn an_empty_upid_is_no_refusal() {
    let section = with_known(&[(2, "00000001 7F BF 00 00 10 01 01")]);
    // 16 bytes before the loop, 6 of the descriptor before its body, 8 of its body.
    lies(&section, 0, 30, &[]);
}

#[test]
fn the_place_follows_from_all_before_it() {
    let upid = "ABCDEF";
    let body = format!("00000001 7F BF 09 03 {upid} 10 01 01");
    let timed = format!("00000001 7F FF 0000000000 09 03 {upid} 10 01 01");
    let components = format!("00000001 7F 3F 02 AA 0000000000 BB 0000000000 09 03 {upid} 10 01 01");
    let cuei = "43554549";
    let bytes = [0xAB, 0xCD, 0xEF];
    lies(&with_known(&[(2, &body)]), 0, 30, &bytes);
    lies(&with_known(&[(2, &timed)]), 0, 35, &bytes);
    lies(&with_known(&[(2, &components)]), 0, 43, &bytes);
    lies(&with_both("06", "7F", &[(2, cuei, &body)]), 0, 31, &bytes);
    lies(
        &with_both("06", "FE00000000", &[(2, cuei, &body)]),
        0,
        35,
        &bytes,
    );
    lies(&with_both("A5", "0102", &[(2, cuei, &body)]), 0, 32, &bytes);
    let unknown = (2, "00000000", "ABCDEF");
    lies(
        &with_both("00", "", &[unknown, (2, cuei, &body)]),
        0,
        39,
        &bytes,
    );
}

#[test]
fn one_of_several() {
    let section = with_known(&[
        (0, "00000001"),
        (2, "00000001 7F BF 09 02 0102 10 01 01"),
        (2, "00000002 80"),
        (2, "00000003 7F BF 09 00 10 01 01"),
        (2, "00000004 7F BF 09 01 03 34 01 01 02 03"),
        (1, "00 20 31"),
    ]);
    for n in [0, 2, 5, 6, 7, 8].into_iter().chain(FAR) {
        assert_eq!(upid(&section, n), Err(NOTHERE), "number {n}");
    }
    lies(&section, 1, 40, &[1, 2]);
    lies(&section, 3, 70, &[]);
    lies(&section, 4, 87, &[3]);
}

#[test]
fn the_same_bytes_elsewhere_are_not_taken_for_it() {
    // Each UPID is the same three bytes, and they stand before it too.
    let body = "ABCDEF00 7F BF 09 03 ABCDEF 10 01 01";
    let section = with_known(&[(2, body), (2, body)]);
    lies(&section, 0, 30, &[0xAB, 0xCD, 0xEF]);
    lies(&section, 1, 50, &[0xAB, 0xCD, 0xEF]);
}

#[test]
fn the_longest_upid() {
    // descriptor_length 255: identifier 4, 8 before the UPID, 3 behind it.
    let body = format!("00000001 7F BF 09 F0 {} 10 01 01", "77".repeat(240));
    lies(&with_known(&[(2, &body)]), 0, 30, &[0x77; 240]);
}

//! UPIDs as parts of the section that was lent.

use crate::built::{any_section, Built, Size};
use crate::random;
use second::section::Apart;

/// The place of each UPID is where it was put when the section was built, and the part is one of
/// the very bytes that were lent.
#[test]
fn upids_lie_where_they_were_put() {
    let random = &mut random();
    let mut met = [0, 0];
    for _ in 0..5_000 {
        let Built { bytes, marks } = any_section(random, Size::Short);
        let section = Apart::of(&bytes);
        let Ok(count) = section.descriptor_count() else {
            continue;
        };
        let upids: Vec<_> = (0..count).filter_map(|n| section.upid(n).ok()).collect();
        let lengths = marks
            .iter()
            .filter(|mark| mark.name == "segmentation_upid_length");
        assert_eq!(lengths.clone().count(), upids.len());
        for (mark, upid) in lengths.zip(upids) {
            let length_at = mark.at / 8;
            let length = usize::from(bytes[length_at]);
            let part = &bytes[length_at + 1..length_at + 1 + length];
            assert_eq!(upid.offset, length_at + 1);
            assert!(std::ptr::eq(upid.bytes, part));
            met[usize::from(length > 0)] += 1;
        }
    }
    println!("empty: {}, with bytes: {}", met[0], met[1]);
    assert!(met.iter().all(|count| *count > 200));
}

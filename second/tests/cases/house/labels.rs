//! Bill labels: UPIDs of every length in every place, behind others that have none, and house names
//! of every length.

use crate::support::built::{section, Command, Descriptor, Segmentation, Size, Writer};
use crate::support::Bench;
use second::section::Apart;

pub fn all(bench: &mut Bench) {
    every_length(bench);
    for _ in 0..1_000 {
        behind_others(bench);
    }
    house_names(bench);
}

/// A segmentation descriptor with a UPID of so many bytes.
fn with_upid(bench: &mut Bench, upid: usize) -> Writer {
    let mut chosen = Segmentation::any(&mut bench.random, Size::Short);
    (chosen.cancelled, chosen.components, chosen.upid) = (false, None, upid);
    chosen.upid = chosen.upid.min(chosen.most_upid());
    chosen.descriptor(&mut bench.random)
}

/// One that has none: no bytes in it, cancelled, of another kind, or unknown with a UPID in it.
fn without_upid(bench: &mut Bench) -> Writer {
    match bench.random.within(0..=3) {
        0 => with_upid(bench, 0),
        1 => {
            let mut chosen = Segmentation::any(&mut bench.random, Size::Short);
            chosen.cancelled = true;
            chosen.descriptor(&mut bench.random)
        }
        2 => Descriptor::avail(&mut bench.random),
        _ => Descriptor::look_alike(&mut bench.random),
    }
}

/// The label of a section with these descriptors, under a house name of seven bytes.
fn label(bench: &mut Bench, list: Vec<Writer>) -> Vec<u64> {
    let command = Command::any(&mut bench.random, Size::Short);
    let built = section(&mut bench.random, command, list, &[]);
    let house_name = bench.random.bytes(7);
    bench.bill_label(&Apart::of(&built.bytes), &house_name)
}

fn every_length(bench: &mut Bench) {
    for upid in 0..=228 {
        let list = vec![with_upid(bench, upid), with_upid(bench, 9)];
        let label = label(bench, list);
        let length = if upid == 0 { 9 } else { upid as u64 };
        assert_eq!((label[0], label[2]), (0, length));
    }
}

fn behind_others(bench: &mut Bench) {
    let count = bench.random.within(0..=5);
    let mut list: Vec<Writer> = (0..count).map(|_| without_upid(bench)).collect();
    assert_eq!(label(bench, list.clone()), [1, 0, 7]);
    list.extend([with_upid(bench, 5), with_upid(bench, 6)]);
    let label = label(bench, list);
    assert_eq!((label[0], label[2]), (0, 5));
}

fn house_names(bench: &mut Bench) {
    let list = vec![without_upid(bench)];
    let built = section(&mut bench.random, Command::null(), list, &[]);
    let (built, nothing) = (Apart::of(&built.bytes), Apart::of(&[]));
    for length in (0..=40).chain([255, 256, 4096, 70_000]) {
        let house_name = bench.random.bytes(length);
        let label = bench.bill_label(&built, &house_name);
        assert_eq!(label, [1, 0, length as u64]);
        assert_eq!(bench.bill_label(&nothing, &house_name), label);
    }
}

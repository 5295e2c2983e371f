//! Milliseconds and clock sums: the worked figures, the edges, all pairs of edges, random ones.

use crate::support::Bench;

fn edges() -> Vec<u64> {
    let mut edges = vec![0, 1, 2, 89, 90, 91, 179, 180, 181, 18_132_042, 2_160_000];
    edges.extend([4_296_047_296, 5_672_624_400, 180_832, 8_589_934_591]);
    for power in [8, 15, 16, 31, 32, 33, 34, 39, 40, 48, 53, 62, 63] {
        let power = 1u64 << power;
        edges.extend([
            power - 2,
            power - 1,
            power,
            power + 1,
            power + 89,
            power + 90,
        ]);
    }
    for back in 0..=91 {
        edges.push(u64::MAX - back);
    }
    edges
}

#[test]
fn worked_figures() {
    let bench = Bench::new();
    let millis = [
        (0, 0),
        (89, 0),
        (90, 1),
        (2_160_000, 24_000),
        (18_132_042, 201_467),
        (4_296_047_296, 47_733_858),
        ((1 << 40) - 1, 12_216_795_864),
    ];
    for (ticks, expected) in millis {
        assert_eq!(bench.ticks_to_millis(ticks), expected);
    }
    assert_eq!(bench.clock_sum(8_589_934_591, 1), 0);
    assert_eq!(bench.clock_sum(5_672_624_400, 180_832), 5_672_805_232);
}

#[test]
fn milliseconds() {
    let mut bench = Bench::new();
    for ticks in (0..20_000).chain(edges()) {
        bench.ticks_to_millis(ticks);
    }
    for _ in 0..2_000_000 {
        let ticks = bench.random.number_of_any_size();
        bench.ticks_to_millis(ticks);
        let whole = ticks / 90 * 90;
        bench.ticks_to_millis(whole);
        bench.ticks_to_millis(whole.saturating_sub(1));
    }
}

#[test]
fn clock_sums() {
    let mut bench = Bench::new();
    for a in edges() {
        for b in edges() {
            bench.clock_sum(a, b);
        }
    }
    for _ in 0..2_000_000 {
        let a = bench.random.number_of_any_size();
        let b = bench.random.number_of_any_size();
        bench.clock_sum(a, b);
        bench.clock_sum(a % (1 << 33), b % (1 << 33));
    }
}

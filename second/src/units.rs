//! The two sums of the clock: ticks into milliseconds, and two clock readings added.

/// The m with 90m <= t < 90m + 90.
pub fn ticks_to_millis(ticks: u64) -> u64 {
    ticks / 90
}

/// The true sum of the two, wrapped at 2^33.
pub fn clock_sum(a: u64, b: u64) -> u64 {
    let sum = u128::from(a) + u128::from(b);
    (sum % (1 << 33)) as u64
}

#[cfg(test)]
mod tests {
    use super::*;

    #[test]
    fn worked_milliseconds() {
        assert_eq!(ticks_to_millis(0), 0);
        assert_eq!(ticks_to_millis(89), 0);
        assert_eq!(ticks_to_millis(90), 1);
        assert_eq!(ticks_to_millis(2_160_000), 24_000);
        assert_eq!(ticks_to_millis(18_132_042), 201_467);
        assert_eq!(ticks_to_millis(4_296_047_296), 47_733_858);
        assert_eq!(ticks_to_millis((1 << 40) - 1), 12_216_795_864);
    }

    #[test]
    fn milliseconds_are_as_defined() {
        for t in (0..1000).chain([1 << 32, 1 << 33, 1 << 40, 1 << 63, u64::MAX]) {
            let m = u128::from(ticks_to_millis(t));
            assert!(90 * m <= u128::from(t) && u128::from(t) < 90 * m + 90);
        }
    }

    #[test]
    fn worked_clock_sums() {
        assert_eq!(clock_sum(8_589_934_591, 1), 0);
        assert_eq!(clock_sum(5_672_624_400, 180_832), 5_672_805_232);
    }

    #[test]
    fn clock_sums_at_the_edges() {
        assert_eq!(clock_sum(0, 0), 0);
        assert_eq!(clock_sum(1 << 33, 0), 0);
        assert_eq!(clock_sum(0, (1 << 33) - 1), (1 << 33) - 1);
        assert_eq!(clock_sum(1 << 32, 1 << 32), 0);
        assert_eq!(clock_sum(1 << 63, 1 << 63), 0);
        assert_eq!(clock_sum(u64::MAX, 1), 0);
        assert_eq!(clock_sum(u64::MAX, u64::MAX), (1 << 33) - 2);
    }
}

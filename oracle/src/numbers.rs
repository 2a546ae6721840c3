//! Numbers to try.

/// Powers of two and of ten, and their neighbours.
pub fn landmarks() -> Vec<u64> {
    let powers = (0..64).map(|k| 1u64 << k).chain((0..20).map(|k| 10u64.pow(k)));
    let mut numbers: Vec<u64> = powers.flat_map(|power| [power - 1, power, power.wrapping_add(1)]).collect();
    numbers.extend([u64::MAX - 1, u64::MAX]);
    numbers
}

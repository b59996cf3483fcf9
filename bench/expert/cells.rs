//! Whole roots and cell times, exact though taken from floating-point numbers.

/// The most cells whose times are computed together.
pub const BATCH: usize = 32;

const TWO_52: f64 = 4_503_599_627_370_496.0;
const BELOW_TWO_52: u64 = (1 << 52) - 1;

pub fn squared(kmh: u16) -> u32 {
    10_000 * u32::from(kmh) * u32::from(kmh)
}

/// The root of a number below 2^30. The whole number nearest to the single-precision root is the root rounded down, or one more.
#[inline]
pub fn root(w: u32) -> u32 {
    let near = ((w as i32 as f32).sqrt() + 8_388_608.0).to_bits() & 0x7fff;
    near - u32::from((w as i32) < (near * near) as i32)
}

/// The cell time between two roots, given their sum; 0 if this is 0. A quotient that is not whole is more than 2^-17 above the
/// whole number below it, so with 1/2 - 2^-17 added it is nearest to the one above. Adding 2^52 rounds to the nearest.
#[inline]
pub fn cell_time(distance: f64, roots: u32) -> u64 {
    let quotient = distance / f64::from(roots as i32);
    (quotient + (0.5 - 1.0 / 131_072.0) + TWO_52).to_bits() & BELOW_TWO_52
}

/// Squared speeds turned into roots, four at a time.
#[inline(never)]
pub fn take_roots(speeds: &mut [u32]) {
    for four in speeds.chunks_exact_mut(4) {
        for speed in four {
            *speed = root(*speed);
        }
    }
}

/// The cell times between neighbouring roots, four at a time.
#[inline(never)]
pub fn write_cells(distance: f64, roots: &[u32], cells: &mut [u64]) {
    for (k, four) in cells.chunks_exact_mut(4).enumerate() {
        let roots = &roots[4 * k..4 * k + 5];
        for i in 0..4 {
            four[i] = cell_time(distance, roots[i] + roots[i + 1]);
        }
    }
}

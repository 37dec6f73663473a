//! Rates, at and around their limits and at parts of a penny.

use super::random::Random;

/// The greatest rate.
const MOST_RATE: u32 = 1_000_000;

/// Rates per cell, per call and per factor; of three times once some of them are too great: one, two or all three.
pub fn mostly_allowed(random: &mut Random) -> [u32; 3] {
    let over = if random.chance(3) {
        random.between(1, 7)
    } else {
        0
    };
    let mut rates = allowed(random);
    for (place, rate) in rates.iter_mut().enumerate() {
        if over >> place & 1 == 1 {
            *rate = too_great(random);
        }
    }
    rates
}

/// Rates that are allowed; often all of them parts of a penny, so that half a penny is often left.
pub fn allowed(random: &mut Random) -> [u32; 3] {
    let step = random.pick(&[1, 1, 1, 5, 10, 25, 50]);
    [(); 3].map(|()| match random.below(6) {
        0 => 0,
        1 => random.pick(&[1, 49, 50, 51, 99, 100, 101]) / step * step,
        2 => MOST_RATE - step * random.below(2) as u32,
        3 => step * random.below(20) as u32,
        _ => random.below(MOST_RATE as usize + 1) as u32 / step * step,
    })
}

/// A rate over the limit, often by one.
fn too_great(random: &mut Random) -> u32 {
    match random.below(4) {
        0 | 1 => MOST_RATE + 1,
        2 => random.pick(&[MOST_RATE + 2, 1 << 20, 1 << 24, 1 << 31, u32::MAX]),
        _ => random.number().max(MOST_RATE + 1),
    }
}

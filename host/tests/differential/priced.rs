//! One case of price: the archive's answer, by the safe call and by the raw one, beside the independent implementation's.

use crate::archive;
use crate::cases::{price_outcome, Case};
use crate::generator::random::Random;
use crate::independent::key::read;
use crate::independent::pass;
use crate::independent::price::{price, total};
use crate::lent::lend_bytes;

/// What is said of a price for which half a penny is rounded.
pub const HALF: &str = ", half a penny upwards";

/// One case of price, by the safe call and by the raw one. At the rates 0, 0 and 100 the price of an accepted key is the
/// count of factors: that of the pass, which counts as it multiplies, and that of cell.
pub fn price_case(random: &mut Random, key: &[u8], rates: [u32; 3]) -> Case {
    let answer = price(key, rates);
    let input = format!("rates {rates:?}");
    let mut case = Case::new(&[key], input, price_outcome(&answer, rates));
    let half = |key: &_| total(key, rates) % 100 == 50;
    if answer.is_ok() && read(key).is_ok_and(|key| half(&key)) {
        case.outcome += HALF;
    }
    let lent = lend_bytes(random, key);
    let key = lent.slice();

    case.hold("price", archive::price(key, rates), answer);
    case.hold_unchanged(&[&lent], &[]);
    let reply = archive::raw_price(key, rates);
    case.hold("price's reply", reply, archive::price_reply(answer));
    case.hold_unchanged(&[&lent], &[]);
    let of_factors = archive::price(key, [0, 0, 100]);
    case.hold("factors of the pass", of_factors, pass::factors(key));
    let celled = archive::cell(key, 0, 0, &mut [0; 3 * 1_024]);
    let counted = celled.map(|answer| answer.factors);
    case.hold("factors of cell", of_factors, counted);
    case
}

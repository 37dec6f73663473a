//! One case of the move: the archive's answer, by the safe call and by the raw one, beside the independent
//! implementation's.

use crate::archive;
use crate::cases::{outcome, Case};
use crate::generator::random::Random;
use crate::independent::edition;
use crate::lent::lend_bytes;

/// One case of the move, by the safe call and by the raw one; a copy is moved back too.
pub fn move_case(random: &mut Random, key: &[u8], buffer: &[u8]) -> Case {
    let mut wanted = buffer.to_vec();
    let answer = edition::moved(key, &mut wanted);
    let input = format!("buffer of {} bytes", buffer.len());
    let mut case = Case::new(&[key], input, outcome(&answer));
    let lent = lend_bytes(random, key);
    let mut buffer = lend_bytes(random, buffer);

    let got = archive::moved(lent.slice(), buffer.slice_mut());
    case.hold("moved", got, answer);
    case.hold_buffer("buffer", &mut buffer, &wanted);
    case.hold_unchanged(&[&lent], &[]);
    let reply = archive::raw_move(lent.slice(), buffer.slice_mut());
    case.hold("its reply", reply, archive::move_reply(answer));
    case.hold_buffer("buffer of the reply", &mut buffer, &wanted);
    case.hold_unchanged(&[&lent], &[]);
    if let Ok(length) = answer {
        let mut back = vec![0; key.len()];
        let got = archive::moved(&wanted[..length], &mut back);
        case.hold("moved back", got, Ok(key.len()));
        case.hold("there and back", &back[..], key);
        let counts = archive::check(&wanted[..length]);
        case.hold("counts of the copy", counts, archive::check(key));
        let cell = |key: &[u8]| archive::cell(key, 0, 0, &mut [0; 3 * 1_024]);
        let got = cell(&wanted[..length]);
        case.hold("values and factors of the copy", got, cell(key));
    }
    case
}

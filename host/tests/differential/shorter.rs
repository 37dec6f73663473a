//! One case of shorter: what the archive hands back, by the safe call and by the raw one, beside the independent
//! implementation's.

use crate::archive;
use crate::cases::{shorter_outcome, Case};
use crate::generator::inputs::Point;
use crate::generator::random::Random;
use crate::independent::calls::compare;
use crate::independent::field::Fp;
use crate::independent::shorter::shorter;
use crate::lent::{lend_bytes, lend_numbers};

/// One case of shorter, by the safe call and by the raw one. The safe call hands back a part of what is lent: where it
/// begins in memory and its length are held. The sheet is the one that the independent compare leaves.
pub fn shorter_case(
    random: &mut Random,
    keys: &[Vec<u8>; 2],
    point: &Point,
    sheet: &[u32],
) -> Case {
    let [first, second] = keys;
    let (rows, columns) = point;
    let (mut wanted, mut compared) = (sheet.to_vec(), sheet.to_vec());
    let handed = shorter(first, second, rows, columns, &mut wanted);
    let answer = compare::<Fp>(first, second, rows, columns, &mut compared);
    let input = format!("rows {rows:?} columns {columns:?} sheet {sheet:?}");
    let outcome = shorter_outcome(&answer, handed, [first, second]);
    let mut case = Case::new(&[first, second], input, outcome);
    case.hold("the sheet of compare", &wanted, &compared);
    let same = matches!(answer, Ok(answer) if answer.same);
    case.hold("empty unless they are the same", handed.length == 0, !same);
    let first = lend_bytes(random, first);
    let second = lend_bytes(random, second);
    let rows = lend_numbers(random, rows);
    let columns = lend_numbers(random, columns);
    let mut sheet = lend_numbers(random, sheet);

    let got = archive::shorter(
        first.slice(),
        second.slice(),
        rows.slice(),
        columns.slice(),
        sheet.slice_mut(),
    );
    let part = handed.of(first.slice(), second.slice());
    case.hold("shorter", got.as_ptr_range(), part.as_ptr_range());
    case.hold_sheet("sheet", &mut sheet, &wanted);
    case.hold_unchanged(&[&first, &second], &[&rows, &columns]);
    let reply = archive::raw_shorter(
        first.slice(),
        second.slice(),
        rows.slice(),
        columns.slice(),
        sheet.slice_mut(),
    );
    case.hold("shorter's reply", reply, archive::shorter_reply(handed));
    case.hold_sheet("sheet of the reply", &mut sheet, &wanted);
    case.hold_unchanged(&[&first, &second], &[&rows, &columns]);
    case
}

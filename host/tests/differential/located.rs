//! One case of locate: the archive's answer, by the safe call and by the raw one, beside the independent implementation's.

use crate::archive;
use crate::cases::{locate_outcome, Case};
use crate::generator::inputs::Point;
use crate::generator::random::Random;
use crate::independent::locate::locate;
use crate::lent::{lend_bytes, lend_numbers};

/// One case of locate, by the safe call and by the raw one.
pub fn locate_case(random: &mut Random, keys: &[Vec<u8>; 2], point: &Point, sheet: &[u32]) -> Case {
    let [first, second] = keys;
    let (rows, columns) = point;
    let mut wanted = sheet.to_vec();
    let answer = locate(first, second, rows, columns, &mut wanted);
    let input = format!("rows {rows:?} columns {columns:?} sheet {sheet:?}");
    let mut case = Case::new(&[first, second], input, locate_outcome(&answer));
    if let Ok(Some(cell)) = answer {
        case.hold("the cell differs", cell.first != cell.second, true);
    }
    let first = lend_bytes(random, first);
    let second = lend_bytes(random, second);
    let rows = lend_numbers(random, rows);
    let columns = lend_numbers(random, columns);
    let mut sheet = lend_numbers(random, sheet);

    let got = archive::locate(
        first.slice(),
        second.slice(),
        rows.slice(),
        columns.slice(),
        sheet.slice_mut(),
    );
    case.hold("locate", got, answer);
    case.hold_sheet("sheet", &mut sheet, &wanted);
    case.hold_unchanged(&[&first, &second], &[&rows, &columns]);
    let reply = archive::raw_locate(
        first.slice(),
        second.slice(),
        rows.slice(),
        columns.slice(),
        sheet.slice_mut(),
    );
    case.hold("locate's reply", reply, archive::locate_reply(answer));
    case.hold_sheet("sheet of the reply", &mut sheet, &wanted);
    case.hold_unchanged(&[&first, &second], &[&rows, &columns]);
    case
}

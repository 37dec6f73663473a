//! The safe functions give each field of the library's replies its name.

use morgana::{cell, check, compare, compare_quadratic, evaluate, evaluate_quadratic};
use morgana::{locate, moved, price, shorter, CompareRefusal, Compared, Rates, Refusal, Which, P};
use morgana::{DifferingCell, Located, Values};
use morgana::{KEY_LIMIT, MOST_ARRAYS, MOST_BITS, MOST_RATE, SHEET, SHEET_QUADRATIC, VERSION};

/// The key of the keysheet example.
const SAMPLE: [u8; 53] = [
    1, 1, 1, 2, 0, 1, 4, 0, 0, 0, 0, 1, 0, 0, 0, 5, 0, 0, 0, 7, 0, 0, 0, 0, 0, 0, 0, 3, 1, 1, 5, 0,
    0, 0, 0, 0, 0, 0, 0, 0, 0, 5, 0, 0, 0, 0, 0, 0, 0, 0, 0, 0, 6,
];

/// The sample's count of factors, in either edition: the cell counts 1, and so does each call.
const FACTORS: u64 = 3;

/// The sample in edition 2, with these factors.
fn scaled(first: u32, second: u32) -> Vec<u8> {
    let mut key = SAMPLE[..30].to_vec();
    key[0] = 7;
    for factor in [first, second] {
        key.extend([8, 0, 0, 0, 0, 0, 0, 0, 0, 0, 0]);
        key.extend(factor.to_le_bytes());
    }
    key.push(6);
    key
}

/// A key of the sample's shape whose matrices are zero, without cells and calls.
const EMPTY: [u8; 7] = [1, 1, 1, 2, 1, 1, 6];

/// What stands on the sheet before a call.
const LENT: [u32; 8] = [101, 102, 103, 104, 105, 106, 107, 108];

/// A refusal's number and place.
fn told(refusal: Refusal) -> (u32, u64) {
    (refusal.number, refusal.place)
}

/// Whether keys are the same with their factors, or the key at fault with the refusal.
type Told = Result<(bool, u64), (Which, (u32, u64))>;

/// Compare's answer.
fn compared(answer: Result<Compared, CompareRefusal>) -> Told {
    match answer {
        Ok(compared) => Ok((compared.same, compared.factors)),
        Err(refused) => Err((refused.which, told(refused.refusal))),
    }
}

/// A refusal of compare that names neither key.
fn neither(told: (u32, u64)) -> Told {
    Err((Which::Neither, told))
}

#[test]
fn check_answers_counts() {
    let counts = check(&SAMPLE).expect("the key is accepted");
    assert_eq!((counts.arrays, counts.cells, counts.calls), (2, 1, 2));
    assert_eq!((counts.rows, counts.columns), (1, 1));
    assert_eq!(check(&[]).map_err(told), Err((2, 0)));
}

#[test]
fn the_versions_agree() {
    let parts: Vec<u32> = VERSION
        .split('.')
        .map(|part| part.parse().expect("a number"))
        .collect();
    let [major, minor, patch] = parts[..] else {
        panic!("{VERSION} has not three parts")
    };
    assert_eq!(
        morgana::version(),
        1_000_000 * major + 1_000 * minor + patch
    );
}

#[test]
fn the_limits_are_the_library_s() {
    let arrays = |count: usize| [&[1, 0, 0][..], &[2, 0, 0].repeat(count), &[6]].concat();
    let most = arrays(MOST_ARRAYS);
    assert_eq!(check(&most).map(|it| it.arrays as usize), Ok(MOST_ARRAYS));
    assert_eq!(
        check(&arrays(MOST_ARRAYS + 1)).map_err(told),
        Err((6, 3075))
    );
    assert!(evaluate(&most, &[], &[], &mut vec![0; SHEET]).is_ok());
    let short = evaluate(&most, &[], &[], &mut vec![0; SHEET - 1]);
    assert_eq!(short.err().map(told), Some((31, SHEET as u64)));
    assert!(evaluate_quadratic(&most, &[], &[], &mut vec![0; SHEET_QUADRATIC]).is_ok());
    let short = evaluate_quadratic(&most, &[], &[], &mut vec![0; SHEET_QUADRATIC - 1]);
    assert_eq!(short.err().map(told), Some((31, SHEET_QUADRATIC as u64)));
    let bits = |bits: u32| [1, bits as u8, 0, 2, bits as u8, 0, 6];
    assert!(check(&bits(MOST_BITS)).is_ok());
    assert_eq!(check(&bits(MOST_BITS + 1)).map_err(told), Err((5, 0)));
    let every = |rate| Rates {
        cell: rate,
        call: rate,
        factor: rate,
    };
    // A cell, two calls and three factors.
    let most = 6 * u64::from(MOST_RATE) / 100;
    assert_eq!(price(&SAMPLE, every(MOST_RATE)), Ok(most));
    let refused = price(&SAMPLE, every(MOST_RATE + 1));
    assert_eq!(refused.map_err(told), Err((62, 0)));
    let over = vec![0; KEY_LIMIT + 1];
    assert_eq!(check(&over).map_err(told), Err((1, KEY_LIMIT as u64)));
    assert_eq!(check(&over[..KEY_LIMIT]).map_err(told), Err((3, 0)));
}

#[test]
fn evaluate_answers_values_and_writes_the_sheet() {
    let mut sheet = LENT;
    let (a, b, c) = (2147483567, 2147483535, 0);
    let answer = evaluate(&SAMPLE, &[3], &[4], &mut sheet).expect("the point fits");
    let values = answer.values;
    assert_eq!((values.a, values.b, values.c), (a, b, c));
    assert_eq!(answer.factors, FACTORS);
    assert_eq!(sheet, [20, 28, 0, a, b, c, 107, 108]);
}

#[test]
fn cell_answers_values_and_writes_the_sheet() {
    let mut sheet = LENT;
    let (a, b, c) = (10, 14, 0);
    let answer = cell(&SAMPLE, 0, 1, &mut sheet).expect("the cell is there");
    let values = answer.values;
    assert_eq!((values.a, values.b, values.c), (a, b, c));
    assert_eq!(answer.factors, FACTORS);
    assert_eq!(sheet, [5, 7, 0, a, b, c, 107, 108]);
}

#[test]
fn price_answers_pence_and_each_rate_has_its_place() {
    let rates = |cell, call, factor| Rates { cell, call, factor };
    for (rates, pence) in [
        (rates(150, 75, 3), 3),
        (rates(100, 0, 0), 1),
        (rates(0, 100, 0), 2),
        (rates(0, 0, 100), FACTORS),
        (rates(0, 0, 16), 0),
        (rates(0, 1, 16), 1),
    ] {
        for key in [&SAMPLE[..], &scaled(2, P - 1)] {
            assert_eq!(price(key, rates), Ok(pence), "{rates:?}");
        }
    }
    let over = MOST_RATE + 1;
    for (rates, place) in [
        (rates(over, 0, 0), 0),
        (rates(0, over, over), 1),
        (rates(0, 0, u32::MAX), 2),
    ] {
        assert_eq!(price(&SAMPLE, rates).map_err(told), Err((62, place)));
        let refused = price(&SAMPLE[..52], rates);
        assert_eq!(refused.map_err(told), Err((2, 52)));
    }
}

#[test]
fn compare_answers_and_leaves_the_second_key_over_the_first() {
    let mut sheet = LENT;
    let same = compare(&SAMPLE, &SAMPLE, &[3], &[4], &mut sheet);
    assert_eq!(compared(same), Ok((true, 2 * FACTORS)));
    let different = compare(&SAMPLE, &EMPTY, &[3], &[4], &mut sheet);
    assert_eq!(compared(different), Ok((false, FACTORS)));
    assert_eq!(sheet, [0, 0, 0, 2147483567, 2147483535, 0, 107, 108]);
}

#[test]
fn locate_answers_the_cell_and_leaves_the_second_key_over_the_first() {
    let mut sheet = LENT;
    let same = locate(&SAMPLE, &SAMPLE, &[3], &[4], &mut sheet);
    assert_eq!(same, Ok(Located::Same));
    assert_eq!(sheet, [20, 28, 0, 2147483567, 2147483535, 0, 107, 108]);
    // A cell in row 1 alone, with another number for each part.
    let mut low = [&[1, 1, 1, 2, 1, 1, 4][..], &[0; 20], &[6]].concat();
    [low[7], low[15], low[19], low[23]] = [1, 2, 3, 4];
    let values = |a, b, c| Values { a, b, c };
    let of = |row, column, first, second| {
        Ok(Located::Differs(DifferingCell {
            row,
            column,
            first,
            second,
        }))
    };
    let (zero, triple) = (values(0, 0, 0), values(2, 3, 4));
    let mut sheet = LENT;
    let answer = locate(&low, &EMPTY, &[3], &[4], &mut sheet);
    assert_eq!(answer, of(1, 0, triple, zero));
    assert_eq!(sheet, [0, 0, 0, 104, 105, 106, 107, 108]);
    let answer = locate(&EMPTY, &low, &[3], &[4], &mut sheet);
    assert_eq!(answer, of(1, 0, zero, triple));
    assert_eq!(sheet, [2, 3, 4, 104, 105, 106, 107, 108]);
    let answer = locate(&SAMPLE, &low, &[3], &[4], &mut sheet);
    assert_eq!(answer, of(0, 1, values(10, 14, 0), zero));
    assert_eq!(sheet, [0, 0, 0, 10, 14, 0, 107, 108]);
}

#[test]
fn shorter_hands_back_the_lent_slice_and_leaves_the_second_key_over_the_first() {
    let longer = scaled(P - 1, 3);
    let hands = |first, second, wanted: &[u8], left| {
        let mut sheet = LENT;
        let part = shorter(first, second, &[3], &[4], &mut sheet);
        assert!(std::ptr::eq(part, wanted));
        assert_eq!(sheet, left);
    };
    let both = [20, 28, 0, 2147483567, 2147483535, 0, 107, 108];
    hands(&SAMPLE, &longer, &SAMPLE, both);
    hands(&longer, &SAMPLE, &SAMPLE, both);
    let (same, copy) = (SAMPLE, SAMPLE);
    hands(&same, &copy, &same, both);
    hands(&copy, &same, &copy, both);
    let left = [0, 0, 0, 2147483567, 2147483535, 0, 107, 108];
    hands(&SAMPLE, &EMPTY, &SAMPLE[..0], left);
    hands(&EMPTY, &SAMPLE, &EMPTY[..0], both);
    hands(&SAMPLE[..52], &SAMPLE, &SAMPLE[..0], LENT);
    hands(&longer, &longer[..60], &longer[..0], LENT);
}

#[test]
fn what_is_handed_back_outlives_the_point_and_the_sheet() {
    let kept = {
        let (rows, columns, mut sheet) = (vec![3], vec![4], vec![0; 6]);
        shorter(&SAMPLE, &SAMPLE, &rows, &columns, &mut sheet)
    };
    assert_eq!(kept, SAMPLE);
}

#[test]
fn both_parts_have_their_names() {
    let mut sheet = [9; 13];
    let answer = evaluate_quadratic(&SAMPLE, &[3, 1], &[4, 2], &mut sheet).expect("it fits");
    let values = answer.values;
    assert_eq!(answer.factors, FACTORS);
    // 2·(4 + 2i)·(1 - 3 - i) is -12 - 16i.
    let parts = [values.a, values.b, values.c].map(|element| (element.u, element.v));
    assert_eq!(parts, [(P - 60, P - 80), (P - 84, P - 112), (0, 0)]);
    assert_eq!(sheet[..6], [20, 10, 28, 14, 0, 0]);
    assert_eq!(sheet[6..], [P - 60, P - 80, P - 84, P - 112, 0, 0, 9]);
    let same = compare_quadratic(&SAMPLE, &SAMPLE, &[3, 1], &[4, 2], &mut sheet);
    assert_eq!(compared(same), Ok((true, 2 * FACTORS)));
    let different = compare_quadratic(&SAMPLE, &EMPTY, &[3, 1], &[4, 2], &mut sheet);
    assert_eq!(compared(different), Ok((false, FACTORS)));
    assert_eq!(sheet[..6], [0; 6]);
}

#[test]
fn a_refused_call_over_both_parts_leaves_the_sheet() {
    let mut sheet = [9; 12];
    for (rows, columns, length, wanted) in [
        (&[3][..], &[4, 2][..], 12, (21, 1)),
        (&[3, 1], &[4, 2, 5, 6], 12, (22, 4)),
        (&[3, P], &[4, P], 12, (23, 1)),
        (&[3, 1], &[4, 2], 11, (31, 12)),
    ] {
        let sheet = &mut sheet[..length];
        let answer = evaluate_quadratic(&SAMPLE, rows, columns, sheet);
        assert_eq!(answer.err().map(told), Some(wanted));
        let answer = compare_quadratic(&SAMPLE, &EMPTY, rows, columns, sheet);
        assert_eq!(compared(answer), neither(wanted));
    }
    for (first, second, which) in [
        (&SAMPLE[..52], &SAMPLE[..], Which::First),
        (&SAMPLE, &SAMPLE[..52], Which::Second),
    ] {
        let answer = compare_quadratic(first, second, &[], &[], &mut sheet);
        assert_eq!(compared(answer), Err((which, (2, 52))));
    }
    assert_eq!(sheet, [9; 12]);
}

#[test]
fn a_refused_call_leaves_the_sheet() {
    let mut sheet = LENT;
    for (rows, columns, length, wanted) in [
        (&[][..], &[4][..], 8, (21, 0)),
        (&[3], &[4, 5], 8, (22, 2)),
        (&[3], &[P], 8, (23, 1)),
        (&[3], &[4], 5, (31, 6)),
    ] {
        let sheet = &mut sheet[..length];
        let answer = evaluate(&SAMPLE, rows, columns, sheet);
        assert_eq!(answer.err().map(told), Some(wanted));
        let answer = compare(&SAMPLE, &EMPTY, rows, columns, sheet);
        assert_eq!(compared(answer), neither(wanted));
        let refused = locate(&SAMPLE, &EMPTY, rows, columns, sheet).expect_err("it is refused");
        assert_eq!(
            (refused.which, told(refused.refusal)),
            (Which::Neither, wanted)
        );
        assert_eq!(shorter(&SAMPLE, &SAMPLE, rows, columns, sheet), []);
    }
    let cell_of =
        |row, column, sheet: &mut [u32]| cell(&SAMPLE, row, column, sheet).err().map(told);
    assert_eq!(cell_of(2, 2, &mut sheet), Some((24, 0)));
    assert_eq!(cell_of(1, 2, &mut sheet), Some((24, 1)));
    assert_eq!(cell_of(1, 1, &mut []), Some((31, 6)));
    assert_eq!(sheet, LENT);
}

#[test]
fn compare_names_the_key_at_fault() {
    let other = [1, 0, 2, 2, 0, 2, 6];
    for (first, second, which, wanted) in [
        (&SAMPLE[..52], &[9][..], Which::First, (2, 52)),
        (&SAMPLE, &[9], Which::Second, (3, 0)),
        (&SAMPLE, &other, Which::Neither, (22, 1)),
    ] {
        let answer = compare(first, second, &[3], &[4], &mut [0; 6]);
        assert_eq!(compared(answer), Err((which, wanted)));
        let refused = locate(first, second, &[3], &[4], &mut [0; 6]).expect_err("it is refused");
        assert_eq!((refused.which, told(refused.refusal)), (which, wanted));
    }
}

#[test]
fn compare_takes_keys_of_two_shapes() {
    let mut grown = SAMPLE;
    // One row bit and one column bit more in the head and in the last array.
    [grown[1], grown[2], grown[28], grown[29]] = [2; 4];
    let larger = |first: &[u8], second: &[u8]| {
        let counts = [first, second].map(|key| check(key).expect("the key is accepted"));
        counts[0].larger_shape(counts[1])
    };
    for (first, second) in [(&SAMPLE, &grown), (&grown, &SAMPLE)] {
        assert_eq!(larger(first, second), (2, 2));
        // The calls of the grown key count one row bit and one column bit more, and the sample's unused coordinates two.
        let factors = FACTORS + (FACTORS + 4) + 2;
        let same = compare(first, second, &[3, 5], &[4, 6], &mut [0; 6]);
        assert_eq!(compared(same), Ok((true, factors)));
        let point = (&[3, 1, 5, 0], &[4, 2, 0, 6]);
        let same = compare_quadratic(first, second, point.0, point.1, &mut [0; 12]);
        assert_eq!(compared(same), Ok((true, factors)));
        let short = compare(first, second, &[3], &[4], &mut [0; 6]);
        assert_eq!(compared(short), neither((21, 1)));
        let short = compare_quadratic(first, second, &[3, 1, 5, 0], &[4, 2], &mut [0; 12]);
        assert_eq!(compared(short), neither((22, 2)));
    }
    let mut sheet = LENT;
    let wide = [1, 0, 2, 2, 0, 2, 6];
    let different = compare(&SAMPLE, &wide, &[3], &[4, 6], &mut sheet);
    assert_eq!(compared(different), Ok((false, FACTORS + 1 + 1)));
    assert_eq!(larger(&SAMPLE, &wide), (1, 2));
    assert_eq!(sheet, [0, 0, 0, 2147483567, 2147483535, 0, 107, 108]);
}

#[test]
fn moved_answers_the_length_and_writes_the_copy() {
    for (key, copy) in [
        (SAMPLE.to_vec(), scaled(1, 1)),
        (scaled(1, 1), SAMPLE.to_vec()),
        (EMPTY.to_vec(), [&[7], &EMPTY[1..]].concat()),
    ] {
        let mut buffer = [9; 64];
        assert_eq!(moved(&key, &mut buffer), Ok(copy.len()));
        assert_eq!(buffer[..copy.len()], copy);
        assert_eq!(buffer[copy.len()..], [9; 64][copy.len()..]);
        let mut buffer = vec![9; copy.len()];
        assert_eq!(moved(&key, &mut buffer), Ok(copy.len()));
        assert_eq!(buffer, copy);
    }
}

#[test]
fn a_refused_move_leaves_the_buffer() {
    // 4,368 calls and what else makes 65,536 bytes in edition 2, and three more.
    let calling = |arrays: usize| {
        let called = [&[5][..], &[0; 10]].concat().repeat(4368);
        let openings = [2, 0, 0].repeat(arrays);
        [&[1, 0, 0][..], &openings, &[3, 0, 0], &called, &[6]].concat()
    };
    let mut buffer = vec![9; KEY_LIMIT];
    for (key, length, wanted) in [
        (vec![], KEY_LIMIT, (2, 0)),
        (scaled(1, 1)[..60].to_vec(), KEY_LIMIT, (2, 60)),
        (scaled(2, P), 0, (8, 45)),
        (scaled(2, 2), 0, (55, 30)),
        (scaled(1, P - 1), KEY_LIMIT, (55, 45)),
        (calling(4), 0, (56, 65_539)),
        (calling(3), KEY_LIMIT - 1, (32, 65_536)),
        (SAMPLE.to_vec(), 60, (32, 61)),
        (scaled(1, 1), 52, (32, 53)),
    ] {
        let answer = moved(&key, &mut buffer[..length]);
        assert_eq!(answer.map_err(told), Err(wanted));
        assert!(buffer.iter().all(|byte| *byte == 9));
    }
    let full = calling(3);
    assert_eq!(moved(&full, &mut buffer), Ok(KEY_LIMIT));
    let mut back = vec![0; full.len()];
    assert_eq!(moved(&buffer, &mut back), Ok(full.len()));
    assert_eq!(back, full);
}

#[test]
fn every_call_takes_both_editions() {
    let mut sheet = LENT;
    let scaled = scaled(P - 1, 3);
    assert_eq!(check(&scaled), check(&SAMPLE));
    let answer = evaluate(&scaled, &[3], &[4], &mut sheet).expect("the point fits");
    assert_eq!((answer.values.a, answer.factors), (2147483567, FACTORS));
    assert_eq!(sheet[..6], [20, 28, 0, 2147483567, 2147483535, 0]);
    let answer = cell(&scaled, 0, 1, &mut sheet).expect("the cell is there");
    assert_eq!((answer.values.b, answer.factors), (14, FACTORS));
    for (first, second) in [(&SAMPLE[..], &scaled[..]), (&scaled, &SAMPLE)] {
        let same = compare(first, second, &[3], &[4], &mut sheet);
        assert_eq!(compared(same), Ok((true, 2 * FACTORS)));
        let same = compare_quadratic(first, second, &[3, 1], &[4, 2], &mut [0; 12]);
        assert_eq!(compared(same), Ok((true, 2 * FACTORS)));
    }
    let different = compare(&scaled, &EMPTY, &[3], &[4], &mut sheet);
    assert_eq!(compared(different), Ok((false, FACTORS)));
    let answer = evaluate_quadratic(&scaled, &[3, 1], &[4, 2], &mut [0; 12]).expect("it fits");
    let a = answer.values.a;
    assert_eq!((a.u, a.v, answer.factors), (P - 60, P - 80, FACTORS));
}

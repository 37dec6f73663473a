//! Morgana circuit keys: checked, evaluated at a point, asked for single cells, priced, compared, asked where they
//! differ and which is shorter, and moved into the other edition.
//!
//! The functions are safe Rust over the library `libmorgana.a`, whose calls are proved to answer
//! rightly for every input; this package around it is tested. None takes memory from the heap or
//! keeps anything between calls, and [`STACK`] bytes of stack suffice for each. The first call
//! panics where the library that is linked has another interface: another major or minor version.
//!
//! ```
//! let key = [
//!     1, 0, 1, // head: no row bits, one column bit
//!     2, 0, 1, // a sparse array of that shape
//!     4, 0, 0, 0, 0, 1, 0, 0, 0, 5, 0, 0, 0, 7, 0, 0, 0, 0, 0, 0, 0, // a cell: row 0, column 1, A 5, B 7, C 0
//!     6, // end
//! ];
//! let counts = morgana::check(&key)?;
//! assert_eq!((counts.arrays, counts.cells, counts.calls), (1, 1, 0));
//!
//! let mut sheet = [0; 3];
//! let evaluated = morgana::evaluate(&key, &[], &[4], &mut sheet)?;
//! let values = evaluated.values;
//! assert_eq!((values.a, values.b, values.c), (20, 28, 0));
//! assert_eq!(sheet, [20, 28, 0]);
//! assert_eq!(evaluated.factors, 1);
//!
//! let refusal = morgana::check(&key[..4]).unwrap_err();
//! assert_eq!(refusal.to_string(), "refused 2 at 3: record missing or cut off");
//! assert_eq!(refusal.number, morgana::number::RECORD_INCOMPLETE);
//! # Ok::<(), morgana::Refusal>(())
//! ```
//!
//! # Points
//!
//! A point is n row coordinates and n' column coordinates, where n and n' are what [`check`]
//! answers as `rows` and `columns`. A coordinate is a number below [`P`]; for
//! [`evaluate_quadratic`] and [`compare_quadratic`] it is an element u + v·i of the field of p²
//! elements, where i² = -1: two numbers, u and then v. [`RandomPoints`] draws points, and
//! [`Likelihood`] says how sure "same" is at so many of them.
//!
//! # Comparing
//!
//! Any two accepted keys can be compared, also of different shapes. N is the larger of their row
//! bits and N' the larger of their column bits, as [`Counts::larger_shape`] answers them, and the
//! point has N row and N' column coordinates. The matrices of a key with fewer bits are read as
//! filled with zeros up to 2^N rows and 2^N' columns, their own places being the first. So each key
//! is evaluated at the first n and the first n' coordinates, by its own head, and its A, B and C
//! are multiplied by 1 - r for each coordinate r that it does not use. These are what is compared;
//! the sheet has what was evaluated, not multiplied. Keys of one shape use all coordinates.
//!
//! [`locate`] compares two keys in the same way, and where they are different it answers a cell in
//! which they differ, with the values of both. [`shorter`] compares them in the same way too, and
//! where they are the same it hands back the shorter one.
//!
//! # Sheets
//!
//! A sheet is a slice that every array's values are written into: array i's A, B and C at 3i,
//! over p² its six numbers at 6i. It needs three places for each array (over p² six), and for a
//! comparison that many for each array of the key with more arrays: it is first as after
//! evaluating the first key, then the second key's values are written over them. Places behind
//! stay. [`SHEET`] and [`SHEET_QUADRATIC`] places suffice for every key. A refused call leaves
//! its sheet as it was.
//!
//! # Factors
//!
//! Evaluate and cell also answer how many factors the weights of the key's cells and calls have, one for each
//! coordinate: a cell in an array of k row bits and k' column bits has k + k', and a call from such an array of one of K
//! and K' bits (k - K) + (k' - K'). The factor that a call of edition 2 has counts nothing, and over p² a coordinate
//! counts one. The records of all arrays count, whether they are called or not, and the point plays no part. So the
//! count is at most (n + n')·(cells + calls), of what [`check`] answers. Compare answers the sum of both keys' counts
//! and, for each key, of the coordinates that it does not use, (N - n) + (N' - n') of them, with "same" and with
//! "different": at most (N + N')·(cells + calls of both keys) + 2·(N + N'). Locate and shorter count none.
//!
//! # Prices
//!
//! [`price`] answers in whole pence what one evaluation of a key costs, at [`Rates`] in hundredths of a penny, each at
//! most [`MOST_RATE`]. It takes no point and no sheet, since the point plays no part. The total in hundredths of a penny
//! is cells·`cell` + calls·`call` + factors·`factor`, of the cells and calls that [`check`] answers and of the key's count
//! of factors. It is divided by 100 once, half a penny upwards, and all of it is exact. At the rates 0, 0 and 100 the
//! price is the count of factors itself.
//!
//! # Editions
//!
//! A key is of edition 1 where its head is of kind 01, and of edition 2 where it is of kind 07. In edition 1 calls are of
//! kind 05; in edition 2 they are of kind 08 and have a factor below p, by which the called matrices are multiplied. The
//! factor of a call of edition 1 is 1. Every function takes keys of both editions, and those that compare also one of
//! each. The first byte of an accepted key, 1 or 7, tells its edition; [`moved`] copies a key into the other one.
//!
//! # Refusals
//!
//! What a call cannot work with it refuses with a number and a place: [`Refusal`] has the table. Where compare refuses,
//! shorter hands back an empty slice.

#![deny(missing_docs, unsafe_code)]

mod answers;
mod calls;
mod constants;
mod field;
mod likelihood;
pub mod number;
mod point;
mod random;
mod rates;
pub mod raw;
mod refusal;

pub use answers::{Compared, Counts, DifferingCell, Evaluated, Located};
pub use answers::{Quadratic, QuadraticValues, Values};
pub use calls::{cell, check, compare, compare_quadratic, evaluate, evaluate_quadratic, locate};
pub use calls::{moved, price, shorter, version};
pub use constants::{KEY_LIMIT, MOST_ARRAYS, MOST_BITS, MOST_RATE, P};
pub use constants::{SHEET, SHEET_QUADRATIC, STACK, VERSION};
pub use field::Field;
pub use likelihood::Likelihood;
pub use point::Point;
pub use random::RandomPoints;
pub use rates::Rates;
pub use refusal::{CompareRefusal, Refusal, Which};

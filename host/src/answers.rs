//! What the library answers when nothing is refused.

/// The counts of an accepted key, with its shape. Later versions may add fields.
///
/// ```compile_fail
/// let morgana::Counts { arrays, cells, calls, rows, columns } = morgana::check(&[])?;
/// # Ok::<(), morgana::Refusal>(())
/// ```
#[derive(Debug, Clone, Copy, PartialEq, Eq)]
#[non_exhaustive]
pub struct Counts {
    /// How many arrays the key opens.
    pub arrays: u32,
    /// How many cells stand in its sparse arrays.
    pub cells: u32,
    /// How many calls, of either edition, stand in its recursive arrays.
    pub calls: u32,
    /// The head's row bits n.
    pub rows: u32,
    /// The head's column bits n'.
    pub columns: u32,
}

impl Counts {
    /// N and N' of two keys that are compared: the larger of their row bits, and the larger of their column bits. They
    /// are what [`RandomPoints::new`](crate::RandomPoints::new) takes, and their sum is the m of
    /// [`Likelihood`](crate::Likelihood).
    ///
    /// ```
    /// let (tall, wide) = ([1, 3, 0, 2, 3, 0, 6], [1, 1, 2, 2, 1, 2, 6]);
    /// let (first, second) = (morgana::check(&tall)?, morgana::check(&wide)?);
    /// assert_eq!(first.larger_shape(second), (3, 2));
    /// # Ok::<(), morgana::Refusal>(())
    /// ```
    pub fn larger_shape(self, other: Counts) -> (u32, u32) {
        (self.rows.max(other.rows), self.columns.max(other.columns))
    }
}

/// What evaluate and cell answer: the values of the key's last array, and how many factors the key has. Later versions
/// may add fields.
///
/// ```compile_fail
/// let morgana::Evaluated { values, factors } = morgana::cell(&[], 0, 0, &mut [])?;
/// # Ok::<(), morgana::Refusal>(())
/// ```
#[derive(Debug, Clone, Copy)]
#[non_exhaustive]
pub struct Evaluated<V> {
    /// The values: [`Values`], or [`QuadraticValues`] over p².
    pub values: V,
    /// The key's [count of factors](crate#factors), at most (n + n')·(cells + calls).
    pub factors: u64,
}

/// The values of the three matrices at a point or in a cell.
#[derive(Debug, Clone, Copy, PartialEq, Eq)]
pub struct Values {
    /// The value of A.
    pub a: u32,
    /// The value of B.
    pub b: u32,
    /// The value of C.
    pub c: u32,
}

/// An element u + v·i of the field of p² elements, where i² = -1.
#[derive(Debug, Clone, Copy, PartialEq, Eq)]
pub struct Quadratic {
    /// The number u.
    pub u: u32,
    /// The number v.
    pub v: u32,
}

/// The values of the three matrices at a point of two numbers a coordinate.
#[derive(Debug, Clone, Copy, PartialEq, Eq)]
pub struct QuadraticValues {
    /// The value of A.
    pub a: Quadratic,
    /// The value of B.
    pub b: Quadratic,
    /// The value of C.
    pub c: Quadratic,
}

/// What compare answers about two keys at a point. Later versions may add fields.
///
/// ```compile_fail
/// let compared = morgana::Compared { same: true, factors: 0 };
/// ```
#[derive(Debug, Clone, Copy)]
#[non_exhaustive]
pub struct Compared {
    /// Whether the keys have the same A, the same B and the same C there, each read as filled with zeros up to the larger shape.
    pub same: bool,
    /// The [count of factors](crate#factors) of both keys, whether they are the same there or not: at most
    /// (N + N')·(cells + calls of both) + 2·(N + N').
    pub factors: u64,
}

/// What locate answers about two keys at a point. Later versions may add answers.
///
/// ```compile_fail
/// match morgana::locate(&[], &[], &[], &[], &mut [])? {
///     morgana::Located::Same => {}
///     morgana::Located::Differs(_) => {}
/// }
/// # Ok::<(), morgana::CompareRefusal>(())
/// ```
#[derive(Debug, Clone, Copy, PartialEq, Eq)]
#[non_exhaustive]
pub enum Located {
    /// The keys have the same A, the same B and the same C at the point, as compare says. They may differ elsewhere.
    Same,
    /// The keys are different, and differ in this cell.
    Differs(DifferingCell),
}

/// A cell in which the dense matrices of two keys differ, each read as filled with zeros up to the larger shape: of A, B
/// and C at least one differs.
#[derive(Debug, Clone, Copy, PartialEq, Eq)]
pub struct DifferingCell {
    /// Its row, below 2^N.
    pub row: u32,
    /// Its column, below 2^N'.
    pub column: u32,
    /// The first key's values there; zero beyond its own 2^n rows and 2^n' columns.
    pub first: Values,
    /// The second key's values there; zero beyond its own.
    pub second: Values,
}

//! Transforms of blocks: segments narrower than a state's parameters, as where a scanner's height is locked.

use crate::{slices, BlockMap, Refusal, MAX_DOF, MAX_WORDS, TRANSFORM};

/// The rows and the columns that a word's shape has where the word has no transform.
pub const NO_TRANSFORM: u32 = 0xFFFF_FFFF;

/// The shape of a word that has no transform.
const NONE: [u32; 2] = [NO_TRANSFORM; 2];

/// The matrix T that says how the dof parameters of a frame follow from fewer, or from other ones: δ = T·x.
///
/// It has dof rows, in the same axes as the derivative columns of the frame's [`Action`](crate::Action), and a column for each
/// parameter that is solved for. A frame whose block is M and whose vector is v then adds Tᵀ·M·T and Tᵀ·v to the normal
/// equations, and its segment is as wide as T: it has as many rows as T has columns.
///
/// # Examples
///
/// ```
/// use maghnelt::{Refusal, Transform};
///
/// # fn main() -> Result<(), Refusal> {
/// // Two parameters that are held together: the second is always twice the first.
/// let t = Transform::from_columns(&[[1.0, 2.0]])?;
/// assert_eq!((t.rows(), t.columns()), (2, 1));
/// assert_eq!(t.entry(1, 0), 2.0);
/// assert_eq!(t.step(&[5.0])?, [5.0, 10.0]);
///
/// assert_eq!(Transform::from_columns(&[[0.0; 6]; 10]), Err(Refusal::Transform));
/// # Ok(())
/// # }
/// ```
#[derive(Clone, Copy, Debug, PartialEq)]
pub struct Transform {
    shape: [u32; 2],
    numbers: [f64; TRANSFORM],
}

impl Transform {
    /// The matrix of so many rows and columns, its columns first. nalgebra's and Eigen's matrices lie in that order.
    ///
    /// # Errors
    ///
    /// [`Refusal::Length`] if the numbers are not rows times columns; [`Refusal::Transform`] for more than [`MAX_DOF`] rows or
    /// columns.
    pub fn new(rows: usize, columns: usize, numbers: &[f64]) -> Result<Transform, Refusal> {
        if rows.checked_mul(columns) != Some(numbers.len()) {
            return Err(Refusal::Length);
        }
        let mut record = [0.0; TRANSFORM];
        // Numbers that find no place are those of a matrix that is refused below.
        record.iter_mut().zip(numbers).for_each(|(to, x)| *to = *x);
        let shape = [rows, columns].map(|count| u32::try_from(count).unwrap_or(u32::MAX));
        // The library's own tests: a further transform beside a map of no words. No dof has more rows than the most.
        let dof = rows.min(MAX_DOF) as u32;
        slices::transform(dof, &[], &[], &[], 0, &shape, &record, &mut [], &mut [])?;
        Ok(Transform {
            shape,
            numbers: record,
        })
    }

    /// The matrix with these columns.
    ///
    /// # Errors
    ///
    /// [`Refusal::Transform`] for more than [`MAX_DOF`] rows or columns.
    pub fn from_columns<const ROWS: usize>(columns: &[[f64; ROWS]]) -> Result<Transform, Refusal> {
        Transform::new(ROWS, columns.len(), columns.as_flattened())
    }

    /// The transform that locks the height of a pose, of six rows and five columns: those that are left are the shifts along
    /// the site's x and y and the three turns. The pose is as in [`Action::rigid`](crate::Action::rigid), a shift ρ and then
    /// a turn, both in the frame's own axes. A step lifts it by the third number of R·ρ, so that the first two columns are
    /// `(Rᵀ·e_x, 0)` and `(Rᵀ·e_y, 0)`.
    ///
    /// It belongs to this rotation: make it anew at each step.
    ///
    /// # Examples
    ///
    /// ```
    /// use maghnelt::Transform;
    ///
    /// # fn main() -> Result<(), maghnelt::Refusal> {
    /// // A scanner that lies on its side, so that its own y points up.
    /// let on_its_side = [[1.0, 0.0, 0.0], [0.0, 0.0, 1.0], [0.0, -1.0, 0.0]];
    /// let locked = Transform::locked_height(&on_its_side);
    /// assert_eq!((locked.rows(), locked.columns()), (6, 5));
    ///
    /// // One metre along the site's x and two along its y are no step along its own y.
    /// let own = locked.step(&[1.0, 2.0, 0.0, 0.0, 0.5])?;
    /// assert_eq!(own, [1.0, 0.0, -2.0, 0.0, 0.0, 0.5]);
    /// # Ok(())
    /// # }
    /// ```
    #[must_use]
    pub fn locked_height(rotation: &[[f64; 3]; 3]) -> Transform {
        let mut columns = [[0.0; 6]; 5];
        for (axis, own) in rotation.iter().enumerate() {
            columns[0][axis] = own[0];
            columns[1][axis] = own[1];
            columns[2 + axis][3 + axis] = 1.0;
        }
        Transform::from_columns(&columns).expect("six rows and five columns are accepted")
    }

    /// The number of rows, the dof of the frames that this transform serves.
    #[must_use]
    pub fn rows(&self) -> usize {
        self.shape[0] as usize
    }

    /// The number of columns, which is how wide a segment gets.
    #[must_use]
    pub fn columns(&self) -> usize {
        self.shape[1] as usize
    }

    /// The entry of that row and column.
    ///
    /// # Panics
    ///
    /// If there is no such row or column.
    #[must_use]
    pub fn entry(&self, row: usize, column: usize) -> f64 {
        let [rows, columns] = [self.rows(), self.columns()];
        assert!(row < rows, "row {row} of {rows}");
        assert!(column < columns, "column {column} of {columns}");
        self.numbers[rows * column + row]
    }

    /// The step δ = T·x of the frame's own parameters, x being the frame's part of the solution: as many numbers as its
    /// segment has rows.
    ///
    /// # Errors
    ///
    /// [`Refusal::Transform`] if the part has not a number for each column.
    pub fn step(&self, part: &[f64]) -> Result<Vec<f64>, Refusal> {
        // The library's own product, of this transform and one of a single column.
        let part = Transforms::new([Some(Transform::new(part.len(), 1, part)?)])?;
        let alone = BlockMap::new([None])?;
        let step = part.transformed(self.shape[0], &alone, 0, self)?;
        Ok(step.numbers[0][..self.rows()].to_vec())
    }

    /// The numbers as they are handed to the library: the columns one after the other, and zeros behind them.
    #[inline]
    #[must_use]
    pub const fn as_array(&self) -> &[f64; TRANSFORM] {
        &self.numbers
    }
}

/// What lies beside a [`BlockMap`]: for each of its words a [`Transform`] or none.
///
/// A segment is as wide as its word's transform, and dof wide without one; the map's offsets have to leave room for that.
///
/// # Examples
///
/// ```
/// use maghnelt::{BlockMap, Refusal, Transform, Transforms};
///
/// # fn main() -> Result<(), Refusal> {
/// // Three poses of six parameters. The height of the second is locked, so that it has five rows.
/// let upright = [[1.0, 0.0, 0.0], [0.0, 1.0, 0.0], [0.0, 0.0, 1.0]];
/// let transforms = Transforms::new([None, Some(Transform::locked_height(&upright)), None])?;
/// let widths = [0, 1, 2].map(|k| transforms.width(6, k));
/// assert_eq!(widths, [6, 5, 6]);
/// let map = BlockMap::new([Some(0), Some(6), Some(11)])?;
///
/// // Of the five the last, the turn about its own z, may be held too: four columns are left of a total of six rows.
/// let mut columns = [[0.0; 5]; 4];
/// for k in 0..4 {
///     columns[k][k] = 1.0;
/// }
/// let held = Transforms::new([None, Some(Transform::from_columns(&columns)?), None])?;
/// let both = held.transformed(6, &map, 1, &Transform::locked_height(&upright))?;
/// assert_eq!(both.width(6, 1), 4);
/// # Ok(())
/// # }
/// ```
#[derive(Clone, Debug, Default, PartialEq)]
pub struct Transforms {
    shapes: Vec<[u32; 2]>,
    numbers: Vec<[f64; TRANSFORM]>,
}

impl Transforms {
    /// No word of any map has a transform.
    pub const NONE: Transforms = Transforms {
        shapes: Vec::new(),
        numbers: Vec::new(),
    };

    /// A transform or none for each word of a map.
    ///
    /// # Errors
    ///
    /// [`Refusal::Length`] for more than [`MAX_WORDS`].
    pub fn new(
        of_words: impl IntoIterator<Item = Option<Transform>>,
    ) -> Result<Transforms, Refusal> {
        let mut out = Transforms::NONE;
        for transform in of_words {
            if out.shapes.len() == MAX_WORDS {
                return Err(Refusal::Length);
            }
            out.shapes.push(transform.map_or(NONE, |t| t.shape));
            out.numbers
                .push(transform.map_or([0.0; TRANSFORM], |t| t.numbers));
        }
        Ok(out)
    }

    /// These transforms with a further one at a place of the map: the one that is there is multiplied from the left, and
    /// where there is none the further one is taken. A place past the map's end changes no word.
    ///
    /// With the total T = further·old a frame adds Tᵀ·M·T. So the *inner* transform comes last: the one whose rows are the
    /// frame's dof parameters, while the transform that is there already says how that one's columns follow from fewer.
    ///
    /// # Errors
    ///
    /// [`Refusal::Dof`] above 9; [`Refusal::Length`] if these are neither [`NONE`](Transforms::NONE) nor one for each word of
    /// the map; [`Refusal::Transform`] if the further one has not dof rows, or not as many columns as the one at the place
    /// has rows.
    ///
    /// # Examples
    ///
    /// ```
    /// use maghnelt::{BlockMap, Refusal, Transform, Transforms};
    ///
    /// # fn main() -> Result<(), Refusal> {
    /// let map = BlockMap::new([Some(0), Some(2)])?;
    /// let first = Transform::from_columns(&[[1.0, 0.0], [3.0, 1.0]])?;
    /// let once = Transforms::NONE.transformed(2, &map, 0, &first)?;
    /// assert_eq!(once.transform(0), Some(first));
    /// assert_eq!(once.transform(1), None);
    ///
    /// // further·first: the further one's columns are the first one's rows.
    /// let further = Transform::from_columns(&[[2.0, 0.0], [0.0, 5.0]])?;
    /// let twice = once.transformed(2, &map, 0, &further)?;
    /// assert_eq!(twice.transform(0), Some(Transform::from_columns(&[[2.0, 0.0], [6.0, 5.0]])?));
    ///
    /// // A matrix of one column multiplies none of two rows.
    /// let narrow = Transform::from_columns(&[[1.0, 2.0]])?;
    /// assert_eq!(once.transformed(2, &map, 0, &narrow), Err(Refusal::Transform));
    /// # Ok(())
    /// # }
    /// ```
    pub fn transformed(
        &self,
        dof: u32,
        map: &BlockMap,
        place: usize,
        further: &Transform,
    ) -> Result<Transforms, Refusal> {
        let words = map.words().len();
        let mut out = Transforms {
            shapes: vec![NONE; words],
            numbers: vec![[0.0; TRANSFORM]; words],
        };
        slices::transform(
            dof,
            map.words(),
            self.shapes(),
            self.numbers(),
            u32::try_from(place).unwrap_or(u32::MAX),
            &further.shape,
            &further.numbers,
            out.shapes.as_flattened_mut(),
            out.numbers.as_flattened_mut(),
        )?;
        Ok(out)
    }

    /// The transform of word `k`, if it has one.
    #[must_use]
    pub fn transform(&self, k: usize) -> Option<Transform> {
        Some(Transform {
            shape: self.shape(k)?,
            numbers: self.numbers[k],
        })
    }

    /// Rows and columns of the transform of word `k`, if it has one.
    fn shape(&self, k: usize) -> Option<[u32; 2]> {
        self.shapes.get(k).copied().filter(|shape| *shape != NONE)
    }

    /// How wide the segment of frame `k` is: its transform's columns or, without one, `dof`.
    #[must_use]
    pub fn width(&self, dof: u32, k: usize) -> usize {
        self.shape(k).map_or(dof, |[_, columns]| columns) as usize
    }

    /// The shapes as they are handed to the library: rows and columns of word 0, then of word 1.
    #[inline]
    #[must_use]
    pub fn shapes(&self) -> &[u32] {
        self.shapes.as_flattened()
    }

    /// The numbers as they are handed to the library, [`TRANSFORM`] for each word.
    #[inline]
    #[must_use]
    pub fn numbers(&self) -> &[f64] {
        self.numbers.as_flattened()
    }
}

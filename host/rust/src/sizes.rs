//! How many numbers a record has, as `include/maghnelt.h` names them. Code that uses the names survives a change of them.

/// The numbers of a set of moments: count, sum (3), outer products (9, column after column).
pub const MOMENTS: usize = 13;
/// The numbers of a centred frame: count, mean (3), scatter times count (9, column after column).
pub const CENTRED: usize = 13;
/// The numbers of an action: matrix A (9), shift b (3), origin (3 by 9), axes (three of 3 by 9).
pub const ACTION: usize = 120;
/// The numbers of a decomposition: three eigenvalues, then their three vectors.
pub const DECOMPOSITION: usize = 12;
/// The numbers of a match: point (3), normal (3), offset, sigma.
pub const MATCH: usize = 8;
/// The numbers of a plane: normal (3), offset.
pub const PLANE: usize = 4;
/// The numbers of a transform: up to nine rows and nine columns, its columns first.
pub const TRANSFORM: usize = 81;

/// The most columns of an action's derivatives, and of a transform.
pub const MAX_DOF: usize = 9;
/// The most points that one call takes.
pub const MAX_POINTS: usize = 65_536;
/// The most frames of one plane.
pub const MAX_FRAMES: usize = 256;
/// The most words of a block map or of an index list.
pub const MAX_WORDS: usize = 1024;
/// The most rows of a Hessian.
pub const MAX_ORDER: usize = 1024;
/// The most matches of one call.
pub const MAX_MATCHES: usize = 65_536;
/// The most records of a moment list on a card.
pub const MAX_RECORDS: usize = 65_536;

/// The records of a group on a card; a last group may have fewer.
pub const GROUP: usize = 8;

/// The most points that a set counts: 2^53. An `f64` holds every whole number up to it, but not the next, so that one point
/// more would change no count.
pub const MAX_COUNT: f64 = 9_007_199_254_740_992.0;

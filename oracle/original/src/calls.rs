//! The calls of the library, by `include/maghnelt.h`'s names and orders, on values that are the same for every call.

// The library is linked by this crate.
use maghnelt as _;

/// What a parameter holds: numbers or words. A single one is a slice of one.
#[derive(Clone, Debug)]
pub enum Value {
    /// Numbers.
    Numbers(Vec<f64>),
    /// Words of 32 bits.
    Words(Vec<u32>),
}

impl Value {
    /// The numbers lent to be read.
    fn numbers(&self) -> (*const f64, usize) {
        match self {
            Value::Numbers(numbers) => (numbers.as_ptr(), numbers.len()),
            Value::Words(_) => panic!("numbers are lent"),
        }
    }

    fn words(&self) -> (*const u32, usize) {
        match self {
            Value::Words(words) => (words.as_ptr(), words.len()),
            Value::Numbers(_) => panic!("words are lent"),
        }
    }

    /// A number by value.
    fn number(&self) -> f64 {
        match self {
            Value::Numbers(numbers) => numbers[0],
            Value::Words(_) => panic!("a number is handed in"),
        }
    }

    /// A word by value.
    fn word(&self) -> u32 {
        match self {
            Value::Words(words) => words[0],
            Value::Numbers(_) => panic!("a word is handed in"),
        }
    }

    /// The number of entries.
    pub fn len(&self) -> usize {
        match self {
            Value::Numbers(numbers) => numbers.len(),
            Value::Words(words) => words.len(),
        }
    }

    /// Whether there is no entry.
    pub fn is_empty(&self) -> bool {
        self.len() == 0
    }
}

/// A call of the library.
pub struct Call {
    /// Its name, without `maghnelt_`.
    pub name: &'static str,
    /// The names of its parameters, in order.
    pub parameters: &'static [&'static str],
    /// How each is handed in, by the words that [`CALLS`] is declared with.
    pub manners: &'static [&'static str],
    /// Makes the call.
    pub make: fn(&mut [Value]) -> u32,
}

/// Declares the library's functions, and a [`Call`] for each, whose parameters are:
/// `word` and `number` by value; `numbers` and `words` lent; `out_numbers` and `out_words` lent to be written;
/// `out_number` and `out_word` one of them behind a pointer.
macro_rules! calls {
    ($($constant:ident $name:literal $function:ident ($($parameter:ident: $kind:ident),* $(,)?))*) => {
        $(
            /// The call of that name.
            pub static $constant: Call = Call {
                name: $name,
                parameters: &[$(stringify!($parameter)),*],
                manners: &[$(stringify!($kind)),*],
                make: made!($function ($($parameter: $kind),*)),
            };
        )*

        /// All calls; the place of one is its number in stored samples.
        pub static CALLS: &[&Call] = &[$(&$constant),*];
    };
}

/// The function that makes a call.
macro_rules! made {
    ($function:ident ($($parameter:ident: $kind:ident),*)) => {
        |values: &mut [Value]| {
            let [$($parameter),*] = values else {
                panic!("the number of parameters")
            };
            flattened!($function [] $($parameter: $kind),*)
        }
    };
}

/// Declares and calls a function, a slice being a pointer and a length.
macro_rules! flattened {
    ($function:ident [$($done:tt)*] $p:ident: word $(, $($rest:tt)*)?) => {
        flattened!($function [$($done)* (a: u32 = $p.word())] $($($rest)*)?)
    };
    ($function:ident [$($done:tt)*] $p:ident: number $(, $($rest:tt)*)?) => {
        flattened!($function [$($done)* (a: f64 = $p.number())] $($($rest)*)?)
    };
    ($function:ident [$($done:tt)*] $p:ident: numbers $(, $($rest:tt)*)?) => {
        flattened!($function [$($done)* (a: *const f64 = $p.numbers().0) (b: usize = $p.numbers().1)] $($($rest)*)?)
    };
    ($function:ident [$($done:tt)*] $p:ident: words $(, $($rest:tt)*)?) => {
        flattened!($function [$($done)* (a: *const u32 = $p.words().0) (b: usize = $p.words().1)] $($($rest)*)?)
    };
    ($function:ident [$($done:tt)*] $p:ident: out_numbers $(, $($rest:tt)*)?) => {
        flattened!($function [$($done)* (a: *mut f64 = $p.numbers_mut()) (b: usize = $p.len())] $($($rest)*)?)
    };
    ($function:ident [$($done:tt)*] $p:ident: out_words $(, $($rest:tt)*)?) => {
        flattened!($function [$($done)* (a: *mut u32 = $p.words_mut()) (b: usize = $p.len())] $($($rest)*)?)
    };
    ($function:ident [$($done:tt)*] $p:ident: out_number $(, $($rest:tt)*)?) => {
        flattened!($function [$($done)* (a: *mut f64 = $p.numbers_mut())] $($($rest)*)?)
    };
    ($function:ident [$($done:tt)*] $p:ident: out_word $(, $($rest:tt)*)?) => {
        flattened!($function [$($done)* (a: *mut u32 = $p.words_mut())] $($($rest)*)?)
    };
    ($function:ident [$(($label:ident: $type:ty = $value:expr))*]) => {{
        extern "C" {
            fn $function($(_: $type),*) -> u32;
        }
        // Every pointer is of a vector of that length, and no two are of the same.
        unsafe { $function($($value),*) }
    }};
}

impl Value {
    fn numbers_mut(&mut self) -> *mut f64 {
        match self {
            Value::Numbers(numbers) => numbers.as_mut_ptr(),
            Value::Words(_) => panic!("numbers are written"),
        }
    }

    fn words_mut(&mut self) -> *mut u32 {
        match self {
            Value::Words(words) => words.as_mut_ptr(),
            Value::Numbers(_) => panic!("words are written"),
        }
    }
}

calls! {
    FROM_POINTS "moments_from_points" maghnelt_moments_from_points(points: numbers, moments: out_numbers)
    PUSH "moments_push" maghnelt_moments_push(moments: out_numbers, point: numbers)
    MERGE "moments_merge" maghnelt_moments_merge(moments: out_numbers, other: numbers)
    TRANSFORMED "moments_transformed" maghnelt_moments_transformed(
        moments: numbers, a: numbers, b: numbers, out: out_numbers)
    MEAN_AND_SCATTER "moments_mean_and_scatter" maghnelt_moments_mean_and_scatter(
        moments: numbers, out: out_numbers, found: out_word)
    MOMENTS_PLANE "moments_plane" maghnelt_moments_plane(
        moments: numbers, decomposition: numbers, out: out_numbers, found: out_word)
    PLANE_NEW "plane_new" maghnelt_plane_new(normal: numbers, offset: number, plane: out_numbers)
    SIGMA "point_to_plane_sigma" maghnelt_point_to_plane_sigma(
        plane: numbers, centroid: numbers, plane_covariance: numbers, point_covariance: numbers, world: numbers,
        d_world_d_point: numbers, sigma: out_number)
    REMAP "remap" maghnelt_remap(map: words, list: words, out: out_words)
    FRAMES_FIT "frames_fit" maghnelt_frames_fit(
        dof: word, frames: numbers, fixed: numbers, actions: numbers, out: out_numbers)
    FRAMES_BUILD "frames_build" maghnelt_frames_build(
        dof: word, frames: numbers, fixed: numbers, sigma: number, centred_frames: out_numbers,
        centred_fixed: out_numbers, points: out_number, fixed_dropped: out_word)
    FRAMES_ACCUMULATE "frames_accumulate" maghnelt_frames_accumulate(
        dof: word, frames: numbers, fixed: numbers, sigma: number, actions: numbers, decomposition: numbers,
        map: words, hessian: out_numbers, gradient: out_numbers, cost: out_number)
    FRAMES_LINEARIZE "frames_linearize" maghnelt_frames_linearize(
        dof: word, frames: numbers, fixed: numbers, sigma: number, actions: numbers, decompositions: numbers,
        residual: out_numbers, jacobian: out_numbers)
    MATCHES_ACCUMULATE "matches_accumulate" maghnelt_matches_accumulate(
        dof: word, matches: numbers, action: numbers, map: words, hessian: out_numbers, gradient: out_numbers,
        cost: out_number)
    MATCHES_LINEARIZE "matches_linearize" maghnelt_matches_linearize(
        dof: word, matches: numbers, action: numbers, residual: out_numbers, jacobian: out_numbers)
    MATCH_LINEARIZE "match_linearize" maghnelt_match_linearize(
        dof: word, a_match: numbers, world: numbers, d_state: numbers, d_extrinsic: numbers, residual: out_number,
        row: out_numbers)
    BUNDLE_FIT "bundle_fit" maghnelt_bundle_fit(
        counts: words, points: numbers, fixed: numbers, out: out_numbers)
    BUNDLE_LINEARIZE "bundle_linearize" maghnelt_bundle_linearize(
        dof: word, counts: words, points: numbers, d_state: numbers, fixed: numbers, sigma: number,
        decomposition: numbers, residual: out_numbers, jacobian: out_numbers)
    FRAMES_ACCUMULATE_TRANSFORMED "frames_accumulate_transformed" maghnelt_frames_accumulate_transformed(
        dof: word, frames: numbers, fixed: numbers, sigma: number, actions: numbers, decomposition: numbers,
        map: words, shapes: words, transforms: numbers, hessian: out_numbers, gradient: out_numbers,
        cost: out_number)
    MATCHES_ACCUMULATE_TRANSFORMED "matches_accumulate_transformed" maghnelt_matches_accumulate_transformed(
        dof: word, matches: numbers, action: numbers, map: words, shapes: words, transforms: numbers,
        hessian: out_numbers, gradient: out_numbers, cost: out_number)
    TRANSFORM "transform" maghnelt_transform(
        dof: word, map: words, shapes: words, transforms: numbers, place: word, further_shape: words,
        further: numbers, out_shapes: out_words, out_transforms: out_numbers)
}

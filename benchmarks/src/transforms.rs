//! The calls through block transforms, against plain Rust in which the compiler knows the widths, and which takes the same
//! slices and tests them for the same reasons.

use crate::frames::{of, planes_of, segments, Normal, SIGMA};
use crate::harness::measure_on;
use crate::matches::{List, OFFSET, ORDER};
use crate::planes::Plane;
use maghnelt::{slices, Refusal, TRANSFORM};
use oracle::draws::within;
use oracle::generator::Generator;
use std::hint::black_box;

/// The matches of a list.
const MATCHES: usize = 65_536;

/// Transforms beside a map, all of one shape.
struct Beside {
    shapes: Vec<u32>,
    transforms: Vec<f64>,
}

impl Beside {
    fn random(words: usize, shape: [usize; 2], generator: &mut Generator) -> Beside {
        let numbers = words * TRANSFORM;
        Beside {
            shapes: [shape.map(|size| size as u32)].repeat(words).concat(),
            transforms: (0..numbers).map(|_| within(-1.0, 1.0, generator)).collect(),
        }
    }
}

/// Prints the rows of the block transforms.
pub fn measure_all() {
    let mut generator = Generator::named(754, "transforms");
    for frames in [8, 256] {
        let planes = planes_of(frames, &mut generator);
        measure_frames::<6, 5>(&planes, &mut generator);
        measure_frames::<6, 3>(&planes, &mut generator);
    }
    measure_matches::<6, 5>(&List::random(MATCHES, &mut generator), &mut generator);
    for words in [8, 256] {
        measure_transform::<6, 5, 3>(words, &mut generator);
    }
}

fn measure_frames<const DOF: usize, const WIDTH: usize>(
    planes: &[Plane],
    generator: &mut Generator,
) {
    let dof = black_box(DOF as u32);
    let (map, order) = segments(planes[0].frames.len(), WIDTH);
    let beside = Beside::random(map.len(), [DOF, WIDTH], generator);
    let library = |plane: &Plane, normal: &mut Normal| {
        slices::frames_accumulate_transformed(
            dof,
            plane.frames.as_flattened(),
            &plane.fixed,
            SIGMA,
            plane.actions.as_flattened(),
            &plane.decompositions[0],
            &map,
            &beside.shapes,
            &beside.transforms,
            &mut normal.hessian,
            &mut normal.gradient,
            &mut normal.cost,
        )
    };
    let rust = |plane: &Plane, normal: &mut Normal| {
        plain::frames_accumulate::<DOF, WIDTH>(
            dof,
            plane.frames.as_flattened(),
            &plane.fixed,
            SIGMA,
            plane.actions.as_flattened(),
            &plane.decompositions[0],
            &map,
            &beside.shapes,
            &beside.transforms,
            &mut normal.hessian,
            &mut normal.gradient,
            &mut normal.cost,
        )
    };
    let case = format!("{}, {DOF} by {WIDTH}", of(planes));
    measure_added(
        "frames_accumulate_transformed",
        &case,
        planes,
        order,
        library,
        rust,
    );
}

fn measure_matches<const DOF: usize, const WIDTH: usize>(list: &List, generator: &mut Generator) {
    let dof = black_box(DOF as u32);
    let map = [OFFSET as u32];
    let beside = Beside::random(map.len(), [DOF, WIDTH], generator);
    let library = |list: &List, normal: &mut Normal| {
        slices::matches_accumulate_transformed(
            dof,
            list.matches.as_flattened(),
            &list.action,
            &map,
            &beside.shapes,
            &beside.transforms,
            &mut normal.hessian,
            &mut normal.gradient,
            &mut normal.cost,
        )
    };
    let rust = |list: &List, normal: &mut Normal| {
        plain::matches_accumulate::<DOF, WIDTH>(
            dof,
            list.matches.as_flattened(),
            &list.action,
            &map,
            &beside.shapes,
            &beside.transforms,
            &mut normal.hessian,
            &mut normal.gradient,
            &mut normal.cost,
        )
    };
    let case = format!("{} matches, {DOF} by {WIDTH}", list.case);
    measure_added(
        "matches_accumulate_transformed",
        &case,
        std::slice::from_ref(list),
        ORDER,
        library,
        rust,
    );
}

/// Times two calls that add to a Hessian of so many rows, on each of the inputs, having seen that they add the same bits.
fn measure_added<Input>(
    function: &str,
    case: &str,
    inputs: &[Input],
    order: usize,
    library: impl Fn(&Input, &mut Normal) -> Result<(), Refusal>,
    rust: impl Fn(&Input, &mut Normal) -> Result<(), u32>,
) {
    let [mut by_library, mut by_rust] = [(); 2].map(|()| Normal::zeros(order));
    for input in inputs {
        assert_eq!(library(input, &mut by_library), Ok(()));
        assert_eq!(rust(input, &mut by_rust), Ok(()));
        assert!(by_library.bits() == by_rust.bits());
    }
    measure_on(
        function,
        &format!("{case}, Rust with the same tests"),
        inputs.len(),
        &mut by_library,
        |normal| {
            for input in black_box(inputs) {
                _ = library(input, normal);
            }
        },
        |normal| {
            for input in black_box(inputs) {
                _ = rust(input, normal);
            }
        },
    );
}

/// The product of a further transform with that of the word in the middle.
fn measure_transform<const ROWS: usize, const INNER: usize, const WIDTH: usize>(
    words: usize,
    generator: &mut Generator,
) {
    let dof = black_box(ROWS as u32);
    let place = black_box(words / 2) as u32;
    let (map, _) = segments(words, WIDTH);
    let old = Beside::random(words, [INNER, WIDTH], generator);
    let further = Beside::random(1, [ROWS, INNER], generator);
    let library = |out: &mut Beside| {
        slices::transform(
            dof,
            black_box(&map),
            &old.shapes,
            &old.transforms,
            place,
            &further.shapes,
            &further.transforms,
            &mut out.shapes,
            &mut out.transforms,
        )
    };
    let rust = |out: &mut Beside| {
        plain::transform::<ROWS, INNER, WIDTH>(
            dof,
            black_box(&map),
            &old.shapes,
            &old.transforms,
            place,
            &further.shapes,
            &further.transforms,
            &mut out.shapes,
            &mut out.transforms,
        )
    };
    let [mut by_library, mut by_rust] = [(); 2].map(|()| Beside::random(words, [0, 0], generator));
    assert_eq!(library(&mut by_library), Ok(()));
    assert_eq!(rust(&mut by_rust), Ok(()));
    assert_eq!(by_library.shapes, by_rust.shapes);
    let bits = |out: &Beside| -> Vec<u64> { out.transforms.iter().map(|x| x.to_bits()).collect() };
    assert!(bits(&by_library) == bits(&by_rust));
    measure_on(
        "transform",
        &format!(
            "{words} words, {ROWS} by {INNER} before {INNER} by {WIDTH}, Rust with the same tests"
        ),
        1,
        &mut by_library,
        |out| _ = library(out),
        |out| _ = rust(out),
    );
}

/// The same in plain Rust: the compiler knows the widths and inlines all below the outermost functions, which are called as
/// the library's are and make the same tests in the same order. An error is the number of the reason to refuse. A map has a
/// word for each frame, and each says where the frame goes and has a transform of the known widths.
mod plain {
    use super::TRANSFORM;
    use crate::frames::plain::{
        centre, derivatives, dot, fit, three, times, Action, Frame, MEAN, SCATTER,
    };
    use crate::matches::plain::{add_groups, bad, Match};
    use maghnelt::{
        ACTION, CENTRED, MATCH, MAX_DOF, MAX_FRAMES, MAX_MATCHES, MAX_ORDER, MAX_WORDS,
        NO_TRANSFORM, UNMAPPED,
    };
    use std::array::from_fn;

    /// A transform's numbers, its columns first.
    type Transform = [f64; TRANSFORM];
    /// A transform's rows and columns, or that a word has none.
    type Shape = [u32; 2];
    const NONE: Shape = [NO_TRANSFORM; 2];

    /// A block by columns, and a vector.
    struct Block<const W: usize> {
        columns: [[f64; W]; W],
        vector: [f64; W],
    }

    impl<const W: usize> Block<W> {
        /// Added at row and column `at`.
        #[inline(always)]
        fn add(&self, at: usize, hessian: &mut [f64], gradient: &mut [f64]) {
            let order = gradient.len();
            for j in 0..W {
                let column = &mut hessian[(at + j) * order + at..][..W];
                for i in 0..W {
                    column[i] += self.columns[j][i];
                }
            }
            let part = &mut gradient[at..][..W];
            for i in 0..W {
                part[i] += self.vector[i];
            }
        }

        /// Tᵀ·M·T and Tᵀ·v, the left product first.
        #[inline(always)]
        fn through<const TO: usize>(&self, t: &Transform) -> Block<TO> {
            let mut rows = [[0.0; TO]; W];
            for i in 0..TO {
                for r in 0..W {
                    rows[r][i] = t[W * i + r];
                }
            }
            let mut left = [[0.0; TO]; W];
            for k in 0..W {
                left[k] = combined(&rows, &self.columns[k]);
            }
            let mut columns = [[0.0; TO]; TO];
            for j in 0..TO {
                columns[j] = combined(&left, &t[W * j..]);
            }
            let vector = combined(&rows, &self.vector);
            Block { columns, vector }
        }
    }

    /// The rows times the numbers of x, added up from the first product on.
    #[inline(always)]
    fn combined<const N: usize, const W: usize>(rows: &[[f64; W]; N], x: &[f64]) -> [f64; W] {
        let mut sums = [0.0; W];
        for i in 0..W {
            let mut sum = rows[0][i] * x[0];
            for k in 1..N {
                sum += rows[k][i] * x[k];
            }
            sums[i] = sum;
        }
        sums
    }

    /// A frame's cost, and its block and vector.
    #[inline(always)]
    fn of_frame<const W: usize>(
        frame: &Frame,
        a: &Action,
        n: [f64; 3],
        offset: f64,
        weight: f64,
    ) -> (f64, Block<W>) {
        let count = frame[0];
        let s = &frame[SCATTER..];
        let a_n = from_fn(|c| dot(three(a, 3 * c), n));
        let s_an = times(s, a_n);
        let along = dot(n, centre(a, frame)) + offset;
        let cost = (dot(a_n, s_an) + count * along * along) * weight;
        let (d, m) = derivatives::<W>(a, n, three(frame, MEAN));
        let mut p = [[0.0; W]; 3];
        for k in 0..3 {
            for i in 0..W {
                p[k][i] = d[0][i] * s[3 * k] + d[1][i] * s[3 * k + 1] + d[2][i] * s[3 * k + 2];
            }
        }
        let mut vector = [0.0; W];
        for i in 0..W {
            let spread = d[0][i] * s_an[0] + d[1][i] * s_an[1] + d[2][i] * s_an[2];
            vector[i] = (spread + m[i] * (count * along)) * weight;
        }
        let mut columns = [[0.0; W]; W];
        for j in 0..W {
            for i in 0..W {
                let spread = p[0][i] * d[0][j] + p[1][i] * d[1][j] + p[2][i] * d[2][j];
                columns[j][i] = (spread + m[i] * m[j] * count) * weight;
            }
        }
        (cost, Block { columns, vector })
    }

    #[allow(clippy::too_many_arguments)]
    #[inline(never)]
    pub fn frames_accumulate<const DOF: usize, const WIDTH: usize>(
        dof: u32,
        frames: &[f64],
        fixed: &[f64],
        sigma: f64,
        actions: &[f64],
        decomposition: &[f64],
        map: &[u32],
        shapes: &[u32],
        transforms: &[f64],
        hessian: &mut [f64],
        gradient: &mut [f64],
        cost: &mut f64,
    ) -> Result<(), u32> {
        if dof > MAX_DOF as u32 {
            return Err(1);
        }
        if frames.is_empty() {
            return Err(2);
        }
        let (frames, rest) = frames.as_chunks::<CENTRED>();
        let (fixed, short) = fixed.as_chunks::<CENTRED>();
        let whole = rest.is_empty() && short.is_empty();
        if !whole || frames.len() > MAX_FRAMES || fixed.len() > 1 {
            return Err(3);
        }
        let decomposition = decomposition.try_into().map_err(|_| 3_u32)?;
        of_right_target(map, hessian, gradient)?;
        let (shapes, transforms) = of_right_size(map.len(), shapes, transforms)?;
        if !(sigma.is_finite() && sigma > 0.0) {
            return Err(7);
        }
        let (actions, rest) = actions.as_chunks::<ACTION>();
        if !rest.is_empty() || actions.len() != frames.len() {
            return Err(8);
        }
        of_good_map(map, shapes, frames.len(), dof, gradient.len())?;
        let fixed = fixed.first();
        let Some((n, offset)) = fit(frames, fixed, actions, decomposition) else {
            *cost = 0.0;
            return Ok(());
        };
        let weight = 1.0 / (sigma * sigma);
        let mut sum = 0.0;
        for (k, (frame, a)) in frames.iter().zip(actions).enumerate() {
            let (cost, block) = of_frame::<DOF>(frame, a, n, offset, weight);
            let through = block.through::<WIDTH>(&transforms[k]);
            through.add(map[k] as usize, hessian, gradient);
            sum += cost;
        }
        if let Some(fixed) = fixed {
            let along = dot(n, three(fixed, MEAN)) + offset;
            let spread = dot(n, times(&fixed[SCATTER..], n));
            sum += (spread + fixed[0] * along * along) * weight;
        }
        *cost = sum;
        Ok(())
    }

    #[allow(clippy::too_many_arguments)]
    #[inline(never)]
    pub fn matches_accumulate<const DOF: usize, const WIDTH: usize>(
        dof: u32,
        matches: &[f64],
        action: &[f64],
        map: &[u32],
        shapes: &[u32],
        transforms: &[f64],
        hessian: &mut [f64],
        gradient: &mut [f64],
        cost: &mut f64,
    ) -> Result<(), u32> {
        if dof > MAX_DOF as u32 {
            return Err(1);
        }
        if matches.is_empty() {
            return Err(2);
        }
        let (matches, rest) = matches.as_chunks::<MATCH>();
        if !rest.is_empty() || matches.len() > MAX_MATCHES {
            return Err(3);
        }
        of_right_target(map, hessian, gradient)?;
        let (shapes, transforms) = of_right_size(map.len(), shapes, transforms)?;
        if let Some(m) = matches.iter().find(|m| bad(m)) {
            return Err(reason_of(m));
        }
        let action = action.try_into().map_err(|_| 8_u32)?;
        of_good_map(map, shapes, 1, dof, gradient.len())?;
        let mut columns = [[0.0; DOF]; DOF];
        let mut vector = [0.0; DOF];
        let sum = add_groups(matches, action, &mut columns, &mut vector);
        let through = Block { columns, vector }.through::<WIDTH>(&transforms[0]);
        through.add(map[0] as usize, hessian, gradient);
        *cost = sum;
        Ok(())
    }

    /// Why a match is bad.
    fn reason_of(m: &Match) -> u32 {
        let finite = m[..3].iter().all(|x| x.is_finite());
        if finite {
            7
        } else {
            6
        }
    }

    /// Reason 3 of the map and of what is added to.
    #[inline(always)]
    fn of_right_target(map: &[u32], hessian: &[f64], gradient: &[f64]) -> Result<(), u32> {
        let order = gradient.len();
        if map.len() > MAX_WORDS || order > MAX_ORDER || hessian.len() != order * order {
            return Err(3);
        }
        Ok(())
    }

    /// Reason 3 of what stands beside a map: both slices are empty, or have a transform for each word.
    #[inline(always)]
    fn of_right_size<'a>(
        words: usize,
        shapes: &'a [u32],
        transforms: &'a [f64],
    ) -> Result<(&'a [Shape], &'a [Transform]), u32> {
        let (shapes, rest) = shapes.as_chunks::<2>();
        let (transforms, short) = transforms.as_chunks::<TRANSFORM>();
        let whole = rest.is_empty() && short.is_empty() && transforms.len() == shapes.len();
        if !whole || !(shapes.is_empty() || shapes.len() == words) {
            return Err(3);
        }
        Ok((shapes, transforms))
    }

    /// Reasons 9, 14 and 10, for so many frames.
    #[inline(always)]
    fn of_good_map(
        map: &[u32],
        shapes: &[Shape],
        frames: usize,
        dof: u32,
        order: usize,
    ) -> Result<(), u32> {
        of_good_words(map)?;
        let misfit = |&shape: &Shape| {
            let [rows, columns] = shape;
            shape != NONE && (columns > MAX_DOF as u32 || rows != dof)
        };
        if shapes.iter().any(misfit) {
            return Err(14);
        }
        let width = |k: usize| match shapes.get(k) {
            Some(&shape) if shape != NONE => shape[1],
            _ => dof,
        };
        let past =
            |(k, &word): (usize, &u32)| word < UNMAPPED && (word + width(k)) as usize > order;
        if map.iter().take(frames).enumerate().any(past) {
            return Err(10);
        }
        Ok(())
    }

    /// Reason 9.
    #[inline(always)]
    fn of_good_words(map: &[u32]) -> Result<(), u32> {
        if map.iter().any(|&word| word > UNMAPPED) {
            return Err(9);
        }
        Ok(())
    }

    /// The word at the place has a transform, of `INNER` by `WIDTH`.
    #[allow(clippy::too_many_arguments)]
    #[inline(never)]
    pub fn transform<const ROWS: usize, const INNER: usize, const WIDTH: usize>(
        dof: u32,
        map: &[u32],
        shapes: &[u32],
        transforms: &[f64],
        place: u32,
        further_shape: &[u32],
        further: &[f64],
        out_shapes: &mut [u32],
        out_transforms: &mut [f64],
    ) -> Result<(), u32> {
        if dof > MAX_DOF as u32 {
            return Err(1);
        }
        let words = map.len();
        if words > MAX_WORDS {
            return Err(3);
        }
        let (old_shapes, old) = of_right_size(words, shapes, transforms)?;
        let shape: &Shape = further_shape.try_into().map_err(|_| 3_u32)?;
        let further: &Transform = further.try_into().map_err(|_| 3_u32)?;
        if out_shapes.len() != 2 * words || out_transforms.len() != TRANSFORM * words {
            return Err(3);
        }
        of_good_words(map)?;
        let wide = |shape: &Shape| *shape != NONE && shape[1] > MAX_DOF as u32;
        if old_shapes.iter().any(wide) || *shape == NONE || wide(shape) || shape[0] != dof {
            return Err(14);
        }
        let at = place as usize;
        let chained = |old: &Shape| *old == NONE || old[0] == shape[1];
        if !old_shapes.get(at).is_none_or(chained) {
            return Err(14);
        }
        out_shapes.copy_from_slice(shapes);
        out_transforms.copy_from_slice(transforms);
        let columns: [[f64; ROWS]; INNER] = from_fn(|k| from_fn(|r| further[ROWS * k + r]));
        let mut product = [[0.0; ROWS]; WIDTH];
        for c in 0..WIDTH {
            product[c] = combined(&columns, &old[at][INNER * c..]);
        }
        let made = &mut out_transforms[TRANSFORM * at..][..TRANSFORM];
        made.fill(0.0);
        made[..ROWS * WIDTH].copy_from_slice(product.as_flattened());
        out_shapes[2 * at] = dof;
        Ok(())
    }
}

//! The calls on frames of a plane, against plain Rust on plain arrays of the same layout in which the compiler knows the width;
//! and against the same with nine columns whatever the width, which is what the original works out.

use crate::harness::{measure, measure_on};
use crate::planes::Plane;
use maghnelt::{slices, ACTION, CENTRED, DECOMPOSITION, MAX_ORDER};
use oracle::generator::Generator;
use std::hint::black_box;

/// Frames that a batch goes through, in as many planes as that makes.
const FRAMES: usize = 256;
pub const SIGMA: f64 = 0.05;

/// The planes of a batch, with so many frames each.
pub fn planes_of(frames: usize, generator: &mut Generator) -> Vec<Plane> {
    let number = (FRAMES / frames).max(1);
    (0..number)
        .map(|_| Plane::random(frames, generator))
        .collect()
}

/// Prints the rows of the frames.
pub fn measure_all() {
    let mut generator = Generator::named(754, "frames");
    for frames in [8, 32, 256] {
        let planes = planes_of(frames, &mut generator);
        measure_accumulate::<3>(&planes);
        measure_accumulate::<6>(&planes);
        measure_accumulate::<7>(&planes);
        measure_accumulate::<9>(&planes);
        measure_cost(&planes);
        measure_linearize::<3>(&planes);
        measure_linearize::<6>(&planes);
        measure_linearize::<7>(&planes);
        measure_linearize::<9>(&planes);
    }
}

/// How many frames each of the planes has.
pub fn of(planes: &[Plane]) -> String {
    format!("{} frames", planes[0].frames.len())
}

/// A Hessian, a gradient and a cost.
#[derive(Clone, Debug, PartialEq)]
pub struct Normal {
    pub hessian: Vec<f64>,
    pub gradient: Vec<f64>,
    pub cost: f64,
}

impl Normal {
    /// All zeros, of so many rows.
    pub fn zeros(order: usize) -> Normal {
        Normal {
            hessian: vec![0.0; order * order],
            gradient: vec![0.0; order],
            cost: 0.0,
        }
    }

    /// The bit patterns of all numbers.
    pub fn bits(&self) -> Vec<u64> {
        let numbers = self.hessian.iter().chain(&self.gradient);
        numbers.chain([&self.cost]).map(|x| x.to_bits()).collect()
    }
}

/// A map of segments of so many rows, and the order of its Hessian: each frame has rows of its own as far as they go, and
/// then those of an earlier one.
pub fn segments(frames: usize, width: usize) -> (Vec<u32>, usize) {
    let own = frames.min(MAX_ORDER / width);
    let map = (0..frames).map(|k| (k % own * width) as u32).collect();
    (map, own * width)
}

fn measure_accumulate<const WIDTH: usize>(planes: &[Plane]) {
    let (map, order) = segments(planes[0].frames.len(), WIDTH);
    let zeros = Normal::zeros(order);
    let library = |normal: &mut Normal| {
        for plane in black_box(planes) {
            _ = slices::frames_accumulate(
                WIDTH as u32,
                plane.frames.as_flattened(),
                &plane.fixed,
                SIGMA,
                plane.actions.as_flattened(),
                &plane.decompositions[0],
                &map,
                &mut normal.hessian,
                &mut normal.gradient,
                &mut normal.cost,
            );
        }
    };
    fn rust<const WIDTH: usize, const WORKED_OUT: usize>(
        planes: &[Plane],
        map: &[u32],
        normal: &mut Normal,
    ) {
        for plane in black_box(planes) {
            normal.cost = plain::accumulate::<WIDTH, WORKED_OUT>(
                &plane.frames,
                Some(&plane.fixed),
                SIGMA,
                &plane.actions,
                &plane.decompositions[0],
                Some(map),
                &mut normal.hessian,
                &mut normal.gradient,
            );
        }
    }
    let of_slices = |normal: &mut Normal| {
        for plane in black_box(planes) {
            _ = plain::accumulate_slices::<WIDTH>(
                plane.frames.as_flattened(),
                &plane.fixed,
                SIGMA,
                plane.actions.as_flattened(),
                &plane.decompositions[0],
                &map,
                &mut normal.hessian,
                &mut normal.gradient,
                &mut normal.cost,
            );
        }
    };
    let [mut by_library, mut by_rust, mut by_nine, mut by_slices] = [(); 4].map(|()| zeros.clone());
    library(&mut by_library);
    rust::<WIDTH, WIDTH>(planes, &map, &mut by_rust);
    rust::<WIDTH, 9>(planes, &map, &mut by_nine);
    of_slices(&mut by_slices);
    assert_eq!(by_library, by_rust);
    assert_eq!(by_library, by_nine);
    assert_eq!(by_library, by_slices);
    let case = format!("{}, dof {WIDTH}", of(planes));
    measure_on(
        "frames_accumulate",
        &case,
        planes.len(),
        &mut by_library,
        library,
        |normal| rust::<WIDTH, WIDTH>(planes, &map, normal),
    );
    measure_on(
        "frames_accumulate",
        &format!("{case}, Rust with the same tests"),
        planes.len(),
        &mut by_library,
        library,
        of_slices,
    );
    if WIDTH < 9 {
        measure_on(
            "frames_accumulate",
            &format!("{case}, Rust of nine columns"),
            planes.len(),
            &mut by_library,
            library,
            |normal| rust::<WIDTH, 9>(planes, &map, normal),
        );
    }
}

fn measure_cost(planes: &[Plane]) {
    let library = || {
        let mut cost = 0.0;
        for plane in black_box(planes) {
            _ = slices::frames_accumulate(
                6,
                plane.frames.as_flattened(),
                &plane.fixed,
                SIGMA,
                plane.actions.as_flattened(),
                &plane.decompositions[0],
                &[],
                &mut [],
                &mut [],
                &mut cost,
            );
        }
        black_box(cost)
    };
    let rust = || {
        let mut cost = 0.0;
        for plane in black_box(planes) {
            cost = plain::accumulate::<6, 6>(
                &plane.frames,
                Some(&plane.fixed),
                SIGMA,
                &plane.actions,
                &plane.decompositions[0],
                None,
                &mut [],
                &mut [],
            );
        }
        black_box(cost)
    };
    let of_slices = || {
        let mut cost = 0.0;
        for plane in black_box(planes) {
            _ = plain::accumulate_slices::<6>(
                plane.frames.as_flattened(),
                &plane.fixed,
                SIGMA,
                plane.actions.as_flattened(),
                &plane.decompositions[0],
                &[],
                &mut [],
                &mut [],
                &mut cost,
            );
        }
        black_box(cost)
    };
    assert_eq!(library(), rust());
    assert_eq!(library(), of_slices());
    let case = format!("{}, cost only", of(planes));
    measure(
        "frames_accumulate",
        &case,
        planes.len(),
        || _ = library(),
        || _ = rust(),
    );
    measure(
        "frames_accumulate",
        &format!("{case}, Rust with the same tests"),
        planes.len(),
        || _ = library(),
        || _ = of_slices(),
    );
}

fn measure_linearize<const WIDTH: usize>(planes: &[Plane]) {
    let frames = planes[0].frames.len();
    let rows = 4 * frames + 4;
    let none = || (vec![0.0; rows], vec![0.0; rows * frames * WIDTH]);
    let [mut by_library, mut by_rust, mut by_slices, mut by_nine] = [(); 4].map(|()| none());
    let library = |(residual, jacobian): &mut (Vec<f64>, Vec<f64>)| {
        for plane in black_box(planes) {
            _ = slices::frames_linearize(
                WIDTH as u32,
                plane.frames.as_flattened(),
                &plane.fixed,
                SIGMA,
                plane.actions.as_flattened(),
                plane.decompositions.as_flattened(),
                residual,
                jacobian,
            );
        }
    };
    fn rust<const WIDTH: usize, const WORKED_OUT: usize>(
        planes: &[Plane],
        (residual, jacobian): &mut (Vec<f64>, Vec<f64>),
    ) {
        for plane in black_box(planes) {
            plain::linearize::<WIDTH, WORKED_OUT>(
                &plane.frames,
                Some(&plane.fixed),
                SIGMA,
                &plane.actions,
                &plane.decompositions,
                residual,
                jacobian,
            );
        }
    }
    let of_slices = |(residual, jacobian): &mut (Vec<f64>, Vec<f64>)| {
        for plane in black_box(planes) {
            _ = plain::linearize_slices::<WIDTH>(
                plane.frames.as_flattened(),
                &plane.fixed,
                SIGMA,
                plane.actions.as_flattened(),
                plane.decompositions.as_flattened(),
                residual,
                jacobian,
            );
        }
    };
    library(&mut by_library);
    rust::<WIDTH, WIDTH>(planes, &mut by_rust);
    rust::<WIDTH, 9>(planes, &mut by_nine);
    of_slices(&mut by_slices);
    assert_eq!(by_library, by_rust);
    assert_eq!(by_library, by_nine);
    assert_eq!(by_library, by_slices);
    let case = format!("{}, dof {WIDTH}", of(planes));
    measure_on(
        "frames_linearize",
        &case,
        planes.len(),
        &mut by_library,
        library,
        |rows| rust::<WIDTH, WIDTH>(planes, rows),
    );
    measure_on(
        "frames_linearize",
        &format!("{case}, Rust with the same root and tests"),
        planes.len(),
        &mut by_library,
        library,
        of_slices,
    );
    if WIDTH < 9 {
        measure_on(
            "frames_linearize",
            &format!("{case}, Rust of nine columns"),
            planes.len(),
            &mut by_library,
            library,
            |rows| rust::<WIDTH, 9>(planes, rows),
        );
    }
}

/// The same in plain Rust: the compiler inlines all below the outermost functions, which are called as the library's are.
pub mod plain {
    use super::{black_box, ACTION, CENTRED, DECOMPOSITION, MAX_ORDER};
    use maghnelt::{MAX_FRAMES, MAX_WORDS, UNMAPPED};

    pub type Frame = [f64; CENTRED];
    pub type Action = [f64; ACTION];
    pub type Decomposition = [f64; DECOMPOSITION];

    /// Where mean and scatter are in a frame, after the count.
    pub const MEAN: usize = 1;
    pub const SCATTER: usize = 4;

    #[inline(always)]
    pub fn dot(a: [f64; 3], b: [f64; 3]) -> f64 {
        a[0] * b[0] + a[1] * b[1] + a[2] * b[2]
    }

    #[inline(always)]
    pub fn three(numbers: &[f64], from: usize) -> [f64; 3] {
        [numbers[from], numbers[from + 1], numbers[from + 2]]
    }

    /// A·mean + b.
    #[inline(always)]
    pub fn centre(a: &Action, frame: &Frame) -> [f64; 3] {
        let [x, y, z] = three(frame, MEAN);
        std::array::from_fn(|r| a[r] * x + a[3 + r] * y + a[6 + r] * z + a[9 + r])
    }

    /// A symmetric or any other matrix by columns times a vector.
    #[inline(always)]
    pub fn times(m: &[f64], v: [f64; 3]) -> [f64; 3] {
        std::array::from_fn(|r| m[r] * v[0] + m[3 + r] * v[1] + m[6 + r] * v[2])
    }

    /// The plane: normal and offset.
    #[inline(always)]
    pub fn fit(
        frames: &[Frame],
        fixed: Option<&Frame>,
        actions: &[Action],
        decomposition: &Decomposition,
    ) -> Option<([f64; 3], f64)> {
        let mut total = 0.0;
        let mut weighted = [0.0; 3];
        let mut weigh = |centre: [f64; 3], count: f64| {
            total += count;
            for r in 0..3 {
                weighted[r] += centre[r] * count;
            }
        };
        for (frame, action) in frames.iter().zip(actions) {
            weigh(centre(action, frame), frame[0]);
        }
        if let Some(fixed) = fixed {
            weigh(three(fixed, MEAN), fixed[0]);
        }
        let mean = weighted.map(|sum| sum / total);
        let mut order = [0, 1, 2];
        order.sort_by(|&a: &usize, &b: &usize| decomposition[a].total_cmp(&decomposition[b]));
        let gap = decomposition[order[1]] - decomposition[order[0]];
        let normal = three(decomposition, 3 + 3 * order[0]);
        (gap > 1e-14 * decomposition[order[2]].abs().max(1.0)).then(|| (normal, -dot(normal, mean)))
    }

    /// The derivatives of Aᵀn and of the mean's distance.
    #[inline(always)]
    pub fn derivatives<const W: usize>(
        a: &Action,
        n: [f64; 3],
        mean: [f64; 3],
    ) -> ([[f64; W]; 3], [f64; W]) {
        let mut d = [[0.0; W]; 3];
        let mut m = [0.0; W];
        for c in 0..W {
            for k in 0..3 {
                d[k][c] = dot(n, three(a, 39 + 27 * k + 3 * c));
            }
            let origin = dot(n, three(a, 12 + 3 * c));
            m[c] = origin + d[0][c] * mean[0] + d[1][c] * mean[1] + d[2][c] * mean[2];
        }
        (d, m)
    }

    /// With blocks of so many worked out columns, of which the first are added.
    #[allow(clippy::too_many_arguments)]
    #[inline(never)]
    pub fn accumulate<const WIDTH: usize, const WORKED_OUT: usize>(
        frames: &[Frame],
        fixed: Option<&Frame>,
        sigma: f64,
        actions: &[Action],
        decomposition: &Decomposition,
        map: Option<&[u32]>,
        hessian: &mut [f64],
        gradient: &mut [f64],
    ) -> f64 {
        worked_out::<WIDTH, WORKED_OUT>(
            frames,
            fixed,
            sigma,
            actions,
            decomposition,
            map,
            hessian,
            gradient,
        )
    }

    /// The same of slices, with the library's tests of them: the number of the reason to refuse, or 0. An empty map wants no
    /// blocks; any other has a word for each frame.
    #[allow(clippy::too_many_arguments)]
    #[inline(never)]
    pub fn accumulate_slices<const WIDTH: usize>(
        frames: &[f64],
        fixed: &[f64],
        sigma: f64,
        actions: &[f64],
        decomposition: &[f64],
        map: &[u32],
        hessian: &mut [f64],
        gradient: &mut [f64],
        cost: &mut f64,
    ) -> u32 {
        if frames.is_empty() {
            return 2;
        }
        let (frames, rest) = frames.as_chunks::<CENTRED>();
        let (fixed, short) = fixed.as_chunks::<CENTRED>();
        let Ok(decomposition) = decomposition.try_into() else {
            return 3;
        };
        let order = gradient.len();
        let whole = rest.is_empty() && short.is_empty();
        if !whole || frames.len() > MAX_FRAMES || fixed.len() > 1 {
            return 3;
        }
        if map.len() > MAX_WORDS || order > MAX_ORDER || hessian.len() != order * order {
            return 3;
        }
        if !(sigma.is_finite() && sigma > 0.0) {
            return 7;
        }
        let (actions, rest) = actions.as_chunks::<ACTION>();
        if !rest.is_empty() || actions.len() != frames.len() {
            return 8;
        }
        if map.iter().any(|&word| word > UNMAPPED) {
            return 9;
        }
        let past = |&word: &u32| word < UNMAPPED && word as usize + WIDTH > order;
        if map.iter().take(frames.len()).any(past) {
            return 10;
        }
        let wanted = (!map.is_empty()).then_some(map);
        *cost = worked_out::<WIDTH, WIDTH>(
            frames,
            fixed.first(),
            sigma,
            actions,
            decomposition,
            wanted,
            hessian,
            gradient,
        );
        0
    }

    #[allow(clippy::too_many_arguments)]
    #[inline(always)]
    fn worked_out<const WIDTH: usize, const WORKED_OUT: usize>(
        frames: &[Frame],
        fixed: Option<&Frame>,
        sigma: f64,
        actions: &[Action],
        decomposition: &Decomposition,
        map: Option<&[u32]>,
        hessian: &mut [f64],
        gradient: &mut [f64],
    ) -> f64 {
        let Some((n, offset)) = fit(frames, fixed, actions, decomposition) else {
            return 0.0;
        };
        let weight = 1.0 / (sigma * sigma);
        let mut cost = 0.0;
        for (k, (frame, a)) in frames.iter().zip(actions).enumerate() {
            let count = frame[0];
            let s = &frame[SCATTER..];
            let a_n = std::array::from_fn(|c| dot(three(a, 3 * c), n));
            let s_an = times(s, a_n);
            let along = dot(n, centre(a, frame)) + offset;
            cost += (dot(a_n, s_an) + count * along * along) * weight;
            if let Some(map) = map {
                let order = gradient.len();
                let at = map[k] as usize;
                let (d, m) = derivatives::<WORKED_OUT>(a, n, three(frame, MEAN));
                let mut p = [[0.0; WORKED_OUT]; 3];
                for k in 0..3 {
                    for i in 0..WORKED_OUT {
                        p[k][i] =
                            d[0][i] * s[3 * k] + d[1][i] * s[3 * k + 1] + d[2][i] * s[3 * k + 2];
                    }
                }
                let mut g = [0.0; WORKED_OUT];
                for i in 0..WORKED_OUT {
                    let spread = d[0][i] * s_an[0] + d[1][i] * s_an[1] + d[2][i] * s_an[2];
                    g[i] = (spread + m[i] * (count * along)) * weight;
                }
                let mut h = [[0.0; WORKED_OUT]; WORKED_OUT];
                for j in 0..WORKED_OUT {
                    for i in 0..WORKED_OUT {
                        let spread = p[0][i] * d[0][j] + p[1][i] * d[1][j] + p[2][i] * d[2][j];
                        h[j][i] = (spread + m[i] * m[j] * count) * weight;
                    }
                    if WORKED_OUT == WIDTH {
                        let column = &mut hessian[(at + j) * order + at..][..WIDTH];
                        for i in 0..WIDTH {
                            column[i] += h[j][i];
                        }
                    }
                }
                if WORKED_OUT > WIDTH {
                    // The whole block is made, and then its first rows and columns are added.
                    black_box(&mut h);
                    for j in 0..WIDTH {
                        let column = &mut hessian[(at + j) * order + at..][..WIDTH];
                        for i in 0..WIDTH {
                            column[i] += h[j][i];
                        }
                    }
                }
                let part = &mut gradient[at..at + WIDTH];
                for i in 0..WIDTH {
                    part[i] += g[i];
                }
            }
        }
        if let Some(fixed) = fixed {
            let along = dot(n, three(fixed, MEAN)) + offset;
            let spread = dot(n, times(&fixed[SCATTER..], n));
            cost += (spread + fixed[0] * along * along) * weight;
        }
        cost
    }

    /// The rows of a root of a scatter.
    #[inline(always)]
    fn rows_of(decomposition: &Decomposition, root: fn(f64) -> f64) -> [[f64; 3]; 3] {
        std::array::from_fn(|k| {
            let scale = if decomposition[k] > 0.0 {
                root(decomposition[k])
            } else {
                0.0
            };
            three(decomposition, 3 + 3 * k).map(|x| x * scale)
        })
    }

    /// With blocks of so many worked out columns, of which the first are stored.
    #[inline(never)]
    pub fn linearize<const WIDTH: usize, const WORKED_OUT: usize>(
        frames: &[Frame],
        fixed: Option<&Frame>,
        sigma: f64,
        actions: &[Action],
        decompositions: &[Decomposition],
        residual: &mut [f64],
        jacobian: &mut [f64],
    ) {
        linearized::<WIDTH, WORKED_OUT>(
            frames,
            fixed,
            sigma,
            actions,
            decompositions,
            f64::sqrt,
            residual,
            jacobian,
        );
    }

    /// The same of slices with the library's tests of them and its root, which document 01 has worked out in integers: the number
    /// of the reason to refuse, or 0.
    #[inline(never)]
    pub fn linearize_slices<const WIDTH: usize>(
        frames: &[f64],
        fixed: &[f64],
        sigma: f64,
        actions: &[f64],
        decompositions: &[f64],
        residual: &mut [f64],
        jacobian: &mut [f64],
    ) -> u32 {
        if frames.is_empty() {
            return 2;
        }
        let (frames, rest) = frames.as_chunks::<CENTRED>();
        let (fixed, short) = fixed.as_chunks::<CENTRED>();
        let (decompositions, left) = decompositions.as_chunks::<DECOMPOSITION>();
        let whole = rest.is_empty() && short.is_empty() && left.is_empty();
        if !whole || frames.len() > MAX_FRAMES || fixed.len() > 1 {
            return 3;
        }
        let rows = 4 * frames.len() + 4;
        if decompositions.len() != 1 + frames.len() + fixed.len() || residual.len() != rows {
            return 3;
        }
        if jacobian.len() != rows * frames.len() * WIDTH {
            return 3;
        }
        if !(sigma.is_finite() && sigma > 0.0) {
            return 7;
        }
        let (actions, rest) = actions.as_chunks::<ACTION>();
        if !rest.is_empty() || actions.len() != frames.len() {
            return 8;
        }
        linearized::<WIDTH, WIDTH>(
            frames,
            fixed.first(),
            sigma,
            actions,
            decompositions,
            maghnelt::sqrt,
            residual,
            jacobian,
        );
        0
    }

    #[allow(clippy::too_many_arguments)]
    #[inline(always)]
    fn linearized<const WIDTH: usize, const WORKED_OUT: usize>(
        frames: &[Frame],
        fixed: Option<&Frame>,
        sigma: f64,
        actions: &[Action],
        decompositions: &[Decomposition],
        root: fn(f64) -> f64,
        residual: &mut [f64],
        jacobian: &mut [f64],
    ) {
        jacobian.fill(0.0);
        let Some((n, offset)) = fit(frames, fixed, actions, &decompositions[0]) else {
            residual.fill(0.0);
            return;
        };
        let information = 1.0 / sigma;
        let rows = residual.len();
        for (f, (frame, a)) in frames.iter().zip(actions).enumerate() {
            let root_rows = rows_of(&decompositions[1 + f], root);
            let root_n = root(frame[0]);
            let a_n = std::array::from_fn(|c| dot(three(a, 3 * c), n));
            let along = dot(n, centre(a, frame)) + offset;
            for k in 0..3 {
                residual[4 * f + k] = dot(root_rows[k], a_n) * information;
            }
            residual[4 * f + 3] = root_n * along * information;
            let (d, m) = derivatives::<WORKED_OUT>(a, n, three(frame, MEAN));
            let mut block: [[f64; 4]; WORKED_OUT] = std::array::from_fn(|c| {
                let column = [d[0][c], d[1][c], d[2][c]];
                let [x, y, z] = root_rows.map(|row| dot(row, column) * information);
                [x, y, z, root_n * m[c] * information]
            });
            if WORKED_OUT > WIDTH {
                // The whole block is made, and then its first columns are stored.
                black_box(&mut block);
            }
            for c in 0..WIDTH {
                jacobian[(f * WIDTH + c) * rows + 4 * f..][..4].copy_from_slice(&block[c]);
            }
        }
        let last = 4 * frames.len();
        match fixed {
            Some(fixed) => {
                let root_rows = rows_of(&decompositions[1 + frames.len()], root);
                for k in 0..3 {
                    residual[last + k] = dot(root_rows[k], n) * information;
                }
                let along = dot(n, three(fixed, MEAN)) + offset;
                residual[last + 3] = root(fixed[0]) * along * information;
            }
            None => residual[last..].fill(0.0),
        }
    }
}

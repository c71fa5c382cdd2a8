//! The calls on bundles, against plain Rust that takes the same slices and tests them for the same reasons, and in which the
//! compiler knows the width.

use crate::harness::{measure_on, measure_written};
use maghnelt::{slices, Refusal, DECOMPOSITION, MAX_DOF};
use oracle::draws::{Pose, Wall};
use oracle::generator::Generator;
use oracle::model::stored_matrix;
use oracle::scenes::{action_of, decomposition_of};
use std::hint::black_box;

const FRAMES: usize = 8;
const SIGMA: f64 = 0.05;

type Point = [f64; 3];

/// A wall that several poses see, and what a host hands over of it.
struct Bundle {
    counts: Vec<u32>,
    points: Vec<Point>,
    /// As many columns a point as a state may have.
    columns: Vec<[Point; MAX_DOF]>,
    fixed: Vec<Point>,
    decomposition: [f64; DECOMPOSITION],
}

impl Bundle {
    /// With so many points in each frame, and so many fixed ones.
    fn random(of_frame: usize, fixed: usize, generator: &mut Generator) -> Bundle {
        let wall = Wall::random(generator);
        let mut bundle = Bundle {
            counts: vec![of_frame as u32; FRAMES],
            points: Vec::new(),
            columns: Vec::new(),
            fixed: (0..fixed).map(|_| wall.point(generator)).collect(),
            decomposition: [0.0; DECOMPOSITION],
        };
        for _ in 0..FRAMES {
            let pose = Pose::random(generator);
            let action = action_of(&pose, MAX_DOF as u32, generator);
            for _ in 0..of_frame {
                let point = wall.point(generator);
                bundle.points.push(point);
                bundle.columns.push(columns_of(&pose, &action, point));
            }
        }
        let mut fitted = [0.0; 12];
        bundle.fit(&mut fitted).expect("a wall's points are finite");
        bundle.decomposition = decomposition_of(stored_matrix(&fitted[3..]));
        bundle
    }

    fn fit(&self, out: &mut [f64]) -> Result<(), Refusal> {
        let (points, fixed) = (self.points.as_flattened(), self.fixed.as_flattened());
        slices::bundle_fit(&self.counts, points, fixed, out)
    }

    fn rows(&self) -> usize {
        self.points.len() + self.fixed.len()
    }
}

/// The derivatives of a point of the site, which a pose sees.
fn columns_of(pose: &Pose, action: &[f64], point: Point) -> [Point; MAX_DOF] {
    let off: Point = std::array::from_fn(|r| point[r] - pose.shift[r]);
    let seen: Point = std::array::from_fn(|c| (0..3).map(|r| pose.rotation[r][c] * off[r]).sum());
    std::array::from_fn(|c| {
        std::array::from_fn(|r| {
            let of_axis = |k: usize| action[39 + 27 * k + 3 * c + r] * seen[k];
            action[12 + 3 * c + r] + (0..3).map(of_axis).sum::<f64>()
        })
    })
}

/// Prints the rows of the bundles.
pub fn measure_all() {
    let mut generator = Generator::named(754, "bundles");
    let mut some = |number: usize, of_frame: usize, fixed: usize| -> Vec<Bundle> {
        (0..number)
            .map(|_| Bundle::random(of_frame, fixed, &mut generator))
            .collect()
    };
    let sizes = [
        ("64 points", some(8, 7, 8)),
        ("65,536 points", some(1, 7_936, 2_048)),
    ];
    for (case, bundles) in &sizes {
        measure_fit(case, bundles);
    }
    for (case, bundles) in &sizes {
        measure_linearize::<3>(case, bundles);
        measure_linearize::<6>(case, bundles);
        measure_linearize::<9>(case, bundles);
    }
}

fn measure_fit(case: &str, bundles: &[Bundle]) {
    measure_written(
        "bundle_fit",
        case,
        bundles,
        |bundle, out: &mut [f64; 12]| {
            _ = bundle.fit(out);
        },
        |bundle, out| {
            let (points, fixed) = (bundle.points.as_flattened(), bundle.fixed.as_flattened());
            _ = plain::fit(&bundle.counts, points, fixed, out);
        },
    );
}

/// Residuals and Jacobian.
type Rows = (Vec<f64>, Vec<f64>);

/// A bundle with the columns of a width.
struct OfWidth<'a, const WIDTH: usize> {
    bundle: &'a Bundle,
    d_state: Vec<[Point; WIDTH]>,
}

impl<const WIDTH: usize> OfWidth<'_, WIDTH> {
    fn new(bundle: &Bundle) -> OfWidth<'_, WIDTH> {
        let first = |columns: &[Point; MAX_DOF]| *columns.first_chunk().expect("no more than nine");
        OfWidth {
            bundle,
            d_state: bundle.columns.iter().map(first).collect(),
        }
    }

    #[inline(always)]
    fn by_library(&self, (residual, jacobian): &mut Rows) -> Result<(), Refusal> {
        slices::bundle_linearize(
            WIDTH as u32,
            &self.bundle.counts,
            self.bundle.points.as_flattened(),
            self.d_state.as_flattened().as_flattened(),
            self.bundle.fixed.as_flattened(),
            SIGMA,
            &self.bundle.decomposition,
            residual,
            jacobian,
        )
    }

    #[inline(always)]
    fn by_rust(&self, (residual, jacobian): &mut Rows) -> Result<(), u32> {
        plain::linearize::<WIDTH>(
            &self.bundle.counts,
            self.bundle.points.as_flattened(),
            self.d_state.as_flattened().as_flattened(),
            self.bundle.fixed.as_flattened(),
            SIGMA,
            &self.bundle.decomposition,
            residual,
            jacobian,
        )
    }
}

fn measure_linearize<const WIDTH: usize>(case: &str, bundles: &[Bundle]) {
    let handed: Vec<OfWidth<WIDTH>> = bundles.iter().map(OfWidth::new).collect();
    let cells = bundles[0].rows() * FRAMES * WIDTH;
    let case = format!("{case}, dof {WIDTH}");
    measure_rows(&case, &handed, cells);
    measure_rows(&format!("{case}, residuals alone"), &handed, 0);
}

/// With a Jacobian of so many cells.
fn measure_rows<const WIDTH: usize>(case: &str, handed: &[OfWidth<WIDTH>], cells: usize) {
    let rows = handed[0].bundle.rows();
    // No row of a wall has an infinity, so that a cell that is left as it was shows.
    let unwritten = || (vec![f64::INFINITY; rows], vec![f64::INFINITY; cells]);
    let (mut by_library, mut by_rust) = (unwritten(), unwritten());
    for one in handed {
        assert_eq!(one.by_library(&mut by_library), Ok(()));
        assert_eq!(one.by_rust(&mut by_rust), Ok(()));
        assert_eq!(by_library, by_rust);
    }
    measure_on(
        "bundle_linearize",
        case,
        handed.len(),
        &mut by_library,
        |rows| {
            for one in black_box(handed) {
                _ = one.by_library(rows);
            }
        },
        |rows| {
            for one in black_box(handed) {
                _ = one.by_rust(rows);
            }
        },
    );
}

/// The same in plain Rust: the compiler knows the width and inlines all below the outermost functions, which are called as
/// the library's are. An error is the number of the reason to refuse.
mod plain {
    use super::Point;
    use crate::finite::all_finite;
    use maghnelt::{DECOMPOSITION, MAX_FRAMES, MAX_POINTS};

    #[inline(never)]
    pub fn fit(counts: &[u32], points: &[f64], fixed: &[f64], out: &mut [f64]) -> Result<(), u32> {
        let (points, fixed) = of_right_size(counts, points, fixed)?;
        let out: &mut [f64; 12] = out.try_into().map_err(|_| 3u32)?;
        test(counts, points, fixed)?;
        let centroid = centroid(points, fixed);
        out[..3].copy_from_slice(&centroid);
        out[3..].copy_from_slice(&scatter(points, fixed, centroid));
        Ok(())
    }

    #[allow(clippy::too_many_arguments)]
    #[inline(never)]
    pub fn linearize<const WIDTH: usize>(
        counts: &[u32],
        points: &[f64],
        d_state: &[f64],
        fixed: &[f64],
        sigma: f64,
        decomposition: &[f64],
        residual: &mut [f64],
        jacobian: &mut [f64],
    ) -> Result<(), u32> {
        let (points, fixed) = of_right_size(counts, points, fixed)?;
        let rows = points.len() + fixed.len();
        let decomposition = decomposition.try_into().map_err(|_| 3u32)?;
        if d_state.len() != 3 * WIDTH * points.len() || residual.len() != rows {
            return Err(3);
        }
        if !jacobian.is_empty() && jacobian.len() != rows * counts.len() * WIDTH {
            return Err(3);
        }
        test(counts, points, fixed)?;
        if !(sigma.is_finite() && sigma > 0.0) {
            return Err(7);
        }
        let Some(normal) = normal(decomposition) else {
            residual.fill(0.0);
            jacobian.fill(0.0);
            return Ok(());
        };
        let information = 1.0 / sigma;
        write_residuals(points, fixed, normal, information, residual);
        if !jacobian.is_empty() {
            let (columns, _) = d_state.as_chunks::<3>();
            let (columns, _) = columns.as_chunks::<WIDTH>();
            write_jacobian(counts, columns, normal, information, rows, jacobian);
        }
        Ok(())
    }

    /// Reasons 2 and 3: the points of slices that are as long as the counts say.
    #[inline(always)]
    fn of_right_size<'a>(
        counts: &[u32],
        points: &'a [f64],
        fixed: &'a [f64],
    ) -> Result<(&'a [Point], &'a [Point]), u32> {
        if counts.is_empty() {
            return Err(2);
        }
        let (points, rest) = points.as_chunks::<3>();
        let (fixed, short) = fixed.as_chunks::<3>();
        let whole = rest.is_empty() && short.is_empty();
        if !whole || counts.len() > MAX_FRAMES || points.len() + fixed.len() > MAX_POINTS {
            return Err(3);
        }
        let counted: u64 = counts.iter().map(|&count| u64::from(count)).sum();
        if counted != points.len() as u64 {
            return Err(3);
        }
        Ok((points, fixed))
    }

    /// Reasons 4 to 6.
    #[inline(always)]
    fn test(counts: &[u32], points: &[Point], fixed: &[Point]) -> Result<(), u32> {
        if counts.contains(&0) {
            return Err(4);
        }
        if points.len() + fixed.len() < 3 {
            return Err(5);
        }
        if !(all_finite(points.as_flattened()) && all_finite(fixed.as_flattened())) {
            return Err(6);
        }
        Ok(())
    }

    #[inline(always)]
    fn centroid(points: &[Point], fixed: &[Point]) -> Point {
        let mut sum = [0.0; 3];
        for list in [points, fixed] {
            for point in list {
                for r in 0..3 {
                    sum[r] += point[r];
                }
            }
        }
        let number = (points.len() + fixed.len()) as f64;
        sum.map(|sum| sum / number)
    }

    #[inline(always)]
    fn minus(a: &Point, b: Point) -> Point {
        [a[0] - b[0], a[1] - b[1], a[2] - b[2]]
    }

    #[inline(always)]
    fn dot(a: Point, b: Point) -> f64 {
        a[0] * b[0] + a[1] * b[1] + a[2] * b[2]
    }

    /// The scatter is symmetric, so that six sums make it.
    #[inline(always)]
    fn scatter(points: &[Point], fixed: &[Point], centroid: Point) -> [f64; 9] {
        let mut sums = [0.0; 6];
        for list in [points, fixed] {
            for point in list {
                let [x, y, z] = minus(point, centroid);
                let products = [x * x, x * y, x * z, y * y, y * z, z * z];
                for k in 0..6 {
                    sums[k] += products[k];
                }
            }
        }
        let number = (points.len() + fixed.len()) as f64;
        let [xx, xy, xz, yy, yz, zz] = sums.map(|sum| sum / number);
        [xx, xy, xz, xy, yy, yz, xz, yz, zz]
    }

    #[inline(always)]
    fn normal(decomposition: &[f64; DECOMPOSITION]) -> Option<Point> {
        let mut order = [0, 1, 2];
        order.sort_by(|&a: &usize, &b: &usize| decomposition[a].total_cmp(&decomposition[b]));
        if decomposition[order[1]] - decomposition[order[0]] < 1e-12 {
            return None;
        }
        let from = 3 + 3 * order[0];
        Some(std::array::from_fn(|r| decomposition[from + r]))
    }

    #[inline(always)]
    fn write_residuals(
        points: &[Point],
        fixed: &[Point],
        normal: Point,
        information: f64,
        residual: &mut [f64],
    ) {
        let centroid = centroid(points, fixed);
        let (of_points, of_fixed) = residual.split_at_mut(points.len());
        for (part, list) in [(of_points, points), (of_fixed, fixed)] {
            for (residual, point) in part.iter_mut().zip(list) {
                *residual = information * dot(normal, minus(point, centroid));
            }
        }
    }

    #[inline(always)]
    fn write_jacobian<const WIDTH: usize>(
        counts: &[u32],
        d_state: &[[Point; WIDTH]],
        normal: Point,
        information: f64,
        rows: usize,
        jacobian: &mut [f64],
    ) {
        jacobian.fill(0.0);
        let mut first = 0;
        for (&count, block) in counts.iter().zip(jacobian.chunks_exact_mut(WIDTH * rows)) {
            let next = first + count as usize;
            for (row, columns) in (first..next).zip(&d_state[first..next]) {
                for (cells, column) in block.chunks_exact_mut(rows).zip(columns) {
                    cells[row] = information * dot(normal, *column);
                }
            }
            first = next;
        }
    }
}

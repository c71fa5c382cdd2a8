//! The model of the calls on bundles, the raw points of one plane, written from document 02.

use super::frames::Rows;
use super::moments::Decomposition;
use super::{
    bad_sigma, dot, first, matrix, store_matrix, stored_vector, sum_from_zero, vector, written,
    Matrix, Vector, DOF, EMPTY_LIST, FRAME_COUNT, LENGTH, MAX_DOF, NOT_FINITE, SIGMA, TOTAL_COUNT,
};
use maghnelt::{DECOMPOSITION, MAX_FRAMES, MAX_POINTS};

/// The points that both calls take.
#[derive(Clone, Copy)]
pub struct Bundle<'a> {
    /// Each frame's number of points.
    pub counts: &'a [u32],
    /// The frames' points in the site, frame after frame.
    pub points: &'a [f64],
    /// The fixed points.
    pub fixed: &'a [f64],
}

impl Bundle<'_> {
    /// The site points that the counts call for. In 128 bits neither this nor what it is multiplied by below overflows.
    pub fn sites(&self) -> u128 {
        self.counts.iter().map(|&count| u128::from(count)).sum()
    }

    /// The rows: one for each site point and one for each fixed point.
    pub fn rows(&self) -> u128 {
        self.sites() + self.fixed.len() as u128 / 3
    }

    /// The reasons that both calls test, 2 to 6; `lengths` is whether another slice has a wrong length.
    fn reasons(&self, lengths: bool) -> [(u32, bool); 5] {
        let limits = self.counts.len() > MAX_FRAMES || self.rows() > MAX_POINTS as u128;
        let points = self.points.len() as u128 != 3 * self.sites() || self.fixed.len() % 3 != 0;
        let mut coordinates = self.points.iter().chain(self.fixed);
        [
            (EMPTY_LIST, self.counts.is_empty()),
            (LENGTH, limits || points || lengths),
            (FRAME_COUNT, self.counts.contains(&0)),
            (TOTAL_COUNT, self.rows() < 3),
            (NOT_FINITE, coordinates.any(|x| !x.is_finite())),
        ]
    }

    /// Why a fit is refused; `out` is a length.
    pub fn refusal(&self, out: usize) -> u32 {
        first(&self.reasons(out != 12))
    }

    /// The points of all rows: the site points, then the fixed ones.
    pub fn all(&self) -> Vec<Vector> {
        let points = self.points.chunks(3).chain(self.fixed.chunks(3));
        points.map(stored_vector).collect()
    }

    /// The frame of each site point.
    pub fn frames(&self) -> Vec<usize> {
        let frames = self.counts.iter().enumerate();
        frames
            .flat_map(|(frame, &count)| (0..count).map(move |_| frame))
            .collect()
    }
}

/// The centroid: (Σ from +0 of p_r) / N.
pub fn centroid(all: &[Vector]) -> Vector {
    let n = all.len() as f64;
    vector(|r| sum_from_zero(all.iter().map(|p| p[r])) / n)
}

/// The scatter about a centroid c: (Σ from +0 of (p_r − c_r)·(p_c − c_c)) / N.
pub fn scatter(all: &[Vector], centroid: Vector) -> Matrix<3> {
    let n = all.len() as f64;
    let off = |p: &Vector, r: usize| p[r] - centroid[r];
    matrix(|r, c| sum_from_zero(all.iter().map(|p| off(p, r) * off(p, c))) / n)
}

/// `fit_plane_pca` up to its decomposition: centroid and scatter.
pub fn fit(bundle: &Bundle) -> (Vector, Matrix<3>) {
    let all = bundle.all();
    let centroid = centroid(&all);
    (centroid, scatter(&all, centroid))
}

/// The call `bundle_fit` on points, fixed points and output, with the counts.
pub fn fit_call(
    refusal: impl Fn(&Bundle, usize) -> u32,
    fit: impl Fn(&Bundle) -> (Vector, Matrix<3>),
) -> impl Fn([&mut [f64]; 3], [&mut [u32]; 1]) -> u32 {
    move |[points, fixed, out], [counts]| {
        let bundle = Bundle {
            counts,
            points,
            fixed,
        };
        let refusal = refusal(&bundle, out.len());
        if refusal == 0 {
            let (centroid, scatter) = fit(&bundle);
            out[..3].copy_from_slice(&centroid.map(written));
            store_matrix(scatter.map(|row| row.map(written)), &mut out[3..]);
        }
        refusal
    }
}

/// `fit_plane_pca` from its decomposition on: the vector of the least eigenvalue, or none exactly if gap < 1e-12, which a NaN
/// is not.
pub fn normal(decomposition: &Decomposition) -> Option<Vector> {
    let order = decomposition.order();
    let [least, second, _] = order.map(|k| f64::from_bits(decomposition.eigenvalues[k]));
    if second - least < 1e-12 {
        return None;
    }
    Some(decomposition.vectors[order[0]])
}

/// What `bundle_linearize` takes.
#[derive(Clone, Copy)]
pub struct Linearize<'a> {
    /// The number of parameters.
    pub dof: u32,
    /// The points.
    pub bundle: Bundle<'a>,
    /// The columns of each site point, three numbers each.
    pub d_state: &'a [f64],
    /// The standard deviation.
    pub sigma: f64,
    /// The decomposition of the scatter.
    pub decomposition: &'a [f64],
}

impl Linearize<'_> {
    /// Tests 1 to 7; `residual` and `jacobian` are lengths.
    pub fn refusal(&self, residual: usize, jacobian: usize) -> u32 {
        let (rows, dof) = (self.bundle.rows(), u128::from(self.dof));
        let columns = self.bundle.counts.len() as u128 * dof;
        let lengths = self.d_state.len() as u128 != 3 * dof * self.bundle.sites()
            || self.decomposition.len() != DECOMPOSITION
            || residual as u128 != rows
            || jacobian != 0 && jacobian as u128 != rows * columns;
        let mut reasons = vec![(DOF, self.dof > MAX_DOF)];
        reasons.extend(self.bundle.reasons(lengths));
        reasons.push((SIGMA, bad_sigma(self.sigma)));
        first(&reasons)
    }

    /// The plane's normal, or none.
    pub fn normal(&self) -> Option<Vector> {
        normal(&Decomposition::read(self.decomposition))
    }

    /// Column c of site point k.
    pub fn column(&self, k: usize, c: usize) -> Vector {
        stored_vector(&self.d_state[3 * (k * self.dof as usize + c)..])
    }

    /// The residuals when it is accepted, (1/sigma)·(n·(p − centroid)): without a plane all +0.
    pub fn residual(&self) -> Vec<f64> {
        let all = self.bundle.all();
        let Some(n) = self.normal() else {
            return vec![0.0; all.len()];
        };
        let information = 1.0 / self.sigma;
        let centroid = centroid(&all);
        let along = |p: &Vector| dot(n, vector(|r| p[r] - centroid[r]));
        all.iter().map(|p| information * along(p)).collect()
    }

    /// The Jacobian's entries by row and column when it is accepted: (1/sigma)·(n·column) in the columns of a site point's
    /// own frame, +0 elsewhere and without a plane.
    pub fn jacobian(&self) -> Vec<Vec<f64>> {
        let dof = self.dof as usize;
        let columns = self.bundle.counts.len() * dof;
        let mut rows = vec![vec![0.0; columns]; self.bundle.all().len()];
        let Some(n) = self.normal() else {
            return rows;
        };
        let information = 1.0 / self.sigma;
        for (k, frame) in self.bundle.frames().into_iter().enumerate() {
            for c in 0..dof {
                rows[k][frame * dof + c] = information * dot(n, self.column(k, c));
            }
        }
        rows
    }
}

/// The call `bundle_linearize` on points, their columns, fixed points, sigma, decomposition, residual and Jacobian, with dof
/// and counts. A Jacobian that is not wanted is not worked out.
pub fn linearize_call(
    refusal: impl Fn(&Linearize, usize, usize) -> u32,
    residuals: impl Fn(&Linearize) -> Vec<f64>,
    entries: impl Fn(&Linearize) -> Vec<Vec<f64>>,
) -> impl Fn([&mut [f64]; 7], [&mut [u32]; 2]) -> u32 {
    move |[points, d_state, fixed, sigma, decomposition, residual, jacobian], [dof, counts]| {
        let inputs = Linearize {
            dof: dof[0],
            bundle: Bundle {
                counts,
                points,
                fixed,
            },
            d_state,
            sigma: sigma[0],
            decomposition,
        };
        let refusal = refusal(&inputs, residual.len(), jacobian.len());
        if refusal == 0 {
            let rows = Rows {
                residual: residuals(&inputs),
                jacobian: match jacobian.len() {
                    0 => Vec::new(),
                    _ => entries(&inputs),
                },
            };
            rows.write(residual, jacobian);
        }
        refusal
    }
}

#[cfg(test)]
mod tests {
    use super::*;

    /// Four corners of a square.
    const SQUARE: [f64; 12] = [0.0, 0.0, 0.0, 2.0, 0.0, 0.0, 0.0, 2.0, 0.0, 2.0, 2.0, 0.0];

    #[test]
    fn a_fit_in_whole_numbers() {
        let bundle = Bundle {
            counts: &[4],
            points: &SQUARE,
            fixed: &[1.0, 1.0, 5.0],
        };
        assert_eq!(bundle.refusal(12), 0);
        let (centroid, scatter) = fit(&bundle);
        assert_eq!(centroid, [1.0; 3]);
        assert_eq!(scatter, [[0.8, 0.0, 0.0], [0.0, 0.8, 0.0], [0.0, 0.0, 4.0]]);
    }

    #[test]
    fn the_gap_does_not_hang_on_the_third_eigenvalue() {
        let of = |values: [f64; 3]| {
            let vectors = [[1.0, 0.0, 0.0], [0.0, 1.0, 0.0], [0.0, 0.0, 1.0]];
            let stored = [&values[..], vectors.as_flattened()].concat();
            normal(&Decomposition::read(&stored))
        };
        assert_eq!(of([0.0, 1e-12, 1.0]), Some([1.0, 0.0, 0.0]));
        assert_eq!(of([0.0, 9e-13, 1.0]), None);
        assert_eq!(of([1e9, 1e-12, 0.0]), Some([0.0, 0.0, 1.0]));
        assert_eq!(of([0.0, f64::NAN, 1.0]), Some([1.0, 0.0, 0.0]));
        assert_eq!(of([0.0, -f64::NAN, 1.0]), Some([0.0, 1.0, 0.0]));
        assert_eq!(of([1.0; 3]), None);
    }

    #[test]
    fn counts_that_are_refused() {
        let refusal = |counts: &[u32], fixed: usize| {
            let sites: usize = counts.iter().map(|&count| count as usize).sum();
            let bundle = Bundle {
                counts,
                points: &vec![1.0; 3 * sites],
                fixed: &vec![1.0; 3 * fixed],
            };
            bundle.refusal(12)
        };
        assert_eq!(refusal(&[], 3), EMPTY_LIST);
        assert_eq!(refusal(&[2, 0], 0), FRAME_COUNT);
        assert_eq!(refusal(&[1, 1], 0), TOTAL_COUNT);
        assert_eq!(refusal(&[1], 2), 0);
        assert_eq!(refusal(&[1; 256], 0), 0);
        assert_eq!(refusal(&[1; 257], 0), LENGTH);
        assert_eq!(refusal(&[65_536], 0), 0);
        assert_eq!(refusal(&[65_536], 1), LENGTH);
        let bundle = Bundle {
            counts: &[u32::MAX; 256],
            points: &SQUARE,
            fixed: &[],
        };
        assert_eq!(bundle.refusal(12), LENGTH);
    }

    #[test]
    fn rows_in_whole_numbers() {
        // Two frames of two corners, and a fixed point above the middle; the one parameter moves the corners by 2, 3, 4 and 5
        // along the normal.
        let d_state = [2.0, 3.0, 4.0, 5.0].map(|z| [7.0, 8.0, z]);
        let inputs = Linearize {
            dof: 1,
            bundle: Bundle {
                counts: &[2, 2],
                points: &SQUARE,
                fixed: &[1.0, 1.0, 5.0],
            },
            d_state: d_state.as_flattened(),
            sigma: 0.5,
            // The third vector is the normal.
            decomposition: &[2.0, 1.0, 0.0, 1.0, 0.0, 0.0, 0.0, 1.0, 0.0, 0.0, 0.0, 1.0],
        };
        assert_eq!(inputs.refusal(5, 10), 0);
        assert_eq!(inputs.residual(), [-2.0, -2.0, -2.0, -2.0, 8.0]);
        let rows = [[4.0, 0.0], [6.0, 0.0], [0.0, 8.0], [0.0, 10.0], [0.0, 0.0]];
        assert_eq!(inputs.jacobian(), rows);
        let equal = [1.0; DECOMPOSITION];
        let without = Linearize {
            decomposition: &equal,
            ..inputs
        };
        assert_eq!(without.residual(), [0.0; 5]);
        assert_eq!(without.jacobian(), [[0.0; 2]; 5]);
    }
}

//! The model of the calls on moments.

use super::counts::{refuses_merge, refuses_push};
use super::{
    congruent, dot, first, matrix, store_matrix, stored_matrix, stored_vector, vector, Matrix,
    Vector, LENGTH, SATURATED,
};
use maghnelt::{DECOMPOSITION, MAX_POINTS, MOMENTS};

/// Count, sum and summed outer products of a set of points.
#[derive(Clone, Copy)]
pub struct Moments {
    /// The number of points.
    pub count: f64,
    /// Their sum.
    pub sum: Vector,
    /// The sum of their outer products.
    pub outer: Matrix<3>,
}

impl Moments {
    /// No points.
    pub const EMPTY: Moments = Moments {
        count: 0.0,
        sum: [0.0; 3],
        outer: [[0.0; 3]; 3],
    };

    /// The moments that a record holds.
    pub fn read(record: &[f64]) -> Moments {
        Moments {
            count: record[0],
            sum: stored_vector(&record[1..]),
            outer: stored_matrix(&record[4..]),
        }
    }

    /// Writes them to a record.
    pub fn write(&self, record: &mut [f64]) {
        record[0] = self.count;
        record[1..4].copy_from_slice(&self.sum);
        store_matrix(self.outer, &mut record[4..]);
    }
}

/// The eigenvalues' bit patterns and the vectors of a decomposition, `vectors[k]` being that of eigenvalue k.
pub struct Decomposition {
    /// The patterns of the eigenvalues.
    pub eigenvalues: [u64; 3],
    /// The vectors.
    pub vectors: [Vector; 3],
}

impl Decomposition {
    /// What twelve numbers hold.
    pub fn read(stored: &[f64]) -> Decomposition {
        Decomposition {
            eigenvalues: std::array::from_fn(|k| stored[k].to_bits()),
            vectors: std::array::from_fn(|k| stored_vector(&stored[3 + 3 * k..])),
        }
    }

    /// The indices of the eigenvalues in rising total order, equal ones in the order of their indices.
    pub fn order(&self) -> [usize; 3] {
        let mut order = [0, 1, 2];
        // The sort is stable.
        order.sort_by(|&i, &j| {
            let [first, second] = [i, j].map(|k| f64::from_bits(self.eigenvalues[k]));
            first.total_cmp(&second)
        });
        order
    }
}

/// A plane's normal and offset, and the eigenvalues in rising order.
pub struct Fitted {
    /// The normal.
    pub normal: Vector,
    /// The offset.
    pub offset: f64,
    /// The eigenvalues.
    pub eigenvalues: [f64; 3],
}

/// `push`: count + 1, sum + p, outer + p·pᵀ.
pub fn with_point(moments: Moments, point: Vector) -> Moments {
    Moments {
        count: moments.count + 1.0,
        sum: vector(|r| moments.sum[r] + point[r]),
        outer: matrix(|r, c| moments.outer[r][c] + point[r] * point[c]),
    }
}

/// `merge`: number by number.
pub fn merged(moments: Moments, other: Moments) -> Moments {
    Moments {
        count: moments.count + other.count,
        sum: vector(|r| moments.sum[r] + other.sum[r]),
        outer: matrix(|r, c| moments.outer[r][c] + other.outer[r][c]),
    }
}

/// `transformed`: the moments of A·p + b.
pub fn transformed(moments: Moments, a: Matrix<3>, b: Vector) -> Moments {
    let Moments { count, sum, outer } = moments;
    let a_sum = vector(|r| dot(a[r], sum));
    let turned = congruent(a, outer);
    Moments {
        count,
        sum: vector(|r| a_sum[r] + b[r] * count),
        outer: matrix(|r, c| {
            ((turned[r][c] + a_sum[r] * b[c]) + b[r] * a_sum[c]) + (b[r] * b[c]) * count
        }),
    }
}

/// `mean_and_scatter`: none for a count at or below 0, which a NaN is not.
pub fn mean_and_scatter(moments: Moments) -> Option<(Vector, Matrix<3>)> {
    let Moments { count, sum, outer } = moments;
    if count <= 0.0 {
        return None;
    }
    let mean = vector(|r| sum[r] / count);
    let scatter: Matrix<3> = matrix(|r, c| outer[r][c] / count - mean[r] * mean[c]);
    Some((mean, matrix(|r, c| (scatter[r][c] + scatter[c][r]) * 0.5)))
}

/// `PointMoments::plane`: none for a count below 3 or a gap below 1e-14; neither a NaN count nor a NaN gap is.
pub fn plane(moments: Moments, decomposition: &Decomposition) -> Option<Fitted> {
    if moments.count < 3.0 {
        return None;
    }
    let (mean, _) = mean_and_scatter(moments)?;
    let order = decomposition.order();
    let eigenvalues = order.map(|k| f64::from_bits(decomposition.eigenvalues[k]));
    if eigenvalues[1] - eigenvalues[0] < 1e-14 {
        return None;
    }
    let normal = decomposition.vectors[order[0]];
    Some(Fitted {
        normal,
        offset: -dot(normal, mean),
        eigenvalues,
    })
}

// The calls: lengths first, and counts last. Each takes the functions that work out its answer, so that a wrong one makes a wrong call.

/// The call `moments_from_points` on points and moments.
pub fn from_points_call(
    with_point: impl Fn(Moments, Vector) -> Moments,
) -> impl Fn([&mut [f64]; 2], &mut u32) -> u32 {
    move |[points, moments], _| {
        let whole = points.len() % 3 == 0 && points.len() / 3 <= MAX_POINTS;
        if !whole || moments.len() != MOMENTS {
            return LENGTH;
        }
        points
            .chunks(3)
            .map(stored_vector)
            .fold(Moments::EMPTY, &with_point)
            .write(moments);
        0
    }
}

/// Why a push is refused.
pub fn push_refusal(moments: &[f64], point: &[f64]) -> u32 {
    let saturated = moments.first().is_some_and(|&count| refuses_push(count));
    first(&[
        (LENGTH, moments.len() != MOMENTS || point.len() != 3),
        (SATURATED, saturated),
    ])
}

/// The call `moments_push` on moments and point.
pub fn push_call(
    refusal: impl Fn(&[f64], &[f64]) -> u32,
    with_point: impl Fn(Moments, Vector) -> Moments,
) -> impl Fn([&mut [f64]; 2], &mut u32) -> u32 {
    move |[moments, point], _| {
        let answer = refusal(moments, point);
        if answer == 0 {
            with_point(Moments::read(moments), stored_vector(point)).write(moments);
        }
        answer
    }
}

/// Why a merge is refused.
pub fn merge_refusal(moments: &[f64], other: &[f64]) -> u32 {
    let counts = moments.first().zip(other.first());
    let saturated = counts.is_some_and(|(&a, &b)| refuses_merge(a, b));
    first(&[
        (LENGTH, moments.len() != MOMENTS || other.len() != MOMENTS),
        (SATURATED, saturated),
    ])
}

/// The call `moments_merge` on moments and the other's.
pub fn merge_call(
    refusal: impl Fn(&[f64], &[f64]) -> u32,
    merged: impl Fn(Moments, Moments) -> Moments,
) -> impl Fn([&mut [f64]; 2], &mut u32) -> u32 {
    move |[moments, other], _| {
        let answer = refusal(moments, other);
        if answer == 0 {
            merged(Moments::read(moments), Moments::read(other)).write(moments);
        }
        answer
    }
}

/// The call `moments_transformed` on moments, matrix, shift and output.
pub fn transformed_call(
    transformed: impl Fn(Moments, Matrix<3>, Vector) -> Moments,
) -> impl Fn([&mut [f64]; 4], &mut u32) -> u32 {
    move |[moments, a, b, out], _| {
        if moments.len() != MOMENTS || a.len() != 9 || b.len() != 3 || out.len() != MOMENTS {
            return LENGTH;
        }
        transformed(Moments::read(moments), stored_matrix(a), stored_vector(b)).write(out);
        0
    }
}

/// The call `moments_mean_and_scatter` on moments and output.
pub fn mean_and_scatter_call(
    mean_and_scatter: impl Fn(Moments) -> Option<(Vector, Matrix<3>)>,
) -> impl Fn([&mut [f64]; 2], &mut u32) -> u32 {
    move |[moments, out], found| {
        if moments.len() != MOMENTS || out.len() != 12 {
            return LENGTH;
        }
        let answer = mean_and_scatter(Moments::read(moments));
        *found = answer.is_some().into();
        if let Some((mean, scatter)) = answer {
            out[..3].copy_from_slice(&mean);
            store_matrix(scatter, &mut out[3..]);
        }
        0
    }
}

/// The call `moments_plane` on moments, decomposition and output.
pub fn plane_call(
    plane: impl Fn(Moments, &Decomposition) -> Option<Fitted>,
) -> impl Fn([&mut [f64]; 3], &mut u32) -> u32 {
    move |[moments, decomposition, out], found| {
        if moments.len() != MOMENTS || decomposition.len() != DECOMPOSITION || out.len() != 7 {
            return LENGTH;
        }
        let answer = plane(Moments::read(moments), &Decomposition::read(decomposition));
        *found = answer.is_some().into();
        if let Some(fitted) = answer {
            out[..3].copy_from_slice(&fitted.normal);
            out[3] = fitted.offset;
            out[4..].copy_from_slice(&fitted.eigenvalues);
        }
        0
    }
}

//! Poses: rigid motions from a frame into the site.

use maghnelt::Action;

/// A point or a direction.
pub type Vector = [f64; 3];
/// A matrix as its columns: `m[c][r]` is the entry of row r and column c.
pub type Matrix = [[f64; 3]; 3];

/// The parameters of a pose: a shift and a turn, both in the frame's own axes.
pub const DOF: usize = 6;
/// Those of a pose that keeps its height: a shift along the site's x and y, and a turn in the frame's own axes.
pub const LEVEL_DOF: usize = 5;

/// Where a scanner stood: `p ↦ R·p + t` takes what it saw into the site.
#[derive(Clone, Copy, Debug, PartialEq)]
pub struct Pose {
    /// R, three columns.
    pub rotation: Matrix,
    /// t.
    pub shift: Vector,
}

impl Pose {
    /// The pose at the site's origin, along its axes.
    pub const ORIGIN: Pose = Pose {
        rotation: [[1.0, 0.0, 0.0], [0.0, 1.0, 0.0], [0.0, 0.0, 1.0]],
        shift: [0.0; 3],
    };

    /// The pose at a place, turned by roll about x, then by pitch about y, then by yaw about z, in radians.
    #[must_use]
    pub fn new(shift: Vector, [yaw, pitch, roll]: Vector) -> Pose {
        let about = |axis: Vector| turn(axis);
        let rotation = product(
            &about([0.0, 0.0, yaw]),
            &product(&about([0.0, pitch, 0.0]), &about([roll, 0.0, 0.0])),
        );
        Pose { rotation, shift }
    }

    /// What the frame saw at `point`, in the site.
    #[must_use]
    pub fn to_site(&self, point: &Vector) -> Vector {
        let turned = times(&self.rotation, point);
        std::array::from_fn(|r| turned[r] + self.shift[r])
    }

    /// The site's `point` as the frame sees it.
    #[must_use]
    pub fn to_frame(&self, point: &Vector) -> Vector {
        let off: Vector = std::array::from_fn(|r| point[r] - self.shift[r]);
        self.rotation.map(|column| dot(&column, &off))
    }

    /// First `inner`, then this pose.
    #[must_use]
    pub fn after(&self, inner: &Pose) -> Pose {
        Pose {
            rotation: product(&self.rotation, &inner.rotation),
            shift: self.to_site(&inner.shift),
        }
    }

    /// The motion back.
    #[must_use]
    pub fn inverse(&self) -> Pose {
        Pose {
            rotation: transposed(&self.rotation),
            shift: self.to_frame(&[0.0; 3]),
        }
    }

    /// The motion that takes this pose to where `other` stands, and turns it as near to it as can be, by a shift in plan and a
    /// turn about the vertical: whatever it moves keeps its height, but for rounding.
    #[must_use]
    pub fn level_way_to(&self, other: &Pose) -> Pose {
        let [x, y, _] = other.after(&self.inverse()).rotation;
        let rotation = turn([0.0, 0.0, (x[1] - y[0]).atan2(x[0] + y[1])]);
        let turned = times(&rotation, &self.shift);
        let [x, y, _] = std::array::from_fn(|r| other.shift[r] - turned[r]);
        Pose {
            rotation,
            shift: [x, y, 0.0],
        }
    }

    /// The pose after a step of the adjustment, taken in the frame's own axes as the action's derivatives are.
    #[must_use]
    pub fn moved(&self, step: &[f64; DOF]) -> Pose {
        let [x, y, z, about_x, about_y, about_z] = *step;
        self.after(&Pose {
            rotation: turn([about_x, about_y, about_z]),
            shift: [x, y, z],
        })
    }

    /// The derivatives of a point in the site, which the frame saw at `point`, by a step of the adjustment: `(R, −R·[p]×)`.
    #[must_use]
    pub fn columns(&self, point: &Vector) -> [Vector; DOF] {
        let [x, y, z] = self.rotation;
        let [about_x, about_y, about_z] = Pose::ORIGIN
            .rotation
            .map(|axis| times(&self.rotation, &cross(&axis, point)));
        [x, y, z, about_x, about_y, about_z]
    }

    /// The derivatives by a step that keeps the height: `(e_x, e_y, −R·[p]×)`. To shift a pose along an axis of the site shifts
    /// all that it saw along that axis.
    #[must_use]
    pub fn level_columns(&self, point: &Vector) -> [Vector; LEVEL_DOF] {
        let [_, _, _, about_x, about_y, about_z] = self.columns(point);
        let [x, y, _] = Pose::ORIGIN.rotation;
        [x, y, about_x, about_y, about_z]
    }

    /// What the library is told of the pose.
    #[must_use]
    pub fn action(&self) -> Action {
        Action::rigid(&self.rotation, &self.shift)
    }

    /// How far apart two poses are: metres and radians.
    #[must_use]
    pub fn distance(&self, other: &Pose) -> (f64, f64) {
        let between = self.inverse().after(other);
        let [a, b, c] = between.rotation;
        // The sine and the cosine, doubled: the cosine alone would lose half of the digits of a small angle.
        let sine = norm(&[b[2] - c[1], c[0] - a[2], a[1] - b[0]]);
        let cosine = a[0] + b[1] + c[2] - 1.0;
        (norm(&between.shift), sine.atan2(cosine))
    }
}

/// The rotation about an axis by its length in radians (Rodrigues).
#[must_use]
pub fn turn(axis: Vector) -> Matrix {
    let angle = norm(&axis);
    if angle == 0.0 {
        return Pose::ORIGIN.rotation;
    }
    let unit = axis.map(|x| x / angle);
    let (sin, cos) = angle.sin_cos();
    std::array::from_fn(|c| {
        let mut e = [0.0; 3];
        e[c] = 1.0;
        let across = cross(&unit, &e);
        std::array::from_fn(|r| cos * e[r] + sin * across[r] + (1.0 - cos) * unit[c] * unit[r])
    })
}

/// The sum of products.
#[must_use]
pub fn dot(a: &Vector, b: &Vector) -> f64 {
    a[0] * b[0] + a[1] * b[1] + a[2] * b[2]
}

/// The length.
#[must_use]
pub fn norm(a: &Vector) -> f64 {
    dot(a, a).sqrt()
}

/// The vector at a right angle to both.
#[must_use]
pub fn cross(a: &Vector, b: &Vector) -> Vector {
    [
        a[1] * b[2] - a[2] * b[1],
        a[2] * b[0] - a[0] * b[2],
        a[0] * b[1] - a[1] * b[0],
    ]
}

/// Matrix times vector.
#[must_use]
pub fn times(m: &Matrix, v: &Vector) -> Vector {
    std::array::from_fn(|r| (0..3).map(|c| m[c][r] * v[c]).sum())
}

/// Matrix times matrix.
#[must_use]
pub fn product(a: &Matrix, b: &Matrix) -> Matrix {
    b.map(|column| times(a, &column))
}

fn transposed(m: &Matrix) -> Matrix {
    std::array::from_fn(|c| std::array::from_fn(|r| m[r][c]))
}

#[cfg(test)]
mod tests {
    use super::*;

    fn close(a: &Vector, b: &Vector) -> bool {
        (0..3).all(|r| (a[r] - b[r]).abs() < 1e-14)
    }

    #[test]
    fn there_and_back() {
        let pose = Pose::new([1.0, -2.0, 0.5], [0.7, -0.2, 0.1]);
        let point = [3.0, 4.0, 5.0];
        assert!(close(&pose.to_frame(&pose.to_site(&point)), &point));
        assert!(close(
            &pose.inverse().to_site(&pose.to_site(&point)),
            &point
        ));
        assert_eq!(pose.distance(&pose).0, 0.0);
    }

    #[test]
    fn a_level_way_keeps_heights() {
        let there = Pose::new([1.0, -2.0, 0.5], [0.7, -0.2, 0.1]);
        // What was moved level comes all the way back.
        let here = Pose::new([3.0, 4.0, 0.0], [-0.4, 0.0, 0.0]).after(&there);
        let (metres, radians) = here.level_way_to(&there).after(&here).distance(&there);
        assert!(metres < 1e-14 && radians < 1e-14);
        // What was lifted and tilted too comes back in plan, and as near as a turn about the vertical takes it: a little more or
        // less of it takes it further off.
        let here = Pose::new([3.0, 4.0, 0.3], [-0.4, 0.1, 0.0]).after(&there);
        let way = here.level_way_to(&there);
        let [x, y, z] = way.to_site(&here.shift);
        assert!(close(&[x, y, z], &[1.0, -2.0, here.shift[2]]));
        let off = |turned: f64| {
            let further = Pose::new([0.0; 3], [turned, 0.0, 0.0]);
            further.after(&way).after(&here).distance(&there).1
        };
        assert!(off(0.0) < off(1e-4) && off(0.0) < off(-1e-4));
    }

    #[test]
    fn yaw_takes_x_to_y() {
        let pose = Pose::new([0.0; 3], [std::f64::consts::FRAC_PI_2, 0.0, 0.0]);
        assert!(close(&pose.to_site(&[1.0, 0.0, 0.0]), &[0.0, 1.0, 0.0]));
    }

    #[test]
    fn columns_are_where_a_step_takes_a_point() {
        const H: f64 = 1e-5;
        let pose = Pose::new([1.0, -2.0, 0.5], [0.7, -0.2, 0.1]);
        let point = [3.0, 4.0, 5.0];
        for (c, column) in pose.columns(&point).iter().enumerate() {
            let at = |h: f64| {
                let mut step = [0.0; DOF];
                step[c] = h;
                pose.moved(&step).to_site(&point)
            };
            // What the difference leaves out is of the order of H², and rounding of 1e-15 / H.
            let slope: Vector = std::array::from_fn(|r| (at(H)[r] - at(-H)[r]) / (2.0 * H));
            let off: Vector = std::array::from_fn(|r| slope[r] - column[r]);
            assert!(norm(&off) < 1e-8, "{c}: {slope:?} {column:?}");
        }
    }

    #[test]
    fn a_step_is_as_far_as_it_says() {
        let pose = Pose::new([1.0, -2.0, 0.5], [0.7, -0.2, 0.1]);
        let (metres, radians) = pose.distance(&pose.moved(&[0.03, 0.0, 0.04, 0.0, 1e-3, 0.0]));
        assert!((metres - 0.05).abs() < 1e-15 && (radians - 1e-3).abs() < 1e-15);
    }
}

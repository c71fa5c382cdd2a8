//! The calls on lists of matches, against plain Rust on plain arrays of the same layout in which the compiler knows the width.

use crate::harness::{measure, measure_on};
use maghnelt::{slices, ACTION, MATCH};
use oracle::draws::{within, Pose, Wall};
use oracle::generator::Generator;
use oracle::scenes::action_of;
use std::hint::black_box;

/// The order of the Hessian, and where the list's rows begin.
pub const ORDER: usize = 24;
pub const OFFSET: usize = 6;

/// A list of matches and the pose that they are on.
pub struct List {
    pub case: String,
    pub matches: Vec<[f64; MATCH]>,
    pub action: [f64; ACTION],
}

impl List {
    pub fn random(matches: usize, generator: &mut Generator) -> List {
        let pose = Pose::random(generator);
        let wall = Wall::random(generator);
        let mut one = || {
            let [x, y, z] = wall.point(generator);
            let [a, b, c] = wall.axes[2];
            [x, y, z, a, b, c, within(-50.0, 50.0, generator), 0.05]
        };
        let list = (0..matches).map(|_| one()).collect();
        let action = action_of(&pose, 9, generator);
        List {
            case: match matches {
                65_536 => "65,536".to_string(),
                few => few.to_string(),
            },
            matches: list,
            action: action.try_into().expect("an action has 120 numbers"),
        }
    }
}

/// Prints the rows of the match lists.
pub fn measure_all() {
    let mut generator = Generator::named(754, "matches");
    let lists = [512, 65_536].map(|matches| List::random(matches, &mut generator));
    for list in &lists {
        measure_accumulate::<3>(list);
        measure_accumulate::<6>(list);
        measure_accumulate::<7>(list);
        measure_accumulate::<9>(list);
        measure_cost(list);
    }
    for list in &lists {
        measure_linearize::<3>(list);
        measure_linearize::<6>(list);
        measure_linearize::<7>(list);
        measure_linearize::<9>(list);
    }
}

/// A Hessian, a gradient and a cost.
#[derive(Clone, Debug, PartialEq)]
struct Normal {
    hessian: Vec<f64>,
    gradient: Vec<f64>,
    cost: f64,
}

fn measure_accumulate<const WIDTH: usize>(list: &List) {
    let zeros = Normal {
        hessian: vec![0.0; ORDER * ORDER],
        gradient: vec![0.0; ORDER],
        cost: 0.0,
    };
    let map = [OFFSET as u32];
    let library = |normal: &mut Normal| {
        _ = slices::matches_accumulate(
            WIDTH as u32,
            black_box(list.matches.as_flattened()),
            black_box(&list.action),
            black_box(&map),
            &mut normal.hessian,
            &mut normal.gradient,
            &mut normal.cost,
        );
    };
    let rust = |normal: &mut Normal| {
        normal.cost = plain::accumulate::<WIDTH>(
            black_box(&list.matches),
            black_box(&list.action),
            OFFSET,
            &mut normal.hessian,
            &mut normal.gradient,
        );
    };
    let (mut by_library, mut by_rust) = (zeros.clone(), zeros);
    library(&mut by_library);
    rust(&mut by_rust);
    assert_eq!(by_library, by_rust);
    measure_on(
        "matches_accumulate",
        &format!("{} matches, dof {WIDTH}", list.case),
        1,
        &mut by_library,
        library,
        rust,
    );
}

fn measure_cost(list: &List) {
    let library = || {
        let mut cost = 0.0;
        let (matches, action) = (list.matches.as_flattened(), &list.action);
        _ = slices::matches_accumulate(
            6,
            black_box(matches),
            black_box(action),
            &[],
            &mut [],
            &mut [],
            &mut cost,
        );
        black_box(cost)
    };
    let rust = || {
        black_box(plain::cost(
            black_box(&list.matches),
            black_box(&list.action),
        ))
    };
    assert_eq!(library(), rust());
    measure(
        "matches_accumulate",
        &format!("{} matches, cost only", list.case),
        1,
        || _ = library(),
        || _ = rust(),
    );
}

fn measure_linearize<const WIDTH: usize>(list: &List) {
    let rows = list.matches.len();
    let none = || (vec![0.0; rows], vec![0.0; rows * WIDTH]);
    let (mut by_library, mut by_rust) = (none(), none());
    let library = |(residual, jacobian): &mut (Vec<f64>, Vec<f64>)| {
        let (matches, action) = (list.matches.as_flattened(), &list.action);
        _ = slices::matches_linearize(
            WIDTH as u32,
            black_box(matches),
            black_box(action),
            residual,
            jacobian,
        );
    };
    let rust = |(residual, jacobian): &mut (Vec<f64>, Vec<f64>)| {
        plain::linearize::<WIDTH>(
            black_box(&list.matches),
            black_box(&list.action),
            residual,
            jacobian,
        );
    };
    library(&mut by_library);
    rust(&mut by_rust);
    assert_eq!(by_library, by_rust);
    measure_on(
        "matches_linearize",
        &format!("{} matches, dof {WIDTH}", list.case),
        1,
        &mut by_library,
        library,
        rust,
    );
}

/// The same in plain Rust: the compiler knows the width and inlines all below the outermost functions, which are called as
/// the library's are and test every match as they do.
pub mod plain {
    use maghnelt::{ACTION, MATCH};

    pub type Match = [f64; MATCH];
    pub type Action = [f64; ACTION];

    /// Matches of one group.
    const GROUP: usize = 512;

    #[inline(always)]
    pub fn bad(m: &Match) -> bool {
        !(m[0].is_finite() && m[1].is_finite() && m[2].is_finite())
            || !(m[7].is_finite() && m[7] > 0.0)
    }

    #[inline(always)]
    fn residual(m: &Match, a: &Action, information: f64) -> f64 {
        let mut world = [0.0; 3];
        for r in 0..3 {
            world[r] = a[r] * m[0] + a[3 + r] * m[1] + a[6 + r] * m[2] + a[9 + r];
        }
        (m[3] * world[0] + m[4] * world[1] + m[5] * world[2] + m[6]) * information
    }

    #[inline(always)]
    fn along(m: &Match, a: &Action, from: usize) -> f64 {
        m[3] * a[from] + m[4] * a[from + 1] + m[5] * a[from + 2]
    }

    #[inline(always)]
    fn row<const WIDTH: usize>(m: &Match, a: &Action, information: f64) -> [f64; WIDTH] {
        let mut row = [0.0; WIDTH];
        for c in 0..WIDTH {
            let [x, y, z] = [39, 66, 93].map(|from| along(m, a, from + 3 * c));
            row[c] = (along(m, a, 12 + 3 * c) + x * m[0] + y * m[1] + z * m[2]) * information;
        }
        row
    }

    #[inline(never)]
    pub fn accumulate<const WIDTH: usize>(
        matches: &[Match],
        action: &Action,
        offset: usize,
        hessian: &mut [f64],
        gradient: &mut [f64],
    ) -> f64 {
        if matches.iter().any(bad) {
            return f64::NAN;
        }
        let mut h = [[0.0; WIDTH]; WIDTH];
        let mut g = [0.0; WIDTH];
        let cost = add_groups(matches, action, &mut h, &mut g);
        let order = gradient.len();
        for j in 0..WIDTH {
            let column = &mut hessian[(offset + j) * order + offset..][..WIDTH];
            for i in 0..WIDTH {
                column[i] += h[j][i];
            }
            gradient[offset + j] += g[j];
        }
        cost
    }

    /// The groups' sums are added to a block by columns and to a vector. The answer is the cost.
    #[inline(always)]
    pub fn add_groups<const WIDTH: usize>(
        matches: &[Match],
        action: &Action,
        h: &mut [[f64; WIDTH]; WIDTH],
        g: &mut [f64; WIDTH],
    ) -> f64 {
        let mut cost = 0.0;
        for group in matches.chunks(GROUP) {
            let mut group_h = [[0.0; WIDTH]; WIDTH];
            let mut group_g = [0.0; WIDTH];
            let mut group_cost = 0.0;
            for m in group {
                let information = 1.0 / m[7];
                let r = residual(m, action, information);
                let row = row::<WIDTH>(m, action, information);
                group_cost += r * r;
                for j in 0..WIDTH {
                    for i in 0..WIDTH {
                        group_h[j][i] += row[i] * row[j];
                    }
                    group_g[j] += row[j] * r;
                }
            }
            for j in 0..WIDTH {
                for i in 0..WIDTH {
                    h[j][i] += group_h[j][i];
                }
                g[j] += group_g[j];
            }
            cost += group_cost;
        }
        cost
    }

    #[inline(never)]
    pub fn cost(matches: &[Match], action: &Action) -> f64 {
        if matches.iter().any(bad) {
            return f64::NAN;
        }
        let mut cost = 0.0;
        for group in matches.chunks(GROUP) {
            let mut group_cost = 0.0;
            for m in group {
                let r = residual(m, action, 1.0 / m[7]);
                group_cost += r * r;
            }
            cost += group_cost;
        }
        cost
    }

    #[inline(never)]
    pub fn linearize<const WIDTH: usize>(
        matches: &[Match],
        action: &Action,
        residuals: &mut [f64],
        jacobian: &mut [f64],
    ) {
        if matches.iter().any(bad) {
            return;
        }
        let rows = residuals.len();
        for (k, m) in matches.iter().enumerate() {
            let information = 1.0 / m[7];
            residuals[k] = residual(m, action, information);
            let row = row::<WIDTH>(m, action, information);
            for c in 0..WIDTH {
                jacobian[c * rows + k] = row[c];
            }
        }
    }
}

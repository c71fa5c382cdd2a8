//! Frames of one plane: the build, the fit, accumulating and linearizing.

use super::draw::{self, Temper};
use super::moments::{numbers, of_numbers, vector};
use super::refused;
use super::target::Target;
use super::tried::{drawn_state, for_a_group, Tried};
use crate::calls::{self, Call, Value};
use crate::case::{After, Case, Cell};
use crate::factors::lidar::action;
use crate::factors::lidar::plane_moments::beside::{self, CentredNumbers};
use crate::factors::lidar::plane_moments::{LidarPlaneMomentFactor, PointMoments};
use crate::factors::{Factor, FactorError};
use apex_manifolds::Affine;
use faer::mat::MatMut;
use nalgebra::eigen::{self, Decomposition};
use oracle::draws::{self, Wall};
use oracle::generator::Generator;

pub fn run(generator: &mut Generator, cases: &mut Vec<Case>) {
    if generator.below(40) == 0 {
        // No group of more than nine degrees of freedom has a factor.
        build::<Affine<10>>(Temper::Met, generator, cases);
        return;
    }
    match Temper::random(generator) {
        // A turn has no zeros to speak of.
        Temper::Zeros => of_group::<Affine<2>>(Temper::Zeros, generator, cases),
        temper => for_a_group!(generator, of_group(temper, generator, cases)),
    }
}

fn of_group<G: Tried>(temper: Temper, generator: &mut Generator, cases: &mut Vec<Case>) {
    let Some(built) = build::<G>(temper, generator, cases) else {
        return;
    };
    let job = Built::drawn(built, temper, generator);
    job.fit(generator, cases);
    let frames = job.states.len();
    for wanted in [true, false] {
        let target = Target::drawn(wanted, G::DOF, frames, generator);
        job.accumulate(&calls::FRAMES_ACCUMULATE, target, generator, cases);
        job.linearize(wanted, generator, cases);
    }
    for _ in 0..2 {
        let target = Target::transformed(temper, G::DOF, frames, generator);
        let call = &calls::FRAMES_ACCUMULATE_TRANSFORMED;
        job.accumulate(call, target, generator, cases);
    }
    job.miscounted(generator, cases);
    refused::add(cases, generator);
}

/// The number of a refusal of the factor's `new`.
fn number(error: &FactorError) -> u32 {
    match error {
        FactorError::UnsupportedGroup { .. } => 1,
        FactorError::TooFew { .. } => 2,
        FactorError::InvalidValue { what, .. } => match *what {
            "frame point count" => 4,
            "plane point count" => 5,
            "sigma" => 7,
            what => panic!("no number for {what}"),
        },
        FactorError::NonFinite { .. } => 6,
        error => panic!("no number for {error:?}"),
    }
}

/// A factor with the states of its frames.
struct Built<G: Tried> {
    factor: LidarPlaneMomentFactor<G>,
    states: Vec<Vec<f64>>,
    sigma: f64,
    /// What the decompositions are, in the order in which they are asked for, where LAPACK's are not taken.
    by_hand: Option<Vec<Decomposition>>,
    label: String,
}

/// The moments of a piece of wall as a state sees it.
fn seen(piece: &Wall, action: &[f64], generator: &mut Generator) -> Vec<f64> {
    let points: Vec<_> = (0..1 + generator.below(8))
        .map(|_| vector(&draw::carried_back(piece.point(generator), action)))
        .collect();
    numbers(&PointMoments::from_points(&points))
}

/// A set of finite moments of a positive count.
fn any_set(temper: Temper, generator: &mut Generator) -> Vec<f64> {
    let mut record = temper.any_finite(13, generator);
    record[0] = match generator.below(4) {
        _ if temper == Temper::Zeros => generator.pick(&[1.0, 2.0, 3.0]),
        0 => generator.pick(&[5e-324, 1.0, 3.0, 1e300, f64::MAX]),
        _ => record[0].abs().max(1e-300),
    };
    record
}

/// Has the factor built, and hands it back with its states where it is not refused.
fn build<G: Tried>(
    temper: Temper,
    generator: &mut Generator,
    cases: &mut Vec<Case>,
) -> Option<(LidarPlaneMomentFactor<G>, Vec<Vec<f64>>, f64)> {
    let count = match generator.below(60) {
        _ if temper == Temper::Zeros => 1 + generator.below(2),
        0 => 30,
        1..8 => 4 + generator.below(6),
        _ => 1 + generator.below(3),
    } as usize;
    let piece = draw::piece(generator);
    let states: Vec<Vec<f64>> = (0..count)
        .map(|_| drawn_state::<G>(temper, generator))
        .collect();
    let mut frames: Vec<Vec<f64>> = states
        .iter()
        .map(|state| match temper {
            Temper::Met => seen(&piece, &action::beside::of_state::<G>(state), generator),
            _ => any_set(temper, generator),
        })
        .collect();
    let mut fixed = match (generator.below(6), temper) {
        (0..2, _) | (2..4, Temper::Zeros) => Vec::new(),
        (2, _) => vec![0.0; 13],
        (_, Temper::Met) => draws::record_of(&piece, generator).to_vec(),
        _ => any_set(temper, generator),
    };
    let mut sigma = draw::sigma(temper, generator);
    if generator.below(4) == 0 {
        sigma = spoil(&mut frames, &mut fixed, sigma, generator);
    }
    let fixed_set = match fixed.len() {
        0 => PointMoments::default(),
        _ => of_numbers(&fixed),
    };
    let list: Vec<PointMoments> = frames.iter().map(|record| of_numbers(record)).collect();
    let answer = LidarPlaneMomentFactor::<G>::new(list, fixed_set, sigma);
    let old =
        |length: usize, generator: &mut Generator| Value::Numbers(draw::old(length, generator));
    let before = vec![
        Value::Words(vec![G::DOF as u32]),
        Value::Numbers(frames.concat()),
        Value::Numbers(fixed.clone()),
        Value::Numbers(vec![sigma]),
        old(13 * frames.len(), generator),
        old(fixed.len(), generator),
        old(1, generator),
        Value::Words(vec![7]),
    ];
    let kind = |label: &str| format!("{temper:?} {label}");
    match answer {
        Err(error) => {
            cases.push(Case::refused(
                &calls::FRAMES_BUILD,
                kind("refused"),
                before,
                number(&error),
            ));
            None
        }
        Ok(factor) => {
            let kept = beside::fixed(&factor);
            let label = match (&kept, fixed.len()) {
                (Some(_), _) => "kept",
                (None, 0) => "none",
                (None, _) => "dropped",
            };
            let dropped = u32::from(label == "dropped");
            let mut after = vec![
                (
                    "centred_frames",
                    After::numbers(&beside::frames(&factor).concat()),
                ),
                ("points", After::numbers(&[factor.points()])),
                ("fixed_dropped", After::Words(vec![dropped])),
            ];
            if let Some(kept) = kept.filter(|_| !fixed.is_empty()) {
                after.push(("centred_fixed", After::numbers(&kept)));
            }
            cases.push(Case::accepted(
                &calls::FRAMES_BUILD,
                kind(label),
                before,
                after,
            ));
            Some((factor, states, sigma))
        }
    }
}

/// Spoils what a build is handed, so that it may be refused; hands back the sigma.
fn spoil(
    frames: &mut Vec<Vec<f64>>,
    fixed: &mut Vec<f64>,
    sigma: f64,
    generator: &mut Generator,
) -> f64 {
    const COUNTS: [f64; 12] = [
        0.0,
        -0.0,
        -1.0,
        -3.0,
        0.5,
        1.0,
        2.0,
        3.0,
        f64::NAN,
        f64::INFINITY,
        f64::NEG_INFINITY,
        5e-324,
    ];
    for _ in 0..=generator.below(2) {
        let frame = generator.below(frames.len().max(1) as u64) as usize;
        match generator.below(8) {
            0 => frames.clear(),
            1 => return draw::bad_sigma(generator),
            2 if !fixed.is_empty() => {
                fixed[generator.below(13) as usize] = draw::not_finite(generator);
            }
            3..5 if !fixed.is_empty() => fixed[0] = generator.pick(&COUNTS),
            5 if !frames.is_empty() => {
                frames[frame][generator.below(13) as usize] = draw::not_finite(generator);
            }
            _ if !frames.is_empty() => frames[frame][0] = generator.pick(&COUNTS),
            _ => {}
        }
    }
    sigma
}

impl<G: Tried> Built<G> {
    /// The factor that was built or, for zeros and for every third hostile job, one of centred sets that no build makes.
    fn drawn(
        (factor, states, sigma): (LidarPlaneMomentFactor<G>, Vec<Vec<f64>>, f64),
        temper: Temper,
        generator: &mut Generator,
    ) -> Self {
        let mut factor = factor;
        let mut label = format!("{temper:?}");
        let any_sets = match temper {
            Temper::Met => false,
            Temper::Hostile => generator.below(3) == 0,
            Temper::Zeros => true,
        };
        if any_sets {
            let mut set = || -> CentredNumbers {
                let drawn = match temper {
                    Temper::Zeros => any_set(temper, generator),
                    _ => temper.any(13, generator),
                };
                std::array::from_fn(|place| drawn[place])
            };
            let sets: Vec<CentredNumbers> = states.iter().map(|_| set()).collect();
            let fixed = beside::fixed(&factor).map(|_| set());
            factor = beside::of_centred(&sets, fixed.as_ref(), sigma);
            label += " any sets";
        }
        let asked = states.len() + 2;
        let by_hand = (generator.below(4) == 0)
            .then(|| (0..asked).map(|_| draw::decomposition(generator)).collect());
        if by_hand.is_some() {
            label += " by hand";
        }
        eigen::hand_out_by(draw::order(generator));
        Built {
            factor,
            states,
            sigma,
            by_hand,
            label,
        }
    }

    fn params(&self) -> Vec<&[f64]> {
        self.states.iter().map(Vec::as_slice).collect()
    }

    /// Has the original work, by the decompositions of this job, and hands back those that it asked for.
    fn worked<T>(&self, work: impl FnOnce() -> T) -> (T, Vec<eigen::Asked>) {
        eigen::taken();
        eigen::hand_in(self.by_hand.iter().flatten().copied());
        let answer = work();
        eigen::hand_in([]);
        (answer, eigen::taken())
    }

    /// dof, frames and fixed set, as every call takes them.
    fn first_parameters(&self) -> Vec<Value> {
        let fixed = beside::fixed(&self.factor);
        vec![
            Value::Words(vec![G::DOF as u32]),
            Value::Numbers(beside::frames(&self.factor).concat()),
            Value::Numbers(fixed.map_or(Vec::new(), |fixed| fixed.to_vec())),
        ]
    }

    fn kind(&self, plane: bool, label: &str) -> String {
        let fixed = if beside::fixed(&self.factor).is_some() {
            "fixed"
        } else {
            "free"
        };
        let plane = if plane { "plane" } else { "no plane" };
        format!("{} {} {fixed} {plane} {label}", G::NAME, self.label)
    }

    /// The actions, and the plane of the fit.
    fn fitted(&self) -> (Vec<f64>, Option<[f64; 4]>, Vec<eigen::Asked>) {
        let ((actions, plane), asked) = self.worked(|| beside::fit(&self.factor, &self.params()));
        (actions.concat(), plane, asked)
    }

    /// The offset of the plane that the fit has for a normal. By unit normals it shows the fit's mean.
    fn offset(&self, normal: [f64; 3]) -> f64 {
        let [x, y, z] = normal;
        eigen::hand_in([[0.0, 1.0, 2.0, x, y, z, 0.0, 0.0, 0.0, 0.0, 0.0, 0.0]]);
        let (_, plane) = beside::fit(&self.factor, &self.params());
        eigen::hand_in([]);
        eigen::taken();
        plane.map_or(f64::NAN, |[_, _, _, offset]| offset)
    }

    /// Coordinate k of the fit's mean, by the offset -(n·mean) of a unit normal: another coordinate that is not finite
    /// hides it. The zeros of the normal get all signs, so that a mean of -0 is seen: then all three products are -0 once.
    fn mean(&self, k: usize) -> Cell {
        let offset = |signs: [f64; 2]| {
            let mut normal = [signs[0]; 3];
            normal[(k + 2) % 3] = signs[1];
            normal[k] = 1.0;
            -self.offset(normal)
        };
        let first = offset([0.0, 0.0]);
        match first {
            _ if first.is_nan() => Cell::Unseen,
            0.0 => {
                let rest = [[0.0, -0.0], [-0.0, 0.0], [-0.0, -0.0]].map(offset);
                let negative =
                    first.is_sign_negative() || rest.iter().any(|x| x.is_sign_negative());
                Cell::Is(if negative { -0.0 } else { 0.0 })
            }
            _ => Cell::Is(first),
        }
    }

    fn fit(&self, generator: &mut Generator, cases: &mut Vec<Case>) {
        let (actions, plane, asked) = self.fitted();
        let mut before = self.first_parameters();
        before.push(Value::Numbers(actions));
        before.push(Value::Numbers(draw::old(12, generator)));
        let mut cells: Vec<Cell> = (0..3).map(|k| self.mean(k)).collect();
        cells.extend(asked[0].matrix.map(Cell::Is));
        let after = [("out", After::Numbers(cells))];
        cases.push(Case::accepted(
            &calls::FRAMES_FIT,
            self.kind(plane.is_some(), ""),
            before,
            after,
        ));
    }

    fn accumulate(
        &self,
        call: &'static Call,
        target: Target,
        generator: &mut Generator,
        cases: &mut Vec<Case>,
    ) {
        let (actions, plane, asked) = self.fitted();
        let mut before = self.first_parameters();
        before.push(Value::Numbers(vec![self.sigma]));
        before.push(Value::Numbers(actions));
        before.push(Value::Numbers(asked[0].decomposition.to_vec()));
        before.extend(target.parameters());
        before.push(Value::Numbers(draw::old(1, generator)));
        let label = target.label();
        let mut after = target;
        let (cost, _) = self
            .worked(|| after.lend(|blocks| self.factor.accumulate_normal(&self.params(), blocks)));
        let mut written = vec![(
            "cost",
            After::numbers(&[cost.expect("the factor accumulates")]),
        )];
        if plane.is_some() {
            written.extend(after.written(G::DOF));
        }
        let kind = self.kind(plane.is_some(), &label);
        cases.push(Case::accepted(call, kind, before, written));
    }

    fn linearize(&self, wanted: bool, generator: &mut Generator, cases: &mut Vec<Case>) {
        let (actions, plane, _) = self.fitted();
        let (rows, columns) = self.factor.jacobian_shape();
        let entries = if wanted { rows * columns } else { 0 };
        let old = [draw::old(rows, generator), draw::old(entries, generator)];
        let run = || {
            let [mut residual, mut jacobian] = old.clone();
            let view = wanted.then(|| MatMut::of(rows, columns, &mut jacobian));
            self.factor.linearize(&self.params(), &mut residual, view);
            [residual, jacobian]
        };
        let ([mut residual, mut jacobian], asked) = self.worked(run);
        let mut list: Vec<Decomposition> = asked.iter().map(|asked| asked.decomposition).collect();
        // Rust leaves open which zero -0 becomes under a root: the original is handed the one that document 01 settles.
        let settled: Vec<Decomposition> = list
            .iter()
            .enumerate()
            .map(|(k, d)| settled(k, *d))
            .collect();
        if list
            .as_flattened()
            .iter()
            .zip(settled.as_flattened())
            .any(|(a, b)| a.to_bits() != b.to_bits())
        {
            eigen::hand_in(settled);
            [residual, jacobian] = run();
            eigen::hand_in([]);
            eigen::taken();
        }
        let fixed = beside::fixed(&self.factor).is_some();
        let length = 1 + self.states.len() + usize::from(fixed);
        list.resize_with(length, || draw::decomposition(generator));
        let mut before = self.first_parameters();
        before.push(Value::Numbers(vec![self.sigma]));
        before.push(Value::Numbers(actions));
        before.push(Value::Numbers(list.concat()));
        before.extend(old.map(Value::Numbers));
        let kind = self.kind(plane.is_some(), if wanted { "wanted" } else { "unwanted" });
        let after = [
            ("residual", After::numbers(&residual)),
            ("jacobian", After::numbers(&jacobian)),
        ];
        cases.push(Case::accepted(
            &calls::FRAMES_LINEARIZE,
            kind,
            before,
            after,
        ));
    }
}

impl<G: Tried> Built<G> {
    /// For every eighth job, the last two calls with one action too many or too few: what the Rust's `expect_count` refuses
    /// above the factor.
    fn miscounted(&self, generator: &mut Generator, cases: &mut Vec<Case>) {
        if generator.below(8) != 0 {
            return;
        }
        let count = self.states.len() - 1 + 2 * generator.below(2) as usize;
        let number = refused::number_of_variables::<G>(&self.factor, count);
        for from in [cases.len() - 1, cases.len() - 2] {
            cases.push(refused::with_actions(&cases[from], count, number));
        }
    }
}

/// A root's eigenvalue of -0 as +0; the fit's own decomposition is the first, and has no root.
fn settled(place: usize, mut decomposition: Decomposition) -> Decomposition {
    if place > 0 {
        for value in &mut decomposition[..3] {
            if *value == 0.0 {
                *value = 0.0;
            }
        }
    }
    decomposition
}

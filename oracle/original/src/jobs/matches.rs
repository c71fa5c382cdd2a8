//! Matches on one pose: linearizing and accumulating.

use super::draw::{self, Temper};
use super::moments::vector;
use super::refused;
use super::target::Target;
use super::tried::{drawn_state, for_a_group, Tried};
use crate::calls::{self, Call, Value};
use crate::case::{After, Case};
use crate::factors::lidar::action;
use crate::factors::lidar::map_planes::{LidarMapPlanesFactor, PlaneMatch};
use crate::factors::lidar::plane::Plane;
use crate::factors::{Factor, FactorError};
use apex_manifolds::Affine;
use faer::mat::MatMut;
use oracle::draws::within;
use oracle::generator::Generator;

pub fn run(generator: &mut Generator, cases: &mut Vec<Case>) {
    if generator.below(40) == 0 {
        // No group of more than nine degrees of freedom has a factor.
        of_group::<Affine<10>>(generator, cases);
        return;
    }
    for_a_group!(generator, of_group(generator, cases));
}

/// The number of a refusal of a match, or of a list of them.
pub fn number(error: &FactorError) -> u32 {
    match error {
        FactorError::UnsupportedGroup { .. } => 1,
        FactorError::TooFew { .. } => 2,
        FactorError::NonFinite { what: "point", .. } => 6,
        FactorError::InvalidValue { what: "sigma", .. } => 7,
        error => panic!("no number for {error:?}"),
    }
}

/// A match's plane and point.
pub fn of_numbers(numbers: &[f64]) -> PlaneMatch {
    PlaneMatch {
        point: vector(numbers),
        plane: Plane {
            normal: vector(&numbers[3..]),
            offset: numbers[6],
        },
        sigma: numbers[7],
    }
}

/// The eight numbers of a match: a point near a piece of wall as a state sees it, or any numbers; the sigma and, for
/// most, the point are such as are taken.
pub fn drawn(temper: Temper, action: &[f64], generator: &mut Generator) -> Vec<f64> {
    let sigma = draw::sigma(temper, generator);
    if temper != Temper::Met {
        let numbers = [
            temper.any_finite(3, generator),
            temper.any(4, generator),
            vec![sigma],
        ];
        return numbers.concat();
    }
    let piece = draw::piece(generator);
    let world = piece.point(generator);
    let point: Vec<f64> = (0..3)
        .map(|row| {
            (0..3)
                .map(|r| action[3 * row + r] * (world[r] - action[9 + r]))
                .sum()
        })
        .collect();
    let noise = within(-0.02, 0.02, generator);
    let offset: f64 = (0..3).map(|r| piece.axes[2][r] * piece.middle[r]).sum();
    let plane = Plane::new(vector(&piece.axes[2]), noise - offset).expect("a wall has a normal");
    [&point, plane.normal.as_slice(), &[plane.offset, sigma]].concat()
}

fn count(generator: &mut Generator) -> usize {
    let count = match generator.below(400) {
        0 => 1 + generator.below(5000),
        // About the ends of groups of 512.
        1..16 => generator.pick(&[511, 512, 513, 515, 1024, 1025]),
        16..36 => generator.below(60),
        36..40 => 0,
        _ => 1 + generator.below(4),
    };
    count as usize
}

fn of_group<G: Tried>(generator: &mut Generator, cases: &mut Vec<Case>) {
    let temper = Temper::random(generator);
    let state = drawn_state::<G>(temper, generator);
    let action = action::beside::of_state::<G>(&state);
    let mut list: Vec<Vec<f64>> = (0..count(generator))
        .map(|_| drawn(temper, &action, generator))
        .collect();
    if generator.below(6) == 0 && !list.is_empty() {
        for _ in 0..=generator.below(3) {
            let at = generator.below(list.len() as u64) as usize;
            match generator.below(2) {
                0 => list[at][generator.below(3) as usize] = draw::not_finite(generator),
                _ => list[at][7] = draw::bad_sigma(generator),
            }
        }
    }
    let matches: Vec<PlaneMatch> = list.iter().map(|numbers| of_numbers(numbers)).collect();
    let factor = LidarMapPlanesFactor::<G>::new(matches);
    let numbers = list.concat();
    let job = Job {
        factor,
        state,
        first: vec![
            Value::Words(vec![G::DOF as u32]),
            Value::Numbers(numbers),
            Value::Numbers(action),
        ],
        count: list.len(),
        label: format!("{} {temper:?}", G::NAME),
    };
    for wanted in [true, false] {
        job.linearize(wanted, generator, cases);
        let target = Target::drawn(wanted, G::DOF, 1, generator);
        job.accumulate(&calls::MATCHES_ACCUMULATE, target, generator, cases);
    }
    for _ in 0..2 {
        let target = Target::transformed(temper, G::DOF, 1, generator);
        let call = &calls::MATCHES_ACCUMULATE_TRANSFORMED;
        job.accumulate(call, target, generator, cases);
    }
    if let (Ok(factor), 0) = (&job.factor, generator.below(8)) {
        let count = 2 * generator.below(2) as usize;
        let number = refused::number_of_variables::<G>(factor, count);
        for from in [cases.len() - 1, cases.len() - 2] {
            cases.push(refused::with_actions(&cases[from], count, number));
        }
    }
    refused::add(cases, generator);
}

struct Job<G: Tried> {
    factor: Result<LidarMapPlanesFactor<G>, FactorError>,
    state: Vec<f64>,
    /// dof, matches and action.
    first: Vec<Value>,
    count: usize,
    label: String,
}

impl<G: Tried> Job<G> {
    fn kind(&self, label: &str) -> String {
        let size = match self.count {
            0 => "none",
            1 => "one",
            2..512 => "few",
            _ => "groups",
        };
        format!("{} {size} {label}", self.label)
    }

    fn linearize(&self, wanted: bool, generator: &mut Generator, cases: &mut Vec<Case>) {
        let entries = if wanted { self.count * G::DOF } else { 0 };
        let mut residual = draw::old(self.count, generator);
        let mut jacobian = draw::old(entries, generator);
        let mut before = self.first.clone();
        before.push(Value::Numbers(residual.clone()));
        before.push(Value::Numbers(jacobian.clone()));
        let kind = self.kind(if wanted { "wanted" } else { "unwanted" });
        cases.push(match &self.factor {
            Err(error) => Case::refused(&calls::MATCHES_LINEARIZE, kind, before, number(error)),
            Ok(factor) => {
                let view = wanted.then(|| MatMut::of(self.count, G::DOF, &mut jacobian));
                factor.linearize(&[&self.state], &mut residual, view);
                let after = [
                    ("residual", After::numbers(&residual)),
                    ("jacobian", After::numbers(&jacobian)),
                ];
                Case::accepted(&calls::MATCHES_LINEARIZE, kind, before, after)
            }
        });
    }

    fn accumulate(
        &self,
        call: &'static Call,
        target: Target,
        generator: &mut Generator,
        cases: &mut Vec<Case>,
    ) {
        let mut before = self.first.clone();
        before.extend(target.parameters());
        before.push(Value::Numbers(draw::old(1, generator)));
        let kind = self.kind(&target.label());
        cases.push(match &self.factor {
            Err(error) => Case::refused(call, kind, before, number(error)),
            Ok(factor) => {
                let mut after = target;
                let cost = after.lend(|blocks| factor.accumulate_normal(&[&self.state], blocks));
                let mut written = after.written(G::DOF);
                written.push((
                    "cost",
                    After::numbers(&[cost.expect("the factor accumulates")]),
                ));
                Case::accepted(call, kind, before, written)
            }
        });
    }
}

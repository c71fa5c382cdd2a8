//! Lists of accumulating calls on one Hessian and gradient, against a book that is fed each call's own inputs alone.
//!
//! The book is written from document 01, "Many calls on one Hessian", and from request (iii) of document 02, by which a
//! segment is as wide as its transform. It holds for each cell its first content and the terms that accepted calls have added
//! to it so far, and knows nothing of what the library's cells hold. After every call each cell of the library is compared
//! with the book's, in bits.

use crate::beside::{bad_shapes, Beside, WRONG_LENGTHS};
use crate::draws::old;
use crate::generator::Generator;
use crate::groups::frames_accumulate::Case as Frames;
use crate::groups::matches_accumulate::Case as Matches;
use crate::lent::number;
use crate::matched::Matched;
use crate::model::blocks::{Blocks, Cell, Target, Work};
use crate::model::{written, WORKED_OUT_NAN};
use crate::report::Report;
use crate::scenes::{bad_sigma, Scene};
use crate::targets::{cells, Destination};
use maghnelt::{slices as library, Refusal, UNMAPPED};
use std::ops::Range;

/// A call, with all that is handed to it but the Hessian and the gradient.
struct Call {
    factor: Factor,
    /// Whether it is the call that takes transforms.
    transformed: bool,
}

/// What a call accumulates; the destination has the map and what lies beside it.
enum Factor {
    Frames(Frames),
    Matches(Matches),
}

impl Call {
    /// Why it is refused on a target of those lengths, or 0.
    fn refusal(&self, target: Target) -> u32 {
        match &self.factor {
            Factor::Frames(case) => case.inputs().refusal(target),
            Factor::Matches(case) => case.inputs().accumulate_refusal(target),
        }
    }

    /// Its cost and its terms, once it is accepted.
    fn work(&self) -> Work {
        match &self.factor {
            Factor::Frames(case) => case.inputs().work(),
            Factor::Matches(case) => case.inputs().work(),
        }
    }

    /// Where its frames go, and how many there are, a match list being one frame.
    fn blocks(&self) -> (Blocks<'_>, usize) {
        match &self.factor {
            Factor::Frames(case) => (case.inputs().blocks(), case.scene.len()),
            Factor::Matches(case) => (case.inputs().blocks(), 1),
        }
    }

    /// The segments of its frames.
    fn segments(&self) -> Vec<Range<usize>> {
        let (blocks, frames) = self.blocks();
        (0..frames)
            .filter_map(|frame| blocks.segment(frame))
            .collect()
    }

    /// Its kind, for descriptions.
    fn kind(&self) -> &'static str {
        match (&self.factor, self.transformed) {
            (Factor::Frames(_), false) => "frames",
            (Factor::Frames(_), true) => "transformed frames",
            (Factor::Matches(_), false) => "matches",
            (Factor::Matches(_), true) => "transformed matches",
        }
    }

    /// Makes the call on the library.
    fn made(&self, hessian: &mut [f64], gradient: &mut [f64], cost: &mut f64) -> u32 {
        let outputs = (hessian, gradient, cost);
        number(match &self.factor {
            Factor::Frames(case) => made_of_frames(case, self.transformed, outputs),
            Factor::Matches(case) => made_of_matches(case, self.transformed, outputs),
        })
    }
}

/// The Hessian, the gradient and the cost.
type Outputs<'a> = (&'a mut [f64], &'a mut [f64], &'a mut f64);

/// Makes the library's call for frames.
fn made_of_frames(case: &Frames, transformed: bool, (h, g, cost): Outputs) -> Result<(), Refusal> {
    let (scene, target) = (&case.scene, &case.target);
    let (dof, sigma, decomposition) = (scene.dof, case.sigma, &case.decomposition);
    let [frames, fixed, actions] = [&scene.frames, &scene.fixed, &scene.actions];
    let (map, Beside { shapes, transforms }) = (&target.map, &target.beside);
    if transformed {
        library::frames_accumulate_transformed(
            dof,
            frames,
            fixed,
            sigma,
            actions,
            decomposition,
            map,
            shapes,
            transforms,
            h,
            g,
            cost,
        )
    } else {
        library::frames_accumulate(
            dof,
            frames,
            fixed,
            sigma,
            actions,
            decomposition,
            map,
            h,
            g,
            cost,
        )
    }
}

/// Makes the library's call for a match list.
fn made_of_matches(
    case: &Matches,
    transformed: bool,
    (h, g, cost): Outputs,
) -> Result<(), Refusal> {
    let Matched {
        dof,
        matches,
        action,
    } = &case.matched;
    let (map, Beside { shapes, transforms }) = (&case.target.map, &case.target.beside);
    if transformed {
        library::matches_accumulate_transformed(
            *dof, matches, action, map, shapes, transforms, h, g, cost,
        )
    } else {
        library::matches_accumulate(*dof, matches, action, map, h, g, cost)
    }
}

/// A cell's first content and what was added to it, in order.
struct Page {
    first: f64,
    terms: Vec<f64>,
    /// Whether some accepted call owns the cell.
    owned: bool,
}

impl Page {
    fn of(first: f64) -> Page {
        Page {
            first,
            terms: Vec::new(),
            owned: false,
        }
    }

    /// The content: the first one as it is where nothing was added, and otherwise each sum rounded once.
    fn content(&self) -> f64 {
        let add = |sum: f64, term: &f64| written(sum + term);
        self.terms.iter().fold(self.first, add)
    }
}

/// A page for each cell of a Hessian and a gradient.
struct Book {
    hessian: Vec<Page>,
    gradient: Vec<Page>,
}

impl Book {
    fn of(hessian: &[f64], gradient: &[f64]) -> Book {
        let pages = |cells: &[f64]| cells.iter().map(|&cell| Page::of(cell)).collect();
        Book {
            hessian: pages(hessian),
            gradient: pages(gradient),
        }
    }

    fn page(&mut self, cell: Cell) -> &mut Page {
        let order = self.gradient.len();
        match cell {
            Cell::Hessian(row, column) => &mut self.hessian[column * order + row],
            Cell::Gradient(row) => &mut self.gradient[row],
        }
    }

    /// Feeds a call's own inputs: the number that it answers, and its cost if it is accepted.
    fn enter(&mut self, call: &Call) -> (u32, Option<f64>) {
        let target = Target {
            hessian: self.hessian.len(),
            gradient: self.gradient.len(),
        };
        let refusal = call.refusal(target);
        if refusal != 0 {
            return (refusal, None);
        }
        for segment in call.segments() {
            for row in segment.clone() {
                self.page(Cell::Gradient(row)).owned = true;
                for column in segment.clone() {
                    self.page(Cell::Hessian(row, column)).owned = true;
                }
            }
        }
        let work = call.work();
        for (cell, term) in work.terms {
            self.page(cell).terms.push(term);
        }
        (0, Some(written(work.cost)))
    }

    /// The first cell that does not hold what the book says; also one that nobody owns and that has terms.
    fn differs(&self, hessian: &[f64], gradient: &[f64]) -> Option<String> {
        let of = |name: &str, pages: &[Page], cells: &[f64]| {
            let place = pages.iter().zip(cells).position(|(page, &cell)| {
                let stray = !page.owned && !page.terms.is_empty();
                stray || !agrees(cell, page.content())
            })?;
            let (page, cell) = (&pages[place], cells[place].to_bits());
            let content = page.content().to_bits();
            Some(format!(
                "{name}[{place}] is {cell:016X}, by the book {content:016X}"
            ))
        };
        of("hessian", &self.hessian, hessian).or_else(|| of("gradient", &self.gradient, gradient))
    }
}

/// Whether a number has the bits that it should have, any NaN counting for one that was worked out.
fn agrees(library: f64, book: f64) -> bool {
    library.to_bits() == book.to_bits() || book.to_bits() == WORKED_OUT_NAN && library.is_nan()
}

/// What makes the calls: the library, or in tests a wrong one.
type Maker<'a> = dyn Fn(&Call, &mut [f64], &mut [f64], &mut f64) -> u32 + 'a;

/// Compares the library.
pub fn run(generator: &mut Generator, count: u64, report: &mut Report) {
    compare(&Call::made, generator, count, report);
}

fn compare(make: &Maker<'_>, generator: &mut Generator, count: u64, report: &mut Report) {
    let mut calls = 0;
    while calls < count / 8 {
        let list = some_list(generator);
        calls += list.calls.len() as u64;
        check(make, list, generator, report);
    }
}

/// Calls, and the Hessian and the gradient on which they are made.
struct List {
    calls: Vec<Call>,
    hessian: Vec<f64>,
    gradient: Vec<f64>,
}

/// Makes the calls one after the other, and compares answer, cost and every cell after each.
fn check(make: &Maker<'_>, list: List, generator: &mut Generator, report: &mut Report) {
    let List {
        calls,
        mut hessian,
        mut gradient,
    } = list;
    let mut book = Book::of(&hessian, &gradient);
    for (k, call) in calls.iter().enumerate() {
        let before = old(1, generator)[0];
        let mut cost = before;
        let answer = make(call, &mut hessian, &mut gradient, &mut cost);
        let (number, of_book) = book.enter(call);
        let cell = book.differs(&hessian, &gradient);
        let right_cost = agrees(cost, of_book.unwrap_or(before));
        report.check(answer == number && right_cost && cell.is_none(), || {
            format!(
                "call {k} of {}, {}: library answers {answer}, book {number}; cost {:016X}, book {:016X}; {}",
                calls.len(),
                call.kind(),
                cost.to_bits(),
                of_book.unwrap_or(before).to_bits(),
                cell.unwrap_or_default()
            )
        });
    }
}

/// Up to twelve calls on one target in random order: with rows of their own or with shared ones, some refused, some without
/// a plane, some without an offset.
fn some_list(generator: &mut Generator) -> List {
    let order = match generator.below(6) {
        0 => generator.below(6) as usize,
        _ => 6 + generator.below(30) as usize,
    };
    let own_rows = generator.below(2) == 0;
    let mut free = 0;
    let mut calls = Vec::new();
    for _ in 0..1 + generator.below(12) {
        let rows = if own_rows { free..order } else { 0..order };
        let call = some_call(rows, order, generator);
        if own_rows {
            let ends = call.segments().into_iter().map(|segment| segment.end);
            free = ends.max().unwrap_or(free).clamp(free, order);
        }
        calls.push(call);
    }
    // Any order of the calls is as good as another.
    for k in (1..calls.len()).rev() {
        calls.swap(k, generator.below(k as u64 + 1) as usize);
    }
    List {
        calls,
        hessian: some_cells(order * order, generator),
        gradient: some_cells(order, generator),
    }
}

/// First contents: of one kind, or NaNs with payloads.
fn some_cells(length: usize, generator: &mut Generator) -> Vec<f64> {
    match generator.below(2) {
        0 => cells(length, generator),
        _ => old(length, generator),
    }
}

/// A call whose segments lie in those rows of a target of that order, unless it is to be refused.
fn some_call(rows: Range<usize>, order: usize, generator: &mut Generator) -> Call {
    let transformed = generator.below(2) == 0;
    let factor = if generator.below(2) == 0 {
        let mut matched = Matched::of(1 + generator.below(6) as usize, generator);
        // Now and then two groups.
        if generator.below(64) == 0 {
            matched = Matched::with(matched.dof, 600, generator);
        }
        let target = some_target(matched.dof, 1, transformed, rows, generator);
        Factor::Matches(Matches { matched, target })
    } else {
        let scene = Scene::of(1 + generator.below(4) as usize, generator);
        let target = some_target(scene.dof, scene.len(), transformed, rows, generator);
        Factor::Frames(Frames::with_target(scene, target, generator))
    };
    let mut call = Call {
        factor,
        transformed,
    };
    if generator.below(5) == 0 {
        refuse(&mut call, order, generator);
    }
    call
}

/// A map for so many frames whose segments lie in those rows, and what lies beside it. The Hessian and the gradient are
/// another's.
fn some_target(
    dof: u32,
    frames: usize,
    transformed: bool,
    rows: Range<usize>,
    generator: &mut Generator,
) -> Destination {
    let mut target = Destination::nowhere(dof as usize);
    if transformed && generator.below(4) > 0 {
        target.beside = Beside::random(frames, dof, generator);
    }
    for frame in 0..frames {
        let width = target.beside.width(frame, target.dof);
        let last = (rows.end + 1).saturating_sub(width);
        target.map.push(match generator.below(6) {
            0 => UNMAPPED,
            _ if last <= rows.start => UNMAPPED,
            _ => generator.between(rows.start as i64, last as i64 - 1) as u32,
        });
    }
    target
}

/// Makes something that a call is refused for.
fn refuse(call: &mut Call, order: usize, generator: &mut Generator) {
    let fault = generator.below(if call.transformed { 6 } else { 4 });
    let (target, dof) = match &mut call.factor {
        Factor::Frames(case) => {
            match fault {
                0 => case.sigma = bad_sigma(generator),
                1 => case.scene.actions.push(0.0),
                _ => {}
            }
            (&mut case.target, &mut case.scene.dof)
        }
        Factor::Matches(case) => {
            match fault {
                0 => case.matched.matches[7] = bad_sigma(generator),
                1 => case.matched.action.clear(),
                _ => {}
            }
            (&mut case.target, &mut case.matched.dof)
        }
    };
    let words = target.map.len();
    match fault {
        2 => {
            let width = target.beside.width(0, *dof as usize);
            target.map[0] = (order + 1).saturating_sub(width) as u32;
        }
        3 => match generator.below(2) {
            0 => *dof = 10,
            _ => target.map[words - 1] = UNMAPPED + 1,
        },
        4 => {
            let shape = generator.pick(&bad_shapes(*dof));
            target.beside.put(words - 1, shape, words, generator);
        }
        5 => generator.pick(&WRONG_LENGTHS)(&mut target.beside, words, generator),
        _ => {}
    }
}

#[cfg(test)]
mod tests {
    use super::*;
    use crate::model::frames::Accumulate;
    use crate::model::matches as model;
    use crate::model::transforms::Transforms;
    use crate::model::{ACTIONS, DOF, LENGTH, MAP_WORD, SEGMENT, SHAPE, SIGMA};
    use std::cell::RefCell;
    use std::collections::BTreeMap;

    fn target(hessian: &[f64], gradient: &[f64]) -> Target {
        Target {
            hessian: hessian.len(),
            gradient: gradient.len(),
        }
    }

    /// The calls by the model, one after the other on the cells.
    fn by_model(call: &Call, hessian: &mut [f64], gradient: &mut [f64], cost: &mut f64) -> u32 {
        let refusal = call.refusal(target(hessian, gradient));
        if refusal == 0 {
            call.work().write(hessian, gradient, cost);
        }
        refusal
    }

    /// What lies beside its map.
    fn beside(call: &Call) -> &Beside {
        match &call.factor {
            Factor::Frames(case) => &case.target.beside,
            Factor::Matches(case) => &case.target.beside,
        }
    }

    /// What an accepted call with other transforms works out.
    fn work_with(call: &Call, transforms: Transforms, target: Target) -> Option<Work> {
        match &call.factor {
            Factor::Frames(case) => {
                let inputs = Accumulate {
                    transforms,
                    ..case.inputs()
                };
                (inputs.refusal(target) == 0).then(|| inputs.work())
            }
            Factor::Matches(case) => {
                let inputs = model::Matches {
                    transforms,
                    ..case.inputs()
                };
                (inputs.accumulate_refusal(target) == 0).then(|| inputs.work())
            }
        }
    }

    fn mismatches(make: &Maker<'_>) -> u64 {
        let mut report = Report::new("lists");
        compare(make, &mut Generator::new(1), 16_000, &mut report);
        report.mismatches()
    }

    #[test]
    fn calls_one_after_the_other_are_what_the_book_says() {
        assert_eq!(mismatches(&by_model), 0);
    }

    #[test]
    fn lists_have_calls_of_every_kind() {
        let mut generator = Generator::new(1);
        let (mut refused, mut flat, mut adding, mut shared) = (0, 0, 0, 0);
        for _ in 0..200 {
            let list = some_list(&mut generator);
            let target = target(&list.hessian, &list.gradient);
            let mut taken = vec![0; list.gradient.len()];
            for call in &list.calls {
                if call.refusal(target) != 0 {
                    refused += 1;
                    continue;
                }
                let work = call.work();
                adding += usize::from(!work.terms.is_empty());
                flat += usize::from(work.terms.is_empty() && !call.segments().is_empty());
                for row in call.segments().into_iter().flatten() {
                    taken[row] += 1;
                }
            }
            shared += usize::from(taken.iter().any(|&calls| calls > 1));
        }
        for number in [refused, flat, adding, shared] {
            assert!(number > 30, "{refused} {flat} {adding} {shared}");
        }
    }

    #[test]
    fn each_of_the_four_calls_is_accepted_and_refused() {
        let mut generator = Generator::new(1);
        let mut seen = BTreeMap::new();
        for list in (0..500).map(|_| some_list(&mut generator)) {
            let target = target(&list.hessian, &list.gradient);
            for call in &list.calls {
                let answer = match call.refusal(target) {
                    0 if !narrower_or_wider(call).is_empty() => ANOTHER_WIDTH,
                    answer => answer,
                };
                *seen.entry((call.kind(), answer)).or_insert(0) += 1;
            }
        }
        let every = [0, DOF, SIGMA, ACTIONS, MAP_WORD, SEGMENT];
        let transformed = [LENGTH, SHAPE, ANOTHER_WIDTH];
        for (kind, answers) in [
            ("frames", &every[..]),
            ("matches", &every),
            ("transformed frames", &[&every[..], &transformed].concat()),
            ("transformed matches", &[&every[..], &transformed].concat()),
        ] {
            for answer in answers {
                let calls = seen.get(&(kind, *answer)).unwrap_or(&0);
                assert!(*calls > 2, "{kind}, {answer}: {calls} calls");
            }
        }
    }

    /// In place of 0, where an accepted call has a segment of another width than dof.
    const ANOTHER_WIDTH: u32 = u32::MAX;

    /// The segments of a call that have not dof rows.
    fn narrower_or_wider(call: &Call) -> Vec<Range<usize>> {
        let dof = call.blocks().0.dof as usize;
        let mut segments = call.segments();
        segments.retain(|segment| segment.len() != dof);
        segments
    }

    #[test]
    fn segments_of_dof_rows_are_found() {
        // A zero is added behind a segment that is narrower than dof.
        assert!(
            mismatches(&|call, hessian, gradient, cost| {
                let answer = by_model(call, hessian, gradient, cost);
                if answer == 0 && !call.work().terms.is_empty() {
                    let dof = call.blocks().0.dof as usize;
                    for segment in narrower_or_wider(call) {
                        let end = (segment.start + dof).min(gradient.len());
                        let behind = gradient.get_mut(segment.end..end);
                        behind.into_iter().flatten().for_each(|cell| *cell += 0.0);
                    }
                }
                answer
            }) > 0
        );
        // Rows that it has behind the first dof are left out.
        assert!(
            mismatches(&|call, hessian, gradient, cost| {
                let before = gradient.to_vec();
                let answer = by_model(call, hessian, gradient, cost);
                let dof = call.blocks().0.dof as usize;
                for segment in narrower_or_wider(call).into_iter().filter(|_| answer == 0) {
                    let from = segment.end.min(segment.start + dof);
                    gradient[from..segment.end].copy_from_slice(&before[from..segment.end]);
                }
                answer
            }) > 0
        );
    }

    #[test]
    fn transforms_that_are_left_out_or_kept_are_found() {
        // A call that takes transforms leaves them out where it can.
        assert!(
            mismatches(&|call, hessian, gradient, cost| {
                let target = target(hessian, gradient);
                let plain = work_with(call, Transforms::NONE, target);
                match plain.filter(|_| call.refusal(target) == 0) {
                    Some(work) => work.write(hessian, gradient, cost),
                    None => return by_model(call, hessian, gradient, cost),
                }
                0
            }) > 0
        );
        // One that takes none has those of the call before.
        let kept = RefCell::new(Beside::default());
        assert!(
            mismatches(&|call, hessian, gradient, cost| {
                let target = target(hessian, gradient);
                let last = kept.replace(beside(call).clone());
                let with_last = work_with(call, last.read(), target);
                match with_last.filter(|_| !call.transformed && call.refusal(target) == 0) {
                    Some(work) => work.write(hessian, gradient, cost),
                    None => return by_model(call, hessian, gradient, cost),
                }
                0
            }) > 0
        );
    }

    #[test]
    fn a_write_of_a_refused_call_is_found() {
        assert!(
            mismatches(&|call, hessian, gradient, cost| {
                let answer = by_model(call, hessian, gradient, cost);
                if let (1.., [first, ..]) = (answer, hessian) {
                    *first += 0.0;
                }
                answer
            }) > 0
        );
    }

    #[test]
    fn a_call_without_plane_that_adds_zeros_is_found() {
        assert!(
            mismatches(&|call, hessian, gradient, cost| {
                let answer = by_model(call, hessian, gradient, cost);
                if answer == 0 && call.work().terms.is_empty() {
                    for row in call.segments().into_iter().flatten() {
                        gradient[row] += 0.0;
                    }
                }
                answer
            }) > 0
        );
    }

    #[test]
    fn a_call_that_reads_what_another_left_is_found() {
        // The cost goes on from the last call's.
        let last = std::cell::Cell::new(0.0);
        assert!(
            mismatches(&|call, hessian, gradient, cost| {
                let answer = by_model(call, hessian, gradient, cost);
                if answer == 0 {
                    *cost += last.replace(*cost);
                }
                answer
            }) > 0
        );
    }

    #[test]
    fn a_row_too_far_is_found() {
        assert!(
            mismatches(&|call, hessian, gradient, cost| {
                let order = gradient.len();
                let answer = by_model(call, hessian, gradient, cost);
                // What lies beside a block, in its rows.
                if let (0, Some(segment)) = (answer, call.segments().first()) {
                    if !segment.is_empty() && segment.end < order {
                        hessian[segment.end * order + segment.start] += 0.0;
                    }
                }
                answer
            }) > 0
        );
    }
}

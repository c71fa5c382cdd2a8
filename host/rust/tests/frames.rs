//! What a plane is fitted to over several frames, on numbers whose answers are known.

use maghnelt::{frames_fit, Action, Centred, Refusal, CENTRED, MAX_FRAMES};

const UNIT: [[f64; 3]; 3] = [[1.0, 0.0, 0.0], [0.0, 1.0, 0.0], [0.0, 0.0, 1.0]];
const STILL: [f64; 3] = [0.0; 3];

/// Points without scatter.
fn points(count: f64, mean: [f64; 3]) -> Centred {
    with_scatter(count, mean, [[0.0; 3]; 3])
}

fn with_scatter(count: f64, mean: [f64; 3], scatter: [[f64; 3]; 3]) -> Centred {
    let mut record = [0.0; CENTRED];
    record[0] = count;
    record[1..4].copy_from_slice(&mean);
    record[4..].copy_from_slice(scatter.as_flattened());
    Centred::from(record)
}

#[test]
fn a_record_is_count_mean_and_scatter() {
    let centred = Centred::from(std::array::from_fn(|place| place as f64));
    assert_eq!(centred.count(), 0.0);
    assert_eq!(centred.mean(), [1.0, 2.0, 3.0]);
    assert_eq!(centred.scatter()[2], [10.0, 11.0, 12.0]);
    assert_eq!(<[f64; CENTRED]>::from(centred), *centred.as_array());
}

#[test]
fn an_action_is_matrix_shift_and_columns() {
    let columns: [[f64; 3]; 10] = std::array::from_fn(|c| [c as f64, 10.0, 20.0]);
    let axes = [0, 1, 2].map(|k| columns.map(|column| column.map(|x| 100.0 * (k + 1) as f64 + x)));
    let action = Action::new(
        &UNIT,
        &[7.0, 8.0, 9.0],
        &columns,
        axes.each_ref().map(|c| &c[..]),
    );
    let numbers = action.as_array();
    assert_eq!(numbers[..9], *UNIT.as_flattened());
    assert_eq!(numbers[9..12], [7.0, 8.0, 9.0]);
    assert_eq!(numbers[12..15], [0.0, 10.0, 20.0]);
    assert_eq!(numbers[36..39], [8.0, 10.0, 20.0]);
    assert_eq!(numbers[39..42], [100.0, 110.0, 120.0]);
    assert_eq!(numbers[117..120], [308.0, 310.0, 320.0]);
    assert_eq!(Action::from(*numbers), action);
    let narrow = Action::new(&UNIT, &STILL, &columns[..1], [&[]; 3]);
    assert!(narrow.as_array()[15..].iter().all(|&x| x == 0.0));
}

#[test]
fn a_rigid_motion_turns_about_its_own_axes() {
    // A small turn about z moves the point (1, 0, 0) along R·y, and one about y along -R·z.
    let turn = [[0.0, 1.0, 0.0], [-1.0, 0.0, 0.0], [0.0, 0.0, 1.0]];
    let action = Action::rigid(&turn, &STILL);
    let column_at = |point: [f64; 3], c: usize| -> [f64; 3] {
        std::array::from_fn(|r| {
            let numbers = action.as_array();
            (0..3).fold(numbers[12 + 3 * c + r], |sum, k| {
                sum + numbers[39 + 27 * k + 3 * c + r] * point[k]
            })
        })
    };
    assert_eq!(column_at([1.0, 0.0, 0.0], 5), turn[1]);
    assert_eq!(column_at([1.0, 0.0, 0.0], 4), [0.0, 0.0, -1.0]);
    assert_eq!(column_at([1.0, 0.0, 0.0], 3), [0.0; 3]);
    assert_eq!(column_at([0.0, 1.0, 0.0], 5), turn[0].map(|x| -x));
    assert_eq!(column_at([5.0, 6.0, 7.0], 1), turn[1]);
}

#[test]
fn frames_count_by_their_points() {
    let frames = [points(1.0, [0.0; 3]), points(3.0, [4.0, 0.0, 0.0])];
    let actions = [Action::rigid(&UNIT, &STILL); 2];
    let sums = frames_fit(6, &frames, None, &actions).unwrap();
    assert_eq!(sums.mean, [3.0, 0.0, 0.0]);
    // 9 once and 1 thrice.
    assert_eq!(sums.scatter[0], [12.0, 0.0, 0.0]);
}

#[test]
fn a_frame_is_carried_by_its_own_action() {
    let scatter = [[1.0, 0.0, 0.0], [0.0, 2.0, 0.0], [0.0, 0.0, 4.0]];
    let frame = with_scatter(2.0, [1.0, 0.0, 0.0], scatter);
    let turn = [[0.0, 1.0, 0.0], [-1.0, 0.0, 0.0], [0.0, 0.0, 1.0]];
    let actions = [
        Action::rigid(&UNIT, &STILL),
        Action::rigid(&turn, &[0.0, 0.0, 6.0]),
    ];
    let sums = frames_fit(6, &[frame, frame], None, &actions).unwrap();
    // (1, 0, 0) and (0, 1, 6).
    assert_eq!(sums.mean, [0.5, 0.5, 3.0]);
    // 1 + 2 from the frames' own scatter, and 0.25 for each of the four points.
    assert_eq!(sums.scatter[0][0], 4.0);
    assert_eq!(sums.scatter[2][2], 44.0);
}

#[test]
fn the_fixed_set_lies_in_the_site_already() {
    let scatter = [[1.0, 0.0, 3.0], [0.0; 3], [0.0; 3]];
    let fixed = with_scatter(1.0, [4.0, 0.0, 0.0], scatter);
    let frames = [points(1.0, [0.0; 3])];
    let actions = [Action::rigid(&UNIT, &[0.0, 0.0, 0.0])];
    let sums = frames_fit(6, &frames, Some(&fixed), &actions).unwrap();
    assert_eq!(sums.mean, [2.0, 0.0, 0.0]);
    // As it comes, though it is not symmetric.
    assert_eq!(sums.scatter, [[9.0, 0.0, 3.0], [0.0; 3], [0.0; 3]]);
}

#[test]
fn sums_start_from_plus_zero() {
    let action = Action::new(&UNIT, &[-0.0; 3], &[], [&[]; 3]);
    let sums = frames_fit(0, &[points(1.0, [-0.0; 3])], None, &[action]).unwrap();
    assert_eq!(sums.mean.map(f64::to_bits), [0; 3]);
    // The mean of one point with minus zeros is plus zero, so that it lies at -0 from it, and the square is +0.
    assert_eq!(
        sums.scatter.map(|column| column.map(f64::to_bits)),
        [[0; 3]; 3]
    );
}

#[test]
fn calls_that_are_refused() {
    let frames = vec![points(1.0, [0.0; 3]); MAX_FRAMES + 1];
    let actions = vec![Action::rigid(&UNIT, &STILL); MAX_FRAMES + 1];
    let fit = |dof, of_frames: usize, of_actions: usize| {
        frames_fit(dof, &frames[..of_frames], None, &actions[..of_actions]).map(|sums| sums.mean)
    };
    assert_eq!(fit(9, MAX_FRAMES, MAX_FRAMES), Ok([0.0; 3]));
    assert_eq!(fit(10, 0, 1), Err(Refusal::Dof));
    assert_eq!(fit(6, 0, 1), Err(Refusal::EmptyList));
    assert_eq!(fit(6, MAX_FRAMES + 1, 1), Err(Refusal::Length));
    assert_eq!(fit(6, 2, 1), Err(Refusal::Actions));
    assert_eq!(fit(6, 1, 2), Err(Refusal::Actions));
}

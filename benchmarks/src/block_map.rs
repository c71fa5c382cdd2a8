//! Maps read through index lists, against plain Rust that makes the same tests.

use crate::harness::measure;
use maghnelt::{slices, MAX_WORDS, UNMAPPED};
use oracle::generator::Generator;
use std::hint::black_box;

/// Prints the row of the block maps.
pub fn measure_all() {
    let mut generator = Generator::named(754, "block_map");
    let map: Vec<u32> = (0..MAX_WORDS as u32).map(|k| 6 * k).collect();
    // Places of the map, some past its end, and some that go nowhere.
    let list: Vec<u32> = (0..MAX_WORDS)
        .map(|_| match generator.below(16) {
            0 => UNMAPPED,
            _ => generator.below(MAX_WORDS as u64 + 64) as u32,
        })
        .collect();
    let (mut by_library, mut by_rust) = (vec![0; MAX_WORDS], vec![0; MAX_WORDS]);
    slices::remap(&map, &list, &mut by_library).expect("the words are good");
    assert!(plain::remap(&map, &list, &mut by_rust));
    assert_eq!(by_library, by_rust);
    measure(
        "remap",
        "1,024 words",
        1,
        || {
            _ = slices::remap(black_box(&map), black_box(&list), &mut by_library);
            black_box(&mut by_library);
        },
        || {
            _ = plain::remap(black_box(&map), black_box(&list), &mut by_rust);
            black_box(&mut by_rust);
        },
    );
}

mod plain {
    use maghnelt::UNMAPPED;

    #[inline(never)]
    pub fn remap(map: &[u32], list: &[u32], out: &mut [u32]) -> bool {
        let good = |words: &[u32]| words.iter().all(|&word| word <= UNMAPPED);
        let fits = out.len() == list.len() && good(map) && good(list);
        if fits {
            for (out, &place) in out.iter_mut().zip(list) {
                *out = map.get(place as usize).copied().unwrap_or(UNMAPPED);
            }
        }
        fits
    }
}

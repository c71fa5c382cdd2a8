//! The names of the sizes stand for the same numbers as the header's.

const HEADER: &str = include_str!("../../../include/maghnelt.h");

/// The header's lines `#define MAGHNELT_NAME number`.
fn defined() -> Vec<(&'static str, usize)> {
    HEADER
        .lines()
        .filter_map(|line| {
            let mut words = line.strip_prefix("#define MAGHNELT_")?.split_whitespace();
            let name = words.next()?;
            Some((name, words.next()?.parse().ok()?))
        })
        .collect()
}

#[test]
fn sizes_are_those_of_the_header() {
    assert_eq!(
        defined(),
        [
            ("MOMENTS", maghnelt::MOMENTS),
            ("CENTRED", maghnelt::CENTRED),
            ("ACTION", maghnelt::ACTION),
            ("DECOMPOSITION", maghnelt::DECOMPOSITION),
            ("MATCH", maghnelt::MATCH),
            ("PLANE", maghnelt::PLANE),
            ("TRANSFORM", maghnelt::TRANSFORM),
            ("MAX_DOF", maghnelt::MAX_DOF),
            ("MAX_POINTS", maghnelt::MAX_POINTS),
            ("MAX_FRAMES", maghnelt::MAX_FRAMES),
            ("MAX_WORDS", maghnelt::MAX_WORDS),
            ("MAX_ORDER", maghnelt::MAX_ORDER),
            ("MAX_MATCHES", maghnelt::MAX_MATCHES),
            ("MAX_RECORDS", maghnelt::MAX_RECORDS),
            ("GROUP", maghnelt::GROUP),
        ]
    );
}

#[test]
fn the_most_that_a_set_counts_is_that_of_the_header() {
    assert_eq!(maghnelt::MAX_COUNT, 2f64.powi(53));
    let line = format!("#define MAGHNELT_MAX_COUNT {:.1}", maghnelt::MAX_COUNT);
    assert!(HEADER.lines().any(|said| said == line), "{line}");
}

#[test]
fn words_are_those_of_the_header() {
    for (name, word) in [
        ("UNMAPPED", maghnelt::UNMAPPED),
        ("NO_TRANSFORM", maghnelt::NO_TRANSFORM),
    ] {
        let line = format!("#define MAGHNELT_{name} UINT32_C(0x{word:X})");
        assert!(HEADER.lines().any(|said| said == line), "{line}");
    }
}

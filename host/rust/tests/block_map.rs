//! Block maps and what index lists make of them.

use maghnelt::{BlockMap, Refusal, MAX_WORDS, UNMAPPED};

fn map(offsets: &[Option<u32>]) -> BlockMap {
    BlockMap::new(offsets.iter().copied()).unwrap()
}

#[test]
fn words_are_offsets_or_unmapped() {
    let map = map(&[Some(0), None, Some(UNMAPPED - 1)]);
    assert_eq!(map.words(), [0, UNMAPPED, UNMAPPED - 1]);
    assert_eq!(map.offset(0), Some(0));
    assert_eq!(map.offset(1), None);
    assert_eq!(map.offset(2), Some(UNMAPPED - 1));
}

#[test]
fn a_frame_beyond_the_end_goes_nowhere() {
    assert_eq!(map(&[Some(3)]).offset(1), None);
    assert_eq!(BlockMap::NOT_WANTED.offset(0), None);
    assert_eq!(BlockMap::default(), BlockMap::NOT_WANTED);
}

#[test]
fn words_that_are_refused() {
    for word in [UNMAPPED + 1, 2 * UNMAPPED, 3 * UNMAPPED, u32::MAX] {
        let words = vec![0, word, 1];
        assert_eq!(
            BlockMap::from_words(words),
            Err(Refusal::MapWord),
            "{word:X}"
        );
        assert_eq!(
            BlockMap::new([Some(word)]),
            Err(Refusal::MapWord),
            "{word:X}"
        );
    }
    // Unmapped is no offset.
    assert_eq!(BlockMap::new([Some(UNMAPPED)]), Err(Refusal::MapWord));
}

#[test]
fn as_many_words_as_allowed_and_no_more() {
    let words = vec![7; MAX_WORDS];
    assert_eq!(BlockMap::from_words(words.clone()).unwrap().words(), words);
    let more = vec![u32::MAX; MAX_WORDS + 1];
    assert_eq!(BlockMap::from_words(more), Err(Refusal::Length));
    assert_eq!(BlockMap::new(std::iter::repeat(None)), Err(Refusal::Length));
}

#[test]
fn a_list_is_read_through_the_map() {
    let offsets = map(&[Some(10), None, Some(30)]);
    let list = map(&[Some(2), Some(1), Some(0), None, Some(3), Some(2)]);
    assert_eq!(
        offsets.remapped(&list),
        map(&[Some(30), None, Some(10), None, None, Some(30)])
    );
    assert_eq!(offsets.remapped(&map(&[])), map(&[]));
    assert_eq!(map(&[]).remapped(&list), map(&[None; 6]));
}

//! Block maps: where each frame of a factor goes in the Hessian.

use crate::{slices, Refusal, MAX_WORDS};

/// The word of a frame that goes nowhere. A word below it is an offset, and no word is above it.
pub const UNMAPPED: u32 = 0x4000_0000;

/// Where the frames of a factor go in the Hessian and the gradient: for each the offset at which its rows begin, or nowhere.
///
/// A frame beyond the map's end goes nowhere too: it still costs, but it writes nothing. A match list is frame 0.
///
/// # Examples
///
/// ```
/// use maghnelt::BlockMap;
///
/// # fn main() -> Result<(), maghnelt::Refusal> {
/// // Three frames with six rows each, the second of them held fixed.
/// let map = BlockMap::new([Some(0), None, Some(6)])?;
/// assert_eq!(map.offset(2), Some(6));
/// assert_eq!(map.offset(1), None);
/// assert_eq!(map.offset(7), None);
///
/// // A factor that sees the third frame and then the first, and one that the map does not know.
/// let seen = BlockMap::new([Some(2), Some(0), Some(9)])?;
/// assert_eq!(map.remapped(&seen), BlockMap::new([Some(6), Some(0), None])?);
/// # Ok(())
/// # }
/// ```
#[derive(Clone, Debug, Default, PartialEq, Eq, Hash)]
pub struct BlockMap(Vec<u32>);

impl BlockMap {
    /// The map that is no map: nothing is wanted of a Hessian and a gradient that are empty too.
    pub const NOT_WANTED: BlockMap = BlockMap(Vec::new());

    /// The map with these offsets, `None` being nowhere.
    ///
    /// # Errors
    ///
    /// [`Refusal::Length`] for more than [`MAX_WORDS`] frames; [`Refusal::MapWord`] for an offset of 2^30 or more.
    pub fn new(offsets: impl IntoIterator<Item = Option<u32>>) -> Result<BlockMap, Refusal> {
        let words: Vec<u32> = offsets
            .into_iter()
            .take(MAX_WORDS + 1)
            .map(|offset| match offset {
                None => UNMAPPED,
                // A word that no map has.
                Some(UNMAPPED..) => u32::MAX,
                Some(offset) => offset,
            })
            .collect();
        BlockMap::from_words(words)
    }

    /// The map with these words, as they are handed to the library.
    ///
    /// # Errors
    ///
    /// [`Refusal::Length`] for more than [`MAX_WORDS`]; [`Refusal::MapWord`] for a word above [`UNMAPPED`].
    pub fn from_words(words: Vec<u32>) -> Result<BlockMap, Refusal> {
        // The library's own tests: a map that is read through no list.
        slices::remap(&words, &[], &mut [])?;
        Ok(BlockMap(words))
    }

    /// The map that an index list makes of this one: for each place that the list names what this map has there, and nowhere
    /// where the list names none or one past this map's end.
    ///
    /// # Examples
    ///
    /// ```
    /// use maghnelt::BlockMap;
    ///
    /// # fn main() -> Result<(), maghnelt::Refusal> {
    /// let map = BlockMap::new([Some(0), Some(6)])?;
    /// let list = BlockMap::new([Some(1), None, Some(2)])?;
    /// assert_eq!(map.remapped(&list), BlockMap::new([Some(6), None, None])?);
    /// # Ok(())
    /// # }
    /// ```
    #[must_use]
    pub fn remapped(&self, list: &BlockMap) -> BlockMap {
        let mut out = vec![0; list.0.len()];
        slices::remap(&self.0, &list.0, &mut out).expect("the words of a block map are good");
        BlockMap(out)
    }

    /// The offset of frame `k`, if it has one.
    #[must_use]
    pub fn offset(&self, k: usize) -> Option<u32> {
        self.0.get(k).copied().filter(|&word| word < UNMAPPED)
    }

    /// The words, as they are handed to the library.
    #[inline]
    #[must_use]
    pub fn words(&self) -> &[u32] {
        &self.0
    }
}

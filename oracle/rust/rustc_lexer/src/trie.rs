//! A set of characters as a trie of two levels, made while compiling.

/// Characters to a block.
const BLOCK_SIZE: usize = 256;
/// Words of 64 bits to a block.
const BLOCK_WORDS: usize = BLOCK_SIZE / 64;
/// Blocks that cover every character.
const BLOCKS: usize = 0x11_0000 / BLOCK_SIZE;

/// One bit for each character of a block.
type Block = [u64; BLOCK_WORDS];

/// One bit for each character.
pub type Bitmap = [Block; BLOCKS];

/// The upper bits of a character choose a block, the lower ones a bit in it. Block 0 is empty, and
/// neighbours that are alike share one block.
pub struct Trie<const DISTINCT: usize> {
    index: [u8; BLOCKS],
    blocks: [Block; DISTINCT],
}

impl<const DISTINCT: usize> Trie<DISTINCT> {
    /// The trie of a bitmap with this many distinct blocks.
    pub const fn new(bitmap: &Bitmap) -> Self {
        let mut trie = Trie { index: [0; BLOCKS], blocks: [[0; BLOCK_WORDS]; DISTINCT] };
        let mut last = 0;
        let mut i = 0;
        while i < BLOCKS {
            if !is_empty(&bitmap[i]) {
                if !alike(&bitmap[i], &trie.blocks[last]) {
                    last += 1;
                    trie.blocks[last] = bitmap[i];
                }
                assert!(last <= u8::MAX as usize, "an index of one byte is too narrow");
                trie.index[i] = last as u8;
            }
            i += 1;
        }
        trie
    }

    /// Whether the set has `c`.
    #[inline]
    pub fn contains(&self, c: char) -> bool {
        let c = c as usize;
        let block = &self.blocks[self.index[c / BLOCK_SIZE] as usize];
        block[c % BLOCK_SIZE / 64] >> (c % 64) & 1 == 1
    }
}

/// The blocks that a trie of this bitmap stores: the empty one, and each that is not empty and
/// differs from the one stored before it.
pub const fn distinct_blocks(bitmap: &Bitmap) -> usize {
    let mut last = [0; BLOCK_WORDS];
    let mut count = 1;
    let mut i = 0;
    while i < BLOCKS {
        if !is_empty(&bitmap[i]) && !alike(&bitmap[i], &last) {
            last = bitmap[i];
            count += 1;
        }
        i += 1;
    }
    count
}

/// The bitmap of closed ranges, given as low and high bounds in turn.
pub const fn bitmap(bounds: &[u32]) -> Bitmap {
    let mut bitmap = [[0; BLOCK_WORDS]; BLOCKS];
    let mut i = 0;
    while i < bounds.len() {
        set_range(&mut bitmap, bounds[i] as usize, bounds[i + 1] as usize);
        i += 2;
    }
    bitmap
}

/// Sets the bits from `low` to `high`, a word at a time.
const fn set_range(bitmap: &mut Bitmap, low: usize, high: usize) {
    let mut at = low;
    while at <= high {
        let end = if at / 64 == high / 64 { high % 64 } else { 63 };
        let mask = u64::MAX >> (63 - end) & u64::MAX << (at % 64);
        bitmap[at / BLOCK_SIZE][at % BLOCK_SIZE / 64] |= mask;
        at = at / 64 * 64 + 64;
    }
}

const fn is_empty(block: &Block) -> bool {
    alike(block, &[0; BLOCK_WORDS])
}

const fn alike(left: &Block, right: &Block) -> bool {
    let mut i = 0;
    while i < BLOCK_WORDS {
        if left[i] != right[i] {
            return false;
        }
        i += 1;
    }
    true
}

//! How far a lookup's answer reaches, by hand and word by word.

use model::shape::Shape;
use model::walk::lookup;

const SHAPE: Shape = Shape::new(1, 1, 1);
/// Which root entry leads to the middle table, which of its entries to the leaf.
const BLOCK: u32 = 1023;
const PAGE: u32 = 1023;

/// A pool whose last page has a leaf; its neighbours are middle and root entries.
fn pool() -> Vec<u32> {
    let mut pool = SHAPE.fresh();
    let (middle, leaf) = (SHAPE.middle(0), SHAPE.leaf(0));
    pool[0] = 0x8000_E5AA;
    pool[BLOCK as usize - 1] = 0x8000_5555;
    pool[BLOCK as usize] = middle as u32;
    pool[middle..leaf].fill(0x8000_5555);
    pool[middle + 5] = 0x8000_1B1B;
    pool[middle + 6] = 0x8000_4555;
    pool[middle + PAGE as usize] = leaf as u32;
    pool[leaf] = 0x5555_5555;
    pool[leaf + 1] = 0x0000_0555;
    pool[leaf + 2] = 0xE4E4_FFC0;
    pool[leaf + 63] = 0xAAAA_AAA9;
    pool
}

fn reach(address: u32) -> (u32, u32, u32) {
    let found = lookup(&pool(), SHAPE, 0, address).expect("a good walk");
    (found.right, found.first, found.last)
}

#[test]
fn root_blocks() {
    assert_eq!(reach(0), (2, 0, 0x1F_FFFF));
    assert_eq!(reach(0x1F_FFFF), (2, 0, 0x1F_FFFF));
    assert_eq!(reach(0x20_0000), (1, 0x20_0000, 0x2F_FFFF));
    assert_eq!(reach(0x30_0000), (2, 0x30_0000, 0x37_FFFF));
    assert_eq!(reach(0x38_0001), (3, 0x38_0000, 0x3F_FFFF));
    assert_eq!(reach(0x40_0000), (0, 0x40_0000, 0x7F_FFFF));
    // the right goes on in the next block, and the answer does not
    assert_eq!(reach(0xFFBF_FFFF), (1, 0xFF80_0000, 0xFFBF_FFFF));
}

#[test]
fn middle_blocks() {
    assert_eq!(reach(0xFFC0_0000), (1, 0xFFC0_0000, 0xFFC0_0FFF));
    assert_eq!(reach(0xFFC0_5001), (3, 0xFFC0_5000, 0xFFC0_51FF));
    assert_eq!(reach(0xFFC0_5FFF), (0, 0xFFC0_5E00, 0xFFC0_5FFF));
    assert_eq!(reach(0xFFC0_6400), (1, 0xFFC0_6000, 0xFFC0_6BFF));
    assert_eq!(reach(0xFFC0_6C00), (0, 0xFFC0_6C00, 0xFFC0_6DFF));
    assert_eq!(reach(0xFFC0_6FFF), (1, 0xFFC0_6E00, 0xFFC0_6FFF));
}

#[test]
fn leaf_blocks() {
    assert_eq!(reach(0xFFFF_F020), (1, 0xFFFF_F000, 0xFFFF_F03F));
    assert_eq!(reach(0xFFFF_F040), (1, 0xFFFF_F040, 0xFFFF_F057));
    assert_eq!(reach(0xFFFF_F058), (0, 0xFFFF_F058, 0xFFFF_F07F));
    assert_eq!(reach(0xFFFF_F080), (0, 0xFFFF_F080, 0xFFFF_F08B));
    assert_eq!(reach(0xFFFF_F08E), (3, 0xFFFF_F08C, 0xFFFF_F09F));
    assert_eq!(reach(0xFFFF_FFC3), (1, 0xFFFF_FFC0, 0xFFFF_FFC3));
    assert_eq!(reach(0xFFFF_FFFF), (2, 0xFFFF_FFC4, 0xFFFF_FFFF));
}

/// A stretch grown word by word, by lookups of the right alone, inside a block of `bytes` bytes.
fn by_words(address: u32, bytes: u32) -> (u32, u32) {
    let right = |byte: u32| reach(byte).0;
    let (mut first, mut last) = (address & !3, address | 3);
    while first % bytes != 0 && right(first - 4) == right(address) {
        first -= 4;
    }
    while last % bytes != bytes - 1 && right(last + 4) == right(address) {
        last += 4;
    }
    (first, last)
}

#[test]
fn word_by_word() {
    for line in [0, 1, 2, 63] {
        for byte in 0xFFFF_F000 + 64 * line..=0xFFFF_F03F + 64 * line {
            let (_, first, last) = reach(byte);
            assert_eq!((first, last), by_words(byte, 64), "byte {byte:#x}");
        }
    }
    for page in [4, 5, 6, 7] {
        for byte in (0xFFC0_0000 + 4096 * page..=0xFFC0_0FFF + 4096 * page).step_by(255) {
            let (_, first, last) = reach(byte);
            assert_eq!((first, last), by_words(byte, 4096), "byte {byte:#x}");
        }
    }
}

#[test]
fn refusals_come_before_any_reach() {
    let mut pool = pool();
    pool[SHAPE.middle(0) + 5] = 7;
    assert_eq!(lookup(&pool, SHAPE, 0, 0xFFC0_5000), Err(6));
    assert_eq!(lookup(&pool, SHAPE, 1, 0), Err(2));
    assert_eq!(lookup(&pool[1..], SHAPE, 0, 0), Err(1));
}

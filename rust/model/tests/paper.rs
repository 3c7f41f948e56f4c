//! The model itself against the paper's rows and its example, so that it does not stand on its author's word alone.

use model::change::{change, differing, tidy, Request};
use model::program::{output, parse};
use model::shape::Shape;
use model::walk::{lookup, read, Found};

fn set(pool: &mut Vec<u32>, shape: Shape, start: u32, length: u32, right: u32) -> Result<u32, u32> {
    let (_, after) = change(pool, shape, Request { domain: 0, start, length, right })?;
    let count = differing(pool, &after.words);
    *pool = after.words;
    Ok(count)
}

fn found(pool: &[u32], shape: Shape, address: u32) -> (u32, u32) {
    let Found { right, loads, .. } = lookup(pool, shape, 0, address).expect("a good walk");
    (right, loads)
}

#[test]
fn rows_1_2_3_and_5() {
    let shape = Shape::new(1, 1, 1);
    let mut pool = shape.fresh();
    assert_eq!(found(&pool, shape, 0x1234_5678), (0, 1));
    assert_eq!(set(&mut pool, shape, 0x1000, 64, 2), Ok(1026));
    assert_eq!(pool[shape.leaf(0)], 0xAAAA_AAAA);
    assert_eq!(found(&pool, shape, 0x103F), (2, 3));
    assert_eq!(found(&pool, shape, 0x1040), (0, 3));
    assert_eq!(found(&pool, shape, 0x2000), (0, 2));
    assert_eq!(found(&pool, shape, 0x40_0000), (0, 1));
    assert_eq!(set(&mut pool, shape, 0x1000, 64, 0), Ok(1));
    assert_eq!(pool[0], 0x8000_0000);
}

#[test]
fn rows_6_to_10() {
    let shape = Shape::new(1, 1, 0);
    let mut pool = shape.fresh();
    assert_eq!(set(&mut pool, shape, 0x1000, 512, 2), Ok(1025));
    assert_eq!(pool[shape.middle(0) + 1], 0x8000_0002);
    let shape = Shape::new(1, 0, 0);
    let mut pool = shape.fresh();
    assert_eq!(set(&mut pool, shape, 0, 524_284, 1), Err(8));
    assert_eq!(set(&mut pool, shape, 0, 524_288, 1), Ok(1));
    assert_eq!(pool[0], 0x8000_0001);
    let mut pool = shape.fresh();
    assert_eq!(set(&mut pool, shape, 0, 4_294_967_295, 1), Ok(1024));
    assert!(pool.iter().all(|word| *word == 0x8000_5555));
    let shape = Shape::new(1, 1, 1);
    let mut pool = shape.fresh();
    assert_eq!(set(&mut pool, shape, 0xFFFF_FFFC, 5, 1), Err(5));
    assert!(set(&mut pool, shape, 0xFFFF_FFFC, 4, 1).is_ok());
}

#[test]
fn lengths_from_the_middle_of_a_word() {
    let shape = Shape::new(1, 1, 1);
    let mut pool = shape.fresh();
    assert_eq!(set(&mut pool, shape, 0x1002, 4, 2), Ok(1026));
    assert_eq!(pool[shape.leaf(0)], 0xA);
    assert_eq!([0xFFF, 0x1000, 0x1007, 0x1008].map(|byte| found(&pool, shape, byte).0), [0, 2, 2, 0]);
    let mut pool = shape.fresh();
    assert_eq!(set(&mut pool, shape, 0xFFFF_FFFE, 3, 1), Err(5));
    assert_eq!(set(&mut pool, shape, 0x1002, 0, 1), Err(4));
    assert_eq!(set(&mut pool, shape, 2, 4_294_967_295, 1), Err(5));
    assert_eq!(set(&mut pool, shape, 0xFFFF_FFFE, 2, 1), Ok(1026));
}

#[test]
fn rows_11_and_12() {
    let shape = Shape::new(1, 1, 0);
    let mut pool = shape.fresh();
    pool[0] = 1024;
    pool[1024..].fill(0x8000_0000);
    assert_eq!(set(&mut pool, shape, 0, 4, 1), Err(7));
    let (before, after) = tidy(&pool, shape).expect("it is sound");
    assert_eq!(differing(&before.words, &after.words), 1);
    pool[0] = 0;
    assert_eq!(lookup(&pool, shape, 0, 0), Err(6));
    assert!(read(&pool, shape).is_none());
}

#[test]
fn a_place_is_reached_once() {
    let shape = Shape::new(2, 1, 0);
    let mut pool = shape.fresh();
    pool[2048..].fill(0x8000_0000);
    pool[3] = 2048;
    assert!(read(&pool, shape).is_some());
    pool[1024] = 2048;
    assert!(read(&pool, shape).is_none());
}

#[test]
fn the_paper_s_listing() {
    let input = "S 1 4096 64 2\nS 1 4104 4 1\nS 2 4104 4 2\n";
    let must = "0\n0\n0\n1 4096 4103 2\n1 4104 4107 1\n1 4108 4159 2\n2 4104 4107 2\n";
    assert_eq!(output(input.as_bytes()), must);
    assert_eq!(output(input.trim_end().as_bytes()), must);
    assert_eq!(output(b""), "");
    assert_eq!(output(b"\n"), "99\n");
    assert!(parse(b"S 0 0 4294967295 3").is_some());
    assert!(parse(b"S 0 0 4294967296 3").is_none());
}

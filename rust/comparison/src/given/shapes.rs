//! Shapes: every class of them, ones out of range, and lent words that say one or none.

use crate::rng::Rng;
use model::shape::Shape;

/// The smallest, the largest, and one of each kind of lack.
pub const CLASSES: [Shape; 14] = [
    Shape::new(1, 0, 0),
    Shape::new(1, 0, 64),
    Shape::new(1, 1, 0),
    Shape::new(1, 1, 1),
    Shape::new(1, 8, 0),
    Shape::new(1, 2, 3),
    Shape::new(2, 1, 2),
    Shape::new(2, 2, 2),
    Shape::new(3, 3, 5),
    Shape::new(3, 8, 64),
    Shape::new(4, 0, 0),
    Shape::new(4, 8, 0),
    Shape::new(4, 1, 64),
    Shape::new(4, 8, 64),
];

/// A class by turns, or a shape in range with each M by turns.
pub fn any(rng: &mut Rng, turn: usize) -> Shape {
    if turn.is_multiple_of(2) {
        CLASSES[turn / 2 % CLASSES.len()]
    } else {
        Shape::new(1 + rng.below(4), (turn / 2 % 9) as u32, rng.below(65))
    }
}

/// A shape with little room, which keeps pools short.
pub fn small(rng: &mut Rng) -> Shape {
    Shape::new(1 + rng.below(2), rng.below(4), rng.below(5))
}

/// The shapes in range that a length fits.
pub fn fitting(length: usize) -> Vec<Shape> {
    let mut shapes = Vec::new();
    for domains in 1..=4 {
        for middles in 0..=8 {
            let rest = length as i64 - 1024 * i64::from(domains + middles);
            if (0..=64 * 64).contains(&rest) && rest % 64 == 0 {
                shapes.push(Shape::new(domains, middles, rest as u32 / 64));
            }
        }
    }
    shapes
}

/// A shape that is out of range or that does not fit a pool of the given one; some wrap around to its length.
pub fn wrong(rng: &mut Rng, right: Shape) -> Shape {
    let Shape { domains, middles, leaves } = right;
    match rng.below(9) {
        0 => Shape::new(0, middles, leaves),
        1 => Shape::new(5 + rng.below(3), middles, leaves),
        2 => Shape::new(domains, 9 + rng.below(3), leaves),
        3 => Shape::new(domains, middles, 65 + rng.below(3)),
        4 => Shape::new(domains % 4 + 1, middles, leaves),
        5 => Shape::new(domains + (1 << 22), middles, leaves),
        6 => Shape::new(domains, middles, leaves + (1 << 26)),
        7 => Shape::new(0, middles + domains, leaves),
        _ => Shape::new(rng.word(), rng.word(), rng.word()),
    }
}

/// The words of a lent shape: of a shape that is mostly right, with another form or a V by turns, and in any length
/// from 0 to 7 words.
pub fn lent(rng: &mut Rng, right: Shape) -> Vec<u32> {
    let said = if rng.once_in(4) { wrong(rng, right) } else { right };
    let mut words = said.words().to_vec();
    for place in [0, 4] {
        if rng.once_in(3) {
            words[place] = rng.pick(&[1, 2, 5, 1 << 31, u32::MAX]);
        }
    }
    if rng.once_in(2) {
        words.resize(rng.index(8), 0);
    }
    words
}

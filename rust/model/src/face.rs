//! What the C face says before the paper does: of lent words that have another length than their layout, and of lent
//! shapes of another form.

use crate::shape::Shape;
use crate::Refusal;

/// A lent shape or state is of another length than its layout has.
pub const LENGTH: Refusal = 101;
pub const SHAPE_WORDS: usize = 5;
/// The paper's form: eight rights an entry.
pub const EIGHTS: u32 = 0;

/// The shape that lent words say: form, D, M, L, V. 101 where they, or the words of a state that is lent with them (its
/// length, and what it must be), are not as many as they must be; then 1 for another form than the paper's, or a V.
pub fn shape_of(words: &[u32], states: &[(usize, usize)]) -> Result<Shape, Refusal> {
    let &[form, domains, middles, leaves, v] = words else {
        return Err(LENGTH);
    };
    if states.iter().any(|(length, must)| length != must) {
        return Err(LENGTH);
    }
    if form != EIGHTS || v != 0 {
        return Err(1);
    }
    Ok(Shape::new(domains, middles, leaves))
}

impl Shape {
    /// The words that say this shape.
    pub const fn words(self) -> [u32; SHAPE_WORDS] {
        [EIGHTS, self.domains, self.middles, self.leaves, 0]
    }
}

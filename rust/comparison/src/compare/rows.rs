//! The paper's twelve rows, and those of lengths from the middle of a word, run.

use super::{Run, MARK};
use crate::subject::Subject;
use crate::{hold, Difference};
use model::change::Request;
use model::shape::Shape;
use model::walk::read;

/// A pool of domain 0 alone, and the calls that the rows make.
struct Row<'a> {
    subject: &'a dyn Subject,
    shape: Shape,
    pool: Vec<u32>,
}

impl Row<'_> {
    fn fresh(subject: &dyn Subject, middles: u32, leaves: u32) -> Row<'_> {
        let shape = Shape::new(1, middles, leaves);
        let mut pool = vec![MARK; shape.length()];
        subject.fresh(&mut pool, &shape.words());
        Row { subject, shape, pool }
    }

    fn set(&mut self, start: u32, length: u32, right: u32, allowance: u32) -> (u32, u32) {
        let mut out = [MARK];
        let request = Request { domain: 0, start, length, right };
        (self.subject.change(&mut self.pool, &self.shape.words(), request, allowance, &mut out), out[0])
    }

    fn tidy(&mut self) -> (u32, u32) {
        let mut out = [MARK];
        (self.subject.tidy(&mut self.pool, &self.shape.words(), u32::MAX, &mut out), out[0])
    }

    /// The number, the right and the loads.
    fn lookup(&self, address: u32) -> (u32, u32, u32) {
        let mut out = [MARK; 3];
        let number = self.subject.lookup(&self.pool, &self.shape.words(), 0, address, &mut out);
        (number, out[0], out[2])
    }
}

const ALL: u32 = u32::MAX;

/// The rows in their order; each says itself.
pub fn rows(run: &mut Run) -> Result<(), Difference> {
    let rows = [row_1, row_2_3_5, row_4, row_6, row_7_8, row_9, row_10, row_11, row_12];
    for row in rows {
        row(run.subject)?;
        run.tally.met("row of the paper");
    }
    for row in [length_1_2, length_3_4, length_5] {
        row(run.subject)?;
        run.tally.met("row of lengths");
    }
    Ok(())
}

fn row_1(subject: &dyn Subject) -> Result<(), Difference> {
    let row = Row::fresh(subject, 1, 1);
    for address in [0, 3, 0x1000, 0x40_0000, 0x7FFF_FFFF, u32::MAX] {
        hold!(row.lookup(address) == (0, 0, 1), "row 1: {:?} at {address:#x}", row.lookup(address));
    }
    Ok(())
}

fn row_2_3_5(subject: &dyn Subject) -> Result<(), Difference> {
    let mut row = Row::fresh(subject, 1, 1);
    let answer = row.set(0x1000, 64, 2, ALL);
    hold!(answer == (0, 1026), "row 2: {answer:?}");
    let leaf = row.pool[row.shape.leaf(0)];
    hold!(leaf == 0xAAAA_AAAA, "row 2: the leaf's first entry is {leaf:#x}");
    let found = [0x103F, 0x1040, 0x2000, 0x40_0000].map(|address| row.lookup(address));
    hold!(found == [(0, 2, 3), (0, 0, 3), (0, 0, 2), (0, 0, 1)], "row 3: {found:?}");
    let answer = row.set(0x1000, 64, 0, ALL);
    hold!(answer == (0, 1) && row.pool[0] == 0x8000_0000, "row 5: {answer:?}, root entry {:#x}", row.pool[0]);
    Ok(())
}

fn row_4(subject: &dyn Subject) -> Result<(), Difference> {
    let mut row = Row::fresh(subject, 1, 1);
    let answer = row.set(0x1000, 64, 2, 1025);
    hold!(answer == (100, 0), "row 4: {answer:?}");
    hold!(read(&row.pool, row.shape).is_some(), "row 4: the pool is not sound");
    for address in (0..0x3000).step_by(4).chain([0x40_0000, u32::MAX]) {
        let (number, right, _) = row.lookup(address);
        let inside = (0x1000..0x1040).contains(&address);
        let may = number == 0 && (right == 0 || right == 2 && inside);
        hold!(may, "row 4: {number} and right {right} at {address:#x}");
    }
    Ok(())
}

fn row_6(subject: &dyn Subject) -> Result<(), Difference> {
    let mut row = Row::fresh(subject, 1, 0);
    let answer = row.set(0x1000, 512, 2, ALL);
    let entry = row.pool[row.shape.middle(0) + 1];
    hold!(answer == (0, 1025) && entry == 0x8000_0002, "row 6: {answer:?}, middle entry 1 is {entry:#x}");
    Ok(())
}

fn row_7_8(subject: &dyn Subject) -> Result<(), Difference> {
    let mut row = Row::fresh(subject, 0, 0);
    let answer = row.set(0, 524_288, 1, ALL);
    hold!(answer == (0, 1) && row.pool[0] == 0x8000_0001, "row 7: {answer:?}, {:#x}", row.pool[0]);
    let mut row = Row::fresh(subject, 0, 0);
    let answer = row.set(0, 524_284, 1, ALL);
    hold!(answer == (8, 0), "row 8: {answer:?}");
    Ok(())
}

fn row_9(subject: &dyn Subject) -> Result<(), Difference> {
    let mut row = Row::fresh(subject, 0, 0);
    let answer = row.set(0, 4_294_967_295, 1, ALL);
    let all = row.pool.iter().all(|word| *word == 0x8000_5555);
    hold!(answer == (0, 1024) && all, "row 9: {answer:?}, all entries: {all}");
    Ok(())
}

fn row_10(subject: &dyn Subject) -> Result<(), Difference> {
    let mut row = Row::fresh(subject, 1, 1);
    let refused = row.set(0xFFFF_FFFC, 5, 1, ALL);
    let (number, _) = row.set(0xFFFF_FFFC, 4, 1, ALL);
    hold!(refused == (5, 0) && number == 0, "row 10: length 5 {refused:?}, length 4 {number}");
    Ok(())
}

fn row_11(subject: &dyn Subject) -> Result<(), Difference> {
    let mut row = Row::fresh(subject, 1, 0);
    row.pool[1024..].fill(0x8000_0000);
    row.pool[0] = 1024;
    let answer = row.set(0, 4, 1, ALL);
    hold!(answer == (7, 0), "row 11: {answer:?}");
    let answer = row.tidy();
    hold!(answer == (0, 1), "row 11: tidying {answer:?}");
    Ok(())
}

fn row_12(subject: &dyn Subject) -> Result<(), Difference> {
    let mut row = Row::fresh(subject, 1, 1);
    row.pool[0] = 0;
    hold!(row.lookup(0) == (6, 0, 0), "row 12: {:?}", row.lookup(0));
    Ok(())
}

fn length_1_2(subject: &dyn Subject) -> Result<(), Difference> {
    let mut row = Row::fresh(subject, 1, 1);
    let answer = row.set(0x1002, 4, 2, ALL);
    let leaf = row.pool[row.shape.leaf(0)];
    hold!(answer == (0, 1026) && leaf == 0xA, "length row 1: {answer:?}, the leaf's first entry is {leaf:#x}");
    let found = [0x1000, 0x1007, 0x1008, 0xFFF].map(|address| row.lookup(address));
    hold!(found == [(0, 2, 3), (0, 2, 3), (0, 0, 3), (0, 0, 2)], "length row 2: {found:?}");
    Ok(())
}

fn length_3_4(subject: &dyn Subject) -> Result<(), Difference> {
    let mut row = Row::fresh(subject, 1, 1);
    let answers = [row.set(0xFFFF_FFFE, 3, 2, ALL), row.set(0x1002, 0, 2, ALL), row.set(0xFFFF_FFFE, 2, 2, ALL)];
    hold!(answers == [(5, 0), (4, 0), (0, 1026)], "length rows 3 and 4: {answers:?}");
    hold!(row.lookup(0xFFFF_FFFC) == (0, 2, 3), "length row 3: {:?}", row.lookup(0xFFFF_FFFC));
    Ok(())
}

fn length_5(subject: &dyn Subject) -> Result<(), Difference> {
    let mut row = Row::fresh(subject, 0, 0);
    let refused = row.set(2, 4_294_967_295, 1, ALL);
    let answer = row.set(1, 4_294_967_295, 1, ALL);
    let all = row.pool.iter().all(|word| *word == 0x8000_5555);
    hold!(refused == (5, 0) && answer == (0, 1024) && all, "length row 5: {refused:?}, {answer:?}, all: {all}");
    Ok(())
}

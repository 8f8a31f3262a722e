//! What a call on blocks is lent.
use crate::blocks::{Operation, With};
use crate::inputs::NO_TOLERANCE;
use crate::source::{Palette, Source, NOT_FINITE};
use judge::Block;

/// A block's shape and its numbers, as many as are lent.
#[derive(Clone)]
pub struct Numbers {
    pub rows: usize,
    pub columns: usize,
    pub numbers: Vec<f64>,
}

impl Numbers {
    pub fn lent(&self) -> Block {
        Block::lent(self.rows, self.columns, &self.numbers)
    }
}

/// The inputs of all operations; each takes those that it names.
pub struct BlockCall {
    pub blocks: Vec<Numbers>,
    pub factor: [f64; 2],
    pub row: usize,
    pub column: usize,
    pub tolerance: f64,
}

impl BlockCall {
    pub fn lent<const COUNT: usize>(&self) -> [Block; COUNT] {
        std::array::from_fn(|at| self.blocks[at].lent())
    }
}

/// Sides of a block that are refused.
const NO_SIDE: [usize; 5] = [0, 17, 18, 1 << 32, usize::MAX];

impl Source {
    /// Numbers for a block of this shape, or for as much of it as fits.
    pub fn block_numbers(&mut self, [rows, columns]: [usize; 2], palette: Palette) -> Numbers {
        let count = 2 * rows.min(16) * columns.min(16);
        Numbers { rows, columns, numbers: self.numbers(count, palette) }
    }

    /// Sides of 1 to 4: from call to call all there are, then 16 for each.
    fn sides(&mut self, count: usize) -> [usize; 3] {
        let all = 1 << (2 * count);
        let at = self.call as usize % (all + 1);
        std::array::from_fn(|place| if at == all { 16 } else { 1 + (at >> (2 * place) & 3) })
    }

    /// A call on blocks of these shapes.
    pub fn block_call(&mut self, f: &Operation, shapes: &[[usize; 2]], palette: Palette) -> BlockCall {
        let blocks = shapes.iter().map(|&shape| {
            let palette = self.mostly(palette);
            self.block_numbers(shape, palette)
        });
        let [rows, columns] = shapes[0];
        let mut call = BlockCall {
            blocks: blocks.collect(),
            factor: [self.any(), self.any()],
            row: self.below(rows.clamp(1, 16)),
            column: self.below(columns.clamp(1, 16)),
            tolerance: self.tolerance(),
        };
        (f.arrange)(self, &mut call);
        call
    }

    /// A call on blocks with sides in turn and any numbers, without a fault.
    pub fn small_block_call(&mut self, f: &Operation) -> BlockCall {
        let (sides, palette) = (self.sides(f.sides), self.palette());
        self.block_call(f, &(f.shapes)(sides), palette)
    }

    /// Half of the calls may have faults, and how many it has.
    pub fn faulty_block_call(&mut self, f: &Operation) -> (BlockCall, usize) {
        let mut call = self.small_block_call(f);
        let mut count = 0;
        if self.one_in(2) {
            return (call, count);
        }
        for x in &mut call.blocks {
            if self.one_in(5) {
                self.damage_numbers(&mut x.numbers);
                count += 1;
            }
            if self.one_in(5) {
                self.damage_shape(x);
                count += 1;
            }
        }
        if f.with != With::Nothing && self.one_in(5) {
            self.damage_rest(f, &mut call);
            count += 1;
        }
        (call, count)
    }

    /// One or two numbers that are not finite.
    fn damage_numbers(&mut self, numbers: &mut [f64]) {
        for _ in 0..1 + self.below(2) {
            let place = self.below(numbers.len());
            numbers[place] = self.pick(&NOT_FINITE);
        }
    }

    /// Another side: one that is refused, or one that may not fit.
    pub fn damage_shape(&mut self, x: &mut Numbers) {
        let other = self.pick(&NO_SIDE);
        let side = if self.one_in(2) { &mut x.rows } else { &mut x.columns };
        *side = if self.one_in(3) { 1 + *side % 16 } else { other };
        x.numbers.resize(2 * x.rows.min(16) * x.columns.min(16), 1.0);
    }

    fn damage_rest(&mut self, f: &Operation, call: &mut BlockCall) {
        match f.with {
            With::Nothing => {}
            With::Length => {
                let numbers = &mut call.blocks[0].numbers;
                let length = self.pick(&[numbers.len().saturating_sub(1), numbers.len() + 1, 0, 2 * numbers.len()]);
                numbers.resize(length, 1.0);
            }
            With::Factor => call.factor[self.below(2)] = self.pick(&NOT_FINITE),
            With::Tolerance => call.tolerance = self.pick(&NO_TOLERANCE),
            With::Index => {
                let index = if self.one_in(2) { &mut call.row } else { &mut call.column };
                *index = self.pick(&[call.blocks[0].rows, call.blocks[0].columns, 16, usize::MAX]);
            }
        }
    }
}

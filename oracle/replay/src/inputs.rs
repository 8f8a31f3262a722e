//! What a call of the list is lent: numbers that the list holds, or numbers made of a seed that it holds.
use judge::Block;
use shared::Xorshift;

/// The list's words: 16 hexadecimal digits each.
pub struct Words<'a>(std::str::SplitAsciiWhitespace<'a>);

impl<'a> Words<'a> {
    pub fn of(list: &'a str) -> Self {
        Self(list.split_ascii_whitespace())
    }

    /// The next word, where the list has one.
    pub fn next(&mut self) -> Option<u64> {
        self.0.next().map(|word| u64::from_str_radix(word, 16).expect("a word in hexadecimal digits"))
    }
}

/// A call's inputs: its slices, and the words after them, each taken in the list's order.
pub struct Inputs<'a, 'b> {
    words: &'a mut Words<'b>,
    pub points: usize,
    pub orbitals: usize,
    pub tolerance: f64,
    pub times: Vec<f64>,
    operands: Vec<Vec<f64>>,
    /// Whether the slices are made: what the call makes is then told by a digest.
    pub made: bool,
}

impl<'a, 'b> Inputs<'a, 'b> {
    /// Reads what follows the function's number, up to the slices.
    pub fn of(words: &'a mut Words<'b>, made: bool) -> Self {
        let mut x = Self { words, points: 0, orbitals: 0, tolerance: 0.0, times: vec![], operands: vec![], made };
        (x.points, x.orbitals, x.tolerance) = (x.place(), x.place(), x.number());
        if made {
            (x.times, x.operands) = make(x.points, x.orbitals, x.word());
        } else {
            let mut slices = (0..x.place()).map(|_| x.slice()).collect::<Vec<_>>().into_iter();
            (x.times, x.operands) = (slices.next().unwrap_or_default(), slices.collect());
        }
        x
    }

    pub fn word(&mut self) -> u64 {
        self.words.next().expect("one more word")
    }

    /// A size, a length or an index.
    pub fn place(&mut self) -> usize {
        self.word().try_into().expect("a word of the machine")
    }

    pub fn number(&mut self) -> f64 {
        f64::from_bits(self.word())
    }

    pub fn numbers<const COUNT: usize>(&mut self) -> [f64; COUNT] {
        [(); COUNT].map(|()| self.number())
    }

    fn slice(&mut self) -> Vec<f64> {
        (0..self.place()).map(|_| self.number()).collect()
    }

    pub fn operands<const COUNT: usize>(&self) -> [&[f64]; COUNT] {
        std::array::from_fn(|operand| &self.operands[operand][..])
    }

    /// The block of an operand's numbers, by the next two words.
    pub fn block(&mut self, operand: usize) -> Block {
        let (rows, columns) = (self.place(), self.place());
        Block::lent(rows, columns, &self.operands[operand])
    }

    /// Slices lent for what the call makes, by what they hold before; the list has their lengths.
    pub fn lent<const COUNT: usize>(&mut self) -> [Vec<f64>; COUNT] {
        [(); COUNT].map(|()| HELD.into_iter().cycle().take(self.place()).collect())
    }
}

/// What an output holds before a call, again and again.
const HELD: [f64; 5] = [7.5, -0.0, f64::NAN, -1.25, f64::INFINITY];

/// Rising times, and a function that is +0 above the diagonal, for up to eight operands.
fn make(points: usize, orbitals: usize, seed: u64) -> (Vec<f64>, Vec<Vec<f64>>) {
    let length = [points, points, orbitals, orbitals].iter().try_fold(2, |length: usize, &size| length.checked_mul(size));
    assert!(length.is_some_and(|length| length <= 131_072), "a size that no list has");
    let mut state = Xorshift(seed);
    let mut number = || f64::from_bits(0x3ff0_0000_0000_0000 | state.bits() >> 12) - 1.5;
    let mut time = 0.0;
    let times = (0..points).map(|_| {
        time += number() * 0.1 + 0.15;
        time
    });
    let times = times.collect();
    let block = 2 * orbitals * orbitals;
    let places = (0..points).flat_map(|t| (0..points).map(move |u| t < u));
    let function = places.flat_map(|above| (0..block).map(|_| if above { 0.0 } else { number() }).collect::<Vec<_>>()).collect();
    (times, vec![function; 8])
}

//! Numbers without a pattern and adversarial ones, the same for the same seed.
use shared::Xorshift;

/// The numbers of one function are alike, and those of most calls.
#[derive(Clone, Copy)]
pub enum Palette {
    /// From -0.5 to 0.5.
    Ordinary,
    /// -4 to 4.
    Whole,
    /// Exponents -60 to 60.
    Moderate,
    /// Exponents whose products overflow or underflow, or just do not.
    Roots,
    /// Subnormal numbers and the least normal ones.
    Tiny,
    /// Exponents at most 2 below the largest.
    Huge,
    /// All finite bits.
    Any,
    Special,
    /// Three of four are a zero of either sign.
    Sparse,
}

const PALETTES: [Palette; 12] = [
    Palette::Ordinary,
    Palette::Ordinary,
    Palette::Ordinary,
    Palette::Whole,
    Palette::Moderate,
    Palette::Moderate,
    Palette::Roots,
    Palette::Tiny,
    Palette::Huge,
    Palette::Any,
    Palette::Special,
    Palette::Sparse,
];

pub const SPECIAL: [f64; 12] = [
    0.0,
    -0.0,
    1.0,
    -1.0,
    1.0 + f64::EPSILON,
    1.0 - f64::EPSILON / 2.0,
    f64::MIN_POSITIVE,
    -f64::MIN_POSITIVE,
    5e-324,
    -5e-324,
    1e-300,
    1e150,
];

pub const NOT_FINITE: [f64; 3] = [f64::NAN, f64::INFINITY, f64::NEG_INFINITY];

pub struct Source {
    state: Xorshift,
    pub call: u64,
}

impl Source {
    /// The numbers of one call of a part's function.
    pub fn of(seed: u64, names: [&str; 2], call: u64) -> Self {
        let seed = names.concat().bytes().fold(seed, |seed, byte| seed.wrapping_mul(0x0100_0000_01b3) ^ u64::from(byte));
        let mut state = Xorshift(seed.wrapping_add(call.wrapping_mul(0x9e37_79b9_7f4a_7c15)) | 1);
        for _ in 0..8 {
            state.bits();
        }
        Self { state, call }
    }

    pub fn bits(&mut self) -> u64 {
        self.state.bits()
    }

    pub fn below(&mut self, count: usize) -> usize {
        ((self.state.bits() >> 16) % count as u64) as usize
    }

    pub fn one_in(&mut self, count: usize) -> bool {
        self.below(count) == 0
    }

    pub fn pick<T: Copy>(&mut self, of: &[T]) -> T {
        of[self.below(of.len())]
    }

    /// A number of binary exponent `exponent` and any sign and significand.
    fn of_exponent(&mut self, exponent: u64) -> f64 {
        f64::from_bits(self.state.bits() & !(0x7ff << 52) | exponent << 52)
    }

    pub fn number(&mut self, palette: Palette) -> f64 {
        match palette {
            Palette::Ordinary => self.state.centred(),
            Palette::Whole => self.below(9) as f64 - 4.0,
            Palette::Moderate => {
                let exponent = 963 + self.below(121) as u64;
                self.of_exponent(exponent)
            }
            Palette::Roots => {
                let exponent = self.pick(&[484, 500, 1023, 1023, 1522, 1533]) + self.below(3) as u64;
                self.of_exponent(exponent)
            }
            Palette::Tiny => {
                let exponent = self.below(4) as u64 / 2;
                self.of_exponent(exponent)
            }
            Palette::Huge => {
                let exponent = 2044 + self.below(3) as u64;
                self.of_exponent(exponent)
            }
            Palette::Any => {
                let exponent = self.below(2047) as u64;
                self.of_exponent(exponent)
            }
            Palette::Special => self.pick(&SPECIAL),
            Palette::Sparse if self.one_in(4) => self.state.centred(),
            Palette::Sparse => self.pick(&[0.0, -0.0]),
        }
    }

    /// A number of any palette.
    pub fn any(&mut self) -> f64 {
        let palette = self.palette();
        self.number(palette)
    }

    /// A number of another sign and significand, of an exponent at most 64 away where there is one.
    pub fn near(&mut self, x: f64) -> f64 {
        let exponent = (x.to_bits() >> 52 & 0x7ff) + self.below(129) as u64;
        self.of_exponent(exponent.saturating_sub(64).min(2046))
    }

    /// A tolerance that no call refuses.
    pub fn tolerance(&mut self) -> f64 {
        self.pick(&[1e-12, 1e-12, 0.5, 1.0, 5e-324, f64::MAX])
    }

    /// Rising times.
    pub fn times(&mut self, points: usize) -> Vec<f64> {
        let step = self.pick(&[0.1, 0.1, 1.0, 1e-3, 5e-324, 1e300]);
        self.times_of_step(points, step)
    }

    /// The same with steps from half of this one to one and a half.
    pub fn times_of_step(&mut self, points: usize, step: f64) -> Vec<f64> {
        let mut time = self.pick(&[0.0, 0.0, -0.0, -step]);
        let times = (0..points).map(|_| {
            let now = time;
            time += (step * (1.0 + self.state.centred())).max(step / 2.0).max(5e-324);
            now
        });
        times.collect()
    }

    pub fn palette(&mut self) -> Palette {
        self.pick(&PALETTES)
    }

    /// This palette, and one in eight times another.
    pub fn mostly(&mut self, palette: Palette) -> Palette {
        if self.one_in(8) {
            self.palette()
        } else {
            palette
        }
    }

    pub fn numbers(&mut self, count: usize, palette: Palette) -> Vec<f64> {
        (0..count).map(|_| self.number(palette)).collect()
    }

    /// A two-time function, whose blocks above the diagonal are multiplied by a factor.
    pub fn function(&mut self, points: usize, orbitals: usize, above: f64, palette: Palette) -> Vec<f64> {
        let block = 2 * orbitals * orbitals;
        let places = (0..points).flat_map(|t| (0..points).map(move |u| if t < u { above } else { 1.0 }));
        let mut xs = Vec::with_capacity(points * points * block);
        for factor in places {
            xs.extend((0..block).map(|_| self.number(palette) * factor));
        }
        xs
    }
}

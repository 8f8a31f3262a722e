//! Calls on a few numbers: the norm, blocks of one number and of a size, seven residuals, a chain of products.
use crate::inputs::{faults, NO_TOLERANCE};
use crate::sides::{block_outcome, decided, judged, outcome, Outcome};
use crate::source::{Source, NOT_FINITE};

pub fn norm(re: f64, im: f64) -> Outcome {
    outcome(Ok(here::norm(re, im)), Ok(judge::norm(re, im)), |x| vec![x])
}

pub fn from_scalar(value: [f64; 2]) -> Outcome {
    block_outcome(|out| here::block_from_scalar(value, out), judge::from_scalar(value))
}

pub fn zero(size: usize) -> Outcome {
    block_outcome(|out| here::block_zero(size, out), judge::zero(size))
}

pub fn identity(size: usize) -> Outcome {
    block_outcome(|out| here::block_identity(size, out), judge::identity(size))
}

pub fn is_consistent(x: [f64; 7], tolerance: f64) -> Outcome {
    judged(here::is_consistent(&x, tolerance), judge::is_consistent(&x, tolerance), decided)
}

/// Of a block that is refused the first number is +0.
pub fn product_chain(a: &[f64], b: &[f64], size: usize, turns: usize) -> Outcome {
    let [x, y] = [a, b].map(|numbers| judge::from_numbers(size, size, numbers).unwrap_or_else(|_| judge::Block::empty()));
    let product = |x: judge::Block| judge::multiply(&x, &y).unwrap_or_else(|_| judge::Block::empty());
    let theirs = (0..turns).fold(x, |x, _| product(x)).values[0];
    outcome(Ok(here::product_chain(a, b, size, turns)), Ok(theirs), |x| vec![x])
}

pub fn any_norm(source: &mut Source) -> Outcome {
    let mut part = || if source.one_in(16) { source.pick(&NOT_FINITE) } else { source.any() };
    let (re, im) = (part(), part());
    let im = if source.one_in(4) { im } else { source.near(re) };
    norm(re, im).under(faults(0))
}

pub fn any_scalar(source: &mut Source) -> Outcome {
    let value = [(); 2].map(|()| if source.one_in(8) { source.pick(&NOT_FINITE) } else { source.any() });
    from_scalar(value).under(faults(value.iter().filter(|x| !x.is_finite()).count()))
}

/// A call on a size.
fn any_size(source: &mut Source, call: fn(usize) -> Outcome) -> Outcome {
    let size = source.below(32);
    let refused = size == 0 || size > 16;
    call(if size == 31 { usize::MAX } else { size }).under(faults(usize::from(refused)))
}

pub fn any_zero(source: &mut Source) -> Outcome {
    any_size(source, zero)
}

pub fn any_identity(source: &mut Source) -> Outcome {
    any_size(source, identity)
}

pub fn any_residuals(source: &mut Source) -> Outcome {
    let refused = source.one_in(8);
    let tolerance = if refused { source.pick(&NO_TOLERANCE) } else { source.tolerance() };
    let near = [0.0, tolerance / 2.0, tolerance, tolerance, tolerance.next_up(), f64::NAN, f64::INFINITY];
    let within = source.one_in(2);
    let x = std::array::from_fn(|_| match within {
        true => source.pick(&near[..4]),
        false if source.one_in(4) => source.pick(&near),
        false if source.one_in(16) => source.any(),
        false => source.pick(&near[..4]),
    });
    is_consistent(x, tolerance).under(faults(usize::from(refused)))
}

pub fn any_chain(source: &mut Source) -> Outcome {
    let (size, turns) = (1 + source.below(16), source.below(4));
    let [mut a, mut b] = [(); 2].map(|()| {
        let palette = source.palette();
        source.numbers(2 * size * size, palette)
    });
    let mut count = 0;
    if source.one_in(8) {
        a.truncate(2 * source.below(size * size));
        count += 1;
    }
    if source.one_in(8) {
        let place = source.below(b.len());
        b[place] = source.pick(&NOT_FINITE);
        count += 1;
    }
    let other = source.one_in(16);
    let size = if other { source.pick(&[0, 17, 1 << 32, usize::MAX]) } else { size };
    product_chain(&a, &b, size, turns).under(faults(count + usize::from(other)))
}

//! Components that satisfy the report's identities.
use crate::inputs::Call;
use crate::source::Source;

/// The positions of all real parts, each with that of the adjoint's entry, and whether they are at equal times.
fn places(call: &Call) -> Vec<(usize, usize, bool)> {
    let (points, n) = (call.points, call.orbitals);
    let at = |t: usize, u: usize, a: usize, b: usize| 2 * (((t * points + u) * n + a) * n + b);
    let digits = (0..points * points * n * n).map(|p| (p / (points * n * n), p / (n * n) % points, p / n % n, p % n));
    digits.map(|(t, u, a, b)| (at(t, u, a, b), at(u, t, b, a), t == u)).collect()
}

/// Makes G^R at equal times a Hermitian block less i/2, so that G^R less its adjoint is -i times the identity.
fn equal_times(call: &mut Call) {
    for (p, q, _) in places(call).into_iter().filter(|(.., equal_times)| *equal_times) {
        let retarded = &mut call.operands[0];
        if q == p {
            retarded[p + 1] = -0.5;
        } else {
            (retarded[q], retarded[q + 1]) = (retarded[p], -retarded[p + 1]);
        }
    }
}

/// Half of the calls satisfy the identities as far as rounding lets them, half of those the equal-time rule too.
pub fn components(source: &mut Source, call: &mut Call) {
    if source.one_in(2) {
        return;
    }
    if source.one_in(2) {
        equal_times(call);
    }
    for (p, q, _) in places(call) {
        let [retarded, advanced, lesser, greater] = &mut call.operands[..] else { unreachable!() };
        (advanced[p], advanced[p + 1]) = (retarded[q], -retarded[q + 1]);
        if q >= p {
            lesser[p] = if q == p { 0.0 } else { lesser[p] };
            (lesser[q], lesser[q + 1]) = (-lesser[p], lesser[p + 1]);
        }
        for p in [p, p + 1] {
            let sum = lesser[p] + (retarded[p] - advanced[p]);
            greater[p] = if sum.is_finite() { sum } else { lesser[p] };
        }
    }
}

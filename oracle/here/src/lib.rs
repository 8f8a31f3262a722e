//! The functions that `crates/two_time_exports`, `crates/run_exports`, `crates/occupied_exports` and `crates/block_exports` export, over slices.
mod blocks;
mod flows;
mod keldysh;
mod norm;
mod observed;

pub use blocks::{block_add, block_adjoint, block_from_numbers, block_from_scalar, block_get, block_identity, block_is_hermitian};
pub use blocks::{
    block_max_difference, block_multiply, block_scale, block_subtract, block_trace, block_trace_written, block_zero, product_chain, Block,
};
pub use flows::{bond_flows_into, bond_flows_into_written, Queries};
pub use keldysh::{consistency_report, consistency_report_written, is_consistent, is_consistent_written, langreth_product};
pub use norm::norm;
pub use observed::{
    bond_flow_into, density_matrix, density_matrix_written, one_body_expectation, particle_number, particle_number_written,
};

/// An answer: the refusal's number with its places, or 0 where the call is accepted.
#[derive(Debug, Clone, Copy, PartialEq)]
pub struct Answer {
    pub number: u8,
    pub operand: usize,
    pub first: usize,
    pub second: usize,
    pub part: f64,
}

impl Answer {
    const ACCEPTED: Self = Self { number: 0, operand: 0, first: 0, second: 0, part: 0.0 };

    /// In place of the answer of a call that wrote what it is to leave: a number that no call has.
    const WRITTEN: Self = Self { number: u8::MAX, ..Self::ACCEPTED };
}

/// What slices of places, and slices of numbers, hold before a call.
const PLACE: usize = usize::MAX - 7;
const NUMBER: f64 = -7.25;

/// A call that is lent three places and one part, which an accepted call leaves.
fn answer(call: impl FnOnce(&mut [usize; 3], &mut [f64; 1]) -> u8) -> Answer {
    let (mut places, mut part) = ([PLACE; 3], [NUMBER; 1]);
    match call(&mut places, &mut part) {
        0 if (places, part) == ([PLACE; 3], [NUMBER]) => Answer::ACCEPTED,
        0 => Answer::WRITTEN,
        number => Answer { number, operand: places[0], first: places[1], second: places[2], part: part[0] },
    }
}

/// Functions of so many points and orbitals, in slices laid out for a capacity of points.
#[derive(Debug, Clone, Copy, PartialEq)]
pub struct Shape {
    pub points: usize,
    pub capacity: usize,
    pub orbitals: usize,
}

impl Shape {
    /// Slices without room beyond the points.
    pub fn of(points: usize, orbitals: usize) -> Self {
        Self { points, capacity: points, orbitals }
    }
}

/// A slice crosses as its address and its length.
type Convolution = unsafe extern "C" fn(
    times: *const f64,
    times_len: usize,
    left: *const f64,
    left_len: usize,
    right: *const f64,
    right_len: usize,
    points: usize,
    orbitals: usize,
    out: *mut f64,
    out_len: usize,
    places: *mut usize,
    places_len: usize,
    part: *mut f64,
    part_len: usize,
) -> u8;

type Solve = unsafe extern "C" fn(
    counters: *mut u64,
    counters_len: usize,
    desk: usize,
    times: *const f64,
    times_len: usize,
    free: *const f64,
    free_len: usize,
    self_energy: *const f64,
    self_energy_len: usize,
    lesser_self_energy: *const f64,
    lesser_self_energy_len: usize,
    points: usize,
    capacity: usize,
    orbitals: usize,
    tolerance: f64,
    retarded: *mut f64,
    retarded_len: usize,
    lesser: *mut f64,
    lesser_len: usize,
    kernel: *mut f64,
    kernel_len: usize,
    lesser_advanced: *mut f64,
    lesser_advanced_len: usize,
    places: *mut usize,
    places_len: usize,
    part: *mut f64,
    part_len: usize,
) -> u8;

/// A block crosses as its rows, its columns and the address of its 512 numbers.
type SolveFrom = unsafe extern "C" fn(
    counters: *mut u64,
    counters_len: usize,
    desk: usize,
    times: *const f64,
    times_len: usize,
    free: *const f64,
    free_len: usize,
    self_energy: *const f64,
    self_energy_len: usize,
    lesser_self_energy: *const f64,
    lesser_self_energy_len: usize,
    rows: usize,
    columns: usize,
    g0: *const f64,
    points: usize,
    capacity: usize,
    orbitals: usize,
    tolerance: f64,
    retarded: *mut f64,
    retarded_len: usize,
    lesser: *mut f64,
    lesser_len: usize,
    kernel: *mut f64,
    kernel_len: usize,
    lesser_advanced: *mut f64,
    lesser_advanced_len: usize,
    places: *mut usize,
    places_len: usize,
    part: *mut f64,
    part_len: usize,
) -> u8;

mod exported {
    #[link(name = "leechgrommet", kind = "static")]
    extern "C" {
        pub fn leechgrommet_time_convolution(
            times: *const f64,
            times_len: usize,
            left: *const f64,
            left_len: usize,
            right: *const f64,
            right_len: usize,
            points: usize,
            orbitals: usize,
            out: *mut f64,
            out_len: usize,
            places: *mut usize,
            places_len: usize,
            part: *mut f64,
            part_len: usize,
        ) -> u8;

        pub fn leechgrommet_causal_volterra_convolution(
            times: *const f64,
            times_len: usize,
            left: *const f64,
            left_len: usize,
            right: *const f64,
            right_len: usize,
            points: usize,
            orbitals: usize,
            out: *mut f64,
            out_len: usize,
            places: *mut usize,
            places_len: usize,
            part: *mut f64,
            part_len: usize,
        ) -> u8;

        pub fn leechgrommet_check_retarded_support(
            xs: *const f64,
            xs_len: usize,
            points: usize,
            orbitals: usize,
            tolerance: f64,
            places: *mut usize,
            places_len: usize,
            part: *mut f64,
            part_len: usize,
        ) -> u8;

        pub fn leechgrommet_retarded_dyson_with_tolerance(
            times: *const f64,
            times_len: usize,
            free: *const f64,
            free_len: usize,
            self_energy: *const f64,
            self_energy_len: usize,
            points: usize,
            orbitals: usize,
            tolerance: f64,
            retarded: *mut f64,
            retarded_len: usize,
            kernel: *mut f64,
            kernel_len: usize,
            places: *mut usize,
            places_len: usize,
            part: *mut f64,
            part_len: usize,
        ) -> u8;

        pub fn leechgrommet_transient_run(
            counters: *mut u64,
            counters_len: usize,
            desk: usize,
            times: *const f64,
            times_len: usize,
            free: *const f64,
            free_len: usize,
            self_energy: *const f64,
            self_energy_len: usize,
            lesser_self_energy: *const f64,
            lesser_self_energy_len: usize,
            points: usize,
            capacity: usize,
            orbitals: usize,
            tolerance: f64,
            retarded: *mut f64,
            retarded_len: usize,
            lesser: *mut f64,
            lesser_len: usize,
            kernel: *mut f64,
            kernel_len: usize,
            lesser_advanced: *mut f64,
            lesser_advanced_len: usize,
            places: *mut usize,
            places_len: usize,
            part: *mut f64,
            part_len: usize,
        ) -> u8;

        pub fn leechgrommet_append_point(
            counters: *mut u64,
            counters_len: usize,
            desk: usize,
            times: *const f64,
            times_len: usize,
            free: *const f64,
            free_len: usize,
            self_energy: *const f64,
            self_energy_len: usize,
            lesser_self_energy: *const f64,
            lesser_self_energy_len: usize,
            points: usize,
            capacity: usize,
            orbitals: usize,
            tolerance: f64,
            retarded: *mut f64,
            retarded_len: usize,
            lesser: *mut f64,
            lesser_len: usize,
            kernel: *mut f64,
            kernel_len: usize,
            lesser_advanced: *mut f64,
            lesser_advanced_len: usize,
            places: *mut usize,
            places_len: usize,
            part: *mut f64,
            part_len: usize,
        ) -> u8;

        pub fn leechgrommet_transient_run_occupied(
            counters: *mut u64,
            counters_len: usize,
            desk: usize,
            times: *const f64,
            times_len: usize,
            free: *const f64,
            free_len: usize,
            self_energy: *const f64,
            self_energy_len: usize,
            lesser_self_energy: *const f64,
            lesser_self_energy_len: usize,
            rows: usize,
            columns: usize,
            g0: *const f64,
            points: usize,
            capacity: usize,
            orbitals: usize,
            tolerance: f64,
            retarded: *mut f64,
            retarded_len: usize,
            lesser: *mut f64,
            lesser_len: usize,
            kernel: *mut f64,
            kernel_len: usize,
            lesser_advanced: *mut f64,
            lesser_advanced_len: usize,
            places: *mut usize,
            places_len: usize,
            part: *mut f64,
            part_len: usize,
        ) -> u8;

        pub fn leechgrommet_append_point_occupied(
            counters: *mut u64,
            counters_len: usize,
            desk: usize,
            times: *const f64,
            times_len: usize,
            free: *const f64,
            free_len: usize,
            self_energy: *const f64,
            self_energy_len: usize,
            lesser_self_energy: *const f64,
            lesser_self_energy_len: usize,
            rows: usize,
            columns: usize,
            g0: *const f64,
            points: usize,
            capacity: usize,
            orbitals: usize,
            tolerance: f64,
            retarded: *mut f64,
            retarded_len: usize,
            lesser: *mut f64,
            lesser_len: usize,
            kernel: *mut f64,
            kernel_len: usize,
            lesser_advanced: *mut f64,
            lesser_advanced_len: usize,
            places: *mut usize,
            places_len: usize,
            part: *mut f64,
            part_len: usize,
        ) -> u8;
    }
}

fn convolve(call: Convolution, times: &[f64], left: &[f64], right: &[f64], points: usize, orbitals: usize, out: &mut [f64]) -> Answer {
    answer(|places, part| unsafe {
        call(
            times.as_ptr(),
            times.len(),
            left.as_ptr(),
            left.len(),
            right.as_ptr(),
            right.len(),
            points,
            orbitals,
            out.as_mut_ptr(),
            out.len(),
            places.as_mut_ptr(),
            places.len(),
            part.as_mut_ptr(),
            part.len(),
        )
    })
}

pub fn time_convolution(times: &[f64], left: &[f64], right: &[f64], points: usize, orbitals: usize, out: &mut [f64]) -> Answer {
    convolve(exported::leechgrommet_time_convolution, times, left, right, points, orbitals, out)
}

pub fn causal_volterra_convolution(times: &[f64], left: &[f64], right: &[f64], points: usize, orbitals: usize, out: &mut [f64]) -> Answer {
    convolve(exported::leechgrommet_causal_volterra_convolution, times, left, right, points, orbitals, out)
}

pub fn check_retarded_support(xs: &[f64], points: usize, orbitals: usize, tolerance: f64) -> Answer {
    answer(|places, part| unsafe {
        exported::leechgrommet_check_retarded_support(
            xs.as_ptr(),
            xs.len(),
            points,
            orbitals,
            tolerance,
            places.as_mut_ptr(),
            places.len(),
            part.as_mut_ptr(),
            part.len(),
        )
    })
}

/// G, and K in the scratch.
#[allow(clippy::too_many_arguments)]
pub fn retarded_dyson_with_tolerance(
    times: &[f64],
    free: &[f64],
    self_energy: &[f64],
    points: usize,
    orbitals: usize,
    tolerance: f64,
    retarded: &mut [f64],
    kernel: &mut [f64],
) -> Answer {
    answer(|places, part| unsafe {
        exported::leechgrommet_retarded_dyson_with_tolerance(
            times.as_ptr(),
            times.len(),
            free.as_ptr(),
            free.len(),
            self_energy.as_ptr(),
            self_energy.len(),
            points,
            orbitals,
            tolerance,
            retarded.as_mut_ptr(),
            retarded.len(),
            kernel.as_mut_ptr(),
            kernel.len(),
            places.as_mut_ptr(),
            places.len(),
            part.as_mut_ptr(),
            part.len(),
        )
    })
}

/// What a run or an append is lent: the times, the free propagator, the retarded and the lesser self-energy.
#[derive(Clone, Copy)]
pub struct Lent<'a> {
    pub times: &'a [f64],
    pub operands: [&'a [f64]; 3],
    pub shape: Shape,
    pub tolerance: f64,
}

/// The counters of a session, desk 0's first, and the desk that a call names.
pub struct Booking<'a> {
    pub counters: &'a mut [u64],
    pub desk: usize,
}

fn solve(
    call: Solve,
    Booking { counters, desk }: Booking,
    Lent { times, operands: [free, self_energy, lesser_self_energy], shape, tolerance }: Lent,
    [retarded, lesser, kernel, lesser_advanced]: [&mut [f64]; 4],
    places: &mut [usize],
    part: &mut [f64],
) -> u8 {
    unsafe {
        call(
            counters.as_mut_ptr(),
            counters.len(),
            desk,
            times.as_ptr(),
            times.len(),
            free.as_ptr(),
            free.len(),
            self_energy.as_ptr(),
            self_energy.len(),
            lesser_self_energy.as_ptr(),
            lesser_self_energy.len(),
            shape.points,
            shape.capacity,
            shape.orbitals,
            tolerance,
            retarded.as_mut_ptr(),
            retarded.len(),
            lesser.as_mut_ptr(),
            lesser.len(),
            kernel.as_mut_ptr(),
            kernel.len(),
            lesser_advanced.as_mut_ptr(),
            lesser_advanced.len(),
            places.as_mut_ptr(),
            places.len(),
            part.as_mut_ptr(),
            part.len(),
        )
    }
}

fn solve_from(
    call: SolveFrom,
    Booking { counters, desk }: Booking,
    Lent { times, operands: [free, self_energy, lesser_self_energy], shape, tolerance }: Lent,
    g0: &Block,
    [retarded, lesser, kernel, lesser_advanced]: [&mut [f64]; 4],
    places: &mut [usize],
    part: &mut [f64],
) -> u8 {
    unsafe {
        call(
            counters.as_mut_ptr(),
            counters.len(),
            desk,
            times.as_ptr(),
            times.len(),
            free.as_ptr(),
            free.len(),
            self_energy.as_ptr(),
            self_energy.len(),
            lesser_self_energy.as_ptr(),
            lesser_self_energy.len(),
            g0.rows,
            g0.columns,
            g0.values.as_ptr(),
            shape.points,
            shape.capacity,
            shape.orbitals,
            tolerance,
            retarded.as_mut_ptr(),
            retarded.len(),
            lesser.as_mut_ptr(),
            lesser.len(),
            kernel.as_mut_ptr(),
            kernel.len(),
            lesser_advanced.as_mut_ptr(),
            lesser_advanced.len(),
            places.as_mut_ptr(),
            places.len(),
            part.as_mut_ptr(),
            part.len(),
        )
    }
}

/// G^R and G^<, and K and X in the scratch.
pub fn transient_run(booking: Booking, lent: Lent, made: [&mut [f64]; 4]) -> Answer {
    answer(|places, part| transient_run_written(booking, lent, made, places, part))
}

/// The same four, with the new row and column of one point more than the shape tells.
pub fn append_point(booking: Booking, lent: Lent, made: [&mut [f64]; 4]) -> Answer {
    answer(|places, part| append_point_written(booking, lent, made, places, part))
}

/// The same with slices for places and part that may have other lengths.
pub fn transient_run_written(booking: Booking, lent: Lent, made: [&mut [f64]; 4], places: &mut [usize], part: &mut [f64]) -> u8 {
    solve(exported::leechgrommet_transient_run, booking, lent, made, places, part)
}

pub fn append_point_written(booking: Booking, lent: Lent, made: [&mut [f64]; 4], places: &mut [usize], part: &mut [f64]) -> u8 {
    solve(exported::leechgrommet_append_point, booking, lent, made, places, part)
}

/// The run and the append that start from a block.
pub fn transient_run_occupied(booking: Booking, lent: Lent, g0: &Block, made: [&mut [f64]; 4]) -> Answer {
    answer(|places, part| transient_run_occupied_written(booking, lent, g0, made, places, part))
}

pub fn append_point_occupied(booking: Booking, lent: Lent, g0: &Block, made: [&mut [f64]; 4]) -> Answer {
    answer(|places, part| append_point_occupied_written(booking, lent, g0, made, places, part))
}

pub fn transient_run_occupied_written(
    booking: Booking,
    lent: Lent,
    g0: &Block,
    made: [&mut [f64]; 4],
    places: &mut [usize],
    part: &mut [f64],
) -> u8 {
    solve_from(exported::leechgrommet_transient_run_occupied, booking, lent, g0, made, places, part)
}

pub fn append_point_occupied_written(
    booking: Booking,
    lent: Lent,
    g0: &Block,
    made: [&mut [f64]; 4],
    places: &mut [usize],
    part: &mut [f64],
) -> u8 {
    solve_from(exported::leechgrommet_append_point_occupied, booking, lent, g0, made, places, part)
}

/// The numbers that the call writes, or the refusal: after 10 they are +0, after another number as they were.
fn measured<const COUNT: usize>(
    call: impl FnOnce(&mut [f64; COUNT], &mut [usize; 3], &mut [f64; 1]) -> u8,
) -> Result<[f64; COUNT], Answer> {
    let mut value = [NUMBER; COUNT];
    let answer = answer(|places, part| call(&mut value, places, part));
    let left: f64 = if answer.number == 10 { 0.0 } else { NUMBER };
    match answer {
        Answer::ACCEPTED => Ok(value),
        refused if value.iter().all(|x| x.to_bits() == left.to_bits()) => Err(refused),
        _ => Err(Answer::WRITTEN),
    }
}

/// A decision, 1 or 0, or the refusal, which leaves the byte.
fn decided(call: impl FnOnce(&mut [u8; 1], &mut [usize; 3], &mut [f64; 1]) -> u8) -> Result<bool, Answer> {
    let mut value = [u8::MAX];
    match (answer(|places, part| call(&mut value, places, part)), value) {
        (Answer::ACCEPTED, [yes @ 0..=1]) => Ok(yes == 1),
        (refused, [u8::MAX]) if refused != Answer::ACCEPTED => Err(refused),
        _ => Err(Answer::WRITTEN),
    }
}

#[cfg(test)]
mod tests {
    use super::{append_point, causal_volterra_convolution, check_retarded_support, particle_number};
    use super::{retarded_dyson_with_tolerance, transient_run, Answer, Booking, Lent, Shape};

    const ACCEPTED: Answer = Answer::ACCEPTED;

    /// P8: entries (0,0) (0,1) (1,0) (1,1) of one orbital.
    #[test]
    fn support() {
        let xs = |above| [1.0, 0.0, above, 0.0, 0.0, 0.0, 1.0, 0.0];
        assert_eq!(check_retarded_support(&xs(0.5), 2, 1, 0.5), ACCEPTED);
        assert_eq!(check_retarded_support(&xs(0.75), 2, 1, 0.5), Answer { number: 9, second: 1, part: 0.75, ..ACCEPTED });
        assert_eq!(check_retarded_support(&xs(f64::NAN), 2, 1, 0.5), Answer { number: 7, first: 2, ..ACCEPTED });
        assert_eq!(check_retarded_support(&xs(0.5), 2, 1, 0.0), Answer { number: 8, ..ACCEPTED });
    }

    #[test]
    fn convolution() {
        let (mut right, mut out) = ([1.0; 8], [5.0; 8]);
        right[3] = f64::INFINITY;
        let refused = causal_volterra_convolution(&[0.0, 1.0], &[1.0; 8], &right, 2, 1, &mut out);
        assert_eq!(refused, Answer { number: 7, operand: 1, first: 3, ..ACCEPTED });
        assert_eq!(causal_volterra_convolution(&[0.0, 0.0], &[1.0; 8], &right, 2, 1, &mut out), Answer { number: 5, first: 1, ..ACCEPTED });
        assert_eq!(causal_volterra_convolution(&[0.0, 1.0], &[1.0; 6], &right, 2, 1, &mut out), Answer { number: 3, ..ACCEPTED });
        assert_eq!(out, [5.0; 8]);
        let most = [f64::MAX; 8];
        assert_eq!(causal_volterra_convolution(&[0.0, 1.0], &most, &most, 2, 1, &mut out), Answer { number: 10, ..ACCEPTED });
        assert!(out.iter().all(|x| x.to_bits() == 0));
        let ones = [1.0, 0.0, 1.0, 0.0, 1.0, 0.0, 1.0, 0.0];
        assert_eq!(causal_volterra_convolution(&[0.0, 1.0], &ones, &ones, 2, 1, &mut out), ACCEPTED);
        assert_eq!(out, [0.0, 0.0, 0.0, 0.0, 1.0, 0.0, 0.0, 0.0]);
    }

    #[test]
    fn dyson() {
        let (times, step) = ([0.0, 1.0], [1.0, 0.0, 0.0, 0.0, 1.0, 0.0, 1.0, 0.0]);
        let (mut retarded, mut kernel) = ([5.0; 8], [6.0; 8]);
        let mut solve =
            |self_energy: &[f64], tolerance| retarded_dyson_with_tolerance(&times, &step, self_energy, 2, 1, tolerance, &mut retarded, &mut kernel);
        assert_eq!(solve(&[1.0; 8], 0.5), Answer { number: 9, operand: 1, second: 1, part: 1.0, ..ACCEPTED });
        assert_eq!(solve(&step, 0.0), Answer { number: 8, ..ACCEPTED });
        assert_eq!(solve(&step, 0.5), ACCEPTED);
        // K(1,0) = 1/2·1 + 1/2·1, and G(1,0) = 1 + 1/2·K(1,0)·G(0,0).
        assert_eq!(kernel, [0.0, 0.0, 0.0, 0.0, 1.0, 0.0, 0.0, 0.0]);
        assert_eq!(retarded, [1.0, 0.0, 0.0, 0.0, 1.5, 0.0, 1.0, 0.0]);
    }

    #[test]
    fn transient() {
        let (times, step, shape) = ([0.0, 1.0], [1.0, 0.0, 0.0, 0.0, 1.0, 0.0, 1.0, 0.0], Shape::of(2, 1));
        let mut made = [[5.0; 8], [6.0; 8], [7.0; 8], [8.0; 8]];
        let mut counters = [0; 8];
        let mut run = |lesser_self_energy: &[f64]| {
            let lent = Lent { times: &times, operands: [&step, &step, lesser_self_energy], shape, tolerance: 0.5 };
            transient_run(Booking { counters: &mut counters, desk: 2 }, lent, made.each_mut().map(|xs| &mut xs[..]))
        };
        let mut lesser_self_energy = [0.0, 1.0, 0.0, 1.0, 0.0, 1.0, 0.0, f64::NAN];
        assert_eq!(run(&lesser_self_energy), Answer { number: 7, operand: 2, first: 7, ..ACCEPTED });
        lesser_self_energy[7] = 1.0;
        assert_eq!(run(&lesser_self_energy), ACCEPTED);
        assert_eq!(counters, [0, 0, 11, 0, 0, 0, 0, 0]);
        let [retarded, lesser, kernel, lesser_advanced] = made;
        assert_eq!(kernel, [0.0, 0.0, 0.0, 0.0, 1.0, 0.0, 0.0, 0.0]);
        assert_eq!(retarded, [1.0, 0.0, 0.0, 0.0, 1.5, 0.0, 1.0, 0.0]);
        // X(t,1) = 1/2·i·3/2 + 1/2·i·1, and G^<(1,1) = 1/2·3/2·X(0,1) + 1/2·1·X(1,1).
        assert_eq!(lesser_advanced, [0.0, 0.0, 0.0, 1.25, 0.0, 0.0, 0.0, 1.25]);
        assert_eq!(lesser, [0.0, 0.0, 0.0, 0.0, 0.0, 0.0, 0.0, 1.5625]);
        assert_eq!(particle_number(&lesser, shape, 1, 0.5), Ok(1.5625));
    }

    /// P12's run to two points in a capacity of three, then its third; room beyond the points stays.
    #[test]
    fn appended() {
        let (times, shape) = ([0.0, 1.0, 2.0], Shape { points: 2, capacity: 3, orbitals: 1 });
        let step: [f64; 18] = std::array::from_fn(|at| f64::from(u8::from(at % 2 == 0 && at / 2 % 3 <= at / 6)));
        let lesser_self_energy: [f64; 18] = std::array::from_fn(|at| (at % 2) as f64);
        let mut made = [[5.0; 18]; 4];
        let lent = Lent { times: &times, operands: [&step, &step, &lesser_self_energy], shape, tolerance: 0.5 };
        let mut call = |counters: &mut [u64], desk: usize, append: bool| {
            let made = made.each_mut().map(|xs| &mut xs[..]);
            let solve = if append { append_point } else { transient_run };
            solve(Booking { counters, desk }, lent, made)
        };
        let (mut counters, filled) = ([0, 0, 0, u64::MAX - 41, u64::MAX, 0, 0, 0], [0, 0, 0, u64::MAX, u64::MAX, 0, 0, 0]);
        assert_eq!(call(&mut counters, 3, false), ACCEPTED);
        assert_eq!(call(&mut counters, 3, true), ACCEPTED);
        assert_eq!(counters, filled);
        assert_eq!(call(&mut counters, 3, true), Answer { number: 17, ..ACCEPTED });
        assert_eq!(call(&mut counters, 8, true), Answer { number: 22, ..ACCEPTED });
        assert_eq!(call(&mut counters[..7], 3, true), Answer { number: 3, ..ACCEPTED });
        assert_eq!(call(&mut counters[..7], 8, true), Answer { number: 22, ..ACCEPTED });
        assert_eq!(counters, filled);
        let full = Shape { points: 3, ..shape };
        let numbers = [0, 1, 2].map(|time| particle_number(&made[1], full, time, 0.5));
        assert_eq!(numbers, [Ok(0.0), Ok(1.5625), Ok(14.0625)]);
        assert_eq!(particle_number(&made[1], Shape { points: 4, ..shape }, 0, 0.5), Err(Answer { number: 16, ..ACCEPTED }));
    }
}

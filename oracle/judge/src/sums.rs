//! The sums of a call done again by the port's operations on blocks, which says where they stop and can leave out the products that the port
//! alone forms. The inputs are as lines 1 to 9 want them.
use keldysh_green::{kept, DenseMatrix, KeldyshError, RealTimeGrid, Result, TwoTimeMatrix};

/// What was being made, and the operation that first makes a block that is not finite.
pub type Stage = [&'static str; 2];
pub type Made<const COUNT: usize> = std::result::Result<[TwoTimeMatrix; COUNT], Stage>;
type One = std::result::Result<TwoTimeMatrix, Stage>;

/// The operation of a sum over an interval of one point, start = end: a product, whose weight is 0.
pub const ONE_POINT: &str = "one point";

/// Whether that product is formed: the port forms it, document 02 does not.
#[derive(Clone, Copy, PartialEq)]
pub enum OnePoint {
    Formed,
    LeftOut,
}

/// The operation's name in place of its error.
fn by<T, E>(operation: &'static str, made: std::result::Result<T, E>) -> Result<T> {
    made.map_err(|_| KeldyshError::NonFinite(operation))
}

/// A function whose blocks may fail by an operation.
pub fn function(name: &'static str, like: &TwoTimeMatrix, block: impl FnMut(usize, usize) -> Result<DenseMatrix>) -> One {
    TwoTimeMatrix::try_from_fn(like.time_points(), like.orbitals(), block).map_err(|error| match error {
        KeldyshError::NonFinite(operation) => [name, operation],
        error => panic!("no operation for {error:?}"),
    })
}

/// A function whose new row and column are made, and whose other blocks are those of another.
fn with_new(name: &'static str, new: usize, old: &TwoTimeMatrix, mut block: impl FnMut(usize, usize) -> Result<DenseMatrix>) -> One {
    function(name, old, |t, u| if t.max(u) == new { block(t, u) } else { Ok(old.get(t, u)?.clone()) })
}

fn zero(size: usize) -> Result<DenseMatrix> {
    by("zero", kept::zero(size))
}

fn plus_term(total: &DenseMatrix, left: &DenseMatrix, right: &DenseMatrix, weight: f64) -> Result<DenseMatrix> {
    let product = by("product", left.multiply(right))?;
    let scaled = by("scale", kept::scale(&product, weight.into()))?;
    by("add", kept::add(total, &scaled))
}

/// What the lesser function of a run starts from: zero, or a block g0 at the first time.
#[derive(Clone, Copy)]
pub enum Start<'a> {
    Empty,
    Occupied(&'a DenseMatrix),
}

impl Start<'_> {
    /// (G^R(t,0)·g0)·G^A(0,t').
    fn block(self, retarded: &TwoTimeMatrix, [t, u]: [usize; 2]) -> Result<DenseMatrix> {
        match self {
            Self::Empty => zero(retarded.orbitals()),
            Self::Occupied(g0) => {
                let first = by("product with g0", retarded.get(t, 0)?.multiply(g0))?;
                by("product of the start", first.multiply(&retarded.get(u, 0)?.adjoint()))
            }
        }
    }
}

/// Sums over these times.
pub struct Work {
    pub grid: RealTimeGrid,
    pub one_point: OnePoint,
}

impl Work {
    /// The sum over s from start to end by the weights of that interval, 0 where it is empty.
    fn over(&self, left: &TwoTimeMatrix, right: &TwoTimeMatrix, place: [usize; 2], interval: [usize; 2]) -> Result<DenseMatrix> {
        self.onto(zero(left.orbitals())?, left, right, place, interval)
    }

    /// The same onto a block.
    fn onto(
        &self,
        first: DenseMatrix,
        left: &TwoTimeMatrix,
        right: &TwoTimeMatrix,
        [t, u]: [usize; 2],
        [start, end]: [usize; 2],
    ) -> Result<DenseMatrix> {
        let mut terms = start..=end;
        let sum =
            |total: DenseMatrix, s| plus_term(&total, left.get(t, s)?, right.get(s, u)?, kept::interval_weight(&self.grid, s, start, end));
        match self.one_point {
            OnePoint::LeftOut if start == end => Ok(first),
            OnePoint::Formed if start == end => by(ONE_POINT, terms.try_fold(first, sum)),
            _ => terms.try_fold(first, sum),
        }
    }

    /// G^<(t,t') of a run.
    fn lesser(&self, start: Start, retarded: &TwoTimeMatrix, lesser_advanced: &TwoTimeMatrix, [t, u]: [usize; 2]) -> Result<DenseMatrix> {
        self.onto(start.block(retarded, [t, u])?, retarded, lesser_advanced, [t, u], [0, t])
    }

    fn causal(&self, name: &'static str, left: &TwoTimeMatrix, right: &TwoTimeMatrix) -> One {
        function(name, left, |t, u| self.over(left, right, [t, u], [u, t]))
    }

    fn anti_causal(&self, name: &'static str, left: &TwoTimeMatrix, right: &TwoTimeMatrix) -> One {
        function(name, left, |t, u| self.over(left, right, [t, u], [t, u]))
    }

    fn whole(&self, name: &'static str, left: &TwoTimeMatrix, right: &TwoTimeMatrix) -> One {
        function(name, left, |t, u| {
            let mut terms = self.grid.weights().iter().enumerate();
            terms.try_fold(zero(left.orbitals())?, |total, (s, &weight)| plus_term(&total, left.get(t, s)?, right.get(s, u)?, weight))
        })
    }

    fn retarded(&self, free: &TwoTimeMatrix, kernel: &TwoTimeMatrix) -> One {
        let (points, mut blocks) = (free.time_points(), Vec::new());
        function("G", free, |t, u| {
            let start = if t < u { zero(free.orbitals())? } else { free.get(t, u)?.clone() };
            let weight = |s| kept::interval_weight(&self.grid, s, u, t);
            let block = (u..t).try_fold(start, |total, s| plus_term(&total, kernel.get(t, s)?, &blocks[s * points + u], weight(s)))?;
            blocks.push(block.clone());
            Ok(block)
        })
    }

    pub fn time_convolution(&self, [left, right]: &[TwoTimeMatrix; 2]) -> Made<1> {
        Ok([self.whole("sum", left, right)?])
    }

    pub fn causal_volterra_convolution(&self, [left, right]: &[TwoTimeMatrix; 2]) -> Made<1> {
        Ok([self.causal("sum", left, right)?])
    }

    /// G and K.
    pub fn retarded_dyson(&self, [free, self_energy]: &[TwoTimeMatrix; 2]) -> Made<2> {
        let kernel = self.causal("K", free, self_energy)?;
        Ok([self.retarded(free, &kernel)?, kernel])
    }

    /// G^R, G^<, K, X.
    pub fn transient_run(&self, operands: &[TwoTimeMatrix; 3]) -> Made<4> {
        self.transient_run_from(Start::Empty, operands)
    }

    /// The same, where G^< starts so.
    pub fn transient_run_from(&self, start: Start, [free, self_energy, lesser_self_energy]: &[TwoTimeMatrix; 3]) -> Made<4> {
        let kernel = self.causal("K", free, self_energy)?;
        let retarded = self.retarded(free, &kernel)?;
        let advanced = function("G^A", free, |t, u| Ok(retarded.get(u, t)?.adjoint()))?;
        let lesser_advanced = function("X", free, |t, u| self.over(lesser_self_energy, &advanced, [t, u], [0, u]))?;
        let lesser = function("G^<", free, |t, u| self.lesser(start, &retarded, &lesser_advanced, [t, u]))?;
        Ok([retarded, lesser, kernel, lesser_advanced])
    }

    /// The same four, of which the row and the column of one point are made. Old blocks of G^R and X are those that are given; those of K and G^<, which
    /// are not read, are any.
    pub fn append_point(
        &self,
        start: Start,
        new: usize,
        [free, self_energy, lesser_self_energy]: &[TwoTimeMatrix; 3],
        [old_retarded, old_lesser_advanced]: &[TwoTimeMatrix; 2],
    ) -> Made<4> {
        let kernel = with_new("K", new, free, |t, u| self.over(free, self_energy, [t, u], [u, t]))?;
        let retarded = with_new("G", new, old_retarded, |t, u| {
            let first = if t < u { zero(free.orbitals())? } else { free.get(t, u)?.clone() };
            let weight = |s| kept::interval_weight(&self.grid, s, u, t);
            (u..t).try_fold(first, |total, s| plus_term(&total, kernel.get(t, s)?, old_retarded.get(s, u)?, weight(s)))
        })?;
        let advanced = function("G^A", free, |t, u| Ok(retarded.get(u, t)?.adjoint()))?;
        let lesser_advanced = with_new("X", new, old_lesser_advanced, |t, u| self.over(lesser_self_energy, &advanced, [t, u], [0, u]))?;
        let lesser = with_new("G^<", new, free, |t, u| self.lesser(start, &retarded, &lesser_advanced, [t, u]))?;
        Ok([retarded, lesser, kernel, lesser_advanced])
    }

    /// The four components.
    pub fn langreth_product(&self, [a, b, c, d, e, f, g, h]: &[TwoTimeMatrix; 8]) -> Made<4> {
        let (retarded, advanced) = (self.causal("retarded", a, e)?, self.anti_causal("advanced", b, f)?);
        let lesser = added("lesser", &self.whole("lesser, first sum", a, g)?, &self.whole("lesser, second sum", c, f)?)?;
        let greater = added("greater", &self.whole("greater, first sum", a, h)?, &self.whole("greater, second sum", d, f)?)?;
        Ok([retarded, advanced, lesser, greater])
    }
}

fn added(name: &'static str, left: &TwoTimeMatrix, right: &TwoTimeMatrix) -> One {
    function(name, left, |t, u| by("add", kept::add(left.get(t, u)?, right.get(t, u)?)))
}

/// The report's subtractions.
pub fn consistency_report([retarded, advanced, lesser, greater]: &[TwoTimeMatrix; 4]) -> Made<1> {
    let made = function("spectral identity", retarded, |t, u| {
        by("retarded less advanced", retarded.get(t, u)?.subtract(advanced.get(t, u)?))?;
        by("greater less lesser", greater.get(t, u)?.subtract(lesser.get(t, u)?))
    });
    Ok([made?])
}

//! The norm, which `crates/block_exports` exports.

mod exported {
    #[link(name = "leechgrommet", kind = "static")]
    extern "C" {
        pub fn leechgrommet_norm(re: f64, im: f64) -> f64;
    }
}

#[inline]
pub fn norm(re: f64, im: f64) -> f64 {
    unsafe { exported::leechgrommet_norm(re, im) }
}

#[cfg(test)]
mod tests {
    use super::norm;

    /// P1, P2 and P4.
    #[test]
    fn norms() {
        assert_eq!(norm(3.0, 4.0), 5.0);
        assert_eq!(norm(-0.0, 0.0).to_bits(), 0);
        assert_eq!(norm(f64::MAX, f64::MAX), f64::INFINITY);
    }
}

//! The larger and the smaller of two, with the zero named that two zeros of unlike sign give; Rust's `max` and `min` leave it open.

/// `otherwise`, unless the two are zeros of unlike sign.
fn of_zeros(a: f64, b: f64, zero: f64, otherwise: f64) -> f64 {
    let unlike = a == 0.0 && b == 0.0 && a.to_bits() != b.to_bits();
    if unlike { zero } else { otherwise }
}

macro_rules! rule {
    ($rule:ident, $larger:expr, $smaller:expr) => {
        pub trait $rule {
            fn larger(self, other: f64) -> f64;
            fn smaller(self, other: f64) -> f64;
        }

        impl $rule for f64 {
            fn larger(self, other: f64) -> f64 {
                of_zeros(self, other, $larger, self.max(other))
            }
            fn smaller(self, other: f64) -> f64 {
                of_zeros(self, other, $smaller, self.min(other))
            }
        }
    };
}
// Document 01's rule, and the one that has the other zero in each.
rule!(OfDocument, 0.0, -0.0);
rule!(Other, -0.0, 0.0);

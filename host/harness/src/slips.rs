//! Implementations with a slip.

/// `slips! { None: "no slip", Other: "what it does wrong", .. }` is the enum `Slip`, the constant `SLIPS` of all slips
/// with what each is, and `Wrong`, an implementation with one of them.
#[macro_export]
macro_rules! slips {
    ($($name:ident: $what:literal,)*) => {
        #[derive(Clone, Copy, Debug, PartialEq, Eq)]
        pub enum Slip { $($name),* }

        /// All slips, and what each is.
        pub const SLIPS: &[(Slip, &str)] = &[$((Slip::$name, $what)),*];

        #[derive(Clone, Copy)]
        pub struct Wrong {
            slip: Slip,
        }

        impl Wrong {
            pub fn new(slip: Slip) -> Wrong {
                Wrong { slip }
            }

            fn is(&self, slip: Slip) -> bool {
                self.slip == slip
            }
        }
    };
}

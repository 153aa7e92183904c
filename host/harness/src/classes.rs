//! Classes of random cases.

use crate::random::Random;

/// A class, and how something of it is made.
pub struct Class<T> {
    pub name: &'static str,
    /// Of each hundred cases.
    pub share: usize,
    pub make: fn(&mut Random) -> T,
}

/// `classes! { T; "a name", 60, |random| ..; "another", 40, |random| ..; }` is the constant `CLASSES` of such classes.
#[macro_export]
macro_rules! classes {
    ($made:ty; $($name:literal, $share:literal, $make:expr;)*) => {
        pub const CLASSES: &[$crate::classes::Class<$made>] =
            &[$($crate::classes::Class { name: $name, share: $share, make: $make }),*];
    };
}

/// The number of the class that one of a hundred cases has.
pub fn class_at<T>(classes: &[Class<T>], of_hundred: usize) -> usize {
    let mut sum = 0;
    let ends = classes.iter().map(|class| {
        sum += class.share;
        sum
    });
    ends.take_while(|&end| end <= of_hundred).count()
}

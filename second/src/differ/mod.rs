//! The comparison of two readers over many files, long and short, valid and
//! damaged, all grown from one seed.

/// Names the cases of an enum once, and lists them all.
macro_rules! listed {
    ($(#[$about:meta])* $name:ident, $all:ident: $($case:ident)*) => {
        $(#[$about])*
        #[derive(Clone, Copy, Debug, PartialEq, Eq)]
        pub enum $name { $($case,)* }

        /// All of them.
        pub const $all: &[$name] = &[$($name::$case,)*];
    };
}

pub mod build;
pub mod c4ds;
pub mod cobs;
pub mod compare;
pub mod damage;
pub mod drafts;
pub mod facts;
pub mod families;
pub mod figures;
pub mod gaps;
pub mod grow;
pub mod guarded;
pub mod harm;
pub mod kinds;
pub mod lent;
pub mod long;
pub mod named;
pub mod names;
pub mod node;
pub mod parts;
pub mod random;
pub mod real;
pub mod rescues;
pub mod rows;
pub mod run;
pub mod seeded;
pub mod shrink;
pub mod slips;
pub mod sticks;
pub mod sums;
pub mod swaps;
pub mod turned;
pub mod versions;
pub mod writing;

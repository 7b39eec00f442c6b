//! Faults that can be planted in the model, each a plausible misreading that
//! keeps the shape of the code. The number is a constant parameter of every
//! function, so a fault that isn't planted costs nothing. For lists in pieces
//! it is a plain argument: their faults need no other code of their own.

mod lists;
mod packing;
mod pieces;
mod state;

use crate::machine::Machine;

pub use lists::*;
pub use packing::*;
pub use pieces::*;
pub use state::*;

/// Nothing is planted.
pub const NONE: u32 = 0;

/// A fault, and the model with it.
pub struct Planted {
    pub number: u32,
    pub name: &'static str,
    pub machine: Machine,
}

/// Names faults, each by the machine that has it.
macro_rules! faults {
    ($($machine:ident: $($number:literal $constant:ident $name:literal;)*)*) => {
        $($(pub const $constant: u32 = $number;)*)*

        pub fn planted() -> Vec<super::Planted> {
            vec![$($(super::Planted {
                number: $number,
                name: $name,
                machine: crate::machine::Machine::$machine::<$number>(),
            },)*)*]
        }
    };
}
use faults;

/// All faults, by their numbers.
pub fn planted() -> Vec<Planted> {
    let files = [
        lists::planted,
        state::planted,
        packing::planted,
        pieces::planted,
    ];
    let mut planted: Vec<Planted> = files.into_iter().flat_map(|file| file()).collect();
    planted.sort_by_key(|fault| fault.number);
    planted
}

#[cfg(test)]
mod tests {
    use super::*;

    #[test]
    fn each_fault_has_a_number_of_its_own() {
        let numbers: Vec<u32> = planted().iter().map(|fault| fault.number).collect();
        let expected: Vec<u32> = (1..=numbers.len() as u32).collect();
        assert_eq!(numbers, expected);
    }
}

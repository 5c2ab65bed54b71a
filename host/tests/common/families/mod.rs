//! The families of cases. A family is a list of pieces of input, each of which is answered by
//! itself; all but the last have 136 bytes, so that one behind the other they are a stream.

mod bytes;
mod damaged;
mod extreme;
mod horizon;
mod plausible;

pub use bytes::*;
pub use damaged::*;
pub use extreme::*;
pub use horizon::*;
pub use plausible::*;

pub type Pieces = Vec<Vec<u8>>;

/// One of the choices by the number's last digit, which is taken off: all combinations come up as
/// the number counts.
fn digit<T: Copy>(number: &mut usize, choices: &[T]) -> T {
    let choice = choices[*number % choices.len()];
    *number /= choices.len();
    choice
}

/// One test for each family: `$agrees` is given its name and its function.
macro_rules! test_each_family {
    ($agrees:ident) => {
        test_each_family! { $agrees:
            mars venus earth slow halves aligned grazing
            corners shapes windows_and_steps changes_at_the_ends every_step_changes
            shadow_meets_horizon flickering
            fields closest_distance
            windows steps questions words two_faults several_faults
            random_bytes random_fields bit_flips every_bit short_tail
        }
    };
    ($agrees:ident: $($family:ident)*) => {
        $(
            #[test]
            fn $family() {
                $agrees(stringify!($family), common::families::$family);
            }
        )*
    };
}
pub(crate) use test_each_family;

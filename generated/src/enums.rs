//! The enums that the sheets name, with the conversions that the texts need.

use crate::values::{Bits, Value};
use capnp::traits::{FromU16, ToU16};
use capnp::NotInSchema;

// `Whole`, which has every number of 16 bits, so that every value can be written.
include!(concat!(env!("OUT_DIR"), "/whole.rs"));

impl TryFrom<u16> for Whole {
    type Error = NotInSchema;

    fn try_from(number: u16) -> Result<Whole, NotInSchema> {
        // Sound: the enum has the layout of u16, and a member for each of its values.
        Ok(unsafe { std::mem::transmute::<u16, Whole>(number) })
    }
}

/// The status of a bed, in the order of bed.capnp.
#[derive(Clone, Copy)]
#[repr(u16)]
pub enum Status {
    Free,
    Taken,
    Reserved,
}

impl TryFrom<u16> for Status {
    type Error = NotInSchema;

    fn try_from(number: u16) -> Result<Status, NotInSchema> {
        [Status::Free, Status::Taken, Status::Reserved].get(number as usize).copied().ok_or(NotInSchema(number))
    }
}

macro_rules! conversions {
    ($($name:ident, $count:expr;)*) => { $(
        impl Bits for $name {
            fn bits(self) -> u64 {
                self as u64
            }
        }

        /// Bits past the members are taken modulo their number.
        impl Value for $name {
            fn of_bits(bits: u64) -> $name {
                $name::try_from((bits % $count) as u16).expect("the enum has this number")
            }
        }

        impl ToU16 for $name {
            fn to_u16(self) -> u16 {
                self as u16
            }
        }

        impl FromU16 for $name {
            fn from_u16(number: u16) -> Result<$name, NotInSchema> {
                $name::try_from(number)
            }
        }
    )* };
}

conversions! { Whole, 65536; Status, 3; }

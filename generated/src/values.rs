//! Values of data slots as bits: a number at its width, a float as its bits, an enum as its 16-bit number.

use capnp::NotInSchema;

/// What a getter answers, or a setter takes, as bits.
pub trait Bits {
    fn bits(self) -> u64;
}

/// What a setter takes, from bits.
pub trait Value: Bits + Copy {
    fn of_bits(bits: u64) -> Self;
}

macro_rules! numbers {
    ($($typ:ty, $unsigned:ty;)*) => { $(
        impl Bits for $typ {
            fn bits(self) -> u64 {
                self as $unsigned as u64
            }
        }

        impl Value for $typ {
            fn of_bits(bits: u64) -> $typ {
                bits as $typ
            }
        }
    )* };
}

numbers! { i8, u8; i16, u16; i32, u32; i64, u64; u8, u8; u16, u16; u32, u32; u64, u64; }

impl Bits for () {
    fn bits(self) -> u64 {
        0
    }
}

impl Value for () {
    fn of_bits(_: u64) {}
}

impl Bits for bool {
    fn bits(self) -> u64 {
        self as u64
    }
}

impl Value for bool {
    fn of_bits(bits: u64) -> bool {
        bits & 1 == 1
    }
}

impl Bits for f32 {
    fn bits(self) -> u64 {
        self.to_bits() as u64
    }
}

impl Value for f32 {
    fn of_bits(bits: u64) -> f32 {
        f32::from_bits(bits as u32)
    }
}

impl Bits for f64 {
    fn bits(self) -> u64 {
        self.to_bits()
    }
}

impl Value for f64 {
    fn of_bits(bits: u64) -> f64 {
        f64::from_bits(bits)
    }
}

/// A number that the enum does not have is told by the error.
impl<E: Bits> Bits for Result<E, NotInSchema> {
    fn bits(self) -> u64 {
        match self {
            Ok(value) => value.bits(),
            Err(NotInSchema(number)) => number as u64,
        }
    }
}

// Accessors of a struct in a real message, written by hand as capnpc writes them: each body is one call of StructReader or
// StructBuilder.
use capnp::private::layout::{StructBuilder, StructReader};
use capnp::traits::IntoInternalStructReader;

#[derive(Clone, Copy)]
pub struct Reader<'a> {
    pub reader: StructReader<'a>,
}

#[derive(Clone, Copy)]
pub struct Builder<'a> {
    pub builder: StructBuilder<'a>,
}

impl<'a> IntoInternalStructReader<'a> for Reader<'a> {
    fn into_internal_struct_reader(self) -> StructReader<'a> {
        self.reader
    }
}

impl<'a> Builder<'a> {
    pub fn as_reader(self) -> Reader<'a> {
        Reader { reader: self.builder.into_reader() }
    }

    // the data section's bytes, as they stand in the message
    pub fn bytes(self) -> &'a [u8] {
        capnp::raw::get_struct_data_section(self.as_reader())
    }

    // how many pointers it has
    pub fn pointers(self) -> usize {
        self.as_reader().reader.get_pointer_section_size() as usize
    }
}

// The numeric types: their width, and the calls of each, with values and masks as bits.
macro_rules! numbers {
    ($($kind:ident $typ:ty, $mask:ty, $from:expr, $to:expr;)*) => {
        #[derive(Clone, Copy, Debug)]
        pub enum Kind { $($kind),* }

        pub const KINDS: &[Kind] = &[$(Kind::$kind),*];

        impl Kind {
            pub fn width(self) -> u32 {
                match self { $(Kind::$kind => std::mem::size_of::<$typ>() as u32),* }
            }
        }

        impl<'a> Reader<'a> {
            pub fn get_data(self, kind: Kind, offset: usize, mask: Option<u64>) -> u64 {
                match (kind, mask) { $(
                    (Kind::$kind, None) => $to(self.reader.get_data_field::<$typ>(offset)),
                    (Kind::$kind, Some(m)) => $to(self.reader.get_data_field_mask::<$typ>(offset, m as $mask)),
                )* }
            }
        }

        impl<'a> Builder<'a> {
            pub fn get_data(self, kind: Kind, offset: usize, mask: Option<u64>) -> u64 {
                match (kind, mask) { $(
                    (Kind::$kind, None) => $to(self.builder.get_data_field::<$typ>(offset)),
                    (Kind::$kind, Some(m)) => $to(self.builder.get_data_field_mask::<$typ>(offset, m as $mask)),
                )* }
            }

            pub fn set_data(self, kind: Kind, offset: usize, value: u64, mask: Option<u64>) {
                match (kind, mask) { $(
                    (Kind::$kind, None) => self.builder.set_data_field::<$typ>(offset, $from(value)),
                    (Kind::$kind, Some(m)) => self.builder.set_data_field_mask::<$typ>(offset, $from(value), m as $mask),
                )* }
            }
        }
    };
}

numbers! {
    Int8 i8, i8, |v: u64| v as i8, |x: i8| x as u8 as u64;
    Int16 i16, i16, |v: u64| v as i16, |x: i16| x as u16 as u64;
    Int32 i32, i32, |v: u64| v as i32, |x: i32| x as u32 as u64;
    Int64 i64, i64, |v: u64| v as i64, |x: i64| x as u64;
    Uint8 u8, u8, |v: u64| v as u8, |x: u8| x as u64;
    Uint16 u16, u16, |v: u64| v as u16, |x: u16| x as u64;
    Uint32 u32, u32, |v: u64| v as u32, |x: u32| x as u64;
    Uint64 u64, u64, |v: u64| v, |x: u64| x;
    Float32 f32, u32, |v: u64| f32::from_bits(v as u32), |x: f32| x.to_bits() as u64;
    Float64 f64, u64, |v: u64| f64::from_bits(v), |x: f64| x.to_bits();
}

impl<'a> Reader<'a> {
    pub fn get_bool(self, offset: usize, mask: Option<bool>) -> bool {
        match mask {
            None => self.reader.get_bool_field(offset),
            Some(m) => self.reader.get_bool_field_mask(offset, m),
        }
    }

    pub fn is_null(self, offset: usize) -> bool {
        self.reader.get_pointer_field(offset).is_null()
    }
}

impl<'a> Builder<'a> {
    pub fn get_bool(self, offset: usize, mask: Option<bool>) -> bool {
        match mask {
            None => self.builder.get_bool_field(offset),
            Some(m) => self.builder.get_bool_field_mask(offset, m),
        }
    }

    pub fn set_bool(self, offset: usize, value: bool, mask: Option<bool>) {
        match mask {
            None => self.builder.set_bool_field(offset, value),
            Some(m) => self.builder.set_bool_field_mask(offset, value, m),
        }
    }

    pub fn is_null(self, offset: usize) -> bool {
        self.builder.get_pointer_field(offset).is_null()
    }

    pub fn clear(self, offset: usize) {
        self.builder.get_pointer_field(offset).clear();
    }

    pub fn set_pointer(self, offset: usize) {
        self.builder.get_pointer_field(offset).set_text("bed");
    }
}

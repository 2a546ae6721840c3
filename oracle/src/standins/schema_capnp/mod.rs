//! The readers of schema.capnp that capnpc's functions use.

pub mod annotation;
pub mod brand;
pub mod field;
pub mod node;
pub mod type_;
pub mod value;

pub mod code_generator_request {
    use std::marker::PhantomData;

    /// Held by `GeneratorContext` and never read by the functions that are cut.
    pub struct Reader<'a>(pub PhantomData<&'a ()>);
}

//! `Brand`, its scopes and their bindings.

use crate::sheet;
use crate::standins::levels::Chain;
use crate::standins::list::List;
use crate::standins::Result;

/// The scopes of a type. Not `Copy`: `do_branding` takes it by value, and so it lives as long as one chain.
pub struct Reader<'a> {
    scopes: &'a [sheet::Scope],
    _chain: Chain,
}

impl<'a> Reader<'a> {
    pub fn new(scopes: &'a [sheet::Scope]) -> Reader<'a> {
        Reader { scopes, _chain: Chain::open() }
    }

    pub fn get_scopes(&self) -> Result<List<'a, sheet::Scope>> {
        Ok(List(self.scopes))
    }
}

pub mod scope {
    pub use self::Which::{Bind, Inherit};
    use crate::sheet::{Binding, Scope};
    use crate::standins::list::{List, Part};
    use crate::standins::Result;

    #[derive(Clone, Copy)]
    pub struct Reader<'a>(&'a Scope);

    pub enum Which<'a> {
        Bind(Result<List<'a, Binding>>),
        Inherit(()),
    }

    impl Part for Scope {
        type Reader<'a> = Reader<'a>;

        fn reader(&self) -> Reader<'_> {
            Reader(self)
        }
    }

    impl<'a> Reader<'a> {
        pub fn get_scope_id(&self) -> u64 {
            self.0.id
        }

        pub fn which(&self) -> Result<Which<'a>> {
            Ok(match &self.0.bindings {
                Some(bindings) => Bind(Ok(List(bindings))),
                None => Inherit(()),
            })
        }
    }
}

pub mod binding {
    pub use self::Which::{Type, Unbound};
    use crate::sheet::Binding;
    use crate::standins::list::Part;
    use crate::standins::schema_capnp::type_;
    use crate::standins::Result;

    #[derive(Clone, Copy)]
    pub struct Reader<'a>(&'a Binding);

    pub enum Which<'a> {
        Unbound(()),
        Type(Result<type_::Reader<'a>>),
    }

    impl Part for Binding {
        type Reader<'a> = Reader<'a>;

        fn reader(&self) -> Reader<'_> {
            Reader(self)
        }
    }

    impl<'a> Reader<'a> {
        pub fn which(&self) -> Result<Which<'a>> {
            Ok(match self.0 {
                Binding::Unbound => Unbound(()),
                Binding::Type(typ) => Type(Ok(type_::Reader(typ))),
            })
        }
    }
}

//! An interface that sheets name: clients that can be told apart and do nothing else.

use crate::random::Random;
use crate::samples::{Sample, Show};
use capnp::capability::{self, FromClientHook, Promise, Request};
use capnp::private::capability::{ClientHook, ParamsHook, ResultsHook};
use capnp::{any_pointer, capability_list, Error, MessageSize};

pub struct Client {
    pub client: capability::Client,
}

impl FromClientHook for Client {
    fn new(hook: Box<dyn ClientHook>) -> Client {
        Client { client: capability::Client::new(hook) }
    }
}

/// Hands over the client of a number, and shows it.
pub fn with(number: u64, set: impl FnOnce(Client)) -> String {
    set(Client::new(Box::new(Hook(number))));
    Client::new(Box::new(Hook(number))).show()
}

/// What a getter says of a null pointer.
pub fn absent() -> String {
    Err::<Client, _>(Error::failed("Message contains null capability pointer.".into())).show()
}

impl Show for Client {
    fn show(self) -> String {
        format!("client {}", self.client.hook.get_ptr())
    }
}

/// A list of none: a message of its own has no place for capabilities.
impl Sample for capability_list::Owned<Client> {
    fn fill(pointer: any_pointer::Builder<'_>, _: &mut Random) {
        pointer.initn_as::<capability_list::Builder<Client>>(0);
    }
}

impl Show for capability_list::Reader<'_, Client> {
    fn show(self) -> String {
        format!("{} clients", self.len())
    }
}

impl Show for capability_list::Builder<'_, Client> {
    fn show(self) -> String {
        format!("{} clients", self.len())
    }
}

struct Hook(u64);

impl ClientHook for Hook {
    fn add_ref(&self) -> Box<dyn ClientHook> {
        Box::new(Hook(self.0))
    }

    fn new_call(&self, _: u64, _: u16, _: Option<MessageSize>) -> Request<any_pointer::Owned, any_pointer::Owned> {
        unreachable!("nothing is called")
    }

    fn call(&self, _: u64, _: u16, _: Box<dyn ParamsHook>, _: Box<dyn ResultsHook>) -> Promise<(), Error> {
        unreachable!("nothing is called")
    }

    fn get_brand(&self) -> usize {
        0
    }

    fn get_ptr(&self) -> usize {
        self.0 as usize
    }

    fn get_resolved(&self) -> Option<Box<dyn ClientHook>> {
        None
    }

    fn when_more_resolved(&self) -> Option<Promise<Box<dyn ClientHook>, Error>> {
        None
    }

    fn when_resolved(&self) -> Promise<(), Error> {
        Promise::ok(())
    }
}

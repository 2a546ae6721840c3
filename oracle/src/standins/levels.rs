//! The bound of 16 on parent chains and on groups: the Rust has none and would not end where parents or groups lead
//! back to themselves. The 17th is refused as 4 before it is looked up.

use super::refusal::refuse;
use crate::sheet::MAX_LEVEL;
use std::cell::{Cell, RefCell};

thread_local! {
    /// For each `do_branding` under way, the innermost last: how many nodes of its chain were reached.
    static CHAINS: RefCell<Vec<usize>> = const { RefCell::new(Vec::new()) };
    /// How many `zero_fields_of_group` are under way.
    static GROUPS: Cell<usize> = const { Cell::new(0) };
}

/// Lives as long as a brand, which `do_branding` takes by value: one chain, whose first node is the type's own.
pub struct Chain(());

impl Chain {
    pub fn open() -> Chain {
        CHAINS.with_borrow_mut(|chains| chains.push(1));
        Chain(())
    }
}

impl Drop for Chain {
    fn drop(&mut self) {
        CHAINS.with_borrow_mut(|chains| chains.pop());
    }
}

/// The chain of the innermost brand goes on to one more node.
pub fn next_of_chain() {
    let reached = CHAINS.with_borrow_mut(|chains| {
        let reached = chains.last_mut().expect("a chain is walked under a brand");
        *reached += 1;
        *reached
    });
    if reached > MAX_LEVEL {
        refuse(4);
    }
}

/// Lives as long as a struct node's reader, which `zero_fields_of_group` holds while it goes through the fields.
pub struct GroupLevel(());

impl GroupLevel {
    pub fn open() -> GroupLevel {
        GROUPS.set(GROUPS.get() + 1);
        GroupLevel(())
    }
}

impl Drop for GroupLevel {
    fn drop(&mut self) {
        GROUPS.set(GROUPS.get() - 1);
    }
}

/// An inner group is about to be entered.
pub fn next_group() {
    if GROUPS.get() >= MAX_LEVEL {
        refuse(4);
    }
}

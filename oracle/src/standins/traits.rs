//! The two traits that `word_array_declaration_aux` names.

pub trait Owned {}

/// What can become the root of a message; here, what has the message's words.
pub trait SetterInput<Receiver: Owned> {
    fn words(&self) -> &[u64];
}

//! A pointer default. The message that capnpc would build of it is given by the sheet, as its words.

use super::traits::SetterInput;
use super::{traits, MessageSize, Result};

#[derive(Clone, Copy)]
pub struct Reader<'a> {
    pub words: &'a [u64],
}

impl Reader<'_> {
    /// The size of what the pointer leads to; the message has one word more, its root pointer.
    pub fn target_size(&self) -> Result<MessageSize> {
        Ok(MessageSize { word_count: self.words.len() as u64 - 1 })
    }
}

pub struct Owned;

impl traits::Owned for Owned {}

impl SetterInput<Owned> for Reader<'_> {
    fn words(&self) -> &[u64] {
        self.words
    }
}

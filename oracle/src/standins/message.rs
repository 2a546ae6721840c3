//! A message of one segment, whose words come from the sheet.

use super::traits::{Owned, SetterInput};
use super::Result;

pub struct HeapAllocator;

impl HeapAllocator {
    #[allow(clippy::new_without_default)]
    pub fn new() -> HeapAllocator {
        HeapAllocator
    }

    pub fn first_segment_words(self, _words: u32) -> HeapAllocator {
        self
    }
}

pub struct Builder {
    segment: Vec<u8>,
}

impl Builder {
    pub fn new(_allocator: HeapAllocator) -> Builder {
        Builder { segment: Vec::new() }
    }

    pub fn set_root<T: Owned>(&mut self, value: impl SetterInput<T>) -> Result<()> {
        self.segment = value.words().iter().flat_map(|word| word.to_le_bytes()).collect();
        Ok(())
    }

    pub fn get_segments_for_output(&self) -> [&[u8]; 1] {
        [&self.segment]
    }
}

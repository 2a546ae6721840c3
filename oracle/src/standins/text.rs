//! `capnp::text::Reader`: a name of the sheet, which is UTF-8.

use super::Result;

#[derive(Clone, Copy)]
pub struct Reader<'a>(pub &'a str);

impl<'a> Reader<'a> {
    pub fn to_str(self) -> Result<&'a str> {
        Ok(self.0)
    }

    pub fn to_string(self) -> Result<String> {
        Ok(self.0.to_owned())
    }
}

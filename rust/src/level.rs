//! How far a text is moved in.
#![forbid(unsafe_code)]

/// A level of indentation, from 0 to 8. Each line of a text at a level begins with four spaces for each step of it.
///
/// ```
/// use kitlubas::Level;
///
/// assert_eq!(Level::new(2).map(Level::get), Some(2));
/// assert_eq!(Level::new(8), Some(Level::MOST));
/// assert_eq!(Level::new(9), None);
/// assert_eq!(Level::default().get(), 0);
/// ```
#[derive(Clone, Copy, Debug, Default, PartialEq, Eq, PartialOrd, Ord, Hash)]
pub struct Level(u8);

impl Level {
    /// The highest level.
    pub const MOST: Level = Level(8);

    /// The level with a number; there is none above 8.
    pub const fn new(number: u8) -> Option<Level> {
        if number <= Level::MOST.0 {
            Some(Level(number))
        } else {
            None
        }
    }

    /// Its number.
    pub const fn get(self) -> u8 {
        self.0
    }
}

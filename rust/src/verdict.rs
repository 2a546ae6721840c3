//! Whether a slot's setter and its getters agree.
#![forbid(unsafe_code)]

use std::fmt;

/// What a slot's getters read after its setter, that of [`Request::Setter`](crate::Request::Setter): one of four. It is said
/// of every value and every record that is long enough, in a slot whose bits are clear of its union's tag.
///
/// ```
/// use kitlubas::Verdict;
///
/// let verdicts =
///     [Verdict::SignFlipped, Verdict::CombinedWithDefault, Verdict::Agree, Verdict::NotBothGenerated];
/// assert_eq!(verdicts.map(Verdict::disagrees), [true, true, false, false]);
/// assert_eq!(Verdict::CombinedWithDefault.to_string(), "combined with the default");
/// ```
#[derive(Clone, Copy, Debug, PartialEq, Eq, Hash)]
pub enum Verdict {
    /// The value that was set.
    Agree,
    /// The value with its sign flipped: the slot is a float with the default -0.0, by which the getters mask and the setter does
    /// not.
    SignFlipped,
    /// The value combined with the default by exclusive or: the slot is an enum with a default other than 0 and without the
    /// explicit flag. The getters look at the number and mask by it; the setter looks at the flag and does not.
    CombinedWithDefault,
    /// The setter or one of the getters is refused, so that there is nothing to hold against each other.
    NotBothGenerated,
}

impl Verdict {
    /// The verdict with a number at the boundary. The library tells 0 to 3 alone.
    pub(crate) fn of(number: u64) -> Verdict {
        match number {
            0 => Verdict::Agree,
            1 => Verdict::SignFlipped,
            2 => Verdict::CombinedWithDefault,
            _ => Verdict::NotBothGenerated,
        }
    }

    /// Whether the getters read another value than the setter was given. Where the setter or a getter is refused, nothing is
    /// read.
    pub fn disagrees(self) -> bool {
        match self {
            Verdict::SignFlipped | Verdict::CombinedWithDefault => true,
            Verdict::Agree | Verdict::NotBothGenerated => false,
        }
    }
}

impl fmt::Display for Verdict {
    fn fmt(&self, f: &mut fmt::Formatter<'_>) -> fmt::Result {
        f.write_str(match self {
            Verdict::Agree => "agree",
            Verdict::SignFlipped => "sign flipped",
            Verdict::CombinedWithDefault => "combined with the default",
            Verdict::NotBothGenerated => "not both generated",
        })
    }
}

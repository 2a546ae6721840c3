//! The spots of a sheet where a line with faults is put: each letter behind each beginning of a sheet, whether it may stand there
//! or not; every kind of type and value; doubled ids, the 17th level, and lines that are one too many.

use crate::generate::bounds::{beginnings, one_line, Lines};
use crate::sheet::read::Refusal;
use crate::sheet::{has_words, MAX_NODES, MAX_WORDS};

/// What stands before a line, and a good line.
pub struct Spot {
    pub name: String,
    pub before: Lines,
    pub row: Vec<u8>,
    /// Whether a line with this letter may stand there.
    pub may_stand: bool,
    /// What the sheet is refused by that ends with the good line; it may end too soon.
    pub whole: Option<Refusal>,
    /// Whether two faults on the line are tried too.
    pub paired: bool,
}

impl Spot {
    /// The number of its line.
    pub fn line(&self) -> u64 {
        self.before.next()
    }

    /// A spot where the line may stand, and of which the sheet is then whole.
    fn good(name: impl Into<String>, before: Lines, row: Lines) -> Spot {
        let row = row.0.into_iter().next().expect("there is a line");
        Spot { name: name.into(), before, row, may_stand: true, whole: None, paired: false }
    }

    /// The same where the sheet then ends too soon.
    fn ends_too_soon(self) -> Spot {
        let whole = Some(Refusal::misplaced(self.line() + 1));
        Spot { whole, ..self }
    }

    fn refused(self, whole: Refusal) -> Spot {
        Spot { whole: Some(whole), ..self }
    }

    fn paired(self) -> Spot {
        Spot { paired: true, ..self }
    }

    /// The same where no line with this letter may stand.
    fn misplaced(self) -> Spot {
        Spot { may_stand: false, ..self }
    }
}

pub fn all() -> Vec<Spot> {
    let mut spots = vec![Spot::good("R", Lines::new(), one_line('R')).ends_too_soon().paired()];
    after_beginnings(&mut spots);
    types(&mut spots);
    values(&mut spots);
    doubles_and_levels(&mut spots);
    one_too_many(&mut spots);
    spots
}

fn after_beginnings(spots: &mut Vec<Spot>) {
    for (name, beginning, follow) in beginnings() {
        for letter in "RNPFGTSUVW".chars() {
            let spot = Spot::good(format!("{letter} after {name}"), beginning.clone(), one_line(letter));
            spots.push(match letter {
                _ if !follow.contains(letter) => spot.misplaced(),
                'F' | 'T' | 'S' | 'U' => spot.ends_too_soon(),
                _ => spot,
            });
        }
    }
    // Each letter once with two faults; T, S and V follow by their kinds.
    for (name, beginning, letter) in [
        ("N", Lines::new().and(&one_line('R')), 'N'),
        ("P", Lines::start(), 'P'),
        ("G", Lines::start(), 'G'),
        ("W", explicit(12), 'W'),
    ] {
        spots.push(Spot::good(format!("{name} with two faults"), beginning, one_line(letter)).paired());
    }
    spots.push(Spot::good("F with two faults", Lines::start(), one_line('F')).ends_too_soon().paired());
    let branded = Lines::slot().typ([16, 7, 1, 0]);
    let bound = branded.clone().plain('S', &[7, 1, 1]);
    spots.push(Spot::good("U with two faults", bound, one_line('U')).ends_too_soon().paired());
    for (name, numbers) in [("S that inherits", [7, 0, 0]), ("S that binds", [7, 1, 12])] {
        let row = Lines::new().plain('S', &numbers);
        spots.push(Spot::good(format!("{name} with two faults"), branded.clone(), row).ends_too_soon().paired());
    }
}

/// A slot with an explicit default of this kind, whose words are to follow.
fn explicit(kind: u64) -> Lines {
    Lines::start().text('F', &[0, 65535, 1, 0], "ward").typ([0, 0, 0, 0]).plain('V', &[kind, 0])
}

fn types(spots: &mut Vec<Spot>) {
    let rows = (0..=18).map(|kind| match kind {
        15 | 16 => [kind, 7, 1, 0],
        17 => [kind, u64::MAX, 10, 0],
        _ => [kind, 0, 0, 0],
    });
    for row in rows.chain([[18, 1, 7, 0], [18, 1, u64::MAX, 65535]]) {
        let spot = Spot::good(format!("T {row:?}"), Lines::slot(), Lines::new().typ(row)).ends_too_soon();
        spots.push(if [1, 14, 16, 18].contains(&row[0]) { spot.paired() } else { spot });
    }
}

fn values(spots: &mut Vec<Spot>) {
    for kind in 0..=18 {
        let row = Lines::new().plain('V', &[kind, 0]);
        let plain = Spot::good(format!("V {kind}"), Lines::slot().typ([0, 0, 0, 0]), row.clone());
        spots.push(if [0, 1, 7, 9, 15].contains(&kind) { plain.paired() } else { plain });
        let slot = Lines::start().text('F', &[0, 65535, 1, 0], "ward").typ([0, 0, 0, 0]);
        let explicit = Spot::good(format!("V {kind} that is explicit"), slot, row);
        spots.push(if has_words(kind as u8) { explicit.ends_too_soon() } else { explicit });
    }
}

/// Faults of the line come before its id and its level.
fn doubles_and_levels(spots: &mut Vec<Spot>) {
    let node = Lines::new().text('N', &[7, 0, 0, 1, 0, 0, 0], "other");
    spots.push(Spot::good("an id on a second N", Lines::start(), node).refused(Refusal::doubled(3)));
    let group = one_line('G');
    let before = Lines::start().and(&group);
    spots.push(Spot::good("an id on a second G", before, group).refused(Refusal::doubled(4)));
    let lists = (0..16).fold(Lines::slot(), |lines, _| lines.typ([14, 0, 0, 0]));
    let brands = (0..16).fold(Lines::slot(), |lines, _| lines.typ([16, 7, 1, 0]).plain('S', &[7, 1, 1]));
    for (name, before) in [("lists", lists), ("bindings", brands)] {
        for row in [[1, 0, 0, 0], [14, 0, 0, 0], [16, 7, 1, 0]] {
            let level = Refusal::too_deep(before.next());
            let spot = Spot::good(format!("T {row:?} of level 17, {name}"), before.clone(), Lines::new().typ(row));
            spots.push(spot.refused(level));
        }
    }
}

/// The last line that there may be, and the one behind it.
fn one_too_many(spots: &mut Vec<Spot>) {
    let words = |count: usize| (0..count as u64).fold(explicit(12), |lines, word| lines.plain('W', &[word]));
    spots.push(Spot::good("the 255th W", words(MAX_WORDS - 1), one_line('W')));
    spots.push(Spot::good("a 256th W", words(MAX_WORDS), one_line('W')).misplaced());
    let root = Lines::new().and(&one_line('R'));
    let nodes = |count: usize| {
        (100..100 + count as u64).fold(root.clone(), |lines, id| lines.text('N', &[id, 0, 0, 1, 0, 0, 0], "bed"))
    };
    spots.push(Spot::good("the 64th N", nodes(MAX_NODES - 1), one_line('N')));
    spots.push(Spot::good("a 65th N", nodes(MAX_NODES), one_line('N')).misplaced());
}

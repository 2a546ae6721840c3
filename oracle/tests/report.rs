//! What is to occur in a comparison and never does is a difference of it.

use oracle::report::{Census, Report};

#[test]
fn what_never_occurred_differs() {
    let mut report = Report::new("a comparison");
    let mut census = Census::of(&['a', 'b', 'c']);
    census.count('a');
    census.count('c');
    census.count('c');
    census.told(&mut report);
    assert_eq!((report.cases(), report.differ()), (3, 1));
    census.count('b');
    census.told(&mut report);
    assert_eq!((report.cases(), report.differ()), (6, 1));
}

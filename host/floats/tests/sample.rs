//! A bounded sample of the run against the processor.

use floats::{compare::Report, patterns::patterns};

#[test]
fn the_leaves_agree_with_the_processor() {
    let report = Report::of(patterns(200_000));
    assert_eq!(report.patterns, 200_000);
    assert!(report.agrees(), "{report}");
}

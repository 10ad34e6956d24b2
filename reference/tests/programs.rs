//! The ports that are programs, with the reference's own in their place: no difference, and one where another program answers.
use pywr_reference::comparison::{Tally, compare};
use pywr_reference::generate;
use pywr_reference::port::Port;
use pywr_reference::port_lister::Lister;
use pywr_reference::port_namer::Namer;

/// How many networks are accepted, and how many comparisons fail.
fn run(port: Box<dyn Port>) -> (u64, usize) {
    let mut tally = Tally::default();
    let mut port = Some(port);
    let failures = (0..60).filter(|&i| compare(&generate::case(9, i), &mut port, &mut tally).is_err()).count();
    assert_eq!((tally.builds_compared, tally.steps_compared), (60, 0));
    (tally.builds.of(0), failures)
}

#[test]
fn the_lister() {
    assert!(matches!(run(Box::new(Lister::new(env!("CARGO_BIN_EXE_list").into()))), (30.., 0)));
    assert!(matches!(run(Box::new(Lister::new(env!("CARGO_BIN_EXE_names").into()))), (30.., 30..)));
}

#[test]
fn the_namer() {
    assert!(matches!(run(Box::new(Namer::new(env!("CARGO_BIN_EXE_names").into()))), (30.., 0)));
    assert!(matches!(run(Box::new(Namer::new(env!("CARGO_BIN_EXE_list").into()))), (30.., 30..)));
    let mut port = Namer::new("no/such/program".into());
    assert!(port.build(b"", pywr_reference::Sentinel::Infinity).is_err());
}

//! Nodes of which one is lost, since a change of its state panicked.
#![cfg(all(feature = "nodes", feature = "std"))]
use nrvs::nodes::{CallError, Entry, Nodes, State, RING};
use std::panic::{catch_unwind, AssertUnwindSafe};

/// Counts, but panics at a node that is made so.
struct Panics(u64, bool);

impl State for Panics {
    type Update = ();
    type Reply = u64;

    fn pack((): &()) -> Entry {
        Entry::default()
    }

    fn unpack(_: Entry) {}

    fn apply(&mut self, (): ()) -> u64 {
        assert!(!self.1, "on purpose");
        self.0 += 1;
        self.0
    }
}

/// The node that panicked is lost, and no update is taken; the others are read as before.
#[test]
fn a_change_that_panics_loses_its_node_alone() {
    let nodes = Nodes::new((0..3).map(|node| Panics(0, node == 1))).unwrap();
    let fill = || (0..2 * RING).find_map(|_| nodes.update(0, &[()]).err());
    assert!(catch_unwind(AssertUnwindSafe(fill)).is_err());
    let made = nodes.read(2, |it, at| (it.0, at)).unwrap();
    assert_eq!(made, (RING as u64, RING as u64));
    for node in 0..3 {
        let updated = nodes.update(node, &[()]).map(|it| it.place);
        assert_eq!(updated, Err(CallError::Lost(1)));
    }
    assert_eq!(nodes.read(0, |it, _| it.0), Ok(RING as u64));
    assert_eq!(nodes.read(1, |it, _| it.0), Err(CallError::Lost(1)));
    assert_eq!(nodes.sync(1), Err(CallError::Lost(1)));
    assert!(!nodes.everywhere(0));
}

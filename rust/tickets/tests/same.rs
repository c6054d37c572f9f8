//! The generators give the same tickets again.

use std::collections::BTreeSet;
use tickets::{worst, Kind, Rng};

#[test]
fn the_same_seed_gives_the_same_tickets() {
    for kind in Kind::ALL {
        let ticket = |seed| kind.ticket(&mut Rng::new(seed));
        assert_eq!(ticket(3), ticket(3));
    }
}

#[test]
fn worst_tickets_have_names_of_their_own() {
    let names: BTreeSet<&str> = worst().iter().map(|(name, _)| name.as_str()).collect();
    assert_eq!(names.len(), worst().len());
}

//! That no difference between two sides is passed over.

use super::{same_entries, Buffers};
use crate::generate::Random;

#[test]
fn every_field_of_every_entry_is_compared() {
    let mut register = Buffers::dirty(&mut Random::new(20)).register;
    register.truncate(9);
    assert!(same_entries(&register, &register.clone()));
    assert!(!same_entries(&register, &register[..8]));
    assert!(!same_entries(&register[..8], &register));
    for place in 0..register.len() {
        for field in 0..4 {
            let mut other = register.clone();
            let entry = &mut other[place];
            let fields = [
                &mut entry.entity,
                &mut entry.rank,
                &mut entry.days,
                &mut entry.left,
            ];
            *fields[field] ^= 1 << (place + field);
            assert!(!same_entries(&register, &other), "{place} {field}");
        }
    }
}

#[test]
fn first_difference_is_told() {
    let ours = Buffers::dirty(&mut Random::new(21));
    assert_eq!(ours.difference(&ours.clone()), None);
    let mut theirs = ours.clone();
    theirs.register[3].left ^= 1;
    let told = ours.difference(&theirs).unwrap_or_default();
    assert!(told.starts_with("entry 3: "), "{told}");
    theirs.rows[39] ^= 1;
    let told = ours.difference(&theirs).unwrap_or_default();
    assert!(told.starts_with("row 40: "), "{told}");
}

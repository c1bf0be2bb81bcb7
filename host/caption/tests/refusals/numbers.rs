//! The numbers of the refusals and what they say.

use caption::Refusal;
use std::collections::BTreeSet;
use std::error::Error;

#[test]
fn a_refusal_has_the_number_it_is_made_of() {
    assert_eq!(Refusal::from_number(0), None);
    for number in (1..=20).chain([u32::MAX]) {
        assert_eq!(Refusal::from_number(number).map(Refusal::number), Some(number));
    }
}

#[test]
fn the_listed_refusals_have_their_numbers() {
    let listed = [
        (Refusal::Lent, 1),
        (Refusal::State, 2),
        (Refusal::Window, 3),
        (Refusal::Value, 4),
        (Refusal::Source, 5),
        (Refusal::Radius, 6),
        (Refusal::Glyph, 7),
        (Refusal::Panel, 9),
        (Refusal::Register, 10),
    ];
    for (refusal, number) in listed {
        assert_eq!((refusal.number(), Refusal::from_number(number)), (number, Some(refusal)));
    }
    for number in [8, 11, 20] {
        assert_eq!(Refusal::from_number(number), Some(Refusal::Unlisted(number)));
    }
}

#[test]
fn each_refusal_says_something_else() {
    let said: BTreeSet<String> = (1..=20).map(|number| Refusal::from_number(number).unwrap().to_string()).collect();
    assert_eq!(said.len(), 20);
    assert!(!said.contains(""));
    assert!(Refusal::Unlisted(17).to_string().contains("17"));
}

#[test]
fn a_refusal_is_an_error() {
    let error: Box<dyn Error> = Refusal::Radius.into();
    assert_eq!(error.downcast_ref(), Some(&Refusal::Radius));
    assert!(error.source().is_none());
}

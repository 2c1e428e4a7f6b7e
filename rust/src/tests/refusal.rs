use crate::Refusal;
use std::collections::HashSet;
use std::error::Error;

#[test]
fn numbers_are_those_of_the_papers() {
    let names = [
        "Room", "Stall", "Place", "Short", "Stuff", "Length", "Check", "Tag", "Type", "Form",
        "Ledger",
    ];
    for (number, (refusal, name)) in (1..).zip(Refusal::ALL.into_iter().zip(names)) {
        assert_eq!(refusal.number(), number);
        assert_eq!(u8::from(refusal), number);
        assert_eq!(Refusal::from_number(number), Some(refusal));
        assert_eq!(Refusal::check(number.into()), Err(refusal));
        assert_eq!(format!("{refusal:?}"), name);
    }
    assert_eq!(Refusal::ALL.len(), 11);
}

#[test]
fn other_numbers_are_no_refusals() {
    for number in (0..=255).filter(|number| !(1..=11).contains(number)) {
        assert_eq!(Refusal::from_number(number), None);
    }
    assert_eq!(Refusal::check(0), Ok(()));
    for number in [12, 255, 256, 257, 1 << 32, u64::MAX] {
        assert!(Refusal::check(number).is_err(), "{number} is no success");
    }
}

#[test]
fn each_refusal_is_an_error_with_a_text_of_its_own() {
    let texts: HashSet<String> = Refusal::ALL
        .into_iter()
        .map(|refusal| Box::<dyn Error>::from(refusal).to_string())
        .collect();
    assert_eq!(texts.len(), 11);
    assert!(texts.iter().all(|text| !text.is_empty()));
}

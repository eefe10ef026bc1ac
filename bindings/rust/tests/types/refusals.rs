//! The refusals' numbers and texts.
use planner::Refusal;
use std::error::Error;

#[test]
fn each_number() {
    for (number, &refusal) in (1..).zip(Refusal::ALL) {
        assert_eq!(refusal.number(), number);
        assert_eq!(u32::from(refusal), number);
        assert_eq!(Refusal::try_from(number), Ok(refusal));
        assert_eq!(refusal.to_string(), format!("{}: {}", refusal.what_is_wrong(), refusal.what_to_do()));
    }
    assert_eq!(Refusal::ALL.len(), 25);
}

#[test]
fn other_numbers() {
    for number in [0, Refusal::ALL.len() as u32 + 1, 257, 1 << 16, u32::MAX] {
        let unknown = Refusal::try_from(number).unwrap_err();
        assert_eq!(unknown.number(), number);
        let error: Box<dyn Error> = unknown.into();
        assert_eq!(error.to_string(), format!("no refusal has the number {number}"));
    }
}

#[test]
fn an_error_with_its_text() {
    let error: Box<dyn Error + Send + Sync> = Refusal::FileEnds.into();
    assert_eq!(error.to_string(), "the file ends early: send it again, whole");
    assert_eq!(error.downcast_ref(), Some(&Refusal::FileEnds));
}

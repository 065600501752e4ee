//! Errors have the numbers and the texts of the header.
use hokhtura::Error;

#[test]
fn errors_have_their_numbers_and_texts() {
    assert_eq!(Error::NoRoom.code(), -1);
    assert_eq!(Error::NotYours.code(), -17);
    assert_eq!(Error::Double.code(), -26);
    assert_eq!(Error::Again.to_string(), "other threads came first, or hold the side: call again");
    let error: Box<dyn std::error::Error> = Box::new(Error::Plan);
    assert_eq!(error.to_string(), "invalid size, mode or depth: no such ring, pool, table, port or window");
}

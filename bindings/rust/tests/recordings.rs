//! Traces that are written, worked out by hand, and up to the longest one.

use precopy::{Recording, Refused, Status};

fn refused(status: Status, record: Option<u32>) -> Result<(), Refused> {
    Err(Refused::Trace { status, record })
}

#[test]
fn a_write_and_a_release() {
    let mut made = Recording::new(4, 4).unwrap();
    assert_eq!(made.bytes(), b"PCWT\x02\x04\0\0\x04\0\0\0\0\0\0\0");
    assert_eq!(made.write(5, 1, 15, &[2]), Ok(()));
    assert_eq!(made.write(4, 1, 15, &[2]), refused(Status::TickOrder, Some(1)));
    assert_eq!(made.write(5, 1, 15, &[2, 2]), refused(Status::OutOfPage, Some(1)));
    assert_eq!(made.write(5, 1, 0, &[]), refused(Status::EmptyWrite, Some(1)));
    assert_eq!(
        made.write(u64::MAX, 4, u32::MAX, &[2]),
        refused(Status::TickTooLarge, Some(1))
    );
    assert_eq!(made.release(9, 4), refused(Status::PageOutOfRange, Some(1)));
    assert_eq!(made.release(9, 1), Ok(()));
    let wanted = b"PCWT\x02\x04\0\0\x04\0\0\0\x02\0\0\0\
        \x05\0\0\0\0\0\0\0\x01\0\0\0\x0f\0\x01\0\x02\
        \x09\0\0\0\0\0\0\0\x01\0\0\0\0\0\0\0";
    assert_eq!(made.bytes(), wanted);
    assert_eq!(precopy::check_trace(made.bytes()).unwrap().writes(), 2);
}

#[test]
fn no_guest() {
    assert_eq!(Recording::new(3, 0).map(drop), refused(Status::BadShift, None));
    assert_eq!(Recording::new(u32::MAX, 1).map(drop), refused(Status::BadShift, None));
    assert_eq!(Recording::new(4, 0).map(drop), refused(Status::BadPages, None));
    assert_eq!(Recording::new(12, 65_537).map(drop), refused(Status::BadPages, None));
}

#[test]
fn the_most_writes() {
    let mut made = Recording::new(4, 1).unwrap();
    for _ in 0..1 << 20 {
        assert_eq!(made.write(7, 0, 3, &[1]), Ok(()));
    }
    assert_eq!(made.write(7, 0, 3, &[1]), refused(Status::TooManyWrites, None));
    assert_eq!(made.bytes().len(), 16 + (17 << 20));
    assert_eq!(precopy::check_trace(made.bytes()).unwrap().writes(), 1 << 20);
}

#[test]
fn the_most_bytes() {
    let mut made = Recording::new(12, 1).unwrap();
    let (page, room) = ([9; 4096], (1 << 28) - 16);
    for _ in 0..room / 4112 {
        assert_eq!(made.write(0, 0, 0, &page), Ok(()));
    }
    let last = room % 4112 - 16;
    assert_eq!(made.write(0, 0, 0, &page[..last + 1]), refused(Status::TooLong, None));
    assert_eq!(made.write(0, 0, 0, &page[..last]), Ok(()));
    assert_eq!(made.bytes().len(), 1 << 28);
    assert_eq!(made.release(0, 0), refused(Status::TooLong, None));
}

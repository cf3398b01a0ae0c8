//! The wrapper for a module: a session from mount to unmount, and every refusal
//! that it can meet.

use bench::host::Goal;
use bench::module::{make, read, read_get, read_list, Mounted, Refusal};
use bench::plain::{set_word, Line, Report, Room, TOP};

#[test]
fn the_numbers_of_the_table() {
    for (i, refusal) in Refusal::ALL.into_iter().enumerate() {
        assert_eq!(refusal.number(), i as u32 + 1);
    }
}

#[test]
fn a_session_from_mount_to_unmount() {
    let (mut card, mut work) = (vec![0xEE; 5_120], vec![0xEE; 5_120]);
    assert_eq!(make(6, 1, 1, &mut card), Err(Refusal::BadGeometry));
    assert_eq!(make(10, 1, 1, &mut card), Ok(()));
    let mut session = Mounted::mount(&mut card, &mut work).expect("a fresh card");
    assert_eq!(session.put(b"left", &[7; 513]), Ok(()));
    assert_eq!(session.put_at(b"right", &[8; 5], Goal(9)), Ok(()));
    assert_eq!(
        session.put_at(b"right", &[], Goal(10)),
        Err(Refusal::NoSector)
    );
    assert_eq!(session.put(b"a b", &[]), Err(Refusal::BadName));
    assert_eq!(session.put(b"more", &[1; 600]), Err(Refusal::NoRoom));
    let mut out = [0xEE; 514];
    assert_eq!(session.get(b"left", &mut out), Ok(513));
    assert_eq!((out[512], out[513]), (7, 0xEE));
    assert_eq!(
        session.get(b"left", &mut out[..9]),
        Err(Refusal::ShortOutput)
    );
    assert_eq!(session.get(b"gone", &mut out), Err(Refusal::NoFile));
    assert_eq!(session.land(6), Ok(()));
    assert_eq!(session.land(10), Err(Refusal::NoSector));
    // Sector 6 has landed; 7, 9, directory, index, apage and table have not.
    assert_eq!(session.sync(), Ok(6));
    assert_eq!(session.sync(), Ok(1));
    assert_eq!(session.remove(b"left"), Ok(()));
    assert_eq!(session.remove(b"left"), Err(Refusal::NoFile));
    let room = Room {
        free: 1,
        waiting: 2,
    };
    assert_eq!(session.free(), Ok(room));
    let mut lines = [Line::default(); 2];
    assert_eq!(session.list(&mut lines), Ok(1));
    assert_eq!((lines[0].used_name(), lines[0].start), (&b"right"[..], 9));
    assert_eq!(read(session.card()).map(|r| (r.c, r.files)), Ok((1, 2)));
    assert_eq!(session.unmount(), Ok(4));
    let report = Report {
        c: 0,
        n: 128,
        files: 1,
        free: 3,
    };
    assert_eq!(read(&card), Ok(report));
    assert_eq!(read_list(&card, &mut lines), Ok(1));
    assert_eq!(read_get(&card, b"right", &mut out), Ok(5));
    assert_eq!(read_get(&card, b"left", &mut out), Err(Refusal::NoFile));
}

#[test]
fn cards_that_are_worn_used_up_or_not_sound() {
    let (mut card, mut work) = (vec![0; 5_120], vec![0; 5_120]);
    assert_eq!(make(10, 1, 1, &mut card), Ok(()));
    let mut worn = card.clone();
    set_word(&mut worn, 1, 0, TOP - 1);
    let mut session = Mounted::mount(&mut worn, &mut work).expect("a last count");
    assert_eq!(session.sync(), Ok(1));
    assert_eq!(session.put(b"a", &[]), Err(Refusal::Worn));
    assert_eq!(session.unmount(), Ok(0));
    set_word(&mut card, 0, 0, 128);
    let refused = |card: &mut [u8], work: &mut [u8]| Mounted::mount(card, work).err();
    assert_eq!(refused(&mut card, &mut work), Some(Refusal::NoCountLeft));
    set_word(&mut card, 0, 4, 1);
    assert_eq!(refused(&mut card, &mut work), Some(Refusal::NotSound));
    assert_eq!(
        refused(&mut card, &mut work[1..]),
        Some(Refusal::BadGeometry)
    );
}

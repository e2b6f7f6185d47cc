//! "Examples the foreman marked": K1 to K12 and every other worked example of document 01.

mod common;

use common::*;
use second::block::{check_of, BLOCK};
use second::names::Counter;
use second::print::print;
use second::refusal::Refusal;
use second::row::Row;

/// A fresh controller 1 with two writes of point 7 with empty context.
fn two_writes() -> Handheld {
    let mut one = Handheld::fresh(1, &TABLE);
    one.write(0, 7, b"a", EMPTY).unwrap();
    one.write(0, 7, b"b", EMPTY).unwrap();
    one
}

/// Controller 1 after writing 1.1 and deleting with 1:1, with the two messages.
fn written_and_deleted() -> (Handheld, Vec<u8>, Vec<u8>) {
    let mut one = Handheld::fresh(1, &TABLE);
    let write = one.write(0, 7, b"a", EMPTY).unwrap();
    let deletion = one.delete(0, 7, entry(1, 1)).unwrap();
    (one, write, deletion)
}

#[test]
fn k1_check() {
    let mut block = [0u8; BLOCK];
    block[..2].copy_from_slice(&[0x05, 0x01]);
    assert_eq!(check_of(&block), (261, 759));
}

#[test]
fn k2_adding_4_to_base_3_bits_2() {
    let row = Row::from_bits(Counter(3), 2);
    assert!(row.contains(Counter(5)));
    let row = row.adding(Counter(4));
    assert_eq!((row.base(), row.bits()), (Counter(5), 0));
}

#[test]
fn k3_adding_67_to_base_3() {
    let row = Row::from_bits(Counter(3), 0).adding(Counter(67));
    assert!(row.fits());
    assert_eq!((row.base(), row.bits()), (Counter(3), 1 << 63));
}

#[test]
fn k4_adding_68_to_base_3() {
    assert!(!Row::from_bits(Counter(3), 0).adding(Counter(68)).fits());
    // The same through the calls: controller 2 has row 1 at base 3 and is sent 1.67, then 1.68.
    let mut state = Handheld::fresh(2, &TABLE).state();
    state.clock.0[0] = Row::up_to(Counter(3));
    let mut two = Handheld::of(&state);
    let message = |counter: u32| outgoing(1, point(0, 7), object(&[(1, counter, value(b"x"))], entry(1, counter)));
    assert_eq!(two.clone().take_in(&message(67)), Ok(()));
    assert_eq!(two.take_in(&message(68)), Err(Refusal::RowTooWide));
}

#[test]
fn k5_two_writes_with_empty_context() {
    let reading = two_writes().read(0, 7);
    assert_eq!(reading.shown, vec![((1, 1), b"a".to_vec()), ((1, 2), b"b".to_vec())]);
    assert_eq!(reading.context, entry(1, 2));
}

#[test]
fn k6_then_a_write_with_context_1_1() {
    let mut one = two_writes();
    one.write(0, 7, b"c", entry(1, 1)).unwrap();
    assert_eq!(one.read(0, 7).dots(), vec![(1, 2), (1, 3)]);
}

#[test]
fn k7_with_1_2_instead() {
    let mut one = two_writes();
    one.write(0, 7, b"c", entry(1, 2)).unwrap();
    assert_eq!(one.read(0, 7).dots(), vec![(1, 3)]);
}

#[test]
fn k8_with_1_3_instead() {
    assert_eq!(two_writes().write(0, 7, b"c", entry(1, 3)), Err(Refusal::ContextAhead));
}

#[test]
fn k9_write_and_delete() {
    let (one, _, _) = written_and_deleted();
    let state = one.state();
    assert!(state.points.is_empty());
    let listed: Vec<_> = state.own_dots.into_iter().collect();
    assert_eq!(listed, vec![(dot(1, 1), point(0, 7)), (dot(1, 2), point(0, 7))]);
}

#[test]
fn k10_missed_deletion_is_repaired() {
    let (one, write, _) = written_and_deleted();
    let mut two = Handheld::fresh(2, &TABLE);
    two.take_in(&write).unwrap();
    let answer = one.reply(&two.ask(1).unwrap()).unwrap();
    assert_eq!(answer.len(), 2 * BLOCK);
    assert_eq!((answer[BLOCK + 4], answer[BLOCK + 6], answer[BLOCK + 7]), (0, 7, 0));
    assert_eq!(answer[BLOCK + 5], 0, "no version");
    assert!(answer[BLOCK + 8..BLOCK + 40].iter().all(|byte| *byte == 0), "an empty context");
    two.repair(&answer).unwrap();
    assert!(two.state().points.is_empty());
    assert_eq!(two.row(1), (2, 0));
}

#[test]
fn k11_the_message_of_1_1_comes_again() {
    let (one, write, _) = written_and_deleted();
    let mut two = Handheld::fresh(2, &TABLE);
    two.take_in(&write).unwrap();
    two.repair(&one.reply(&two.ask(1).unwrap()).unwrap()).unwrap();
    two.take_in(&write).unwrap();
    assert!(two.state().points.is_empty());
    assert!(two.read(0, 7).shown.is_empty());
}

#[test]
fn k12_the_deletion_comes_first() {
    let (_, write, deletion) = written_and_deleted();
    let mut two = Handheld::fresh(2, &TABLE);
    two.take_in(&deletion).unwrap();
    assert_eq!(two.row(1), (0, 2));
    two.take_in(&write).unwrap();
    assert!(two.read(0, 7).shown.is_empty());
    assert_eq!(two.row(1), (0, 2));
}

#[test]
fn eight_writes_with_empty_context_and_the_ninth() {
    let mut one = Handheld::fresh(1, &TABLE);
    for _ in 0..8 {
        one.write(0, 7, b"x", EMPTY).unwrap();
    }
    assert_eq!(one.read(0, 7).shown.len(), 8);
    assert_eq!(one.write(0, 7, b"x", EMPTY), Err(Refusal::TooManyVersions));
    assert_eq!(one.delete(0, 7, EMPTY), Err(Refusal::TooManyVersions));
}

#[test]
fn sixty_covering_writes_and_the_sixty_first() {
    let mut one = Handheld::fresh(1, &TABLE);
    for counter in 0..60 {
        one.write(0, 7, b"x", entry(1, counter)).unwrap();
    }
    assert_eq!(one.read(0, 7).dots(), vec![(1, 60)]);
    assert_eq!(one.write(0, 7, b"x", entry(1, 60)), Err(Refusal::OwnListFull));
    assert_eq!(one.delete(0, 7, entry(1, 60)), Err(Refusal::OwnListFull));
}

#[test]
fn the_printed_text() {
    let mut one = Handheld::fresh(1, &TABLE);
    one.write(0, 7, &[0x42, 0x41, 0x53, 0x45], EMPTY).unwrap();
    assert_eq!(print(&one.image), "controller 1 records 1 own 1 foreign 0\n0 7 1.1 42415345\n");
    one.write(0, 7, &[], EMPTY).unwrap();
    one.delete(0, 7, EMPTY).unwrap();
    one.write(0, 3, &[0xab; 24], EMPTY).unwrap();
    let text = format!(
        "controller 1 records 2 own 4 foreign 0\n0 3 1.4 {}\n0 7 1.1 42415345\n0 7 1.2 -\n0 7 1.3 deleted\n",
        "ab".repeat(24)
    );
    assert_eq!(print(&one.image), text);
}

#[test]
fn the_printed_refusals() {
    let mut one = Handheld::fresh(1, &TABLE);
    assert_eq!(print(&one.image), "controller 1 records 0 own 0 foreign 0\n");
    assert_eq!(print(&one.image[1..]), "refused 1\n");
    assert_eq!(print(&[]), "refused 1\n");
    one.image.push(0);
    assert_eq!(print(&one.image), "refused 1\n");
    one.image.pop();
    one.image[100] ^= 1;
    assert_eq!(print(&one.image), "refused 2\n");
}

#[test]
fn a_fresh_image_byte_by_byte() {
    let one = Handheld::fresh(3, &[4, 0, 0, 0, 0, 0, 0, 9]);
    let mut expected = vec![0u8; 67 * BLOCK];
    // Head: kind 1, format 1, own number, table.
    expected[0..2].copy_from_slice(&[1, 1]);
    expected[4] = 3;
    expected[8] = 4;
    expected[15] = 9;
    // Two lists of kind 2 at positions 1 and 2, with a count of 0.
    expected[BLOCK..BLOCK + 3].copy_from_slice(&[2, 1, 1]);
    expected[2 * BLOCK..2 * BLOCK + 3].copy_from_slice(&[2, 1, 2]);
    for block in 0..3 {
        let block = &mut expected[block * BLOCK..(block + 1) * BLOCK];
        let (s1, s2) = check_of(block);
        block[508..510].copy_from_slice(&s1.to_le_bytes());
        block[510..512].copy_from_slice(&s2.to_le_bytes());
    }
    assert_eq!(one.image, expected);
}

/// "Shortcuts that have cost us", one by one.
mod shortcuts {
    use super::*;

    /// "Filling the local point with the already united clock: the arriving version looks old and is dropped."
    #[test]
    fn an_arriving_version_is_not_dropped() {
        let mut one = Handheld::fresh(1, &TABLE);
        one.write(0, 7, b"a", EMPTY).unwrap();
        let mut two = Handheld::fresh(2, &TABLE);
        two.repair(&one.reply(&two.ask(1).unwrap()).unwrap()).unwrap();
        assert_eq!(two.read(0, 7).dots(), vec![(1, 1)]);
    }

    /// "Treating a dot no longer listed as an error: a late ask then fails."
    #[test]
    fn a_late_ask_is_answered() {
        let mut one = Handheld::fresh(1, &TABLE);
        let mut two = Handheld::fresh(2, &TABLE);
        let late = two.ask(1).unwrap();
        one.write(0, 7, b"a", EMPTY).unwrap();
        two.repair(&one.reply(&two.ask(1).unwrap()).unwrap()).unwrap();
        one.repair(&two.reply(&one.ask(2).unwrap()).unwrap()).unwrap();
        assert!(one.state().own_dots.is_empty(), "all peers are known to have 1.1");
        assert_eq!(one.reply(&late).unwrap().len(), BLOCK);
        two.repair(&one.reply(&late).unwrap()).unwrap();
        assert_eq!(two.read(0, 7).dots(), vec![(1, 1)]);
    }

    /// "Taking a reply addressed to another controller: it closes a row without that row's points."
    #[test]
    fn a_reply_for_another_is_refused() {
        let table = [7, 0, 0, 0, 0, 0, 0, 0];
        let mut one = Handheld::fresh(1, &table);
        let message = one.write(0, 7, b"a", EMPTY).unwrap();
        let mut two = Handheld::fresh(2, &table);
        two.take_in(&message).unwrap();
        let answer = one.reply(&two.ask(1).unwrap()).unwrap();
        assert_eq!(answer.len(), BLOCK);
        assert_eq!(Handheld::fresh(3, &table).repair(&answer), Err(Refusal::NotAnotherPeer));
    }

    /// "Keeping the highest counter instead of the base when stripping: a gap is taken for knowledge."
    #[test]
    fn a_gap_is_not_taken_for_knowledge() {
        let (_, _, deletion) = written_and_deleted();
        let mut two = Handheld::fresh(2, &TABLE);
        two.take_in(&deletion).unwrap();
        let stored = two.state().points[&point(0, 7)].clone();
        assert_eq!(stored.context.entry(controller(1)), Counter(2));
        assert_eq!(two.strip_pass(), 0);
        assert_eq!(two.state().points[&point(0, 7)], stored);
    }
}

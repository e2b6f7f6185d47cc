//! Each refusal of each call that can give it, and the order where two apply.

mod common;

use common::*;
use second::call::{Call, Op};
use second::compose::{compose, possible, sets_of_two, Wanted};
use second::random::Random;
use second::refusal::Refusal;
use second::store::Second;

/// Makes the call and holds the answer against the wanted refusals: the first of them, and then nothing changed.
fn must_answer(op: Op, wanted: &Wanted, call: &mut Call) {
    let before = call.clone();
    let (answer, count) = call.make(&Second);
    let due = wanted.first().map_or(0, |refusal| refusal.number());
    assert_eq!(answer, due, "{op:?} with {wanted:?}");
    if answer != 0 {
        assert_eq!(count, 0);
        assert_eq!(*call, before, "a refused call changed a lent byte");
    }
}

#[test]
fn each_refusal_and_each_pair() {
    let mut random = Random::new(41);
    for op in Op::ALL {
        for wanted in sets_of_two(op) {
            for _ in 0..40 {
                let mut call = compose(&mut random, op, &wanted);
                must_answer(op, &wanted, &mut call);
            }
        }
    }
}

#[test]
fn several_at_once() {
    let mut random = Random::new(42);
    for op in Op::ALL {
        let mut made = 0;
        while made < 300 {
            let share = random.between(20, 80);
            let wanted: Wanted = op.refusals().iter().copied().filter(|_| random.percent(share)).collect();
            if possible(op, &wanted) {
                let mut call = compose(&mut random, op, &wanted);
                must_answer(op, &wanted, &mut call);
                made += 1;
            }
        }
    }
}

/// Every pair of refusals of a call is composed, but for those that cannot meet.
#[test]
fn the_pairs_that_cannot_meet() {
    for op in Op::ALL {
        let refusals = op.refusals().len();
        let pairs = refusals * (refusals - 1) / 2;
        let missing = match op {
            Op::Ask | Op::Write | Op::TakeIn => 1,
            _ => 0,
        };
        assert_eq!(sets_of_two(op).len(), 1 + refusals + pairs - missing, "{op:?}");
    }
}

#[test]
fn the_numbers_are_the_tables() {
    let numbers: Vec<u32> = Refusal::ALL.iter().map(|refusal| refusal.number()).collect();
    assert_eq!(numbers, (1..=15).collect::<Vec<u32>>());
}

/// The limits themselves: what is just possible is taken, one more is not.
mod limits {
    use super::*;

    #[test]
    fn a_value_of_24_bytes_and_one_of_25() {
        let mut one = Handheld::fresh(1, &TABLE);
        assert!(one.write(0, 7, &[9; 24], EMPTY).is_ok());
        assert_eq!(one.write(0, 7, &[9; 25], EMPTY), Err(Refusal::ValueTooLong));
    }

    #[test]
    fn sixty_four_points_and_one_more() {
        // Alone in its job, so that no list fills up: the watermark of the only peer, itself, is never raised, so the
        // own list is emptied here by hand.
        let mut one = Handheld::fresh(1, &TABLE);
        for number in 1..=64 {
            one.write(0, number, b"x", EMPTY).unwrap();
            let mut state = one.state();
            state.own_dots.clear();
            one = Handheld::of(&state);
        }
        assert_eq!(one.write(0, 65, b"x", EMPTY), Err(Refusal::TooManyPoints));
        assert!(one.write(0, 64, b"x", EMPTY).is_ok());
        assert!(one.delete(0, 65, EMPTY).is_ok(), "a deletion of a point without a record stores nothing");
        assert_eq!(one.state().points.len(), 64);
    }

    #[test]
    fn the_last_counter() {
        let mut state = Handheld::fresh(1, &TABLE).state();
        state.clock.0[0] = second::row::Row::up_to(second::names::Counter(4_294_967_294));
        let mut one = Handheld::of(&state);
        assert!(one.write(0, 7, b"x", EMPTY).is_ok());
        assert_eq!(one.read(0, 7).dots(), vec![(1, 4_294_967_295)]);
        assert_eq!(one.write(0, 7, b"x", EMPTY), Err(Refusal::CountersUsedUp));
        assert_eq!(one.delete(0, 7, EMPTY), Err(Refusal::CountersUsedUp));
    }

    /// "base 3 with no bits, and a reply that carries 68 and 4, is accepted".
    #[test]
    fn the_order_of_a_replys_dots_does_not_matter() {
        let table = [7, 0, 0, 0, 0, 0, 0, 0];
        let mut state = Handheld::fresh(2, &table).state();
        state.clock.0[0] = second::row::Row::up_to(second::names::Counter(3));
        let far = (point(0, 1), object(&[(1, 68, value(b"far"))], entry(1, 68)));
        let near = (point(0, 2), object(&[(1, 4, value(b"near"))], entry(1, 4)));
        let head = letter(3, 2, &[]);
        let mut two = Handheld::of(&state);
        assert_eq!(two.clone().repair(&reply(head.clone(), std::slice::from_ref(&far))), Err(Refusal::RowTooWide));
        two.repair(&reply(head, &[far, near])).unwrap();
        assert_eq!(two.row(1), (4, 1 << 63));
        assert_eq!(two.state().foreign_dots.len(), 2);
    }

    /// A message of zeros "has a right check: it gets 4, not 3".
    #[test]
    fn a_message_of_zeros() {
        let mut one = Handheld::fresh(1, &TABLE);
        assert_eq!(one.take_in(&[0; 512]), Err(Refusal::IllFormed));
        assert_eq!(one.reply(&[0; 512]), Err(Refusal::IllFormed));
        assert_eq!(one.repair(&[0; 512]), Err(Refusal::IllFormed));
    }

    /// "start accepts any table, and a number that holds no job".
    #[test]
    fn a_controller_without_a_job() {
        let five = Handheld::fresh(5, &TABLE);
        assert_eq!(five.ask(1), Err(Refusal::NotAnotherPeer));
        assert_eq!(five.ask(5), Err(Refusal::NotAnotherPeer));
        assert_eq!(five.ask(0), Err(Refusal::OutOfRange));
        assert_eq!(five.clone().strip_pass(), 0);
        let mut one = Handheld::fresh(1, &TABLE);
        let message = one.write(0, 7, b"x", EMPTY).unwrap();
        assert_eq!(five.clone().take_in(&message), Err(Refusal::OutOfRange));
    }

    /// "The foreign dots of a step ... are listed in order of controller and counter until the list holds 60; the rest
    /// are not listed."
    #[test]
    fn a_full_foreign_list() {
        let table = [7, 0, 0, 0, 0, 0, 0, 0];
        let mut state = Handheld::fresh(2, &table).state();
        state.clock.0[0] = second::row::Row::up_to(second::names::Counter(58));
        for counter in 1..=58 {
            state.foreign_dots.insert(dot(1, counter), point(0, 9));
        }
        let mut two = Handheld::of(&state);
        let versions = [(1, 59, value(b"a")), (1, 61, value(b"b")), (3, 1, value(b"c"))];
        let mut context = entry(1, 61);
        context[2] = 1;
        two.take_in(&outgoing(3, point(0, 7), object(&versions, context))).unwrap();
        let after = two.state();
        assert_eq!(after.foreign_dots.len(), 60);
        assert!(after.foreign_dots.contains_key(&dot(1, 59)) && after.foreign_dots.contains_key(&dot(1, 61)));
        assert!(!after.foreign_dots.contains_key(&dot(3, 1)), "no room for the last in order");
        assert_eq!(two.read(0, 7).dots(), vec![(1, 59), (1, 61), (3, 1)]);
    }

    /// "the rest keeps its bytes".
    #[test]
    fn the_rest_of_a_reply_buffer() {
        let mut one = Handheld::fresh(1, &TABLE);
        one.write(0, 7, b"x", EMPTY).unwrap();
        let two = Handheld::fresh(2, &TABLE);
        let mut out = vec![0x77; 61_952 + 5];
        assert_eq!(second::calls::reply(&one.image, &two.ask(1).unwrap(), &mut out), Ok(1));
        assert!(out[1024..].iter().all(|byte| *byte == 0x77));
        assert_eq!(
            second::calls::reply(&one.image, &two.ask(1).unwrap(), &mut out[..61_951]),
            Err(Refusal::WrongLength)
        );
    }

    /// "Each point found ... is sent once, as stored", and the reply's blocks, byte by byte where it matters.
    #[test]
    fn a_reply_of_several_points() {
        let mut one = Handheld::fresh(1, &TABLE);
        one.write(0, 300, b"x", EMPTY).unwrap();
        one.write(0, 7, b"y", EMPTY).unwrap();
        one.write(0, 7, b"z", EMPTY).unwrap();
        one.delete(0, 9, EMPTY).unwrap();
        let answer = one.reply(&Handheld::fresh(2, &TABLE).ask(1).unwrap()).unwrap();
        assert_eq!(answer.len(), 4 * 512);
        assert_eq!(answer[..8], [6, 1, 0, 0, 1, 2, 3, 0]);
        assert_eq!(answer[8..12], [4, 0, 0, 0], "row 1");
        let heads: Vec<&[u8]> = (1..4).map(|place| &answer[place * 512..place * 512 + 8]).collect();
        assert_eq!(heads[0], [3, 1, 1, 0, 0, 2, 7, 0]);
        assert_eq!(heads[1], [3, 1, 2, 0, 0, 0, 9, 0]);
        assert_eq!(heads[2], [3, 1, 3, 0, 0, 1, 44, 1]);
    }
}

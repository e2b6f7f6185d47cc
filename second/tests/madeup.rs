//! Made-up good images are good, and whatever a made-up message does to one, it stays good.

mod common;

use common::*;
use second::image;
use second::madeup::*;
use second::random::Random;
use second::refusal::Refusal;
use std::collections::BTreeMap;

#[test]
fn made_up_states_are_good_and_come_back() {
    let mut random = Random::new(21);
    let (mut full_points, mut full_own, mut full_foreign, mut eight, mut last) = (0, 0, 0, 0, 0);
    for _ in 0..3000 {
        let state = good_state(&mut random);
        let bytes = image::encode(&state);
        assert_eq!(image::decode(&bytes).as_ref(), Some(&state));
        full_points += u32::from(state.points.len() == 64);
        full_own += u32::from(state.own_dots.len() == 60);
        full_foreign += u32::from(state.foreign_dots.len() == 60);
        eight += u32::from(state.points.values().any(|object| object.versions.len() == 8));
        last += u32::from(state.clock.0.iter().any(|row| row.base().0 == 4_294_967_295));
    }
    for corner in [full_points, full_own, full_foreign, eight, last] {
        assert!(corner > 30, "{full_points} {full_own} {full_foreign} {eight} {last}");
    }
}

#[test]
fn accepted_made_up_messages_leave_good_images() {
    let mut random = Random::new(22);
    let mut answers: BTreeMap<(&str, u32), u32> = BTreeMap::new();
    let mut note = |call, answer: Result<(), Refusal>| {
        *answers.entry((call, answer.map_or_else(Refusal::number, |()| 0))).or_default() += 1;
    };
    for _ in 0..4000 {
        let mut device = Handheld::of(&good_state(&mut random));
        for _ in 0..4 {
            let state = device.state();
            let before = device.image.clone();
            let answer = match random.below(3) {
                0 => {
                    let Some(message) = some_outgoing(&mut random, &state) else { continue };
                    let answer = device.take_in(&message.encode());
                    note("take_in", answer);
                    answer
                }
                1 => {
                    let answer = device.repair(&some_reply(&mut random, &state).encode());
                    note("repair", answer);
                    answer
                }
                _ => {
                    let answer = device.reply(&some_ask(&mut random, &state).encode_ask());
                    note("reply", answer.clone().map(|_| ()));
                    answer.map(|_| ())
                }
            };
            assert_ne!(answer, Err(Refusal::WrongCheck));
            assert_ne!(answer, Err(Refusal::IllFormed), "made-up messages are well-formed");
            if answer.is_err() {
                assert_eq!(before, device.image);
            }
            device.state();
        }
    }
    // 12 needs more intent than chance has; the composed cases have it.
    for call in ["take_in", "repair"] {
        for answer in [0, 5, 6, 9, 10, 11, 13] {
            assert!(answers.contains_key(&(call, answer)), "{call} never answered {answer}: {answers:?}");
        }
    }
    for answer in [0, 6, 9] {
        assert!(answers.contains_key(&("reply", answer)), "{answers:?}");
    }
}

#[test]
fn a_strip_pass_changes_no_reading() {
    let mut random = Random::new(23);
    let mut gone_in_all = 0;
    for _ in 0..1500 {
        let mut device = Handheld::of(&good_state(&mut random));
        let before = device.state();
        let gone = device.strip_pass();
        let after = device.state();
        assert_eq!(before.points.len() - after.points.len(), gone as usize);
        for point in before.points.keys() {
            assert_eq!(second::steps::read(&before, *point), second::steps::read(&after, *point));
        }
        assert_eq!((before.clock, before.own_dots, before.watermark), (after.clock, after.own_dots, after.watermark));
        assert_eq!(device.strip_pass(), 0, "a second pass finds nothing to do");
        gone_in_all += gone;
    }
    assert!(gone_in_all > 100);
}

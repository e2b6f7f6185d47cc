//! Every clause of "good" and of refusal 4, broken by a flaw of its own.

use second::call::{Call, Op};
use second::calls;
use second::flaws::*;
use second::image;
use second::madeup::*;
use second::random::Random;
use second::refusal::Refusal;
use second::steps::LONGEST_REPLY;
use second::store::Second;
use std::collections::{BTreeMap, BTreeSet};

#[test]
fn every_image_flaw_is_noticed() {
    let mut random = Random::new(31);
    let mut times: BTreeMap<&str, u32> = BTreeMap::new();
    for _ in 0..1200 {
        let state = good_state(&mut random);
        for (name, flaw) in image_flaws() {
            if let Some(image) = flaw(&mut random, &state) {
                assert!(image::decode(&image).is_none(), "not noticed: {name}");
                *times.entry(name).or_default() += 1;
            }
        }
    }
    for (name, _) in image_flaws() {
        assert!(times.get(name).is_some_and(|times| *times >= 20), "too seldom possible: {name} {times:?}");
    }
}

/// The form flaws of a point's block one by one: each must have been possible in stored points and in kind 4.
#[test]
fn every_flaw_of_a_points_block_is_noticed() {
    let mut random = Random::new(32);
    let mut times: BTreeMap<(&str, &str), u32> = BTreeMap::new();
    for _ in 0..1500 {
        let state = good_state(&mut random);
        let good = image::encode(&state);
        for (name, flaw) in ANY_BLOCK.iter().chain(POINT_BLOCK).chain(STORED_SENDER) {
            if state.points.is_empty() {
                continue;
            }
            let number = 3 + random.below(state.points.len());
            let mut image = good.clone();
            let block = &mut image[number * 512..(number + 1) * 512];
            if flaw(&mut random, block).is_some() {
                second::block::mend(block);
                assert!(image == good || image::decode(&image).is_none(), "not noticed in an image: {name}");
                *times.entry(("image", name)).or_default() += 1;
            }
        }
        let Some(message) = some_outgoing(&mut random, &state) else { continue };
        for (name, flaw) in ANY_BLOCK.iter().chain(POINT_BLOCK).chain(OUTGOING_SENDER) {
            let mut block = message.encode();
            if flaw(&mut random, &mut block).is_some() && block != message.encode() {
                second::block::mend(&mut block);
                let answer = calls::take_in(&mut good.clone(), &block);
                assert_eq!(answer, Err(Refusal::IllFormed), "{name}");
                *times.entry(("kind 4", name)).or_default() += 1;
            }
        }
    }
    for (name, _) in ANY_BLOCK.iter().chain(POINT_BLOCK) {
        for place in ["image", "kind 4"] {
            assert!(times.get(&(place, *name)).is_some_and(|times| *times >= 10), "too seldom: {place} {name}");
        }
    }
}

#[test]
fn every_message_flaw_is_refused_with_4() {
    let mut random = Random::new(33);
    let mut names: BTreeMap<Op, BTreeSet<&str>> = BTreeMap::new();
    for _ in 0..6000 {
        let state = good_state(&mut random);
        for op in [Op::TakeIn, Op::Reply, Op::Repair] {
            if let Some((bytes, name)) = ill_formed(&mut random, op, &state) {
                let mut call = Call::on(op, image::encode(&state));
                call.input = bytes;
                call.out = vec![0; LONGEST_REPLY];
                assert_eq!(call.make(&Second), (Refusal::IllFormed.number(), 0), "{op:?}: {name}");
                names.entry(op).or_default().insert(name);
            }
        }
    }
    for op in [Op::TakeIn, Op::Reply, Op::Repair] {
        assert_eq!(names[&op].len(), ill_forms(op), "{op:?}: {names:?}");
    }
}

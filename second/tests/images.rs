//! Streams of images: every kind is in them, good ones and others both, and they come back.

use second::call::Op;
use second::crew::Shape;
use second::flaws::{image_flaws, ANY_BLOCK, POINT_BLOCK, STORED_SENDER};
use second::image::{is_good, IMAGE};
use second::images::{images, Tally, DAMAGES, LENGTHS, NOISE};
use second::store::{Second, Store};
use second::stream::{replay, ReplayError};

fn stream(seed: u64, count: u64) -> (Vec<u8>, Tally) {
    let mut bytes = Vec::new();
    let tally = images(seed, count, &mut bytes).unwrap();
    (bytes, tally)
}

/// How many of a kind there are at least: not good, and good. Where that is 0, there must be none.
fn expect(tally: &Tally, kind: &str, least: [u64; 2]) {
    let times = tally.get(kind).copied().unwrap_or_default();
    let enough = |which: usize| if least[which] == 0 { times[which] == 0 } else { times[which] >= least[which] };
    assert!(enough(0) && enough(1), "{kind}: {times:?}");
}

#[test]
fn every_kind_is_in_a_stream() {
    let (_, tally) = stream(61, 20_000);
    for kind in ["fresh", "full, one version a point", "full, eight versions a point", "made up"] {
        expect(&tally, kind, [0, 20]);
    }
    for (name, _) in Shape::ALL {
        expect(&tally, &format!("crew {name}"), [0, 1]);
    }
    for name in image_flaws().map(|flaw| flaw.0) {
        expect(&tally, &format!("flaw: {name}"), [5, 0]);
    }
    for (name, _) in ANY_BLOCK.iter().chain(POINT_BLOCK).chain(STORED_SENDER) {
        expect(&tally, &format!("flaw: {name}"), [5, 0]);
    }
    for length in LENGTHS {
        expect(&tally, &format!("length {length}"), [2, 0]);
    }
    for (kind, _) in DAMAGES.iter().chain(NOISE) {
        assert!(tally.get(*kind).is_some_and(|times| times[0] >= 10), "{kind}: {tally:?}");
    }
    assert_eq!(tally.values().flatten().sum::<u64>(), 20_000);
}

/// A byte changed and the check put right can leave a good image, and so can a record's removal: the kind does not tell
/// the verdict.
#[test]
fn some_damages_leave_good_images() {
    let (_, tally) = stream(62, 20_000);
    for place in ["the head", "a list", "a record"] {
        expect(&tally, &format!("byte of {place}"), [20, 0]);
        expect(&tally, &format!("byte of {place}, resealed"), [20, 20]);
    }
    expect(&tally, "block removed, renumbered", [20, 20]);
    expect(&tally, "context entry copied, resealed", [20, 20]);
    expect(&tally, "version copied, resealed", [20, 0]);
}

#[test]
fn a_stream_of_images_comes_back() {
    let (bytes, _) = stream(63, 2000);
    assert_eq!(replay(&Second, &bytes[..]).unwrap().calls, 2000);
    assert_eq!(bytes, stream(63, 2000).0);
    for count in [0, 1, 50] {
        assert_eq!(replay(&Second, &stream(64, count).0[..]).unwrap().calls, count);
    }
}

/// A store that takes too long an image for a good one is found out.
#[test]
fn another_verdict_is_a_mismatch() {
    struct AnyTail;
    impl Store for AnyTail {
        fn good(&self, image: &[u8]) -> bool {
            is_good(image) || image.len() > IMAGE
        }
    }
    match replay(&AnyTail, &stream(65, 2000).0[..]) {
        Err(ReplayError::Mismatch(what)) => assert!(what.contains("length 34305"), "{what}"),
        other => panic!("{other:?}"),
    }
    assert!(Op::numbered(10).is_none(), "the number of the question is no call's");
}

//! Recorded streams: what is recorded comes back, nothing escapes the replay, and the cases cover what they must.

use second::call::Op;
use second::calls;
use second::cases::cases;
use second::refusal::Refusal;
use second::store::{Looked, Second, Store};
use second::stream::{replay, ReplayError};

fn stream(seed: u64, count: u64) -> Vec<u8> {
    let mut bytes = Vec::new();
    cases(&Second, seed, count, &mut bytes).unwrap();
    bytes
}

#[test]
fn a_stream_comes_back() {
    let mut bytes = Vec::new();
    let answers = cases(&Second, 51, 20_000, &mut bytes).unwrap();
    let replayed = replay(&Second, &bytes[..]).unwrap();
    assert_eq!(replayed.calls, 20_000);
    assert_eq!(replayed.answers, answers);
    for op in Op::ALL {
        assert!(answers.contains_key(&(op, 0)), "{op:?} is never accepted");
        for refusal in op.refusals() {
            assert!(answers.contains_key(&(op, refusal.number())), "{op:?} never answers {refusal:?}");
        }
    }
    let possible = |op: Op, answer: u32| answer == 0 || op.refusals().iter().any(|refusal| refusal.number() == answer);
    assert!(answers.keys().all(|(op, answer)| possible(*op, *answer)), "{answers:?}");
}

#[test]
fn a_seed_gives_one_stream() {
    assert_eq!(stream(52, 1000), stream(52, 1000));
    assert_ne!(stream(52, 1000), stream(53, 1000));
}

#[test]
fn a_short_stream_is_a_whole_one() {
    for count in [0, 1, 5, 100] {
        assert_eq!(replay(&Second, &stream(54, count)[..]).unwrap().calls, count);
    }
}

#[test]
fn a_cut_or_foreign_stream_is_none() {
    let bytes = stream(55, 50);
    for length in [0, 15, 16, 17, bytes.len() / 2, bytes.len() - 1] {
        assert!(matches!(replay(&Second, &bytes[..length]), Err(ReplayError::Stream(_))));
    }
    assert!(matches!(replay(&Second, &b"something else, not a stream"[..]), Err(ReplayError::Stream(_))));
}

/// Stores that do one thing otherwise than recorded.
#[test]
fn every_difference_is_a_mismatch() {
    struct Answers;
    impl Store for Answers {
        fn delete(
            &self,
            image: &mut [u8],
            job: u8,
            point: u16,
            context: &[u32],
            out: &mut [u8],
        ) -> Result<(), Refusal> {
            match calls::delete(image, job, point, context, out) {
                Err(Refusal::CountersUsedUp) => Err(Refusal::OwnListFull),
                answer => answer,
            }
        }
    }
    struct Counts;
    impl Store for Counts {
        fn strip_pass(&self, image: &mut [u8]) -> Result<u32, Refusal> {
            calls::strip_pass(image).map(|_| 0)
        }
    }
    struct Scribbles;
    impl Store for Scribbles {
        fn take_in(&self, image: &mut [u8], message: &[u8]) -> Result<(), Refusal> {
            let answer = calls::take_in(image, message);
            if answer == Err(Refusal::DotClash) {
                image[0] ^= 1;
            }
            answer
        }
    }
    struct Clears;
    impl Store for Clears {
        fn reply(&self, image: &[u8], ask: &[u8], out: &mut [u8]) -> Result<u32, Refusal> {
            let count = calls::reply(image, ask, out)?;
            out[(1 + count as usize) * 512..].fill(0);
            Ok(count)
        }
    }
    let bytes = stream(56, 20_000);
    for (name, store) in
        [("answer", &Answers as &dyn Store), ("count", &Counts), ("image", &Scribbles), ("out", &Clears)]
    {
        match replay(store, &bytes[..]) {
            Err(ReplayError::Mismatch(what)) => assert!(what.contains(name), "{what}"),
            other => panic!("{name}: {other:?}"),
        }
    }
}

/// After every accepted call of a stream the image is good.
#[test]
fn accepted_calls_leave_good_images() {
    replay(&Looked, &stream(57, 30_000)[..]).unwrap();
}

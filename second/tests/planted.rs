//! The simulator is worth something only if it notices faults. Here it is run on stores with a planted one: the
//! document's "Shortcuts that have cost us", its four empty programs, and a few more. Each must be noticed.

use second::block::{mend, BLOCK};
use second::calls;
use second::image;
use second::messages::{Letter, Reply};
use second::names::Counter;
use second::refusal::Refusal;
use second::simulate::{simulate, Settings, Violation};
use second::store::{Second, Store};

/// Runs the simulator until it notices the fault.
fn noticed(store: &dyn Store) -> Violation {
    let settings = Settings { seed: 11, steps: 60_000, shape: None, longest: 1500 };
    match simulate(store, &settings) {
        Ok(report) => panic!("the fault was not noticed:\n{report}"),
        Err(violation) => *violation,
    }
}

/// A repair on a reply that was changed first.
fn repair_with(image: &mut [u8], bytes: &[u8], change: impl Fn(&mut Reply)) -> Result<(), Refusal> {
    let table = image::decode(image).expect("a good image").table;
    let mut reply = Reply::decode(bytes, &table)?;
    change(&mut reply);
    calls::repair(image, &reply.encode())
}

#[test]
fn without_a_fault_nothing_is_noticed() {
    let settings = Settings { seed: 11, steps: 60_000, shape: None, longest: 1500 };
    simulate(&Second, &settings).unwrap_or_else(|violation| panic!("{violation}"));
}

/// "Filling the local point with the already united clock: the arriving version looks old and is dropped."
#[test]
fn fills_with_the_united_clock() {
    struct Faulty;
    impl Store for Faulty {
        fn repair(&self, image: &mut [u8], bytes: &[u8]) -> Result<(), Refusal> {
            calls::repair(&mut image.to_vec(), bytes)?;
            let mut state = image::decode(image).expect("a good image");
            let reply = Reply::decode(bytes, &state.table)?;
            state.clock.unite(reply.head.sender, reply.head.clock.row(reply.head.sender));
            let mut early = image::encode(&state);
            calls::repair(&mut early, bytes)?;
            image.copy_from_slice(&early);
            Ok(())
        }
    }
    assert!(noticed(&Faulty).what.contains("must show"));
}

/// "Leaving a point without a record out of the reply: the wall."
#[test]
fn leaves_out_points_without_a_record() {
    struct Faulty;
    impl Store for Faulty {
        fn reply(&self, image: &[u8], ask: &[u8], out: &mut [u8]) -> Result<u32, Refusal> {
            let mut whole = out.to_vec();
            let count = calls::reply(image, ask, &mut whole)? as usize;
            let table = image::decode(image).expect("a good image").table;
            let mut reply = Reply::decode(&whole[..(1 + count) * BLOCK], &table).expect("our own reply");
            reply.points.retain(|_, object| !object.versions.is_empty() || !object.context.is_empty());
            let blocks = reply.encode();
            out[..blocks.len()].copy_from_slice(&blocks);
            Ok(reply.points.len() as u32)
        }
    }
    noticed(&Faulty);
}

/// "Treating a dot no longer listed as an error: a late ask then fails."
#[test]
fn refuses_a_late_ask() {
    struct Faulty;
    impl Store for Faulty {
        fn reply(&self, image: &[u8], ask: &[u8], out: &mut [u8]) -> Result<u32, Refusal> {
            let state = image::decode(image).expect("a good image");
            let asker = Letter::decode_ask(ask, &state.table)?;
            let theirs = asker.clock.row(state.own).base();
            let listed_from = state.own_dots.keys().next().map_or(state.own_base().next(), |dot| dot.counter);
            if asker.addressee == state.own && theirs.next() < listed_from {
                return Err(Refusal::HistoryLost);
            }
            calls::reply(image, ask, out)
        }
    }
    assert!(noticed(&Faulty).what.contains("reply refused"));
}

/// "Taking a reply addressed to another controller: it closes a row without that row's points."
#[test]
fn takes_a_reply_for_another() {
    struct Faulty;
    impl Store for Faulty {
        fn repair(&self, image: &mut [u8], bytes: &[u8]) -> Result<(), Refusal> {
            let mut ours = bytes.to_vec();
            ours[5] = image[4];
            mend(&mut ours[..BLOCK]);
            calls::repair(image, &ours)
        }
    }
    noticed(&Faulty);
}

/// "Keeping the highest counter instead of the base when stripping: a gap is taken for knowledge."
#[test]
fn strips_by_the_highest_counter() {
    struct Faulty;
    impl Store for Faulty {
        fn strip_pass(&self, image: &mut [u8]) -> Result<u32, Refusal> {
            let mut state = image::decode(image).expect("a good image");
            let before = state.points.len();
            for object in state.points.values_mut() {
                for (entry, row) in object.context.0.iter_mut().zip(&state.clock.0) {
                    if *entry <= row.highest() {
                        *entry = Counter::NONE;
                    }
                }
            }
            state.points.retain(|_, object| object.has_value() || !object.context.is_empty());
            image.copy_from_slice(&image::encode(&state));
            Ok((before - state.points.len()) as u32)
        }
    }
    noticed(&Faulty);
}

/// Document 001's algorithm 1 "puts the new counter in the client's context *before* merging, which would drop an own
/// version that the client never read".
#[test]
fn drops_unread_own_versions() {
    struct Faulty;
    impl Store for Faulty {
        fn write(
            &self,
            image: &mut [u8],
            job: u8,
            point: u16,
            value: &[u8],
            context: &[u32],
            out: &mut [u8],
        ) -> Result<(), Refusal> {
            let state = image::decode(image).expect("a good image");
            let mut raised = context.to_vec();
            raised[state.own.index()] = state.own_base().to_u32();
            calls::write(image, job, point, value, &raised, out)
        }
    }
    assert!(noticed(&Faulty).what.contains("must show"));
}

/// "One that refuses everything".
#[test]
fn refuses_everything() {
    struct Faulty;
    impl Store for Faulty {
        fn take_in(&self, _: &mut [u8], _: &[u8]) -> Result<(), Refusal> {
            Err(Refusal::DotClash)
        }
    }
    assert!(noticed(&Faulty).what.contains("refused"));
}

/// "One that shows nothing, or always the same reading".
#[test]
fn shows_nothing() {
    struct Faulty;
    impl Store for Faulty {
        fn read(&self, image: &[u8], job: u8, point: u16, out: &mut [u8]) -> Result<(), Refusal> {
            calls::read(image, job, point, out)?;
            out[5] = 0;
            out[40..296].fill(0);
            mend(out);
            Ok(())
        }
    }
    assert!(noticed(&Faulty).what.contains("must"));
}

/// "One that leaves the image untouched".
#[test]
fn leaves_the_image_untouched() {
    struct Faulty;
    impl Store for Faulty {
        fn delete(
            &self,
            image: &mut [u8],
            job: u8,
            point: u16,
            context: &[u32],
            out: &mut [u8],
        ) -> Result<(), Refusal> {
            calls::delete(&mut image.to_vec(), job, point, context, out)
        }
    }
    assert!(noticed(&Faulty).what.contains("must show"));
}

/// "One that repairs the reply's first point and merely closes the clock for the others".
#[test]
fn repairs_the_first_point_only() {
    struct Faulty;
    impl Store for Faulty {
        fn repair(&self, image: &mut [u8], bytes: &[u8]) -> Result<(), Refusal> {
            repair_with(image, bytes, |reply| {
                if let Some((&first, _)) = reply.points.first_key_value() {
                    reply.points.retain(|point, _| *point == first);
                }
            })
        }
    }
    noticed(&Faulty);
}

/// The reply's objects filled with nobody's clock.
#[test]
fn does_not_fill_the_replys_objects() {
    struct Faulty;
    impl Store for Faulty {
        fn repair(&self, image: &mut [u8], bytes: &[u8]) -> Result<(), Refusal> {
            calls::repair(&mut image.to_vec(), bytes)?;
            // The sender's row is kept for the union, all others are forgotten; the versions stay covered.
            repair_with(image, bytes, |reply| {
                let kept = reply.head.clock.row(reply.head.sender).clone();
                reply.head.clock = Default::default();
                reply.head.clock.0[reply.head.sender.index()] = kept;
                for object in reply.points.values_mut() {
                    for dot in object.versions.keys() {
                        object.context.raise(dot.controller, dot.counter);
                    }
                }
            })
        }
    }
    noticed(&Faulty);
}

/// A listed dot removed as soon as the sender has it, not every peer.
#[test]
fn forgets_dots_too_early() {
    struct Faulty;
    impl Store for Faulty {
        fn repair(&self, image: &mut [u8], bytes: &[u8]) -> Result<(), Refusal> {
            calls::repair(image, bytes)?;
            let mut state = image::decode(image).expect("a good image");
            let highest = state.watermark.iter().fold([Counter::NONE; 8], |mut most, row| {
                for (most, entry) in most.iter_mut().zip(row) {
                    *most = (*most).max(*entry);
                }
                most
            });
            state.own_dots.retain(|dot, _| highest[dot.controller.index()] < dot.counter);
            image.copy_from_slice(&image::encode(&state));
            Ok(())
        }
    }
    noticed(&Faulty);
}

/// A refused call that changes a byte.
#[test]
fn scribbles_on_refusal() {
    struct Faulty;
    impl Store for Faulty {
        fn take_in(&self, image: &mut [u8], message: &[u8]) -> Result<(), Refusal> {
            let answer = calls::take_in(image, message);
            if answer == Err(Refusal::OutOfRange) {
                image[511] ^= 1;
            }
            answer
        }
    }
    assert!(noticed(&Faulty).what.contains("changed a lent byte"));
}

//! The kept corpus is worth keeping: it has every call with every answer that the call can give, and it notices planted faults.

use fuzz::{tried, tried_by, GOOD};
use second::block::{mend, BLOCK};
use second::call::Op;
use second::refusal::Refusal;
use second::store::{Second, Store};
use std::collections::BTreeSet;
use std::fs;

fn corpus() -> Vec<Vec<u8>> {
    let folder = concat!(env!("CARGO_MANIFEST_DIR"), "/corpus");
    fs::read_dir(folder)
        .expect("the corpus")
        .map(|file| fs::read(file.expect("a file").path()).expect("its bytes"))
        .collect()
}

#[test]
fn every_answer_of_every_call() {
    let given: BTreeSet<(u8, u32)> = corpus().iter().map(|bytes| tried(bytes).expect("no difference")).collect();
    let mut due = BTreeSet::from([(GOOD, 0), (GOOD, 2)]);
    for op in Op::ALL {
        due.insert((op as u8, 0));
        due.extend(op.refusals().iter().map(|refusal| (op as u8, refusal.number())));
    }
    assert_eq!(given, due);
}

fn is_noticed(faulty: &dyn Store) {
    let noticed = corpus().iter().filter(|bytes| tried_by(bytes, faulty, &Second).is_err()).count();
    assert!(noticed > 0);
}

/// Leaves the watermark as it was.
struct NoMarks;

impl Store for NoMarks {
    fn repair(&self, image: &mut [u8], reply: &[u8]) -> Result<(), Refusal> {
        let before = image.to_vec();
        Second.repair(image, reply)?;
        image[112..368].copy_from_slice(&before[112..368]);
        mend(&mut image[..BLOCK]);
        Ok(())
    }
}

#[test]
fn a_watermark_that_is_not_raised() {
    is_noticed(&NoMarks);
}

/// Writes its message before it looks whether there is room for the dot.
struct EarlyMessage;

impl Store for EarlyMessage {
    fn write(
        &self,
        image: &mut [u8],
        job: u8,
        point: u16,
        value: &[u8],
        context: &[u32],
        out: &mut [u8],
    ) -> Result<(), Refusal> {
        let answer = Second.write(image, job, point, value, context, out);
        if answer == Err(Refusal::OwnListFull) {
            out[0] = 4;
        }
        answer
    }
}

#[test]
fn a_byte_written_by_a_refused_call() {
    is_noticed(&EarlyMessage);
}

/// Takes a clash for the rarer refusal after it.
struct ClashIsTooWide;

impl Store for ClashIsTooWide {
    fn take_in(&self, image: &mut [u8], message: &[u8]) -> Result<(), Refusal> {
        let other = |refusal| if refusal == Refusal::DotClash { Refusal::RowTooWide } else { refusal };
        Second.take_in(image, message).map_err(other)
    }
}

#[test]
fn another_refusal() {
    is_noticed(&ClashIsTooWide);
}

/// Counts the points of a reply and nothing of a strip pass.
struct NothingGone;

impl Store for NothingGone {
    fn strip_pass(&self, image: &mut [u8]) -> Result<u32, Refusal> {
        Second.strip_pass(image).map(|_| 0)
    }
}

#[test]
fn another_count() {
    is_noticed(&NothingGone);
}

/// Looks at no check.
struct AnyCheck;

impl Store for AnyCheck {
    fn good(&self, image: &[u8]) -> bool {
        let mut mended = image.to_vec();
        mended.chunks_exact_mut(BLOCK).filter(|block| block[0] != 0).for_each(mend);
        Second.good(&mended)
    }
}

#[test]
fn a_check_that_is_not_looked_at() {
    is_noticed(&AnyCheck);
}

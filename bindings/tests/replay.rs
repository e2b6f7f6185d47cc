//! The replay on small streams: one that is right, and every kind of difference and cut.

use sqimrutta::{raw, Image, Refusal, BLOCK, IMAGE};
use std::io::Write;
use std::process::{Command, Stdio};

const TABLE_OF_TWO: [u8; 8] = [0b11, 0, 0, 0, 0, 0, 0, 0];

/// Runs the replay: its exit code, and what it prints.
fn replay(stream: &[u8]) -> (Option<i32>, String) {
    let mut program = Command::new(env!("CARGO_BIN_EXE_replay"))
        .stdin(Stdio::piped())
        .stdout(Stdio::piped())
        .stderr(Stdio::null())
        .spawn()
        .expect("the replay starts");
    // It may stop reading at a difference, so the rest of the stream need not arrive.
    let _ = program.stdin.take().expect("a pipe").write_all(stream);
    let output = program.wait_with_output().expect("the replay ends");
    (output.status.code(), String::from_utf8_lossy(&output.stdout).into_owned())
}

/// A record that is no call.
fn record(tag: u8, slot: u8, first: usize, second: usize, bytes: &[u8]) -> Vec<u8> {
    let mut record = vec![tag, slot, 0, 0];
    record.extend((first as u32).to_le_bytes());
    record.extend((second as u32).to_le_bytes());
    record.extend([0; 4]);
    record.extend(bytes);
    record
}

/// What is recorded of the calls of the small stream.
#[derive(Clone)]
struct Recorded {
    start: u8,
    image: Vec<u8>,
    reading: Vec<u8>,
    gone: u8,
    good: u8,
    calls: u8,
}

impl Recorded {
    fn right() -> Result<Recorded, Refusal> {
        let image = Image::start(1, &TABLE_OF_TWO)?.as_bytes().to_vec();
        let mut reading = vec![0; BLOCK];
        raw::read(&image, 0, 7, &mut reading)?;
        Ok(Recorded { start: 0, image, reading, gone: 0, good: 1, calls: 4 })
    }

    /// Start, read and strip pass on slot 0, with the table in slot 1 and the reading to slot 2; and the question whether slot 0 is good.
    fn stream(&self) -> Vec<u8> {
        [
            b"SQIMRUTTA CASES1".to_vec(),
            record(16, 1, 8, 0, &TABLE_OF_TWO),
            record(19, 0, IMAGE, 0, &[]),
            record(19, 2, BLOCK, 0, &[]),
            record(20, 0, 5, 0, b"fresh"),
            vec![1, self.start, 0, 1, 255, 255, 1, 0, 0, 0, 1, 0, 0, 0, 0, 0],
            record(17, 0, 0, IMAGE, &self.image),
            vec![2, 0, 0, 255, 255, 2, 0, 0, 7, 0, 1, 0, 0, 0, 0, 0],
            record(17, 2, 0, BLOCK, &self.reading),
            vec![9, 0, 0, 255, 255, 255, 0, 0, 0, 0, 0, 0, self.gone, 0, 0, 0],
            vec![10, self.good, 0, 0, 0, 0, 0, 0, 0, 0, 0, 0, 0, 0, 0, 0],
            vec![0, 0, 0, 0, 0, 0, 0, 0, self.calls, 0, 0, 0, 0, 0, 0, 0],
        ]
        .concat()
    }
}

#[test]
fn a_right_stream_has_no_mismatch() -> Result<(), Refusal> {
    let told = "start: 1 calls; answer 0: 1\nread: 1 calls; answer 0: 1\nstrip_pass: 1 calls; answer 0: 1\n\
                good: 1 calls; answer 1: 1\n4 calls, 0 of them passed over, no mismatch\n";
    assert_eq!(replay(&Recorded::right()?.stream()), (Some(0), told.to_string()));
    Ok(())
}

#[test]
fn every_difference_is_a_mismatch() -> Result<(), Refusal> {
    let right = Recorded::right()?;
    let stopped = |recorded: Recorded, told: &str| {
        assert_eq!(replay(&recorded.stream()), (Some(1), format!("{told}\n")));
    };
    stopped(Recorded { start: 5, ..right.clone() }, "call 1 (number 1, about: fresh): answer: is 0, recorded is 5");
    stopped(Recorded { gone: 3, ..right.clone() }, "call 3 (number 9, about: fresh): count: is 0, recorded is 3");
    stopped(Recorded { good: 0, ..right.clone() }, "call 4 (number 10, about: fresh): answer: is 1, recorded is 0");
    for at in [0, 4, IMAGE - 1] {
        let mut other = right.clone();
        other.image[at] ^= 255;
        let (is, recorded) = (right.image[at], other.image[at]);
        stopped(other, &format!("call 1 (number 1, about: fresh): byte of the image: is {is}, recorded is {recorded}"));
    }
    for at in [0, 300, BLOCK - 1] {
        let mut other = right.clone();
        other.reading[at] ^= 255;
        let (is, recorded) = (right.reading[at], other.reading[at]);
        stopped(
            other,
            &format!("call 2 (number 2, about: fresh): byte of the buffer written to: is {is}, recorded is {recorded}"),
        );
    }
    Ok(())
}

#[test]
fn a_stream_that_is_cut_is_not_whole() -> Result<(), Refusal> {
    let right = Recorded::right()?;
    let stream = right.stream();
    for length in [0, 15, 16, 17, 40, 100, 200, 1000, stream.len() - 16, stream.len() - 1] {
        assert_eq!(replay(&stream[..length]), (Some(2), String::new()), "cut to {length}");
    }
    let fewer = Recorded { calls: 3, ..right };
    assert_eq!(replay(&fewer.stream()), (Some(2), String::new()));
    Ok(())
}

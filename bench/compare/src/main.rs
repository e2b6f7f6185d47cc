//! compare IMPL CALL SIZE [times N]: one call on prepared bytes, for `bench/calls`.
//!
//! IMPL is library, second, or for good also checks and checks-unrolled (the bare check sums in C); CALL is one of the nine or good; SIZE is
//! empty, typical, full or scattered (src/inputs.rs). Both programs' answers and bytes are compared first. Then the call is made once in
//! `measured_call`, which `valgrind --tool=callgrind --toggle-collect=measured_call` counts alone; or, with `times N`, N times by the clock, and the
//! median is printed, in nanoseconds.
//!
//! compare both CALL SIZE times N: library and second program in turns, N times each, and both medians. What slows the machine down for a while
//! then slows both.

mod case;
mod inputs;

use case::{Case, Maker, Name};
use inputs::Size;
use std::env;
use std::hint::black_box;
use std::process::exit;
use std::time::Instant;

/// Nothing but the call, under a name that callgrind can find.
#[unsafe(no_mangle)]
#[inline(never)]
pub extern "C" fn measured_call(case: &mut Case, maker: Maker, answer: &mut (u32, u32)) {
    *answer = case.make(maker);
}

const MAKERS: [(&str, Maker); 4] = [
    ("library", Maker::Library),
    ("second", Maker::Second),
    ("checks", Maker::Checks),
    ("checks-unrolled", Maker::ChecksUnrolled),
];

const NAMES: [(&str, Name); 10] = [
    ("good", Name::Good),
    ("start", Name::Start),
    ("read", Name::Read),
    ("write", Name::Write),
    ("delete", Name::Delete),
    ("take_in", Name::TakeIn),
    ("ask", Name::Ask),
    ("reply", Name::Reply),
    ("repair", Name::Repair),
    ("strip_pass", Name::StripPass),
];

const SIZES: [(&str, Size); 4] =
    [("empty", Size::Empty), ("typical", Size::Typical), ("full", Size::Full), ("scattered", Size::Scattered)];

fn usage() -> ! {
    eprintln!("usage: compare library|second|checks|checks-unrolled CALL empty|typical|full|scattered [times N]");
    eprintln!("       compare both CALL empty|typical|full|scattered times N");
    exit(2)
}

fn named<T: Copy>(word: &str, list: &[(&str, T)]) -> T {
    list.iter().find(|(name, _)| *name == word).map_or_else(|| usage(), |(_, item)| *item)
}

/// Makes the call by both programs on copies; they have to accept it with the same count and the same bytes. This also leaves
/// the allocator warm, so that its first steps are not counted as the second program's.
fn same(case: &Case) -> u32 {
    let (mut one, mut other) = (case.clone(), case.clone());
    let answers = (one.make(Maker::Library), other.make(Maker::Second));
    assert_eq!(answers.0, answers.1, "the answers of library and second program");
    assert!(one == other, "the bytes of library and second program");
    assert_eq!(answers.0 .0, 0, "accepted");
    let changes = match case.name {
        Name::Write | Name::Delete | Name::TakeIn | Name::Repair => true,
        Name::StripPass => answers.0 .1 > 0,
        _ => case.name == Name::Start,
    };
    assert!(changes || one.image == case.image, "a call that changes nothing");
    assert!(!changes || one.image != case.image || case.name == Name::Start, "a call that does something");
    answers.0 .1
}

/// Each makes the call that many times, in turns, each time on the same bytes: the median of its times, in nanoseconds.
fn medians<const MANY: usize>(case: &Case, makers: [Maker; MANY], times: usize) -> [u128; MANY] {
    let mut copy = case.clone();
    let mut answer = (0, 0);
    let mut taken = [const { Vec::new() }; MANY];
    for _ in 0..times {
        for (maker, taken) in makers.into_iter().zip(&mut taken) {
            copy.restore(case);
            let start = Instant::now();
            measured_call(black_box(&mut copy), black_box(maker), &mut answer);
            taken.push(start.elapsed().as_nanos());
        }
    }
    taken.map(|mut taken| {
        taken.sort_unstable();
        taken[times / 2]
    })
}

fn number(word: &str) -> usize {
    word.parse().ok().filter(|number| *number > 0).unwrap_or_else(|| usage())
}

fn main() {
    let words: Vec<String> = env::args().skip(1).collect();
    let words: Vec<&str> = words.iter().map(String::as_str).collect();
    if let ["both", name, size, "times", many] = words[..] {
        let case = inputs::case(named(name, &NAMES), named(size, &SIZES));
        same(&case);
        let [library, second] = medians(&case, [Maker::Library, Maker::Second], number(many));
        println!("{library} {second}");
        return;
    }
    let (maker, name, size, times) = match words[..] {
        [maker, name, size] => (maker, name, size, None),
        [maker, name, size, "times", many] => (maker, name, size, Some(number(many))),
        _ => usage(),
    };
    let (maker, name, size) = (named(maker, &MAKERS), named(name, &NAMES), named(size, &SIZES));
    let bare = matches!(maker, Maker::Checks | Maker::ChecksUnrolled);
    if bare && name != Name::Good {
        usage();
    }
    let case = inputs::case(name, size);
    let count = same(&case);
    let Some(times) = times else {
        let mut copy = case.clone();
        let mut answer = (0, 0);
        measured_call(black_box(&mut copy), black_box(maker), &mut answer);
        println!("answer {}, count {}, input of {} bytes", answer.0, answer.1, case.input.len());
        assert!(bare || answer == (0, count));
        return;
    };
    println!("{}", medians(&case, [maker], times)[0]);
}

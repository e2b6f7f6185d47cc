//! make-seeds FOLDER SHORTEST LONGEST: writes what the fuzzer begins with: of recorded calls (`second cases`), and of the images that they are made on, so many
//! of the shortest and of the longest of each sort.

use fuzz::input::{mended, Input};
use second::call::{Call, Op};
use second::cases::cases;
use second::refusal::Refusal;
use second::store::{Second, Store};
use std::cell::RefCell;
use std::collections::BTreeMap;
use std::{env, fs, io};

const SEED: u64 = 1;
const CALLS: u64 = 60_000;

/// What makes two calls of one sort: which call, the answer, whether it counts, whether it changes anything, and whether all checks of its image are right.
type Sort = (u8, u32, [bool; 3]);
type Kept = BTreeMap<Sort, Vec<Vec<u8>>>;

/// The second program's calls, of which the shortest and the longest of each sort are kept as inputs, so many of each.
struct Keeping {
    shortest: usize,
    longest: usize,
    kept: RefCell<Kept>,
}

impl Keeping {
    fn keep(&self, sort: Sort, input: Option<Vec<u8>>) {
        let mut kept = self.kept.borrow_mut();
        let here = kept.entry(sort).or_default();
        if let Some(input) = input {
            here.push(input);
            here.sort_by_key(Vec::len);
            if here.len() > self.shortest + self.longest {
                here.remove(self.shortest);
            }
        }
    }

    fn made(&self, call: Call) {
        let mut after = call.clone();
        let (answer, count) = after.make(&Second);
        let found = [count > 0, after.image != call.image, mended(&call.image)];
        self.keep((call.op as u8, answer, found), Input::of(&call));
        self.good(&call.image);
    }
}

impl Store for Keeping {
    fn good(&self, image: &[u8]) -> bool {
        let good = Second.good(image);
        self.keep((fuzz::GOOD, if good { 0 } else { 2 }, [false, false, mended(image)]), Input::of_good(image));
        good
    }
    fn start(&self, image: &mut [u8], number: u8, table: &[u8]) -> Result<(), Refusal> {
        self.made(Call { number, input: table.to_vec(), ..Call::on(Op::Start, image.to_vec()) });
        Second.start(image, number, table)
    }
    fn read(&self, image: &[u8], job: u8, point: u16, out: &mut [u8]) -> Result<(), Refusal> {
        self.made(Call { number: job, point, out: out.to_vec(), ..Call::on(Op::Read, image.to_vec()) });
        Second.read(image, job, point, out)
    }
    fn write(
        &self,
        image: &mut [u8],
        job: u8,
        point: u16,
        value: &[u8],
        context: &[u32],
        out: &mut [u8],
    ) -> Result<(), Refusal> {
        let call = Call::on(Op::Write, image.to_vec());
        self.made(Call {
            number: job,
            point,
            input: value.to_vec(),
            context: context.to_vec(),
            out: out.to_vec(),
            ..call
        });
        Second.write(image, job, point, value, context, out)
    }
    fn delete(&self, image: &mut [u8], job: u8, point: u16, context: &[u32], out: &mut [u8]) -> Result<(), Refusal> {
        let call = Call::on(Op::Delete, image.to_vec());
        self.made(Call { number: job, point, context: context.to_vec(), out: out.to_vec(), ..call });
        Second.delete(image, job, point, context, out)
    }
    fn take_in(&self, image: &mut [u8], message: &[u8]) -> Result<(), Refusal> {
        self.made(Call { input: message.to_vec(), ..Call::on(Op::TakeIn, image.to_vec()) });
        Second.take_in(image, message)
    }
    fn ask(&self, image: &[u8], to: u8, out: &mut [u8]) -> Result<(), Refusal> {
        self.made(Call { number: to, out: out.to_vec(), ..Call::on(Op::Ask, image.to_vec()) });
        Second.ask(image, to, out)
    }
    fn reply(&self, image: &[u8], ask: &[u8], out: &mut [u8]) -> Result<u32, Refusal> {
        self.made(Call { input: ask.to_vec(), out: out.to_vec(), ..Call::on(Op::Reply, image.to_vec()) });
        Second.reply(image, ask, out)
    }
    fn repair(&self, image: &mut [u8], reply: &[u8]) -> Result<(), Refusal> {
        self.made(Call { input: reply.to_vec(), ..Call::on(Op::Repair, image.to_vec()) });
        Second.repair(image, reply)
    }
    fn strip_pass(&self, image: &mut [u8]) -> Result<u32, Refusal> {
        self.made(Call::on(Op::StripPass, image.to_vec()));
        Second.strip_pass(image)
    }
}

fn main() -> io::Result<()> {
    let words: Vec<String> = env::args().skip(1).collect();
    let [folder, shortest, longest] = &words[..] else { panic!("usage: make-seeds FOLDER SHORTEST LONGEST") };
    let [shortest, longest] = [shortest, longest].map(|many| many.parse().expect("a number"));
    let keeping = Keeping { shortest, longest, kept: RefCell::default() };
    cases(&keeping, SEED, CALLS, io::sink())?;
    fs::create_dir_all(folder)?;
    for (number, input) in keeping.kept.into_inner().into_values().flatten().enumerate() {
        fs::write(format!("{folder}/{number:03}"), input)?;
    }
    Ok(())
}

//! The verified library beside the second program: the library as a store that the second program's tools can drive, and a call made by two
//! stores on copies of the same bytes, with everything compared that can differ.

use second::call::Call;
use second::refusal::Refusal;
use second::store::Store;
use sqimrutta::raw;

/// The library's calls, as a store that the second program's tools can drive.
pub struct Library;

/// The same refusal in the second program's words. Both take their numbers from document 01's table.
fn refused(refusal: sqimrutta::Refusal) -> Refusal {
    let number = refusal.number();
    *Refusal::ALL.iter().find(|known| known.number() == number).expect("a refusal of the table")
}

impl Store for Library {
    fn good(&self, image: &[u8]) -> bool {
        raw::good(image)
    }
    fn start(&self, image: &mut [u8], number: u8, table: &[u8]) -> Result<(), Refusal> {
        raw::start(image, number, table).map_err(refused)
    }
    fn read(&self, image: &[u8], job: u8, point: u16, out: &mut [u8]) -> Result<(), Refusal> {
        raw::read(image, job, point, out).map_err(refused)
    }
    fn write(
        &self,
        image: &mut [u8],
        job: u8,
        point: u16,
        value: &[u8],
        context: &[u32],
        out: &mut [u8],
    ) -> Result<(), Refusal> {
        raw::write(image, job, point, value, context, out).map_err(refused)
    }
    fn delete(&self, image: &mut [u8], job: u8, point: u16, context: &[u32], out: &mut [u8]) -> Result<(), Refusal> {
        raw::delete(image, job, point, context, out).map_err(refused)
    }
    fn take_in(&self, image: &mut [u8], message: &[u8]) -> Result<(), Refusal> {
        raw::take_in(image, message).map_err(refused)
    }
    fn ask(&self, image: &[u8], to: u8, out: &mut [u8]) -> Result<(), Refusal> {
        raw::ask(image, to, out).map_err(refused)
    }
    fn reply(&self, image: &[u8], ask: &[u8], out: &mut [u8]) -> Result<u32, Refusal> {
        raw::reply(image, ask, out).map_err(refused)
    }
    fn repair(&self, image: &mut [u8], reply: &[u8]) -> Result<(), Refusal> {
        raw::repair(image, reply).map_err(refused)
    }
    fn strip_pass(&self, image: &mut [u8]) -> Result<u32, Refusal> {
        raw::strip_pass(image).map_err(refused)
    }
}

/// Makes the call by two stores on copies: the answer's number and the count, or what differs. Compared are answer, count and every byte of every lent
/// buffer; a refused call has to leave all of them as they were, and an accepted one has to leave a good image.
pub fn compared(call: &Call, one: &dyn Store, other: &dyn Store) -> Result<(u32, u32), String> {
    let name = call.op.name();
    let (mut ours, mut theirs) = (call.clone(), call.clone());
    let (answer, expected) = (ours.make(one), theirs.make(other));
    if answer != expected {
        return Err(format!("{name}: answer and count are {answer:?} and should be {expected:?}"));
    }
    let buffers =
        [("image", &ours.image, &theirs.image), ("input", &ours.input, &theirs.input), ("out", &ours.out, &theirs.out)];
    for (buffer, ours, theirs) in buffers {
        if let Some(at) = (0..theirs.len()).find(|&at| ours[at] != theirs[at]) {
            return Err(format!("{name}: byte {at} of {buffer} is {} and should be {}", ours[at], theirs[at]));
        }
    }
    if ours != theirs {
        return Err(format!("{name}: the context has changed"));
    }
    if answer.0 != 0 && ours != *call {
        return Err(format!("{name}: refused with {}, and a byte has changed", answer.0));
    }
    if answer.0 == 0 && !compared_good(&ours.image, one, other)? {
        return Err(format!("{name}: accepted, and the image is not good"));
    }
    Ok(answer)
}

/// Whether the image is good, by two stores.
pub fn compared_good(image: &[u8], one: &dyn Store, other: &dyn Store) -> Result<bool, String> {
    let (good, expected) = (one.good(image), other.good(image));
    if good == expected {
        Ok(good)
    } else {
        Err(format!("good is {good} and should be {expected}"))
    }
}

//! The nine calls, and the question whether an image is good, as one thing that can be handed around, so that the simulator can be run on other stores than ours: the
//! tests run it on stores with a planted fault, to see that it notices.

use crate::calls;
use crate::image;
use crate::refusal::Refusal;

/// The nine calls and the question. By default they are this program's.
pub trait Store {
    /// See [`image::is_good`].
    fn good(&self, image: &[u8]) -> bool {
        image::is_good(image)
    }
    /// See [`calls::start`].
    fn start(&self, image: &mut [u8], number: u8, table: &[u8]) -> Result<(), Refusal> {
        calls::start(image, number, table)
    }
    /// See [`calls::read`].
    fn read(&self, image: &[u8], job: u8, point: u16, out: &mut [u8]) -> Result<(), Refusal> {
        calls::read(image, job, point, out)
    }
    /// See [`calls::write`].
    fn write(
        &self,
        image: &mut [u8],
        job: u8,
        point: u16,
        value: &[u8],
        context: &[u32],
        out: &mut [u8],
    ) -> Result<(), Refusal> {
        calls::write(image, job, point, value, context, out)
    }
    /// See [`calls::delete`].
    fn delete(&self, image: &mut [u8], job: u8, point: u16, context: &[u32], out: &mut [u8]) -> Result<(), Refusal> {
        calls::delete(image, job, point, context, out)
    }
    /// See [`calls::take_in`].
    fn take_in(&self, image: &mut [u8], message: &[u8]) -> Result<(), Refusal> {
        calls::take_in(image, message)
    }
    /// See [`calls::ask`].
    fn ask(&self, image: &[u8], to: u8, out: &mut [u8]) -> Result<(), Refusal> {
        calls::ask(image, to, out)
    }
    /// See [`calls::reply`].
    fn reply(&self, image: &[u8], ask: &[u8], out: &mut [u8]) -> Result<u32, Refusal> {
        calls::reply(image, ask, out)
    }
    /// See [`calls::repair`].
    fn repair(&self, image: &mut [u8], reply: &[u8]) -> Result<(), Refusal> {
        calls::repair(image, reply)
    }
    /// See [`calls::strip_pass`].
    fn strip_pass(&self, image: &mut [u8]) -> Result<u32, Refusal> {
        calls::strip_pass(image)
    }
}

/// This program's calls.
pub struct Second;

impl Store for Second {}

/// This program's calls, with a look at the image after each accepted one: "Every accepted step leaves a good image." One
/// that did not would be answered with refusal 2, which nobody recorded.
pub struct Looked;

impl Looked {
    fn at<T>(image: &[u8], answer: Result<T, Refusal>) -> Result<T, Refusal> {
        if answer.is_ok() && crate::image::decode(image).is_none() {
            return Err(Refusal::ImageNotGood);
        }
        answer
    }
}

impl Store for Looked {
    fn start(&self, image: &mut [u8], number: u8, table: &[u8]) -> Result<(), Refusal> {
        let answer = calls::start(image, number, table);
        Looked::at(image, answer)
    }
    fn write(
        &self,
        image: &mut [u8],
        job: u8,
        point: u16,
        value: &[u8],
        context: &[u32],
        out: &mut [u8],
    ) -> Result<(), Refusal> {
        let answer = calls::write(image, job, point, value, context, out);
        Looked::at(image, answer)
    }
    fn delete(&self, image: &mut [u8], job: u8, point: u16, context: &[u32], out: &mut [u8]) -> Result<(), Refusal> {
        let answer = calls::delete(image, job, point, context, out);
        Looked::at(image, answer)
    }
    fn take_in(&self, image: &mut [u8], message: &[u8]) -> Result<(), Refusal> {
        let answer = calls::take_in(image, message);
        Looked::at(image, answer)
    }
    fn repair(&self, image: &mut [u8], reply: &[u8]) -> Result<(), Refusal> {
        let answer = calls::repair(image, reply);
        Looked::at(image, answer)
    }
    fn strip_pass(&self, image: &mut [u8]) -> Result<u32, Refusal> {
        let answer = calls::strip_pass(image);
        Looked::at(image, answer)
    }
}

//! The printing program's text.

use crate::image::{self, IMAGE};
use crate::object::Content;
use crate::refusal::Refusal;
use std::fmt::Write;

/// The text for these bytes: "A first line gives own number, stored points, own and foreign dots; then a line per
/// version: job, point, dot, value in lower-case hex, `-` for an empty value or `deleted`." "A bad image prints only
/// `refused 1` or `refused 2`." Every line ends with a newline.
pub fn print(image: &[u8]) -> String {
    lines(image).unwrap_or_else(|refusal| format!("refused {}\n", refusal.number()))
}

fn lines(image: &[u8]) -> Result<String, Refusal> {
    if image.len() != IMAGE {
        return Err(Refusal::WrongLength);
    }
    let state = image::decode(image).ok_or(Refusal::ImageNotGood)?;
    let mut text = format!(
        "controller {} records {} own {} foreign {}\n",
        state.own.number(),
        state.points.len(),
        state.own_dots.len(),
        state.foreign_dots.len()
    );
    for (point, object) in &state.points {
        for (dot, content) in &object.versions {
            let (job, number) = (point.job.number(), point.number.number());
            writeln!(text, "{job} {number} {dot} {}", shown(content)).expect("a string takes any text");
        }
    }
    Ok(text)
}

fn shown(content: &Content) -> String {
    match content {
        Content::Deleted => "deleted".into(),
        Content::Value(value) if value.bytes().is_empty() => "-".into(),
        Content::Value(value) => value.bytes().iter().map(|byte| format!("{byte:02x}")).collect(),
    }
}

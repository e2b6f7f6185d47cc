//! replay-corpus FOLDER..: tries every input in the folders, and prints how many calls gave which answer. Exit: 0 no difference, 1 a difference, 2 no
//! input.

use std::collections::BTreeMap;
use std::path::PathBuf;
use std::process::ExitCode;
use std::{env, fs};

const NAMES: [&str; 10] =
    ["good", "start", "read", "write", "delete", "take_in", "ask", "reply", "repair", "strip_pass"];

fn inputs() -> std::io::Result<Vec<PathBuf>> {
    let mut files = Vec::new();
    for folder in env::args().skip(1) {
        for file in fs::read_dir(folder)? {
            files.push(file?.path());
        }
    }
    files.sort();
    Ok(files)
}

fn main() -> ExitCode {
    let files = inputs().unwrap_or_default();
    if files.is_empty() {
        eprintln!("usage: replay-corpus FOLDER.. with inputs in them");
        return ExitCode::from(2);
    }
    let mut answers: BTreeMap<(u8, u32), u64> = BTreeMap::new();
    for file in &files {
        let bytes = fs::read(file).expect("a file that was listed");
        match fuzz::tried(&bytes) {
            Ok(answer) => *answers.entry(answer).or_default() += 1,
            Err(what) => {
                println!("{}: {what}", file.display());
                return ExitCode::FAILURE;
            }
        }
    }
    for (number, name) in NAMES.iter().enumerate() {
        let of_call = answers.range((number as u8, 0)..=(number as u8, u32::MAX));
        let counts: Vec<String> = of_call.map(|((_, answer), many)| format!("{answer}: {many}")).collect();
        println!("{name}: {}", counts.join(", "));
    }
    println!("{} inputs, no difference", files.len());
    ExitCode::SUCCESS
}

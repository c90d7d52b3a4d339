//! The vectors: NAME.txt against NAME.expect and, where there, NAME.runs.

use crate::answer::{check_line, Call};
use crate::file::{read, File};
use crate::order::{lay_out, put_back};
use crate::run::{array_run, stream_run, Outcome};
use crate::text::{file_bytes, memory_line, memory_of};
use std::fs;
use std::path::Path;

pub struct Vector {
    pub name: String,
    pub bytes: Vec<u8>,
}

/// All NAME.txt of a folder, by name.
pub fn load(folder: &Path) -> Result<Vec<Vector>, String> {
    let entries = fs::read_dir(folder).map_err(|error| format!("{}: {error}", folder.display()))?;
    let mut names: Vec<String> = entries
        .filter_map(|entry| entry.ok()?.file_name().into_string().ok())
        .filter_map(|name| name.strip_suffix(".txt").map(str::to_string))
        .collect();
    names.sort();
    let mut vectors = Vec::new();
    for name in names {
        let text = text_of(folder, &name, "txt")?;
        let bytes = file_bytes(&text).map_err(|error| format!("{name}.txt: {error}"))?;
        vectors.push(Vector { name, bytes });
    }
    Ok(vectors)
}

fn text_of(folder: &Path, name: &str, kind: &str) -> Result<String, String> {
    let path = folder.join(format!("{name}.{kind}"));
    fs::read_to_string(&path).map_err(|error| format!("{}: {error}", path.display()))
}

/// Compares all vectors, prints each difference and the sums; true if all passed.
pub fn compare(folder: &Path) -> Result<bool, String> {
    let (mut passed, mut failed) = (0, 0);
    for vector in load(folder)? {
        let differences = differences(folder, &vector)?;
        for difference in &differences {
            println!("{}: {difference}", vector.name);
        }
        if differences.is_empty() {
            passed += 1;
        } else {
            failed += 1;
        }
    }
    println!("{passed} passed, {failed} failed");
    Ok(failed == 0)
}

fn differences(folder: &Path, vector: &Vector) -> Result<Vec<String>, String> {
    let mut found = Vec::new();
    let expected = text_of(folder, &vector.name, "expect")?;
    let line = check_line(&vector.bytes);
    if line != expected.trim_end() {
        found.push(format!("check: expected `{}`, got `{line}`", expected.trim_end()));
    }
    if folder.join(format!("{}.runs", vector.name)).exists() {
        let runs = text_of(folder, &vector.name, "runs")?;
        match read(&vector.bytes) {
            Ok(file) => compare_runs(&file, &runs, &mut found),
            Err(_) => found.push("it has runs, but does not read".to_string()),
        }
    }
    Ok(found)
}

fn compare_runs(file: &File, runs: &str, found: &mut Vec<String>) {
    let lines: Vec<&str> = runs.lines().collect();
    let blocks = lines.chunks_exact(7);
    if !blocks.remainder().is_empty() {
        found.push(format!("{} lines are not blocks of seven", lines.len()));
    }
    for (number, block) in blocks.enumerate() {
        match block_lines(file, block[0]) {
            Err(error) => found.push(format!("block {number}: {error}")),
            Ok(answers) => {
                for (expected, got) in block.iter().zip(answers) {
                    if expected.trim_end() != got {
                        found.push(format!("block {number}: expected `{expected}`, got `{got}`"));
                    }
                }
            }
        }
    }
}

/// The seven lines that follow from the first one's memory.
fn block_lines(file: &File, first: &str) -> Result<[String; 7], String> {
    let input = memory_of(first, "in")?;
    let due = Call::ArrayRun.lengths(file).0;
    if input.len() != due {
        return Err(format!("the input has {} numbers, {due} are due", input.len()));
    }
    let array = array_run(file, &input);
    let laid = lay_out(file, &input);
    let stream = stream_run(file, &laid);
    let back = put_back(file, &stream.output);
    let stream_line = format!("stream {} read {} written {}", outcome(stream.outcome), stream.read, stream.written);
    Ok([
        memory_line("in", &input),
        format!("array {}", outcome(array.outcome)),
        memory_line("aout", &array.output),
        memory_line("laid", &laid),
        stream_line,
        memory_line("sout", &stream.output),
        memory_line("back", &back),
    ])
}

fn outcome(outcome: Outcome) -> String {
    match outcome {
        Outcome::Ended => "ended".to_string(),
        Outcome::Stuck { reason, statement } => format!("stuck {reason} {statement}"),
    }
}

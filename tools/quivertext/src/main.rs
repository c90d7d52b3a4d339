//! Kernel files as readable text, and back; the check's answers in words.

mod explain;
mod form;
mod kernel;
mod line;
mod pack;
mod request;
#[cfg(test)]
mod tests;
mod unpack;
mod words;

use kernel::Kernel;
use line::Scope;
use std::fs;
use std::io::{self, Write};
use std::process::ExitCode;

const USAGE: &str = "usage:
  quivertext pack TEXT FILE         make a kernel file from text
  quivertext unpack FILE TEXT       make commented text from a kernel file; - for standard output
  quivertext explain FILE ANSWER    an answer in words, with the statements it speaks of; of a text (a name that ends
                                    in .txt) with its names and lines. ANSWER is a line of check
                                    (accepted, read N SECTION RECORD, check N DERIVATION ARRAY STREAM),
                                    or run REASON STATEMENT (array run), or stream REASON STATEMENT (stream run)
  quivertext sizes FILE             how many numbers each lent memory of a kernel file has
  quivertext words OUT NUMBER..     write decimal numbers as a memory: 32 bits each, low byte first; - in place of the
                                    numbers: those on standard input
  quivertext decimals FILE          print a memory as decimal numbers
  quivertext request CALL FILE INPUT NUMBERS OUT
                                    write a request for batch: CALL is check, array-run, stream-run, lay-out or
                                    put-back; INPUT a memory, or - for none; the output area has NUMBERS numbers
  quivertext reply REPLY OUT        print the four parts of batch's answer, and write the output area
  quivertext help                   this text
exit status: 0 done, 1 a bad text, a bad file, or one that can't be read or written, 2 misuse";

fn main() -> ExitCode {
    let arguments: Vec<String> = std::env::args_os().skip(1).map(|word| word.to_string_lossy().into_owned()).collect();
    let arguments: Vec<&str> = arguments.iter().map(String::as_str).collect();
    let done = match arguments.as_slice() {
        ["pack", text, file] => pack_file(text, file),
        ["unpack", file, text] => unpack_file(file, text),
        ["explain", file, answer @ ..] if !answer.is_empty() => {
            let answer = answer.join(" ");
            match explained(file, &answer.split_whitespace().collect::<Vec<_>>()) {
                Ok(Ok(text)) => print(&text),
                Ok(Err(what)) => return misuse(&format!("'{answer}': {what}")),
                Err(what) => Err(what),
            }
        }
        ["sizes", file] => print_sizes(file),
        ["words", out, "-"] => all_of_input().and_then(|numbers| write_words(out, &[&numbers])),
        ["words", out, numbers @ ..] => write_words(out, numbers),
        ["decimals", file] => print_decimals(file),
        ["request", call, file, input, numbers, out] => write_request(call, file, input, numbers, out),
        ["reply", reply, out] => take_reply(reply, out),
        ["help" | "--help" | "-h"] => print(&format!("{USAGE}\n")),
        [] => return misuse("no command"),
        [command, ..] => return misuse(&format!("unknown command or wrong number of arguments: '{command}'")),
    };
    match done {
        Ok(()) => ExitCode::SUCCESS,
        Err(what) => {
            eprintln!("{what}");
            ExitCode::FAILURE
        }
    }
}

fn misuse(what: &str) -> ExitCode {
    eprintln!("quivertext: {what}\n{USAGE}");
    ExitCode::from(2)
}

fn pack_file(from: &str, to: &str) -> Result<(), String> {
    write(from, to, &packed(from)?.kernel.bytes())
}

fn packed(from: &str) -> Result<Scope, String> {
    let bytes = bytes_of(from)?;
    let text = std::str::from_utf8(&bytes).map_err(|error| {
        let line = 1 + bytes[..error.valid_up_to()].iter().filter(|byte| **byte == b'\n').count();
        format!("{from}:{line}: a byte that is no text; expected UTF-8")
    })?;
    pack::pack(text).map_err(|wrong| format!("{from}:{}: {}", wrong.line, wrong.what))
}

/// A file that can't be used is the outer error, an answer that is none the inner one.
fn explained(file: &str, answer: &[&str]) -> Result<Result<String, String>, String> {
    if file.ends_with(".txt") {
        return Ok(explain::explain_text(packed(file)?, answer));
    }
    Ok(explain::explain(&bytes_of(file)?, answer))
}

fn unpack_file(from: &str, to: &str) -> Result<(), String> {
    let text = unpack::unpack(kernel_of(from)?);
    if to == "-" {
        return print(&text);
    }
    write(from, to, text.as_bytes())
}

fn print_sizes(file: &str) -> Result<(), String> {
    let sizes = kernel::sizes(&kernel_of(file)?).map_err(|what| format!("{file}: {what}"))?;
    print(&sizes.iter().map(|(name, size)| format!("{name} {size}\n")).collect::<String>())
}

fn write_words(out: &str, numbers: &[&str]) -> Result<(), String> {
    let mut bytes = Vec::new();
    for word in numbers.iter().flat_map(|numbers| numbers.split_whitespace()) {
        let number: i32 = word.parse().map_err(|_| {
            format!("quivertext: '{word}' is no number of 32 bits; expected {} to {}", i32::MIN, i32::MAX)
        })?;
        bytes.extend(number.to_le_bytes());
    }
    write("", out, &bytes)
}

fn print_decimals(file: &str) -> Result<(), String> {
    let numbers = kernel::numbers(&bytes_of(file)?).map_err(|what| format!("{file}: {what}"))?;
    let decimals: Vec<String> = numbers.iter().map(i32::to_string).collect();
    print(&format!("{}\n", decimals.join(" ")))
}

fn write_request(call: &str, file: &str, input: &str, numbers: &str, out: &str) -> Result<(), String> {
    let input = if input == "-" { Vec::new() } else { bytes_of(input)? };
    let request = request::request(call, &bytes_of(file)?, &input, numbers)?;
    write(file, out, &request)
}

fn take_reply(reply: &str, out: &str) -> Result<(), String> {
    let bytes = bytes_of(reply)?;
    let (parts, output) = request::reply(&bytes).map_err(|what| format!("{reply}: {what}"))?;
    write(reply, out, output)?;
    print(&format!("{} {} {} {}\n", parts[0], parts[1], parts[2], parts[3]))
}

fn all_of_input() -> Result<String, String> {
    io::read_to_string(io::stdin()).map_err(|error| format!("standard input: {error}"))
}

fn kernel_of(file: &str) -> Result<Kernel, String> {
    Kernel::whole(&bytes_of(file)?).map_err(|what| format!("{file}: {what}"))
}

fn bytes_of(file: &str) -> Result<Vec<u8>, String> {
    fs::read(file).map_err(|error| format!("{file}: can't be read: {error}"))
}

/// Writes only now that all is understood, and never over what it was made from.
fn write(from: &str, to: &str, bytes: &[u8]) -> Result<(), String> {
    if let (Ok(from), Ok(target)) = (fs::canonicalize(from), fs::canonicalize(to)) {
        if from == target {
            return Err(format!("{to}: is the file read; expected another one to write"));
        }
    }
    fs::write(to, bytes).map_err(|error| format!("{to}: can't be written: {error}"))
}

fn print(text: &str) -> Result<(), String> {
    let mut out = io::stdout().lock();
    out.write_all(text.as_bytes()).and_then(|()| out.flush()).map_err(|error| format!("standard output: {error}"))
}

//! A second, independent implementation of the product that document 01 describes: a test oracle.

mod answer;
mod batch;
mod check;
mod file;
mod grow;
mod histogram;
mod make;
mod mutate;
mod order;
mod prng;
mod run;
#[cfg(test)]
mod tests;
mod text;
mod vectors;

use std::io::{self, BufReader, BufWriter, Write};
use std::path::Path;
use std::process::ExitCode;

const USAGE: &str = "usage:
  second vectors DIR          compare every NAME.txt of DIR with NAME.expect and NAME.runs
  second answer               answer a batch: requests on standard input, replies on standard output
  second requests SEED N DIR  write N requests as a batch: the vectors of DIR, document 01's lines, then a mixture
  second histogram            count what the requests of a batch on standard input come to
  second compare REPLIES      answer a batch on standard input and compare with the replies of another program
  second pick K               write request K of a batch on standard input, from 0, as a batch of its own
  second help                 this text
exit status: 0 done, 1 a vector failed, replies differ or a file could not be read or written, 2 misuse";

fn main() -> ExitCode {
    let arguments: Vec<String> = std::env::args().skip(1).collect();
    let words: Vec<&str> = arguments.iter().map(String::as_str).collect();
    let done = match words.as_slice() {
        ["vectors", folder] => vectors::compare(Path::new(folder)),
        ["answer"] => answer_batch(),
        ["requests", seed, count, folder] => match (seed.parse(), count.parse()) {
            (Ok(seed), Ok(count)) => write_requests(seed, count, Path::new(folder)),
            _ => return misuse("SEED and N are whole numbers from 0 up"),
        },
        ["histogram"] => print_histogram(),
        ["compare", replies] => compare_replies(Path::new(replies)),
        ["pick", number] => match number.parse() {
            Ok(number) => pick_request(number),
            Err(_) => return misuse("K is a whole number from 0 up"),
        },
        ["help"] => {
            println!("{USAGE}");
            Ok(true)
        }
        [] => return misuse("no command"),
        [command, ..] => return misuse(&format!("unknown command or wrong number of arguments: {command}")),
    };
    match done {
        Ok(true) => ExitCode::SUCCESS,
        Ok(false) => ExitCode::FAILURE,
        Err(message) => {
            eprintln!("second: {message}");
            ExitCode::FAILURE
        }
    }
}

fn misuse(message: &str) -> ExitCode {
    eprintln!("second: {message}\n{USAGE}");
    ExitCode::from(2)
}

fn answer_batch() -> Result<bool, String> {
    let mut source = BufReader::new(io::stdin().lock());
    let mut sink = BufWriter::new(io::stdout().lock());
    let done = batch::answer(&mut source, &mut sink).and_then(|()| sink.flush());
    done.map(|()| true).map_err(|error| error.to_string())
}

fn write_requests(seed: u64, count: usize, folder: &Path) -> Result<bool, String> {
    let files: Vec<Vec<u8>> = vectors::load(folder)?.into_iter().map(|vector| vector.bytes).collect();
    let mut sink = BufWriter::new(io::stdout().lock());
    let done = make::requests(seed, count, &files, &mut sink).and_then(|()| sink.flush());
    done.map(|()| true).map_err(|error| error.to_string())
}

fn print_histogram() -> Result<bool, String> {
    let mut source = BufReader::new(io::stdin().lock());
    let counts = histogram::histogram(&mut source).map_err(|error| error.to_string())?;
    counts.print();
    Ok(true)
}

fn compare_replies(path: &Path) -> Result<bool, String> {
    let file = std::fs::File::open(path).map_err(|error| format!("{}: {error}", path.display()))?;
    let mut source = BufReader::new(io::stdin().lock());
    match batch::compare(&mut source, &mut BufReader::new(file)).map_err(|error| error.to_string())? {
        Ok(agreed) => println!("{agreed} requests agree"),
        Err(difference) => {
            println!("{difference}");
            return Ok(false);
        }
    }
    Ok(true)
}

fn pick_request(number: usize) -> Result<bool, String> {
    let mut source = BufReader::new(io::stdin().lock());
    let mut sink = BufWriter::new(io::stdout().lock());
    let found = batch::pick(&mut source, number, &mut sink).map_err(|error| error.to_string())?;
    sink.flush().map_err(|error| error.to_string())?;
    if found {
        Ok(true)
    } else {
        Err(format!("the batch has no request {number}"))
    }
}

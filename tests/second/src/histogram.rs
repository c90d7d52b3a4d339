//! What the requests of a batch come to, counted.

use crate::answer::{call, parts, Call};
use crate::batch::{next, Next, Request};
use crate::file::{split, Sections};
use std::collections::BTreeMap;
use std::io::{self, Read};

#[derive(Default)]
pub struct Histogram {
    requests: usize,
    bad: bool,
    /// By call, then by number: 0 is accepted, ended or done.
    answers: BTreeMap<(u32, u16), usize>,
    /// Codes 1 to 12 in the derivations of accepted files.
    rules: BTreeMap<i32, usize>,
    /// How many accepted files have each of the features below.
    features: [usize; FEATURES.len()],
}

type Feature = (&'static str, fn(&Sections) -> bool);

const FEATURES: [Feature; 13] = [
    ("no loop", |kernel| loops_deep(kernel) == 0),
    ("loops nested 1 deep", |kernel| loops_deep(kernel) == 1),
    ("loops nested 2 deep", |kernel| loops_deep(kernel) == 2),
    ("loops nested 3 deep", |kernel| loops_deep(kernel) == 3),
    ("loops nested 4 deep", |kernel| loops_deep(kernel) == 4),
    ("a loop downwards", |kernel| has(kernel, |line| line[0] == 8 && line[3] < 0)),
    ("a loop by more than 1", |kernel| has(kernel, |line| line[0] == 8 && line[3].abs() > 1)),
    ("a branch", |kernel| has(kernel, |line| line[0] == 9)),
    ("a division", |kernel| has(kernel, |line| line[0] == 3 && line[4] == 4)),
    ("an order backwards", |kernel| kernel.arrays.iter().any(|array| array[4] < 0)),
    ("an order by more than 1", |kernel| kernel.arrays.iter().any(|array| array[4].abs() > 1)),
    ("several inputs", |kernel| kernel.arrays.iter().filter(|array| array[0] == 1).count() > 1),
    ("several outputs", |kernel| kernel.arrays.iter().filter(|array| array[0] == 2).count() > 1),
];

fn has(kernel: &Sections, wanted: fn(&[i32; 8]) -> bool) -> bool {
    kernel.array_program.iter().any(wanted)
}

fn loops_deep(kernel: &Sections) -> usize {
    let mut open = Vec::new();
    let mut deepest = 0;
    for line in &kernel.array_program {
        match line[0] {
            8 | 9 => open.push(line[0]),
            11 => drop(open.pop()),
            _ => {}
        }
        deepest = deepest.max(open.iter().filter(|&&code| code == 8).count());
    }
    deepest
}

pub fn histogram(source: &mut impl Read) -> io::Result<Histogram> {
    let mut counts = Histogram::default();
    loop {
        match next(source)? {
            Next::Over => return Ok(counts),
            Next::Bad => {
                counts.bad = true;
                return Ok(counts);
            }
            Next::Request(request) => counts.add(request),
        }
    }
}

impl Histogram {
    fn add(&mut self, mut request: Request) {
        self.requests += 1;
        let word = call(request.call, &request.file, &request.input, &mut request.output);
        *self.answers.entry((request.call.number(), parts(word)[0])).or_default() += 1;
        if request.call == Call::Check && word == 0 {
            if let Ok(kernel) = split(&request.file) {
                self.add_accepted(&kernel);
            }
        }
    }

    fn add_accepted(&mut self, kernel: &Sections) {
        for record in &kernel.derivation {
            *self.rules.entry(record[0]).or_default() += 1;
        }
        for (count, (_, has_it)) in self.features.iter_mut().zip(FEATURES) {
            *count += usize::from(has_it(kernel));
        }
    }

    fn of(&self, call: Call, number: u16) -> usize {
        self.answers.get(&(call.number(), number)).copied().unwrap_or(0)
    }

    pub fn print(&self) {
        println!("{} requests{}", self.requests, if self.bad { ", then a bad one" } else { "" });
        println!("{:34}{:>7}{:>7}{:>7}{:>7}{:>7}", "", "check", "array", "stream", "lay", "put");
        println!("{:34}{:>7}{:>7}{:>7}{:>7}{:>7}", "", "", "run", "run", "out", "back");
        for (number, name) in NUMBERS {
            let counts = Call::ALL.map(|call| format!("{:>7}", self.of(call, *number)));
            let title = if *number == 0 { name.to_string() } else { format!("{number:>2} {name}") };
            println!("{title:34}{}", counts.concat());
        }
        println!("rule codes of accepted derivations (at checks):");
        for (code, name) in RULES.iter().enumerate() {
            let code = code as i32 + 1;
            println!("{code:>2} {name:31}{:>7}", self.rules.get(&code).copied().unwrap_or(0));
        }
        println!("accepted files (at checks) with:");
        for (count, (name, _)) in self.features.iter().zip(FEATURES) {
            println!("   {name:31}{count:>7}");
        }
    }
}

const NUMBERS: &[(u16, &str)] = &[
    (0, "accepted, ended, done"),
    (1, "length"),
    (2, "count"),
    (3, "field or code"),
    (4, "blocks don't match"),
    (5, "deep, passes, counter"),
    (10, "rule doesn't fit, rows"),
    (11, "position not below count"),
    (12, "not the next index"),
    (13, "buffer doesn't hold it"),
    (14, "rows not true at entry"),
    (15, "rows not kept"),
    (16, "branches' positions differ"),
    (17, "statements left"),
    (18, "block open (cannot occur)"),
    (19, "position isn't its count"),
    (21, "memory length"),
    (31, "stuck: unset register"),
    (32, "stuck: zero divisor"),
    (33, "stuck: index outside"),
    (34, "stuck: empty stream"),
    (35, "stuck: full stream"),
];

const RULES: [&str; 12] =
    ["same", "read", "fill", "use", "move", "write", "for", "if", "else", "end", "position row", "buffer row"];

//! Expected bytes worked out by hand from document 01; round trips over the vectors, changed vectors and noise.

use crate::explain::{explain, explain_text};
use crate::kernel::{numbers, sizes, Kernel, Section};
use crate::request::{reply, request};
use crate::{form, pack, unpack};
use std::fs;
use std::path::{Path, PathBuf};

/// Document 01's example of a whole file, which `check` accepts.
const COPYING: &str = "registers 1\nbuffers 0\narrays\ninput from length 1 first 0 count 1 step 1\n\
    output to length 1 first 0 count 1 step 1\narray program\nload r0 from 0\nstore r0 to 0\n\
    stream program\nread r0 from\nwrite r0 1 ; by number\nderivation\nread\nwrite\n";
const COPYING_NUMBERS: &str = "1 0 2 1 1 0 1 1 0 0 0 2 1 0 1 1 0 0 0 2 4 0 0 0 0 0 0 0 5 0 1 0 0 0 0 0 \
    2 6 0 0 0 0 0 0 0 7 0 1 0 0 0 0 0 2 2 0 0 0 0 0 0 0 6 0 0 0 0 0 0 0";

fn packed(text: &str) -> Vec<u8> {
    match pack::pack(text) {
        Ok(scope) => scope.kernel.bytes(),
        Err(wrong) => panic!("line {}: {}", wrong.line, wrong.what),
    }
}

/// What is wrong with a text in which one line was changed.
fn wrong(text: &str, old: &str, new: &str) -> String {
    assert!(text.contains(old));
    match pack::pack(&text.replacen(old, new, 1)) {
        Ok(_) => panic!("bad text packs: {new}"),
        Err(wrong) => format!("{}: {}", wrong.line, wrong.what),
    }
}

fn bytes_of_decimals(text: &str) -> Vec<u8> {
    let plain = text.lines().flat_map(|line| line.split('#').next().unwrap_or("").split_whitespace());
    plain.flat_map(|word| word.parse::<i32>().expect("a number").to_le_bytes()).collect()
}

fn files(folder: &str) -> Vec<PathBuf> {
    let folder = Path::new(env!("CARGO_MANIFEST_DIR")).join("../..").join(folder);
    let entries = fs::read_dir(folder).expect("the folder").map(|entry| entry.expect("an entry").path());
    let mut files: Vec<PathBuf> = entries.filter(|path| path.extension().is_some_and(|end| end == "txt")).collect();
    files.sort();
    assert!(!files.is_empty());
    files
}

fn vectors() -> Vec<Vec<u8>> {
    files("tests/vectors").iter().map(|path| bytes_of_decimals(&fs::read_to_string(path).expect("a vector"))).collect()
}

/// Whole files come back byte for byte; others are refused. Answers whether the file was whole.
fn comes_back(bytes: &[u8]) -> bool {
    let Ok(kernel) = Kernel::whole(bytes) else { return false };
    let text = unpack::unpack(kernel);
    assert_eq!(packed(&text), bytes, "{text}");
    true
}

#[test]
fn document_01s_file_has_document_01s_numbers() {
    assert_eq!(packed(COPYING), bytes_of_decimals(COPYING_NUMBERS));
}

#[test]
fn every_statement_and_rule_has_its_numbers() {
    let text = "registers 2\nbuffers 3\narrays\ninput a length 9 first 8 count 5 step -2\noutput o length 4 first 0 count 4 step 1\n\
        array program\nset r1 3-2*i0 + i3\ncopy r0 r1\nadd r0 r1 r0\nsubtract r0 r1 r0\nmultiply r0 r1 r0\ndivide r0 r1 r0\n\
        load r0 a i1-1\nstore r1 o 4*i2\nfor first 6 limit -1 step -1\nif r1\nelse\nend\nraw 14 1 2 3 4 5 6 -7\n\
        stream program\nread b0 a\nwrite r1 o\ncopy b2 b0\nderivation\nsame\nread\nfill\nuse\nmove\nwrite\nfor\n\
        position o i0\nbuffer b2 a 2*i0-1\nbuffer b1 nothing\nif\nelse\nend\n";
    let expected = "2 3 2 1 9 8 5 -2 0 0 0 2 4 0 4 1 0 0 0 \
        13 1 1 0 3 -2 0 0 1 2 0 1 0 0 0 0 0 3 0 1 0 1 0 0 0 3 0 1 0 2 0 0 0 3 0 1 0 3 0 0 0 3 0 1 0 4 0 0 0 \
        4 0 0 -1 0 1 0 0 5 1 1 0 0 0 4 0 8 6 -1 -1 0 0 0 0 9 1 0 0 0 0 0 0 10 0 0 0 0 0 0 0 11 0 0 0 0 0 0 0 14 1 2 3 4 5 6 -7 \
        3 6 2 0 0 0 0 0 0 7 1 1 0 0 0 0 0 2 4 2 0 0 0 0 0 \
        13 1 0 0 0 0 0 0 0 2 0 0 0 0 0 0 0 3 0 0 0 0 0 0 0 4 0 0 0 0 0 0 0 5 0 0 0 0 0 0 0 6 0 0 0 0 0 0 0 7 0 0 0 0 0 0 0 \
        11 1 0 0 1 0 0 0 12 2 0 -1 2 0 0 0 12 1 -1 0 0 0 0 0 8 0 0 0 0 0 0 0 9 0 0 0 0 0 0 0 10 0 0 0 0 0 0 0";
    assert_eq!(packed(text), bytes_of_decimals(expected));
}

#[test]
fn the_smoothers_text_is_the_smoothers_vector() {
    let text =
        fs::read_to_string(files("kernels").iter().find(|path| path.ends_with("smoother.txt")).expect("smoother"));
    let vector = fs::read_to_string(
        files("tests/vectors").iter().find(|path| path.ends_with("smoother.txt")).expect("smoother"),
    );
    assert_eq!(packed(&text.expect("text")), bytes_of_decimals(&vector.expect("vector")));
}

#[test]
fn forms_are_read_and_shown() {
    for (text, expected) in [("0", [0, 0, 0, 0, 0]), ("i0+2*i1-3", [-3, 1, 2, 0, 0]), ("7 - i0", [7, -1, 0, 0, 0])] {
        assert_eq!(form::parse(text), Ok(expected));
        assert_eq!(form::parse(&form::show(expected)), Ok(expected));
    }
    assert_eq!(form::show([7, -1, 0, 0, 0]), "7-i0");
    assert_eq!(form::show([-3, 1, 2, 0, 0]), "i0+2*i1-3");
    assert_eq!(form::show([0, -1, 0, 0, 5]), "-i0+5*i3");
    assert_eq!(form::parse("1048576-i2"), Ok([1_048_576, 0, 0, -1, 0]));
    for bad in ["", "+", "--3", "i4", "2i0", "i0 2", "2*", "*i0", "1048577", "9999999999999", "2*3", "é-i0"] {
        assert!(form::parse(bad).is_err(), "{bad}");
    }
}

#[test]
fn bad_texts_are_said_in_words() {
    let changes = [
        ("registers 1", "register 1", "1: found 'register'; expected 'registers N'"),
        ("registers 1", "registers 33", "1: registers '33'; expected a number, 1 to 32"),
        ("count 1", "counts 1", "4: found 'counts'; expected 'count'"),
        ("count 1 step 1", "count 1 step 0", "4: step '0'; expected another number"),
        ("output to", "output from", "5: the name 'from' is taken; expected another name"),
        ("load r0", "load r1", "7: no register 'r1' here; expected r0 to r0"),
        ("load r0 from", "load r0 form", "7: no array 'form'; expected a name (from, to) or a number, 0 to 1"),
        ("load r0 from", "load r0 to", "7: array 'to' is no input; expected an input array"),
        (
            "read r0 from",
            "read r0 from 3",
            "10: '3' comes after a whole line; expected the line's end or ; and a comment",
        ),
        ("write r0 1", "write", "11: the line ends too soon; expected r0 to r0"),
    ];
    for (old, new, expected) in changes {
        assert_eq!(wrong(COPYING, old, new), expected);
    }
    let stopped = wrong(COPYING, "derivation\nread\nwrite\n", "");
    assert_eq!(stopped, "11: the text ends too soon; expected 'derivation'");
    assert!(wrong(COPYING, "read r0", "load r0").starts_with("10: unknown word 'load'; expected set, copy,"));
    assert!(wrong(COPYING, "derivation\n", "").ends_with("expected r0 to r0"));
}

#[test]
fn kernels_come_back() {
    for path in files("kernels") {
        assert!(comes_back(&packed(&fs::read_to_string(path).expect("a kernel"))));
    }
}

#[test]
fn vectors_come_back_or_are_not_whole() {
    let whole = vectors().iter().filter(|bytes| comes_back(bytes)).count();
    assert!(whole > 90, "{whole}");
}

#[test]
fn changed_vectors_and_noise_come_back() {
    let mut random = Random(1);
    let (mut whole, mut all) = (0, 0);
    for bytes in vectors() {
        for _ in 0..25 {
            let mut changed = numbers(&bytes).expect("numbers");
            for _ in 0..1 + random.below(4) {
                let place = random.below(changed.len().max(1));
                if let Some(number) = changed.get_mut(place) {
                    *number = random.number();
                }
            }
            whole +=
                usize::from(comes_back(&changed.iter().flat_map(|number| number.to_le_bytes()).collect::<Vec<u8>>()));
            all += 1;
        }
    }
    for _ in 0..500 {
        let mut kernel = Kernel::new(random.number(), random.number());
        for section in Section::ALL {
            for _ in 0..random.below(12) {
                kernel.push(section, std::array::from_fn(|_| random.number()));
            }
        }
        assert!(comes_back(&kernel.bytes()));
    }
    assert!(whole * 2 > all, "{whole} of {all}");
}

#[test]
fn no_text_stops_the_program() {
    let mut random = Random(2);
    let words = [
        "registers",
        "b0",
        "raw",
        "2*i0",
        "-",
        "+",
        ";",
        "\n",
        "for",
        "first",
        "99999999999",
        "é",
        "arrays",
        "buffer",
        "input",
    ];
    for _ in 0..3000 {
        let mut lines: Vec<String> = COPYING.lines().map(String::from).collect();
        let place = random.below(lines.len());
        let mut noise: Vec<&str> = lines[place].split(' ').collect();
        for _ in 0..1 + random.below(3) {
            noise.insert(random.below(noise.len() + 1), words[random.below(words.len())]);
        }
        lines[place] = noise.join(" ");
        let _ = pack::pack(&lines.join("\n"));
    }
}

#[test]
fn answers_are_explained() {
    let file = packed(COPYING);
    let said = |answer: &str| explain(&file, &answer.split(' ').collect::<Vec<_>>());
    assert!(said("accepted").expect("text").starts_with("accepted: "));
    let text = said("check 10 1 1 2").expect("text");
    assert!(text.contains("rule doesn't fit the next statements"));
    assert!(text.contains("derivation        1: write\n"));
    assert!(text.contains("array program     1: store r0 out1 0\n"));
    assert!(text.contains("stream program    2: (the section's end: past its last record)\n"));
    assert!(said("read 2 4 0").expect("text").contains("array program: the count is 2\n"));
    assert!(said("read 3 4 0").expect("text").contains("array program     0: load r0 in0 0\n"));
    assert!(said("run 33 0").expect("text").contains("an index outside the array"));
    assert!(said("stream 34 0").expect("text").contains("stream program    0: read r0 in0\n"));
    assert!(said("run 21 0").expect("text").contains("stream-output 1\n"));
    for number in (1..=5).map(|n| format!("read {n} 3 0")).chain((10..=19).map(|n| format!("check {n} 0 0 0"))) {
        assert!(said(&number).is_ok(), "{number}");
        assert!(explain(&file[1..], &number.split(' ').collect::<Vec<_>>()).is_ok(), "{number}");
    }
    for bad in [
        "",
        "check",
        "check 9 0 0 0",
        "read 6 0 0",
        "read 3 4",
        "run 30 0",
        "check 10 a 0 0",
        "check 10 -1 0 0",
        "refused",
    ] {
        assert!(said(bad).is_err(), "{bad}");
    }
}

#[test]
fn memories_have_their_sizes() {
    let text = COPYING.replace("from length 1 first 0 count 1 step 1", "from length 9 first 8 count 4 step -2");
    let expected = [("array-input", 9), ("array-output", 1), ("stream-input", 4), ("stream-output", 1)];
    let sizes_of = |text: &str| sizes(&Kernel::whole(&packed(text)).expect("a kernel"));
    assert_eq!(sizes_of(&text), Ok(expected));
    let text = text.replace("output to length 1 first 0 count 1 step 1", "raw 2 0 0 0 0 0 0 0");
    assert!(sizes_of(&text.replace("store r0 to 0", "").replace("write r0 1", "")).is_err());
}

#[test]
fn a_texts_answer_is_explained_with_its_names_and_lines() {
    let said = |text: &str, answer: &str| match pack::pack(text) {
        Ok(scope) => explain_text(scope, &answer.split(' ').collect::<Vec<_>>()).expect("text"),
        Err(wrong) => panic!("line {}: {}", wrong.line, wrong.what),
    };
    let text = said(COPYING, "check 11 1 1 2");
    assert!(text.contains("derivation        1: write  (line 14)\n"), "{text}");
    assert!(text.contains("array program     1: store r0 to 0  (line 8)\n"), "{text}");
    assert!(text.contains("stream program    2: (the section's end: past its last record)\n"), "{text}");
    assert!(text.contains("arrays            0: input from length 1 first 0 count 1 step 1  (line 4)\n"), "{text}");
    let text = said(&COPYING.replace("input from length", "input length").replace("from", "0"), "check 11 0 0 0");
    assert!(text.contains("arrays            0: input length 1 first 0 count 1 step 1  (line 4)\n"), "{text}");
}

#[test]
fn requests_and_replies_have_their_bytes() {
    let expected = [4, 0, 0, 0, 2, 0, 0, 0, 7, 8, 1, 0, 0, 0, 9, 4, 0, 0, 0, 255, 255, 255, 255];
    assert_eq!(request("lay-out", &[7, 8], &[9], "1"), Ok(expected.to_vec()));
    let expected = [1, 0, 0, 0, 1, 0, 0, 0, 7, 0, 0, 0, 0, 0, 0, 0, 0];
    assert_eq!(request("check", &[7], &[], "0"), Ok(expected.to_vec()));
    assert!(request("run", &[], &[], "0").is_err());
    assert!(request("check", &[0; 65_536], &[], "16384").is_ok());
    assert!(request("check", &[0; 65_537], &[], "0").is_err());
    for bad in ["16385", "-1", "x", "", "18446744073709551615"] {
        assert!(request("check", &[], &[], bad).is_err(), "{bad}");
    }
    assert_eq!(reply(&[32, 0, 7, 0, 2, 1, 0, 255]), Ok(([32, 7, 258, 65_280], [].as_slice())));
    assert_eq!(reply(&[0, 0, 0, 0, 4, 0, 3, 0, 15, 0, 0, 0]), Ok(([0, 0, 4, 3], [15, 0, 0, 0].as_slice())));
    assert!(reply(&[0; 7]).is_err());
    assert!(reply(&[255; 8]).is_err());
}

/// splitmix64
struct Random(u64);

impl Random {
    fn next(&mut self) -> u64 {
        self.0 = self.0.wrapping_add(0x9e37_79b9_7f4a_7c15);
        let mixed = (self.0 ^ self.0 >> 30).wrapping_mul(0xbf58_476d_1ce4_e5b9);
        let mixed = (mixed ^ mixed >> 27).wrapping_mul(0x94d0_49bb_1331_11eb);
        mixed ^ mixed >> 31
    }

    fn below(&mut self, limit: usize) -> usize {
        (self.next() % limit.max(1) as u64) as usize
    }

    /// Mostly small numbers, now and then any.
    fn number(&mut self) -> i32 {
        match self.below(8) {
            0 => self.next() as i32,
            1 => [i32::MIN, i32::MAX, -1, 1_048_576, -1_048_577][self.below(5)],
            _ => self.below(14) as i32 - 1,
        }
    }
}

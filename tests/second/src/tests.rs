//! Tests of this implementation against document 01 and against itself.

use crate::answer::{bytes, call, check_line, parts, word, Call};
use crate::batch::{answer, compare, next, pick, Next, Request};
use crate::check::check;
use crate::file::{read, File};
use crate::make::{longest, measured_lines, requests};
use crate::order::{lay_out, put_back};
use crate::prng::Prng;
use crate::run::{array_run, stream_run, Outcome};
use crate::{grow, mutate};

#[test]
fn document_example() {
    let mut numbers = vec![1, 0, 2, 1, 1, 0, 1, 1, 0, 0, 0, 2, 1, 0, 1, 1, 0, 0, 0, 2, 4, 0, 0, 0, 0, 0, 0, 0];
    numbers.extend([5, 0, 1, 0, 0, 0, 0, 0, 2, 6, 0, 0, 0, 0, 0, 0, 0, 7, 0, 1, 0, 0, 0, 0, 0]);
    numbers.extend([2, 2, 0, 0, 0, 0, 0, 0, 0, 6, 0, 0, 0, 0, 0, 0, 0]);
    assert_eq!(check_line(&bytes(&numbers)), "accepted");
    let last = numbers.len() - 8;
    numbers[last] = 2;
    assert_eq!(check_line(&bytes(&numbers)), "check 10 1 1 1");
}

#[test]
fn measured() {
    let lines: Vec<String> = measured_lines().iter().map(|file| check_line(file)).collect();
    assert_eq!(lines, ["read 3 4 0", "accepted", "read 5 4 1", "read 5 4 4"]);
}

#[test]
fn longest_file() {
    let files = longest();
    assert_eq!(files.iter().map(Vec::len).collect::<Vec<_>>(), [49_432, 49_436, 49_832]);
    let lines: Vec<String> = files.iter().map(|file| check_line(file)).collect();
    assert_eq!(lines, ["accepted", "read 1 0 0", "read 1 0 0"]);
}

/// On an accepted file both runs come out alike, whatever the input.
fn runs_agree(rng: &mut Prng, file: &File) {
    let length = Call::ArrayRun.lengths(file).0;
    let input: Vec<i32> = (0..length).map(|_| rng.pick(&[0, 1, -1, 7, i32::MIN, i32::MAX])).collect();
    let array = array_run(file, &input);
    let stream = stream_run(file, &lay_out(file, &input));
    assert_eq!(put_back(file, &stream.output), array.output);
    match (array.outcome, stream.outcome) {
        (Outcome::Ended, Outcome::Ended) => {
            let (taken, given) = Call::StreamRun.lengths(file);
            assert_eq!((stream.read, stream.written), (taken, given));
        }
        (Outcome::Stuck { reason: one, .. }, Outcome::Stuck { reason: other, .. }) => {
            assert_eq!(one, other);
            assert!(one == 31 || one == 32);
        }
        (array, stream) => panic!("array {array:?}, stream {stream:?}"),
    }
}

#[test]
fn grown_kernels_are_accepted() {
    let mut rng = Prng::new(7);
    for _ in 0..400 {
        let kernel = grow::kernel(&mut rng);
        let file = read(&mutate::file_bytes(&kernel)).expect("a grown kernel reads");
        assert_eq!(check(&file), Ok(()));
        runs_agree(&mut rng, &file);
    }
}

#[test]
fn accepted_changes_run_alike() {
    let mut rng = Prng::new(8);
    let mut accepted = 0;
    for _ in 0..200 {
        let kernel = grow::kernel(&mut rng);
        for _ in 0..10 {
            let Ok(file) = read(&mutate::changed(&mut rng, &kernel)) else { continue };
            if check(&file).is_ok() {
                accepted += 1;
                runs_agree(&mut rng, &file);
            }
        }
    }
    assert!(accepted > 100);
}

#[test]
fn kernels_without_arrays_are_changed_too() {
    let mut rng = Prng::new(9);
    for _ in 0..2000 {
        let mut kernel = grow::kernel(&mut rng);
        kernel.arrays.clear();
        mutate::changed(&mut rng, &kernel);
    }
}

#[test]
fn answer_words() {
    assert_eq!(word([1, 2, 3, 4]), 0x0004_0003_0002_0001);
    assert_eq!(parts(word([11, 22, 33, 65535])), [11, 22, 33, 65535]);
    let file = &measured_lines()[1];
    let mut output = vec![9; 4];
    assert_eq!(call(Call::StreamRun, file, &[], &mut output), word([0, 0, 0, 1]));
    assert_eq!(output, [5, 0, 0, 0]);
    let mut short = vec![9; 3];
    assert_eq!(call(Call::ArrayRun, file, &[], &mut short), word([21, 0, 0, 0]));
    assert_eq!(short, [9; 3]);
}

fn answered(batch: &[u8]) -> Vec<u8> {
    let mut replies = Vec::new();
    answer(&mut &batch[..], &mut replies).expect("memory does not fail");
    replies
}

#[test]
fn batch_stops_at_a_bad_request() {
    let bad = [0xff; 8];
    assert_eq!(answered(&[]), []);
    assert_eq!(answered(&[1]), bad);
    assert_eq!(answered(&[0, 0, 0, 0]), bad);
    assert_eq!(answered(&[6, 0, 0, 0]), bad);
    assert_eq!(answered(&[1, 0, 0, 0, 1, 0, 1, 0]), bad); // 65,537 bytes
    let mut batch = Vec::new();
    let request = Request { call: Call::Check, file: vec![], input: vec![1], output: vec![2, 3] };
    request.write(&mut batch).expect("memory does not fail");
    assert!(matches!(next(&mut &batch[..]), Ok(Next::Request(same)) if same == request));
    assert_eq!(answered(&batch), [1, 0, 0, 0, 0, 0, 0, 0, 2, 3]);
    batch.pop();
    assert_eq!(answered(&batch), bad);
}

#[test]
fn replies_are_compared() {
    let mut batch = Vec::new();
    requests(5, 40, &[], &mut batch).expect("memory does not fail");
    let compared = |replies: &[u8]| compare(&mut &batch[..], &mut &replies[..]).expect("memory does not fail");
    let mut replies = answered(&batch);
    assert_eq!(compared(&replies), Ok(40));
    assert!(compared(&replies[..replies.len() - 1]).is_err_and(|said| said.starts_with("request 39 ")));
    replies.push(0);
    assert!(compared(&replies).is_err_and(|said| said.starts_with("after 40 requests ")));
    replies[0] ^= 1;
    assert!(compared(&replies).is_err_and(|said| said.starts_with("request 0 ")));
    let mut last = Vec::new();
    assert!(pick(&mut &batch[..], 39, &mut last).expect("memory does not fail"));
    assert!(batch.ends_with(&last) && !last.is_empty());
    assert!(!pick(&mut &batch[..], 40, &mut last).expect("memory does not fail"));
}

#[test]
fn requests_come_from_the_seed_alone() {
    let make = |seed: u64| {
        let mut batch = Vec::new();
        requests(seed, 150, &[], &mut batch).expect("memory does not fail");
        batch
    };
    assert_eq!(make(3), make(3));
    assert_ne!(make(3), make(4));
}

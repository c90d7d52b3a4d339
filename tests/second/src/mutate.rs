//! Changes to kernels at every level: single numbers, records, rules with their statements, counts, bytes.

use crate::file::{Record, Sections};
use crate::prng::Prng;

/// The kernel file of these sections.
pub fn file_bytes(kernel: &Sections) -> Vec<u8> {
    crate::answer::bytes(&file_numbers(kernel))
}

fn file_numbers(kernel: &Sections) -> Vec<i32> {
    let mut numbers = vec![kernel.registers, kernel.buffers];
    for records in [&kernel.arrays, &kernel.array_program, &kernel.stream_program, &kernel.derivation] {
        numbers.push(records.len() as i32);
        numbers.extend(records.iter().flatten());
    }
    numbers
}

/// A kernel file with one to three changes; those of counts, lengths and bytes come last.
pub fn changed(rng: &mut Prng, kernel: &Sections) -> Vec<u8> {
    let mut kernel = kernel.clone();
    let changes = rng.pick(&[1, 1, 1, 1, 2, 3]);
    let mut raw = 0;
    for _ in 0..changes {
        match rng.below(10) {
            0..=4 => with_its_statements(rng, &mut kernel),
            5 | 6 => one_number(rng, &mut kernel),
            7 | 8 => whole_records(rng, &mut kernel),
            _ => raw += 1,
        }
    }
    let mut numbers = file_numbers(&kernel);
    let mut cut = false;
    for _ in 0..raw {
        match rng.below(4) {
            0 => change_count(rng, &kernel, &mut numbers),
            1 => change_any(rng, &mut numbers),
            2 => change_length(rng, &mut numbers),
            _ => cut = true,
        }
    }
    let mut bytes = crate::answer::bytes(&numbers);
    if cut {
        change_bytes(rng, &mut bytes);
    }
    bytes
}

const EXTREMES: [i32; 16] = [
    i32::MIN,
    i32::MAX,
    0,
    -1,
    1,
    2,
    65_536,
    65_537,
    -65_536,
    1_048_576,
    1_048_577,
    -1_048_576,
    -1_048_577,
    4096,
    4097,
    256,
];

/// Earlier changes may have left any number there, so sums wrap.
fn add(number: &mut i32, more: i32) {
    *number = number.wrapping_add(more);
}

fn other_number(rng: &mut Prng, number: i32) -> i32 {
    match rng.below(8) {
        0..=2 => number.wrapping_add(1),
        3 | 4 => number.wrapping_sub(1),
        5 => number.wrapping_neg(),
        6 => rng.between(-3, 12) as i32,
        _ => rng.pick(&EXTREMES),
    }
}

/// One of the four sections with records; programs and derivation more often than arrays.
fn any_section<'a>(rng: &mut Prng, kernel: &'a mut Sections) -> &'a mut Vec<Record> {
    match rng.below(7) {
        0 => &mut kernel.arrays,
        1 | 2 => &mut kernel.array_program,
        3 | 4 => &mut kernel.stream_program,
        _ => &mut kernel.derivation,
    }
}

fn one_number(rng: &mut Prng, kernel: &mut Sections) {
    if rng.one_in(12) {
        let count = if rng.one_in(2) { &mut kernel.registers } else { &mut kernel.buffers };
        *count = other_number(rng, *count);
        return;
    }
    let records = any_section(rng, kernel);
    if records.is_empty() {
        return;
    }
    let record = rng.below(records.len());
    let field = rng.below(8);
    records[record][field] = other_number(rng, records[record][field]);
}

/// A record dropped, doubled, exchanged, moved or brought in from another section.
fn whole_records(rng: &mut Prng, kernel: &mut Sections) {
    let stray = {
        let from = any_section(rng, kernel);
        if from.is_empty() {
            [11, 0, 0, 0, 0, 0, 0, 0]
        } else {
            from[rng.below(from.len())]
        }
    };
    let records = any_section(rng, kernel);
    if records.is_empty() {
        return;
    }
    let (one, other) = (rng.below(records.len()), rng.below(records.len()));
    match rng.below(7) {
        0 | 1 => drop(records.remove(one)),
        2 => records.insert(one, records[one]),
        3 => records.swap(one, other),
        4 => {
            let after = (one + 1) % records.len();
            records.swap(one, after);
        }
        5 => {
            let moved = records.remove(one);
            records.insert(other.min(records.len()), moved);
        }
        _ => records.insert(one, stray),
    }
}

/// How many array and stream statements the rules before this one take.
fn taken_before(kernel: &Sections, derivation: usize) -> (usize, usize) {
    let rules = kernel.derivation[..derivation].iter().filter(|record| record[0] <= 10);
    let (mut array, mut stream) = (0, 0);
    for rule in rules {
        stream += 1;
        array += usize::from(rule[0] != 3 && rule[0] != 5);
    }
    (array.min(kernel.array_program.len()), stream.min(kernel.stream_program.len()))
}

/// A random derivation record of one of these codes.
fn any_rule(rng: &mut Prng, kernel: &Sections, codes: &[i32]) -> Option<usize> {
    let fitting: Vec<usize> =
        (0..kernel.derivation.len()).filter(|&number| codes.contains(&kernel.derivation[number][0])).collect();
    if fitting.is_empty() {
        None
    } else {
        Some(rng.pick(&fitting))
    }
}

/// Changes that keep the derivation fitting its statements, so that the later refusals come up.
fn with_its_statements(rng: &mut Prng, kernel: &mut Sections) {
    match rng.below(30) {
        0..=2 => change_order(rng, kernel),
        3 => drop_rule(rng, kernel, &[1, 2, 3, 4, 5, 6]),
        4 => drop_rule(rng, kernel, &[2, 3, 6]),
        5 => double_rule(rng, kernel, &[1, 2, 3, 4, 5, 6]),
        6 => double_rule(rng, kernel, &[6]),
        7 | 8 => insert_fill(rng, kernel),
        9 => insert_move(rng, kernel),
        10 => insert_use(rng, kernel),
        11 => shift_row(rng, kernel),
        12..=14 => tilt_row(rng, kernel),
        15 => change_held(rng, kernel),
        16 => change_same(rng, kernel),
        17 => change_loop(rng, kernel),
        18 => (0..rng.pick(&[1, 1, 1, 2, 4, 8])).for_each(|_| wrap_all(rng, kernel)),
        19..=21 => change_index(rng, kernel),
        22 => kernel.derivation.truncate(rng.below(kernel.derivation.len() + 1)),
        23 => drop_last_item(kernel),
        24 => one_item_more(rng, kernel),
        25 => whole_rows(rng, kernel),
        26 => uneven_branches(rng, kernel),
        27 | 28 => write_too_often(rng, kernel),
        _ => wide_row(rng, kernel),
    }
}

/// An array record; an earlier change may have taken the last one away.
fn any_order<'a>(rng: &mut Prng, kernel: &'a mut Sections) -> Option<&'a mut Record> {
    let arrays = &mut kernel.arrays;
    if arrays.is_empty() {
        None
    } else {
        let array = rng.below(arrays.len());
        Some(&mut arrays[array])
    }
}

/// Another order of an array, within its ranges as far as that is easy.
fn change_order(rng: &mut Prng, kernel: &mut Sections) {
    let Some(record) = any_order(rng, kernel) else { return };
    let [_, length, first, count, step, ..] = *record;
    match rng.below(6) {
        0 => add(&mut record[3], -1),
        1 => {
            add(&mut record[1], 1);
            add(&mut record[3], 1);
        }
        2 => add(&mut record[1], 1),
        3 => {
            // The same cells the other way round.
            record[2] = first.wrapping_add(step.wrapping_mul(count.wrapping_sub(1)));
            record[4] = step.wrapping_neg();
        }
        4 => {
            add(&mut record[1], 1);
            add(&mut record[2], 1);
        }
        _ => {
            record[1] = length.wrapping_add(count);
            add(&mut record[4], 1);
        }
    }
}

fn drop_rule(rng: &mut Prng, kernel: &mut Sections, codes: &[i32]) {
    if let Some(rule) = any_rule(rng, kernel, codes) {
        drop_rule_at(kernel, rule);
    }
}

fn drop_rule_at(kernel: &mut Sections, rule: usize) {
    let code = kernel.derivation.remove(rule)[0];
    let (array, stream) = taken_before(kernel, rule);
    if stream < kernel.stream_program.len() {
        kernel.stream_program.remove(stream);
    }
    if code != 3 && code != 5 && array < kernel.array_program.len() {
        kernel.array_program.remove(array);
    }
}

/// The last item that moves stays behind.
fn drop_last_item(kernel: &mut Sections) {
    if let Some(last) = kernel.derivation.iter().rposition(|record| [2, 3, 6].contains(&record[0])) {
        drop_rule_at(kernel, last);
    }
}

/// One item more, or one less, in the first branch of an if.
fn uneven_branches(rng: &mut Prng, kernel: &mut Sections) {
    let Some(other) = any_rule(rng, kernel, &[9]) else { return };
    let branch = kernel.derivation[..other].iter().rposition(|record| record[0] > 6).map_or(0, |before| before + 1);
    let item = (branch..other).find(|&rule| [2, 3, 6].contains(&kernel.derivation[rule][0]));
    if let Some(item) = item.filter(|_| rng.one_in(2)) {
        return drop_rule_at(kernel, item);
    }
    let stream = any_array(rng, kernel, 1);
    // With one item more in the stream the fill itself is often all right.
    kernel.arrays.get_mut(stream as usize).into_iter().for_each(longer_order);
    let line = [6, any_buffer(rng, kernel), stream, 0, 0, 0, 0, 0];
    let (_, place) = taken_before(kernel, other);
    kernel.stream_program.insert(place, line);
    kernel.derivation.insert(other, [3, 0, 0, 0, 0, 0, 0, 0]);
}

/// A write doubled in the stream program alone: the stream run sticks, 35.
fn write_too_often(rng: &mut Prng, kernel: &mut Sections) {
    let writes: Vec<usize> =
        (0..kernel.stream_program.len()).filter(|&number| kernel.stream_program[number][0] == 7).collect();
    if !writes.is_empty() {
        let place = rng.pick(&writes);
        kernel.stream_program.insert(place, kernel.stream_program[place]);
    }
}

/// An order with one item more at its end, which no rule moves.
fn one_item_more(rng: &mut Prng, kernel: &mut Sections) {
    if let Some(record) = any_order(rng, kernel) {
        longer_order(record);
    }
}

fn longer_order(record: &mut Record) {
    let way = record[4].max(0);
    add(&mut record[1], way);
    add(&mut record[3], 1);
}

/// A hold row dropped, doubled or exchanged with the next record.
fn whole_rows(rng: &mut Prng, kernel: &mut Sections) {
    let Some(row) = any_rule(rng, kernel, &[11, 12]) else { return };
    let after = (row + 1) % kernel.derivation.len();
    match rng.below(4) {
        0 => drop(kernel.derivation.remove(row)),
        1 => kernel.derivation.insert(row, kernel.derivation[row]),
        2 => kernel.derivation.swap(row, after),
        _ => {
            // A counter that may not be around.
            let field = 5 + rng.below(3);
            add(&mut kernel.derivation[row][field], 1);
        }
    }
}

/// A slope so much greater that the row at first would be the same with 32 bits, but is not.
fn wide_row(rng: &mut Prng, kernel: &mut Sections) {
    let Some(row) = any_rule(rng, kernel, &[11, 12]) else { return };
    let Some((first, level)) = loop_of_row(kernel, row) else { return };
    if first == 0 || first % 4096 != 0 {
        return;
    }
    let least = (1_i64 << 32) >> first.trailing_zeros();
    kernel.derivation[row][4 + level] = least.min(1_048_576) as i32;
}

fn double_rule(rng: &mut Prng, kernel: &mut Sections, codes: &[i32]) {
    let Some(rule) = any_rule(rng, kernel, codes) else { return };
    let (array, stream) = taken_before(kernel, rule);
    let record = kernel.derivation[rule];
    if stream >= kernel.stream_program.len() || array >= kernel.array_program.len() {
        return;
    }
    kernel.derivation.insert(rule, record);
    kernel.stream_program.insert(stream, kernel.stream_program[stream]);
    if record[0] != 3 && record[0] != 5 {
        kernel.array_program.insert(array, kernel.array_program[array]);
    }
}

/// Puts a rule with its statements in, before a rule or at the end.
fn insert(rng: &mut Prng, kernel: &mut Sections, code: i32, array_line: Option<Record>, stream_line: Record) {
    let end = kernel.derivation.len();
    let before = any_rule(rng, kernel, &[1, 2, 3, 4, 5, 6, 7, 8, 9, 10]).unwrap_or(end);
    let place = if rng.one_in(8) { end } else { before };
    let (array, stream) = taken_before(kernel, place);
    kernel.derivation.insert(place, [code, 0, 0, 0, 0, 0, 0, 0]);
    kernel.stream_program.insert(stream, stream_line);
    if let Some(line) = array_line {
        kernel.array_program.insert(array, line);
    }
}

fn any_array(rng: &mut Prng, kernel: &Sections, code: i32) -> i32 {
    let fitting: Vec<i32> =
        (0..kernel.arrays.len()).filter(|&array| kernel.arrays[array][0] == code).map(|array| array as i32).collect();
    if fitting.is_empty() {
        0
    } else {
        rng.pick(&fitting)
    }
}

fn any_buffer(rng: &mut Prng, kernel: &Sections) -> i32 {
    let buffer = rng.below(kernel.buffers.max(1) as usize) as i32;
    kernel.registers.wrapping_add(buffer)
}

fn insert_fill(rng: &mut Prng, kernel: &mut Sections) {
    let (buffer, stream) = (any_buffer(rng, kernel), any_array(rng, kernel, 1));
    insert(rng, kernel, 3, None, [6, buffer, stream, 0, 0, 0, 0, 0]);
}

fn insert_move(rng: &mut Prng, kernel: &mut Sections) {
    let (to, from) = (any_buffer(rng, kernel), any_buffer(rng, kernel));
    insert(rng, kernel, 5, None, [2, to, from, 0, 0, 0, 0, 0]);
}

fn insert_use(rng: &mut Prng, kernel: &mut Sections) {
    let (array, buffer, index) = (any_array(rng, kernel, 1), any_buffer(rng, kernel), rng.below(3) as i32);
    insert(rng, kernel, 4, Some([4, 0, array, index, 0, 0, 0, 0]), [2, 0, buffer, 0, 0, 0, 0, 0]);
}

/// A hold row's constant moved.
fn shift_row(rng: &mut Prng, kernel: &mut Sections) {
    if let Some(row) = any_rule(rng, kernel, &[11, 11, 12]) {
        add(&mut kernel.derivation[row][3], rng.pick(&[-1, 1]));
    }
}

/// A hold row with another slope that is still true at entry.
fn tilt_row(rng: &mut Prng, kernel: &mut Sections) {
    let Some(row) = any_rule(rng, kernel, &[11, 12]) else { return };
    let way = rng.pick(&[-1, 1, 2]);
    let Some((first, level)) = loop_of_row(kernel, row) else { return };
    let record = &mut kernel.derivation[row];
    add(&mut record[4 + level], way);
    add(&mut record[3], way.wrapping_mul(first).wrapping_neg());
}

/// First and level of the loop that a row belongs to: the last for rule before it.
fn loop_of_row(kernel: &Sections, row: usize) -> Option<(i32, usize)> {
    let rule = (0..row).rev().find(|&number| kernel.derivation[number][0] == 7)?;
    let (array, _) = taken_before(kernel, rule);
    let line = kernel.array_program.get(array).filter(|line| line[0] == 8)?;
    let mut open = Vec::new();
    for earlier in &kernel.array_program[..array] {
        match earlier[0] {
            8 | 9 => open.push(earlier[0]),
            11 => drop(open.pop()),
            _ => {}
        }
    }
    let level = open.iter().filter(|&&code| code == 8).count();
    (level < 4).then_some((line[1], level))
}

/// A buffer row that holds nothing, another array, or an output.
fn change_held(rng: &mut Prng, kernel: &mut Sections) {
    let Some(row) = any_rule(rng, kernel, &[12]) else { return };
    let array = match rng.below(3) {
        0 => -1,
        1 => any_array(rng, kernel, 2),
        _ => any_array(rng, kernel, 1),
    };
    let record = &mut kernel.derivation[row];
    record[2] = array;
    if array == -1 {
        record[3..].fill(0);
    }
}

/// Another register, number or operation in both programs alike.
fn change_same(rng: &mut Prng, kernel: &mut Sections) {
    let Some(rule) = any_rule(rng, kernel, &[1]) else { return };
    let (array, stream) = taken_before(kernel, rule);
    if array >= kernel.array_program.len() || stream >= kernel.stream_program.len() {
        return;
    }
    let mut line = kernel.array_program[array];
    match line[0] {
        1 if rng.one_in(2) => line[3] = rng.pick(&[0, -1, 1_048_576, -1_048_576]),
        3 if rng.one_in(2) => line[4] = 4,
        _ => {
            let field = 1 + rng.below(if line[0] == 3 { 3 } else { 1 });
            line[field] = rng.below(kernel.registers.max(1) as usize) as i32;
        }
    }
    kernel.array_program[array] = line;
    kernel.stream_program[stream] = line;
}

/// Other bounds of one loop in both programs alike.
fn change_loop(rng: &mut Prng, kernel: &mut Sections) {
    let Some(rule) = any_rule(rng, kernel, &[7]) else { return };
    let (array, stream) = taken_before(kernel, rule);
    let (Some(one), Some(other)) = (kernel.array_program.get_mut(array), kernel.stream_program.get_mut(stream)) else {
        return;
    };
    let [_, first, _, step, ..] = *one;
    match rng.below(5) {
        0 => add(&mut one[2], step),
        1 => add(&mut one[2], step.wrapping_neg()),
        2 => add(&mut one[1], step.wrapping_neg()),
        3 => add(&mut one[1], step),
        _ => one[2] = first.wrapping_add(step.wrapping_mul(rng.pick(&[1, 2, 65_536, 65_537, 9]))),
    }
    *other = *one;
}

/// Everything inside one more loop or if, in both programs, with rows that are true at entry.
fn wrap_all(rng: &mut Prng, kernel: &mut Sections) {
    let with_code = |code: i32| -> Record { [code, 0, 0, 0, 0, 0, 0, 0] };
    let looped = rng.one_in(2);
    let head = if looped { [8, 0, rng.pick(&[1, 2]), 1, 0, 0, 0, 0] } else { with_code(9) };
    for program in [&mut kernel.array_program, &mut kernel.stream_program] {
        program.insert(0, head);
        if !looped {
            program.push(with_code(10));
        }
        program.push(with_code(11));
    }
    let mut opening = vec![with_code(if looped { 7 } else { 8 })];
    if looped {
        opening.extend((0..kernel.arrays.len()).map(|stream| [11, stream as i32, 0, 0, 0, 0, 0, 0]));
        opening.extend((0..kernel.buffers.clamp(0, 16)).map(|buffer| [12, buffer, -1, 0, 0, 0, 0, 0]));
    }
    kernel.derivation.splice(0..0, opening);
    if !looped {
        kernel.derivation.push(with_code(9));
    }
    kernel.derivation.push(with_code(10));
}

/// Another index of a load or store: the check gives 12 or 13, the array run may stick (33).
fn change_index(rng: &mut Prng, kernel: &mut Sections) {
    let fitting: Vec<usize> =
        (0..kernel.array_program.len()).filter(|&number| [4, 5].contains(&kernel.array_program[number][0])).collect();
    if fitting.is_empty() {
        return;
    }
    let record = &mut kernel.array_program[rng.pick(&fitting)];
    let field = 3 + rng.below(2);
    record[field] = match rng.below(4) {
        0 => !record[field],
        1 => rng.pick(&[1_048_576, -1_048_576, 4096]),
        _ => record[field].wrapping_add(rng.pick(&[-1, 1])),
    };
}

/// Where the six counts stand among the file's numbers.
fn count_places(kernel: &Sections) -> [usize; 6] {
    let array = 3 + 8 * kernel.arrays.len();
    let stream = array + 1 + 8 * kernel.array_program.len();
    let derivation = stream + 1 + 8 * kernel.stream_program.len();
    [0, 1, 2, array, stream, derivation]
}

fn change_count(rng: &mut Prng, kernel: &Sections, numbers: &mut [i32]) {
    let place = rng.pick(&count_places(kernel));
    // A raw change before may have taken numbers away.
    if let Some(count) = numbers.get_mut(place) {
        *count = match rng.below(4) {
            0 => other_number(rng, *count),
            1 => rng.pick(&[0, -1, 9, 17, 33, 257, 1025, i32::MIN, i32::MAX]),
            2 => count.wrapping_add(1),
            _ => count.wrapping_sub(1),
        };
    }
}

fn change_any(rng: &mut Prng, numbers: &mut [i32]) {
    if !numbers.is_empty() {
        let place = rng.below(numbers.len());
        numbers[place] = other_number(rng, numbers[place]);
    }
}

fn change_length(rng: &mut Prng, numbers: &mut Vec<i32>) {
    let place = rng.below(numbers.len() + 1);
    match rng.below(4) {
        0 => numbers.insert(place, 0),
        1 => numbers.truncate(place),
        2 => numbers.push(rng.between(-1, 1) as i32),
        _ => drop(numbers.pop()),
    }
}

fn change_bytes(rng: &mut Prng, bytes: &mut Vec<u8>) {
    match rng.below(4) {
        0 => bytes.truncate(bytes.len().saturating_sub(1 + rng.below(40))),
        1 => bytes.extend((0..1 + rng.below(8)).map(|_| rng.next() as u8)),
        2 if !bytes.is_empty() => {
            let place = rng.below(bytes.len());
            bytes[place] ^= 1 << rng.below(8);
        }
        _ => bytes.truncate(rng.below(bytes.len() + 1)),
    }
}

//! Accepted kernels by construction. First a shape is drawn (events in blocks, which move exactly the items each
//! stream has), then it is emitted as both programs and the derivation at once, with its own ledger.

use crate::check::{ahead, put};
use crate::file::{Form, Held, Record, Sections};
use crate::prng::Prng;

/// What one rule stands for.
enum Event {
    Same(Record),
    Read {
        stream: usize,
        register: i32,
    },
    Fill {
        stream: usize,
        buffer: usize,
    },
    Use {
        buffer: usize,
        register: i32,
    },
    Move {
        to: usize,
        from: usize,
    },
    Write {
        stream: usize,
        register: i32,
    },
    /// `weak` has a bit for each buffer whose row is nothing in any case.
    For {
        first: i64,
        step: i64,
        passes: i64,
        weak: u32,
        body: Vec<Event>,
    },
    If {
        register: i32,
        then: Vec<Event>,
        otherwise: Vec<Event>,
    },
}

/// A kernel that the check accepts. Shapes that turn out too long or too wide are drawn again.
pub fn kernel(rng: &mut Prng) -> Sections {
    loop {
        let drawn = if rng.one_in(4) { draw_window(rng) } else { draw_mixed(rng) };
        let Some(arrays) = draw_arrays(rng, &drawn) else { continue };
        if let Some(kernel) = emit(&drawn, arrays) {
            return kernel;
        }
    }
}

/// One loop over one read, with forms that pass 32 bits: with 32 bits only, many would seem to fit.
pub fn wide(rng: &mut Prng) -> Sections {
    let first: i32 = rng.pick(&[65_536, -65_536, 32_768, -4096, 1, -1]);
    let step = if first == 65_536 { -1 } else { 1 };
    let passes = rng.pick(&[1, 1, 2]);
    let slope = rng.pick(&[65_536, -65_536, 131_072, 1_048_576, -1_048_576, 0, 1]);
    // True at entry where the constant can be had; without wrap it is not true otherwise.
    let constant = if first.abs() == 1 { -slope * first } else { 0 };
    let array_step = rng.pick(&[4096, -4096, 2048, 1]);
    let (index, load_slope) = (rng.pick(&[0, 0, 1]), rng.pick(&[0, 0, slope]));
    let head = [8, first, first + passes * step, step, 0, 0, 0, 0];
    let end = [11, 0, 0, 0, 0, 0, 0, 0];
    let buffered = rng.one_in(2);
    let load = [4, 0, 0, index, load_slope, 0, 0, 0];
    let (reads, rules): (&[Record], &[i32]) = if buffered {
        (&[[6, 1, 0, 0, 0, 0, 0, 0], [2, 0, 1, 0, 0, 0, 0, 0]], &[3, 4])
    } else {
        (&[[6, 0, 0, 0, 0, 0, 0, 0]], &[2])
    };
    let mut derivation =
        vec![[7, 0, 0, 0, 0, 0, 0, 0], [11, 0, 0, constant, slope, 0, 0, 0], [11, 1, 0, 0, 0, 0, 0, 0]];
    derivation.push([12, 0, -1, 0, 0, 0, 0, 0]);
    derivation.extend(rules.iter().chain(&[10, 6]).map(|&code| [code, 0, 0, 0, 0, 0, 0, 0]));
    Sections {
        registers: 1,
        buffers: 1,
        arrays: vec![[1, 1, 0, 1, array_step, 0, 0, 0], [2, 1, 0, 1, 1, 0, 0, 0]],
        array_program: vec![head, load, end, [5, 0, 1, 0, 0, 0, 0, 0]],
        stream_program: [&[head], reads, &[end, [7, 0, 1, 0, 0, 0, 0, 0]]].concat(),
        derivation,
    }
}

/// A shape: `streams` says for each stream whether it is an input and how many items it has.
struct Drawn {
    registers: i32,
    buffers: usize,
    streams: Vec<(bool, usize)>,
    events: Vec<Event>,
}

/// A window of w items over an input, with buffers, perhaps row by row.
fn draw_window(rng: &mut Prng) -> Drawn {
    let width = 2 + rng.below(4);
    let (rows, columns) = (rng.pick(&[1, 1, 2, 3, 5]), 1 + rng.below(12));
    let mut body = vec![Event::Use { buffer: 0, register: 0 }];
    for buffer in 1..width {
        if buffer == width - 1 {
            body.push(Event::Fill { stream: 0, buffer });
        }
        body.push(Event::Use { buffer, register: 1 });
        body.push(Event::Same([3, 0, 0, 1, rng.between(1, 3) as i32, 0, 0, 0]));
    }
    if rng.one_in(2) {
        let divisor = rng.pick(&[width as i32, 2, -1, 0, 3]);
        body.push(Event::Same([1, 1, 0, divisor, 0, 0, 0, 0]));
        body.push(Event::Same([3, 0, 0, 1, 4, 0, 0, 0]));
    }
    body.push(Event::Write { stream: 1, register: 0 });
    body.extend((1..width).map(|from| Event::Move { to: from - 1, from }));
    let mut row: Vec<Event> = (0..width - 1).map(|buffer| Event::Fill { stream: 0, buffer }).collect();
    row.push(draw_loop(rng, columns, 1, body));
    let each = columns + width - 1;
    let events = if rows == 1 { row } else { vec![Event::For { first: 0, step: 1, passes: rows, weak: 0, body: row }] };
    let streams = vec![(true, each * rows as usize), (false, columns * rows as usize)];
    Drawn { registers: 2 + rng.below(3) as i32, buffers: width + rng.below(2), streams, events }
}

/// A loop of so many passes, whose step divides the items that each pass moves.
fn draw_loop(rng: &mut Prng, passes: usize, divides: usize, body: Vec<Event>) -> Event {
    let passes = passes as i64;
    let most = (65_536 / passes).min(if divides == 0 { 9 } else { divides as i64 });
    let mut step = rng.between(1, most);
    if rng.one_in(2) || (divides > 0 && divides as i64 % step != 0) {
        step = 1;
    }
    if rng.one_in(4) {
        step = -step;
    }
    let room = 65_536 - passes * step.abs();
    let first = match rng.below(12) {
        0..=6 => 0,
        7..=9 => rng.between(-20, 20).clamp(-room, room),
        10 => rng.between(-room, room),
        _ => rng.pick(&[-1, 1]) * room * step.signum(),
    };
    let limit = first + passes * step;
    let first = if (-65_536..=65_536).contains(&limit) { first } else { 0 };
    let weak = if rng.one_in(10) { rng.next() as u32 } else { 0 };
    Event::For { first, step, passes, weak, body }
}

struct Shape<'a> {
    rng: &'a mut Prng,
    registers: i32,
    buffers: usize,
    inputs: Vec<bool>,
}

/// Where a block stands: loops around, open blocks, passes of the loops around together.
#[derive(Clone, Copy)]
struct Place {
    level: usize,
    open: usize,
    passes: usize,
}

/// Any mixture of reads, fills, uses, moves, writes, loops and branches.
fn draw_mixed(rng: &mut Prng) -> Drawn {
    let registers = rng.pick(&[1, 2, 2, 3, 4, 6, 32]);
    let buffers = rng.pick(&[0, 0, 1, 1, 2, 3, 4, 16]);
    let most = rng.pick(&[1, 3, 6, 12, 30, 60, 200, 4096]);
    let alike = rng.one_in(2).then(|| 1 + rng.below(most));
    let arrays = rng.pick(&[1, 2, 2, 2, 3, 3, 4, 5, 8]);
    let streams: Vec<(bool, usize)> = (0..arrays)
        .map(|_| {
            (rng.below(5) < 3, alike.unwrap_or(1 + rng.below(most)) + if rng.one_in(4) { rng.below(3) } else { 0 })
        })
        .map(|(input, count)| (input, count.min(4096)))
        .collect();
    let inputs = streams.iter().map(|stream| stream.0).collect();
    let mut shape = Shape { rng, registers, buffers, inputs };
    let mut events = shape.first_sets();
    let need = streams.iter().map(|stream| stream.1).collect();
    events.append(&mut shape.block(need, Place { level: 0, open: 0, passes: 1 }));
    Drawn { registers, buffers, streams, events }
}

impl Shape<'_> {
    fn register(&mut self) -> i32 {
        self.rng.below(self.registers as usize) as i32
    }

    /// Usually every register is set first, so that runs come to their end.
    fn first_sets(&mut self) -> Vec<Event> {
        if self.rng.one_in(8) {
            return Vec::new();
        }
        (0..self.registers).map(|register| Event::Same([1, register, 0, 3 - register, 0, 0, 0, 0])).collect()
    }

    /// A block that moves exactly the items in `need`, by stream.
    fn block(&mut self, mut need: Vec<usize>, place: Place) -> Vec<Event> {
        let mut events = Vec::new();
        self.extras(&mut events, place);
        loop {
            let total: usize = need.iter().sum();
            if total == 0 {
                break;
            }
            let may_open = place.open < 8;
            if may_open && place.level < 4 && (total > 5 || self.rng.one_in(5)) {
                self.items_in_loop(&mut need, place, &mut events);
            } else if may_open && self.rng.one_in(6) {
                self.items_in_branches(&mut need, place, &mut events);
            } else {
                self.one_item(&mut need, &mut events);
            }
            self.extras(&mut events, place);
        }
        if place.level < 4 && place.open < 8 && self.rng.one_in(15) {
            self.idle_loop(place, &mut events);
        }
        events
    }

    fn items_in_loop(&mut self, need: &mut [usize], place: Place, events: &mut Vec<Event>) {
        let most = *need.iter().max().unwrap_or(&1);
        let least = *need.iter().filter(|&&items| items > 0).min().unwrap_or(&1);
        let mut passes = match self.rng.below(5) {
            0 => most,
            1 => 1 + self.rng.below(most),
            2 => 2.min(most),
            _ => least,
        };
        let cap = [400, 60, 15, 5][place.level].min(if place.open >= 6 { 5 } else { 400 });
        let mut each: Vec<usize> = need.iter().map(|items| items / passes).collect();
        if each.iter().sum::<usize>() > cap {
            passes = most; // then each pass moves at most one item of a stream
            each = need.iter().map(|items| items / passes).collect();
        } else if self.rng.one_in(6) {
            each.iter_mut().for_each(|items| *items = self.rng.below(*items + 1));
        }
        for (items, moved) in need.iter_mut().zip(&each) {
            *items -= passes * moved;
        }
        let divides = each.iter().fold(0, |divisor, &items| common_divisor(divisor, items));
        let inner = Place { level: place.level + 1, open: place.open + 1, passes: place.passes * passes };
        let body = self.block(each, inner);
        events.push(draw_loop(self.rng, passes, divides, body));
    }

    fn items_in_branches(&mut self, need: &mut [usize], place: Place, events: &mut Vec<Event>) {
        let moved: Vec<usize> = need.iter().map(|&items| self.rng.below(items.min(2) + 1)).collect();
        for (items, moved) in need.iter_mut().zip(&moved) {
            *items -= moved;
        }
        let inner = Place { open: place.open + 1, ..place };
        let register = self.register();
        let then = self.block(moved.clone(), inner);
        let otherwise = self.block(moved, inner);
        events.push(Event::If { register, then, otherwise });
    }

    fn one_item(&mut self, need: &mut [usize], events: &mut Vec<Event>) {
        let open: Vec<usize> = (0..need.len()).filter(|&stream| need[stream] > 0).collect();
        let stream = self.rng.pick(&open);
        need[stream] -= 1;
        let register = self.register();
        if !self.inputs[stream] {
            events.push(Event::Write { stream, register });
        } else if self.buffers == 0 || self.rng.one_in(3) {
            events.push(Event::Read { stream, register });
        } else {
            let buffer = self.rng.below(self.buffers);
            events.push(Event::Fill { stream, buffer });
            if !self.rng.one_in(4) {
                events.push(Event::Use { buffer, register });
            }
        }
    }

    /// A loop that moves no items, seldom a long one.
    fn idle_loop(&mut self, place: Place, events: &mut Vec<Event>) {
        let most = 65_536 / place.passes;
        let few = 1 + self.rng.below(4);
        let passes = if self.rng.one_in(20) { most } else { few.min(most) };
        let inner = Place { level: place.level + 1, open: place.open + 1, passes: place.passes * passes };
        let mut body = Vec::new();
        self.extras(&mut body, inner);
        events.push(draw_loop(self.rng, passes, 0, body));
    }

    /// None to three rules that move no items.
    fn extras(&mut self, events: &mut Vec<Event>, place: Place) {
        for _ in 0..self.rng.pick(&[0, 0, 0, 1, 1, 3]) {
            let (p, q, k) = (self.register(), self.register(), self.register());
            match self.rng.below(8) {
                0 | 1 => events.push(Event::Same(self.set(p, place.level))),
                2 => events.push(Event::Same([2, p, q, 0, 0, 0, 0, 0])),
                3 => events.push(Event::Same([3, p, q, k, self.rng.between(1, 3) as i32, 0, 0, 0])),
                4 => {
                    let divisor = self.rng.pick(&[2, 3, -1, -7, 1, 0]);
                    events.push(Event::Same([1, k, 0, divisor, 0, 0, 0, 0]));
                    events.push(Event::Same([3, p, q, k, 4, 0, 0, 0]));
                }
                _ if self.buffers == 0 => {}
                5 => events.push(Event::Use { buffer: self.rng.below(self.buffers), register: p }),
                6 => {
                    let (to, from) = (self.rng.below(self.buffers), self.rng.below(self.buffers));
                    events.push(Event::Move { to, from });
                }
                _ => {}
            }
        }
    }

    fn set(&mut self, register: i32, level: usize) -> Record {
        let mut record = [1, register, 0, 0, 0, 0, 0, 0];
        for number in &mut record[3..4 + level] {
            *number = match self.rng.below(6) {
                0 => self.rng.pick(&[-1_048_576, 1_048_576]),
                1 => self.rng.between(-1_048_576, 1_048_576) as i32,
                _ => self.rng.between(-3, 3) as i32,
            };
        }
        record
    }
}

fn common_divisor(a: usize, b: usize) -> usize {
    if b == 0 {
        a
    } else {
        common_divisor(b, a % b)
    }
}

/// Array records whose orders have the counts drawn; nothing if the lengths come to too much.
fn draw_arrays(rng: &mut Prng, drawn: &Drawn) -> Option<Vec<Record>> {
    let mut lengths = [0, 0];
    let mut records = Vec::new();
    let plain = rng.one_in(3);
    for &(input, count) in &drawn.streams {
        let most = if count == 1 { 4096 } else { 4095 / (count as i64 - 1) };
        let step = match rng.below(8) {
            0 | 1 if !plain => 2.min(most),
            2 if !plain => rng.between(1, most.min(9)),
            3 if !plain && rng.one_in(3) => most,
            _ => 1,
        };
        let span = step * (count as i64 - 1) + 1;
        let slack = if plain { 0 } else { rng.between(0, (4096 - span).min(4)) };
        let offset = rng.between(0, slack);
        let backwards = !plain && rng.one_in(3);
        let (first, step) = if backwards { (offset + span - 1, -step) } else { (offset, step) };
        lengths[usize::from(input)] += span + slack;
        let code = if input { 1 } else { 2 };
        records.push([code, (span + slack) as i32, first as i32, count as i32, step as i32, 0, 0, 0]);
    }
    lengths.iter().all(|&length| length <= 8192).then_some(records)
}

/// A record before it is known whether its numbers keep to the file's ranges.
type Wide = [i64; 8];

struct Emit<'a> {
    drawn: &'a Drawn,
    arrays: &'a [Record],
    level: usize,
    positions: Vec<Form>,
    buffers: Vec<Held>,
    array: Vec<Wide>,
    stream: Vec<Wide>,
    derivation: Vec<Wide>,
}

fn emit(drawn: &Drawn, arrays: Vec<Record>) -> Option<Sections> {
    let positions = vec![[0; 5]; arrays.len()];
    let mut emit = Emit::new(drawn, &arrays, 0, positions, vec![None; drawn.buffers]);
    emit.events(&drawn.events);
    let (array, stream, derivation) = (narrow(&emit.array)?, narrow(&emit.stream)?, narrow(&emit.derivation)?);
    if array.len() > 256 || stream.len() > 256 || derivation.len() > 1024 {
        return None;
    }
    let (registers, buffers) = (drawn.registers, drawn.buffers as i32);
    Some(Sections { registers, buffers, arrays, array_program: array, stream_program: stream, derivation })
}

fn narrow(records: &[Wide]) -> Option<Vec<Record>> {
    let fits = |number: &i64| (-1_048_576..=1_048_576).contains(number);
    let all = records.iter().all(|record| record.iter().all(fits));
    all.then(|| records.iter().map(|record| record.map(|number| number as i32)).collect())
}

fn with_form(code: i64, p: i64, q: i64, form: Form) -> Wide {
    [code, p, q, form[0], form[1], form[2], form[3], form[4]]
}

fn bare(code: i64, p: i64, q: i64) -> Wide {
    with_form(code, p, q, [0; 5])
}

/// How a buffer's row may go with the counter: on with its stream, or standing still.
#[derive(Clone, Copy)]
enum Way {
    Along,
    Still,
}

impl<'a> Emit<'a> {
    fn new(drawn: &'a Drawn, arrays: &'a [Record], level: usize, positions: Vec<Form>, buffers: Vec<Held>) -> Emit<'a> {
        let (array, stream, derivation) = (Vec::new(), Vec::new(), Vec::new());
        Emit { drawn, arrays, level, positions, buffers, array, stream, derivation }
    }

    fn next_index(&self, stream: usize) -> Form {
        let [_, _, first, _, step, ..] = self.arrays[stream];
        let mut index = self.positions[stream].map(|number| number * i64::from(step));
        index[0] += i64::from(first);
        index
    }

    fn rule(&mut self, code: i64, array: Option<Wide>, stream: Wide) {
        self.derivation.push(bare(code, 0, 0));
        self.array.extend(array);
        self.stream.push(stream);
    }

    fn events(&mut self, events: &[Event]) {
        for event in events {
            match event {
                Event::For { first, step, passes, weak, body } => self.for_loop(*first, *step, *passes, *weak, body),
                Event::If { register, then, otherwise } => self.branch((*register).into(), then, otherwise),
                plain => self.plain(plain),
            }
        }
    }

    /// A use or move of a buffer that holds nothing here is left out.
    fn plain(&mut self, event: &Event) {
        let base = i64::from(self.drawn.registers);
        match *event {
            Event::Same(record) => self.rule(1, Some(record.map(i64::from)), record.map(i64::from)),
            Event::Read { stream, register } => self.item(2, stream, register.into()),
            Event::Write { stream, register } => self.item(6, stream, register.into()),
            Event::Fill { stream, buffer } => {
                self.rule(3, None, bare(6, base + buffer as i64, stream as i64));
                self.buffers[buffer] = Some((stream, self.next_index(stream)));
                self.positions[stream][0] += 1;
            }
            Event::Use { buffer, register } => {
                if let Some((array, form)) = self.buffers[buffer] {
                    let load = with_form(4, register.into(), array as i64, form);
                    self.rule(4, Some(load), bare(2, register.into(), base + buffer as i64));
                }
            }
            Event::Move { to, from } => {
                if self.buffers[from].is_some() {
                    self.rule(5, None, bare(2, base + to as i64, base + from as i64));
                    self.buffers[to] = self.buffers[from];
                }
            }
            Event::For { .. } | Event::If { .. } => unreachable!("blocks are emitted elsewhere"),
        }
    }

    /// Read (rule 2: load and read) or write (rule 6: store and write).
    fn item(&mut self, rule: i64, stream: usize, register: i64) {
        let (array_code, stream_code) = if rule == 2 { (4, 6) } else { (5, 7) };
        let access = with_form(array_code, register, stream as i64, self.next_index(stream));
        self.rule(rule, Some(access), bare(stream_code, register, stream as i64));
        self.positions[stream][0] += 1;
    }

    fn branch(&mut self, register: i64, then: &[Event], otherwise: &[Event]) {
        let at_if = self.buffers.clone();
        let positions = self.positions.clone();
        self.rule(8, Some(bare(9, register, 0)), bare(9, register, 0));
        self.events(then);
        let after_then = std::mem::replace(&mut self.buffers, at_if);
        self.positions = positions;
        self.rule(9, Some(bare(10, 0, 0)), bare(10, 0, 0));
        self.events(otherwise);
        self.rule(10, Some(bare(11, 0, 0)), bare(11, 0, 0));
        for (held, other) in self.buffers.iter_mut().zip(after_then) {
            if *held != other {
                *held = None;
            }
        }
    }

    /// Tries the strongest buffer rows first and gives up those that the body does not keep.
    fn for_loop(&mut self, first: i64, step: i64, passes: i64, weak: u32, body: &[Event]) {
        let (level, limit) = (self.level, first + passes * step);
        let slopes: Vec<i64> = (0..self.arrays.len()).map(|stream| items_moved(body, stream) as i64 / step).collect();
        let rise = |form: &Form, slope: i64| -> Form {
            let mut row = *form;
            row[1 + level] = slope;
            row[0] -= slope * first;
            row
        };
        let positions: Vec<Form> = self.positions.iter().zip(&slopes).map(|(form, &slope)| rise(form, slope)).collect();
        let kept = |buffer: usize| weak >> buffer & 1 == 0;
        let mut ways: Vec<Option<Way>> = (0..self.buffers.len()).map(|b| kept(b).then_some(Way::Along)).collect();
        loop {
            let row = |(held, way): (&Held, &Option<Way>)| -> Held {
                let (array, form) = (*held)?;
                let along = slopes[array] * i64::from(self.arrays[array][4]);
                Some((array, rise(&form, if matches!((*way)?, Way::Along) { along } else { 0 })))
            };
            let buffers: Vec<Held> = self.buffers.iter().zip(&ways).map(row).collect();
            let mut trial = Emit::new(self.drawn, self.arrays, level + 1, positions.clone(), buffers.clone());
            trial.events(body);
            if weaken(&mut ways, &buffers, &trial.buffers, |form| ahead(form, level, step)) {
                continue;
            }
            return self.take_loop([first, limit, step], positions, buffers, trial.into_parts());
        }
    }

    fn into_parts(self) -> [Vec<Wide>; 3] {
        [self.array, self.stream, self.derivation]
    }

    fn take_loop(
        &mut self,
        [first, limit, step]: [i64; 3],
        positions: Vec<Form>,
        buffers: Vec<Held>,
        body: [Vec<Wide>; 3],
    ) {
        let line = with_form(8, first, limit, [step, 0, 0, 0, 0]);
        self.rule(7, Some(line), line);
        for (stream, form) in positions.iter().enumerate() {
            self.derivation.push(with_form(11, stream as i64, 0, *form));
        }
        for (buffer, held) in buffers.iter().enumerate() {
            let (array, form) = held.map_or((-1, [0; 5]), |(array, form)| (array as i64, form));
            self.derivation.push(with_form(12, buffer as i64, array, form));
        }
        let [array, stream, derivation] = body;
        self.array.extend(array);
        self.stream.extend(stream);
        self.derivation.extend(derivation);
        self.rule(10, Some(bare(11, 0, 0)), bare(11, 0, 0));
        self.positions = positions.iter().map(|form| put(form, self.level, limit)).collect();
        self.buffers =
            buffers.iter().map(|held| held.map(|(array, form)| (array, put(&form, self.level, limit)))).collect();
    }
}

/// Weakens each row that the body's end does not keep; true if there was one.
fn weaken(ways: &mut [Option<Way>], rows: &[Held], ended: &[Held], next: impl Fn(&Form) -> Form) -> bool {
    let mut changed = false;
    for ((way, row), end) in ways.iter_mut().zip(rows).zip(ended) {
        let due = row.map(|(array, form)| (array, next(&form)));
        if due.is_some() && due != *end {
            *way = if matches!(way, Some(Way::Along)) { Some(Way::Still) } else { None };
            changed = true;
        }
    }
    changed
}

fn items_moved(events: &[Event], of: usize) -> usize {
    let moved = |event: &Event| match event {
        Event::Read { stream, .. } | Event::Fill { stream, .. } | Event::Write { stream, .. } => {
            usize::from(*stream == of)
        }
        Event::For { passes, body, .. } => *passes as usize * items_moved(body, of),
        Event::If { then, .. } => items_moved(then, of),
        Event::Same(_) | Event::Use { .. } | Event::Move { .. } => 0,
    };
    events.iter().map(moved).sum()
}

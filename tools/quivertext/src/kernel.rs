//! A kernel file as bytes and as sections of records, whether it reads or not.

/// code, p, q, k, x0, x1, x2, x3
pub type Record = [i32; 8];

pub const INPUT: i32 = 1;
pub const OUTPUT: i32 = 2;

/// The four sections that have records, in file order.
#[derive(Clone, Copy, Debug, PartialEq, Eq)]
pub enum Section {
    Arrays,
    ArrayProgram,
    StreamProgram,
    Derivation,
}

impl Section {
    pub const ALL: [Section; 4] = [Section::Arrays, Section::ArrayProgram, Section::StreamProgram, Section::Derivation];

    /// The section's heading in the text.
    pub fn title(self) -> &'static str {
        ["arrays", "array program", "stream program", "derivation"][self as usize]
    }

    /// The section with document 01's number, 3 to 6.
    pub fn numbered(number: u32) -> Option<Section> {
        Section::ALL.get((number as usize).checked_sub(3)?).copied()
    }
}

#[derive(Clone, Debug, PartialEq, Eq)]
pub struct Kernel {
    pub registers: i32,
    pub buffers: i32,
    records: [Vec<Record>; 4],
}

impl Kernel {
    pub fn new(registers: i32, buffers: i32) -> Kernel {
        Kernel { registers, buffers, records: Default::default() }
    }

    pub fn records(&self, section: Section) -> &[Record] {
        &self.records[section as usize]
    }

    pub fn arrays(&self) -> &[Record] {
        self.records(Section::Arrays)
    }

    pub fn push(&mut self, section: Section, record: Record) {
        self.records[section as usize].push(record);
    }

    pub fn bytes(&self) -> Vec<u8> {
        let mut numbers = vec![self.registers, self.buffers];
        for records in &self.records {
            numbers.push(records.len() as i32);
            numbers.extend(records.iter().flatten());
        }
        numbers.iter().flat_map(|number| number.to_le_bytes()).collect()
    }

    /// The sections of a file, or where it stops to be whole sections.
    pub fn whole(bytes: &[u8]) -> Result<Kernel, String> {
        let numbers = numbers(bytes)?;
        let mut rest = numbers.as_slice();
        let registers = take(&mut rest, 1, "the count of registers")?[0];
        let buffers = take(&mut rest, 1, "the count of buffers")?[0];
        let mut kernel = Kernel::new(registers, buffers);
        for section in Section::ALL {
            let title = section.title();
            let count = take(&mut rest, 1, &format!("the count of section '{title}'"))?[0];
            let wanted = usize::try_from(count).ok().and_then(|count| count.checked_mul(8));
            let Some(wanted) = wanted else {
                return Err(format!("section '{title}' has the count {count}; expected 0 or more"));
            };
            for record in take(&mut rest, wanted, &format!("the {count} records of section '{title}'"))?.chunks_exact(8)
            {
                let mut eight = [0; 8];
                eight.copy_from_slice(record);
                kernel.push(section, eight);
            }
        }
        match rest.len() {
            0 => Ok(kernel),
            left => Err(format!("{} bytes are left over after the derivation; expected the file's end", left * 4)),
        }
    }
}

/// The count of the section with document 01's number, as far as a file goes.
pub fn count_of(bytes: &[u8], section: u32) -> Option<i32> {
    let numbers = numbers(bytes).ok()?;
    let mut place: usize = 0;
    for number in 1..section.min(7) {
        let records = if number < 3 { 0 } else { usize::try_from(*numbers.get(place)?).ok()? };
        place = place.checked_add(records.checked_mul(8)?)?.checked_add(1)?;
    }
    numbers.get(place).copied().filter(|_| (1..=6).contains(&section))
}

/// Takes so many numbers off the rest of a file.
fn take<'a>(rest: &mut &'a [i32], count: usize, what: &str) -> Result<&'a [i32], String> {
    let Some((taken, after)) = rest.split_at_checked(count) else {
        let (wanted, left) = (count.saturating_mul(4), rest.len() * 4);
        return Err(format!("the file is too short: {left} bytes are left; expected {wanted} bytes for {what}"));
    };
    *rest = after;
    Ok(taken)
}

/// A row of signed 32-bit numbers, low byte first.
pub fn numbers(bytes: &[u8]) -> Result<Vec<i32>, String> {
    let fours = bytes.chunks_exact(4);
    if !fours.remainder().is_empty() {
        return Err(format!("{} bytes are not whole 32-bit numbers; expected a multiple of 4", bytes.len()));
    }
    Ok(fours.map(|four| i32::from_le_bytes([four[0], four[1], four[2], four[3]])).collect())
}

/// How many numbers each of the four lent memories has, with its name; an array that does not read has no length.
pub fn sizes(kernel: &Kernel) -> Result<[(&'static str, i64); 4], String> {
    let mut sizes = [("array-input", 0), ("array-output", 0), ("stream-input", 0), ("stream-output", 0)];
    for (number, array) in kernel.arrays().iter().enumerate() {
        let [code, length, _, count, ..] = *array;
        if !(INPUT..=OUTPUT).contains(&code) || !(1..=4096).contains(&length) || !(1..=length).contains(&count) {
            return Err(format!("array {number} does not read, so the memories have no lengths"));
        }
        let side = usize::from(code == OUTPUT);
        sizes[side].1 += i64::from(length);
        sizes[side + 2].1 += i64::from(count);
    }
    Ok(sizes)
}

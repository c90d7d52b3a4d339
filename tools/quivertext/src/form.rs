//! Index forms as text: a constant plus whole multiples of loop counters, as in `2*i0+i1-3`.

/// k, x0, x1, x2, x3: the constant, then the factor of each loop level's counter.
pub type Form = [i32; 5];

/// Each of the five numbers is within plus or minus this.
const LIMIT: i64 = 1_048_576;

pub fn parse(text: &str) -> Result<Form, String> {
    let mut sums = [0i64; 5];
    for (sign, term) in terms(text) {
        let (place, factor) = parse_term(term).ok_or_else(|| {
            format!(
                "'{term}' in the index form '{text}'; expected terms such as 3, i0 or 2*i1 with loop levels i0 to i3"
            )
        })?;
        sums[place] += sign * i64::from(factor);
    }
    let mut form = [0; 5];
    for (number, sum) in form.iter_mut().zip(sums) {
        if !(-LIMIT..=LIMIT).contains(&sum) {
            return Err(format!("{sum} in the index form '{text}'; expected numbers within -{LIMIT} to {LIMIT}"));
        }
        *number = sum as i32;
    }
    Ok(form)
}

/// The terms between the signs, each with its sign. Only the first term may go without one.
fn terms(text: &str) -> Vec<(i64, &str)> {
    let mut terms = Vec::new();
    let (mut sign, mut start) = (1, 0);
    for (at, letter) in text.char_indices() {
        if letter == '+' || letter == '-' {
            let term = text[start..at].trim();
            if start > 0 || !term.is_empty() {
                terms.push((sign, term));
            }
            sign = if letter == '-' { -1 } else { 1 };
            start = at + 1;
        }
    }
    terms.push((sign, text[start..].trim()));
    terms
}

/// The place among the five numbers and the factor there.
fn parse_term(term: &str) -> Option<(usize, u32)> {
    match term.split_once('*') {
        Some((factor, counter)) => Some((place(counter.trim())?, factor.trim().parse().ok()?)),
        None => place(term).map(|place| (place, 1)).or_else(|| Some((0, term.parse().ok()?))),
    }
}

fn place(counter: &str) -> Option<usize> {
    ["i0", "i1", "i2", "i3"].iter().position(|name| *name == counter).map(|level| level + 1)
}

pub fn show(form: Form) -> String {
    let [constant, factors @ ..] = form;
    let mut text = String::new();
    for (level, factor) in factors.iter().enumerate().filter(|(_, factor)| **factor != 0) {
        let sign = if *factor < 0 {
            "-"
        } else if text.is_empty() {
            ""
        } else {
            "+"
        };
        match factor.unsigned_abs() {
            1 => text.push_str(&format!("{sign}i{level}")),
            size => text.push_str(&format!("{sign}{size}*i{level}")),
        }
    }
    // 7-i0 rather than -i0+7
    if constant > 0 && text.starts_with('-') {
        format!("{constant}{text}")
    } else if text.is_empty() {
        constant.to_string()
    } else if constant != 0 {
        format!("{text}{constant:+}")
    } else {
        text
    }
}

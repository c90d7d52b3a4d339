//! The decimal text of the vectors, to bytes and back.

/// Whole numbers apart by blanks and line ends; `#` starts a comment.
pub fn file_bytes(text: &str) -> Result<Vec<u8>, String> {
    let mut bytes = Vec::new();
    for (line, content) in text.lines().enumerate() {
        let numbers = content.split('#').next().unwrap_or("");
        for word in numbers.split_whitespace() {
            let number: i32 = word.parse().map_err(|_| format!("line {}: not a 32-bit number: {word}", line + 1))?;
            bytes.extend(number.to_le_bytes());
        }
    }
    Ok(bytes)
}

/// A memory line of a `.runs` file: its name, then signed decimal numbers.
pub fn memory_line(name: &str, memory: &[i32]) -> String {
    let mut line = name.to_string();
    for number in memory {
        line.push(' ');
        line.push_str(&number.to_string());
    }
    line
}

/// The numbers of a memory line, if it starts with the name given.
pub fn memory_of(line: &str, name: &str) -> Result<Vec<i32>, String> {
    let mut words = line.split_whitespace();
    if words.next() != Some(name) {
        return Err(format!("a line `{name} ..` is due, not `{line}`"));
    }
    words.map(|word| word.parse().map_err(|_| format!("not a 32-bit number: {word}"))).collect()
}

//! A request of the program `batch`, and its reply: all numbers 32 bits, low byte first.

const CALLS: [&str; 5] = ["check", "array-run", "stream-run", "lay-out", "put-back"];
/// The longest area that `batch` takes, in bytes.
const LONGEST: usize = 65_536;

/// The call, then the file, the input and an output area of so many numbers. The area's old contents are all -1, so that nothing
/// old is taken for a result.
pub fn request(call: &str, file: &[u8], input: &[u8], numbers: &str) -> Result<Vec<u8>, String> {
    let Some((_, number)) = CALLS.iter().zip(1u32..).find(|(name, _)| **name == call) else {
        return Err(format!("quivertext: no call '{call}'; expected {}", CALLS.join(", ")));
    };
    let bytes = numbers.parse::<usize>().ok().and_then(|numbers| numbers.checked_mul(4));
    let Some(bytes) = bytes.filter(|bytes| *bytes <= LONGEST) else {
        return Err(format!("quivertext: '{numbers}' numbers of output; expected 0 to {}", LONGEST / 4));
    };
    let mut request = number.to_le_bytes().to_vec();
    for area in [file, input, &vec![255; bytes]] {
        if area.len() > LONGEST {
            return Err(format!("quivertext: an area of {} bytes; expected at most {LONGEST}", area.len()));
        }
        request.extend((area.len() as u32).to_le_bytes());
        request.extend(area);
    }
    Ok(request)
}

/// The four parts of the answer word, and the output area afterwards.
pub fn reply(bytes: &[u8]) -> Result<([u16; 4], &[u8]), String> {
    match bytes.split_first_chunk::<8>() {
        None => Err(format!("{} bytes are no reply; expected 8 or more", bytes.len())),
        Some(([255, 255, 255, 255, 255, 255, 255, 255], _)) => Err("batch did not take the request".to_string()),
        Some((word, output)) => {
            let part = |place: usize| u16::from_le_bytes([word[2 * place], word[2 * place + 1]]);
            Ok(([part(0), part(1), part(2), part(3)], output))
        }
    }
}

//! Requests and replies of the program `batch`; another program's replies compared with this crate's.

use crate::answer::{call, parts, Call};
use std::io::{self, Read, Write};

/// The longest area, in bytes.
pub const AREA_LIMIT: usize = 65_536;

/// Written in place of an answer when a request is bad; the batch stops there.
pub const BAD_REQUEST: u64 = u64::MAX;

#[derive(Clone, Debug, PartialEq, Eq)]
pub struct Request {
    pub call: Call,
    pub file: Vec<u8>,
    pub input: Vec<u8>,
    pub output: Vec<u8>,
}

/// What stands next in a batch.
pub enum Next {
    Request(Request),
    Bad,
    Over,
}

/// Takes the next request off a batch.
pub fn next(source: &mut impl Read) -> io::Result<Next> {
    let mut four = [0; 4];
    match fill(source, &mut four)? {
        0 => return Ok(Next::Over),
        4 => {}
        _ => return Ok(Next::Bad),
    }
    let Some(call) = Call::from_number(u32::from_le_bytes(four)) else {
        return Ok(Next::Bad);
    };
    let mut areas = [Vec::new(), Vec::new(), Vec::new()];
    for area in &mut areas {
        match read_area(source)? {
            Some(bytes) => *area = bytes,
            None => return Ok(Next::Bad),
        }
    }
    let [file, input, output] = areas;
    Ok(Next::Request(Request { call, file, input, output }))
}

fn read_area(source: &mut impl Read) -> io::Result<Option<Vec<u8>>> {
    let mut four = [0; 4];
    if fill(source, &mut four)? < 4 {
        return Ok(None);
    }
    let length = u32::from_le_bytes(four) as usize;
    if length > AREA_LIMIT {
        return Ok(None);
    }
    let mut bytes = vec![0; length];
    let there = fill(source, &mut bytes)?;
    Ok((there == length).then_some(bytes))
}

/// Reads until the place is full or the source is over; answers how many bytes came.
fn fill(source: &mut impl Read, place: &mut [u8]) -> io::Result<usize> {
    let mut there = 0;
    while there < place.len() {
        match source.read(&mut place[there..]) {
            Ok(0) => break,
            Ok(more) => there += more,
            Err(error) if error.kind() == io::ErrorKind::Interrupted => {}
            Err(error) => return Err(error),
        }
    }
    Ok(there)
}

impl Request {
    pub fn write(&self, sink: &mut impl Write) -> io::Result<()> {
        sink.write_all(&self.call.number().to_le_bytes())?;
        for area in [&self.file, &self.input, &self.output] {
            sink.write_all(&(area.len() as u32).to_le_bytes())?;
            sink.write_all(area)?;
        }
        Ok(())
    }

    /// The answer word, then the output area as the call leaves it.
    pub fn reply(&self) -> Vec<u8> {
        let mut output = self.output.clone();
        let word = call(self.call, &self.file, &self.input, &mut output);
        [&word.to_le_bytes()[..], &output].concat()
    }
}

/// Answers a whole batch. A check leaves the output area as it came.
pub fn answer(source: &mut impl Read, sink: &mut impl Write) -> io::Result<()> {
    loop {
        match next(source)? {
            Next::Over => return Ok(()),
            Next::Bad => return sink.write_all(&BAD_REQUEST.to_le_bytes()),
            Next::Request(request) => sink.write_all(&request.reply())?,
        }
    }
}

/// Compares another program's replies to a batch with this crate's: how many requests agree, or how the first differs.
pub fn compare(source: &mut impl Read, replies: &mut impl Read) -> io::Result<Result<usize, String>> {
    let mut agreed = 0;
    loop {
        let request = next(source)?;
        let (title, ours) = match &request {
            Next::Over => ("end".to_string(), Vec::new()),
            Next::Bad => ("bad request".to_string(), BAD_REQUEST.to_le_bytes().to_vec()),
            Next::Request(request) => (format!("{:?}", request.call), request.reply()),
        };
        let mut theirs = vec![0; ours.len()];
        let there = fill(replies, &mut theirs)?;
        if theirs[..there] != ours {
            return Ok(Err(format!("request {agreed} ({title}): {}", difference(&ours, &theirs[..there]))));
        }
        if let Next::Request(_) = request {
            agreed += 1;
        } else if fill(replies, &mut [0])? != 0 {
            return Ok(Err(format!("after {agreed} requests ({title}): replies left over")));
        } else {
            return Ok(Ok(agreed));
        }
    }
}

fn difference(ours: &[u8], theirs: &[u8]) -> String {
    let word = |reply: &[u8]| match reply.first_chunk() {
        Some(eight) => format!("{:?}", parts(u64::from_le_bytes(*eight))),
        None => "no word".to_string(),
    };
    let place = ours.iter().zip(theirs).position(|(one, other)| one != other).unwrap_or(theirs.len());
    format!("here {}, there {}; they differ from byte {place} of {} on", word(ours), word(theirs), ours.len())
}

/// Writes request number `wanted`, from 0, as a batch of its own; false where there is none.
pub fn pick(source: &mut impl Read, wanted: usize, sink: &mut impl Write) -> io::Result<bool> {
    for number in 0.. {
        match next(source)? {
            Next::Request(request) if number == wanted => return request.write(sink).map(|()| true),
            Next::Request(_) => {}
            Next::Over | Next::Bad => break,
        }
    }
    Ok(false)
}

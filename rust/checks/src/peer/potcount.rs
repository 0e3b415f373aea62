//! The program potcount.

use crate::shape::{Estimate, Refusal, Settings, Sketch};
use std::io::Write;

/// The longest line, in bytes before its newline.
const LONGEST_LINE: usize = 64;

/// The program potcount: takes its input in pieces of any size and keeps no
/// more than one line and one sketch.
pub struct Potcount {
    line: [u8; LONGEST_LINE],
    /// Bytes of the present line so far; those past the longest line are
    /// counted as one too many and not kept.
    used: usize,
    sketch: Option<Sketch>,
}

/// A line of a known shape.
enum Request {
    Open(Settings),
    Add { lo: u32, hi: u32 },
    Estimate,
    Count { level: u32, lo: u32, hi: u32 },
    Find { level: u32, from: u32 },
}

/// What potcount answers to a request it doesn't refuse.
enum Answer {
    Sketch { level: u32, cells: u32 },
    Exact(u64),
    About(u64),
    Count(u32),
    Found(Option<u32>),
}

impl Default for Potcount {
    fn default() -> Potcount {
        Potcount::new()
    }
}

impl Potcount {
    /// No line begun, no sketch opened.
    pub fn new() -> Potcount {
        Potcount {
            line: [0; LONGEST_LINE],
            used: 0,
            sketch: None,
        }
    }

    /// Takes more of the input and appends the answers to the lines that end.
    pub fn feed(&mut self, input: &[u8], output: &mut Vec<u8>) {
        let mut rest = input;
        while let Some(end) = rest.iter().position(|&byte| byte == b'\n') {
            self.take(&rest[..end]);
            self.end_line(output);
            rest = &rest[end + 1..];
        }
        self.take(rest);
    }

    /// Ends the input: a last line without a newline counts.
    pub fn finish(&mut self, output: &mut Vec<u8>) {
        if self.used > 0 {
            self.end_line(output);
        }
    }

    fn take(&mut self, bytes: &[u8]) {
        let end = self.used + bytes.len();
        match self.line.get_mut(self.used..end) {
            Some(places) => {
                places.copy_from_slice(bytes);
                self.used = end;
            }
            None => self.used = LONGEST_LINE + 1,
        }
    }

    fn end_line(&mut self, output: &mut Vec<u8>) {
        let line = self.line.get(..self.used);
        self.used = 0;
        let answer = line
            .and_then(read_request)
            .ok_or(Refusal::LINE)
            .and_then(|request| self.answer(request));
        write_answer(answer, output);
    }

    fn answer(&mut self, request: Request) -> Result<Answer, Refusal> {
        if let Request::Open(settings) = request {
            return Ok(self.replace(Sketch::open(settings)?));
        }
        let sketch = self.sketch.as_ref().ok_or(Refusal::SHAPE)?;
        let settings = &sketch.settings;
        Ok(match request {
            Request::Open(_) => unreachable!("answered above"),
            Request::Add { lo, hi } => {
                let next = sketch.add(lo, hi)?;
                self.replace(next)
            }
            Request::Estimate => match sketch.estimate()? {
                Estimate::Exact(cells) => Answer::Exact(u64::from(cells)),
                Estimate::About(_) => {
                    let (top, bottom) = sketch.fraction();
                    Answer::About(top / bottom)
                }
            },
            Request::Count { level, lo, hi } => Answer::Count(settings.range_count(level, lo, hi)?),
            Request::Find { level, from } => Answer::Found(settings.next_hit(level, from)?),
        })
    }

    fn replace(&mut self, next: Sketch) -> Answer {
        self.sketch = Some(next);
        Answer::Sketch {
            level: next.level,
            cells: next.count,
        }
    }
}

fn read_request(line: &[u8]) -> Option<Request> {
    let mut words = line.split(|&byte| byte == b' ');
    let letter = words.next()?;
    let mut numbers = [0; 5];
    let mut used = 0;
    for word in words {
        *numbers.get_mut(used)? = read_number(word)?;
        used += 1;
    }
    match (letter, &numbers[..used]) {
        (b"S", &[n, p, a, b, capacity]) => Some(Request::Open(Settings {
            n,
            p,
            a,
            b,
            capacity,
        })),
        (b"A", &[lo, hi]) => Some(Request::Add { lo, hi }),
        (b"E", &[]) => Some(Request::Estimate),
        (b"C", &[level, lo, hi]) => Some(Request::Count { level, lo, hi }),
        (b"N", &[level, from]) => Some(Request::Find { level, from }),
        _ => None,
    }
}

/// A decimal number without leading zero, at most 4294967295.
fn read_number(word: &[u8]) -> Option<u32> {
    if word.is_empty() || (word[0] == b'0' && word.len() > 1) {
        return None;
    }
    word.iter().try_fold(0u32, |number, &byte| {
        let digit = byte.is_ascii_digit().then(|| u32::from(byte - b'0'))?;
        number.checked_mul(10)?.checked_add(digit)
    })
}

fn write_answer(answer: Result<Answer, Refusal>, output: &mut Vec<u8>) {
    let written = match answer {
        Ok(Answer::Sketch { level, cells }) => writeln!(output, "K {level} {cells}"),
        Ok(Answer::Exact(cells)) => writeln!(output, "E exact {cells}"),
        Ok(Answer::About(cells)) => writeln!(output, "E about {cells}"),
        Ok(Answer::Count(cells)) => writeln!(output, "C {cells}"),
        Ok(Answer::Found(Some(cell))) => writeln!(output, "N {cell}"),
        Ok(Answer::Found(None)) => writeln!(output, "N none"),
        Err(refusal) => writeln!(output, "R {}", refusal.number),
    };
    written.expect("a vector takes every byte");
}

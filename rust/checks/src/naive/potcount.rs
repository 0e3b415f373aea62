//! The program potcount on a whole input.

use super::settings::{next_hit, range_count, settings_are_good, settings_call_refusal};
use super::sketch::Pot;
use crate::shape::{Refusal, Settings};

/// All that potcount writes for a whole input.
pub fn potcount(input: &[u8]) -> Vec<u8> {
    let mut lines: Vec<&[u8]> = input.split(|&byte| byte == b'\n').collect();
    if lines.last().is_some_and(|line| line.is_empty()) {
        lines.pop();
    }
    let mut pot = None;
    let answers = lines.iter().map(|line| {
        let answer = words_of(line)
            .and_then(|(letter, numbers)| answer(&mut pot, letter, &numbers))
            .unwrap_or_else(|| "R 9".to_string());
        answer + "\n"
    });
    answers.collect::<String>().into_bytes()
}

/// The letter and the numbers of a line, or none where it has no such shape.
fn words_of(line: &[u8]) -> Option<(&str, Vec<u32>)> {
    if line.len() > 64 {
        return None;
    }
    let mut words = std::str::from_utf8(line).ok()?.split(' ');
    let letter = words.next()?;
    let numbers = words.map(|word| {
        let number: u32 = word.parse().ok()?;
        (number.to_string() == word).then_some(number)
    });
    Some((letter, numbers.collect::<Option<_>>()?))
}

/// The answer to a line, or none where it has no known shape.
fn answer(pot: &mut Option<Pot>, letter: &str, numbers: &[u32]) -> Option<String> {
    if let ("S", &[n, p, a, b, capacity]) = (letter, numbers) {
        let settings = Settings {
            n,
            p,
            a,
            b,
            capacity,
        };
        return Some(if settings_are_good(&settings) {
            *pot = Some(Pot::open(settings));
            "K 0 0".to_string()
        } else {
            "R 1".to_string()
        });
    }
    let known = matches!(
        (letter, numbers.len()),
        ("A", 2) | ("E", 0) | ("C", 3) | ("N", 2)
    );
    if !known {
        return None;
    }
    Some(match pot {
        None => "R 4".to_string(),
        Some(pot) => answer_with(pot, letter, numbers)
            .unwrap_or_else(|refusal| format!("R {}", refusal.number)),
    })
}

fn answer_with(pot: &mut Pot, letter: &str, numbers: &[u32]) -> Result<String, Refusal> {
    let settings = pot.settings;
    match (letter, numbers) {
        ("A", &[lo, hi]) => {
            settings_call_refusal(&settings, 0, lo, hi)?;
            *pot = pot.add(lo, hi);
            Ok(format!("K {} {}", pot.level, pot.cells.len()))
        }
        ("C", &[level, lo, hi]) => {
            settings_call_refusal(&settings, level, lo, hi)?;
            Ok(format!("C {}", range_count(&settings, level, lo, hi)))
        }
        ("N", &[level, from]) => {
            settings_call_refusal(&settings, level, from, settings.n)?;
            Ok(match next_hit(&settings, level, from, settings.n) {
                Some(cell) => format!("N {cell}"),
                None => "N none".to_string(),
            })
        }
        _ if pot.level == 0 => Ok(format!("E exact {}", pot.cells.len())),
        _ => Ok(format!("E about {}", pot.estimate().whole())),
    }
}

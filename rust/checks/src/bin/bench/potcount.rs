//! The program potcount beside the peer's.

use checks::cases::LARGEST;
use checks::draw::Draw;
use checks::peer::Potcount;
use checks::shape::Settings;
use std::io::{self, Read, Write};
use std::process::{Command, Stdio};
use std::thread;
use std::time::{Duration, Instant};

const POTCOUNT_LINES: u32 = 100_000;
const POTCOUNT_ROUNDS: usize = 3;

/// Starting the program is timed too.
pub fn time_potcount(draw: &mut Draw, mut program: Command) -> io::Result<()> {
    let input = potcount_input(draw);
    let mut best = [Duration::MAX; 2];
    for _ in 0..POTCOUNT_ROUNDS {
        let start = Instant::now();
        let answers = run(&mut program, &input)?;
        best[0] = best[0].min(start.elapsed());
        let start = Instant::now();
        let expected = peer_potcount(&input);
        best[1] = best[1].min(start.elapsed());
        assert!(answers == expected, "potcount and the peer's differ");
    }
    let [program, peer] = best.map(|time| f64::from(POTCOUNT_LINES) / time.as_secs_f64());
    println!("\npotcount, {POTCOUNT_LINES} lines A, C, N, E: {program:.0} lines a second");
    println!("the peer's, in this process: {peer:.0} lines a second");
    Ok(())
}

fn potcount_input(draw: &mut Draw) -> Vec<u8> {
    let Settings {
        n,
        p,
        a,
        b,
        capacity,
    } = LARGEST;
    let mut input = format!("S {n} {p} {a} {b} {capacity}\n");
    for _ in 1..POTCOUNT_LINES {
        let (lo, hi) = draw.stretch(n, 1_000_000);
        let level = draw.from_to(0, 31);
        input += &match draw.from_to(0, 3) {
            0 => format!("A {lo} {hi}\n"),
            1 => format!("C {level} {lo} {hi}\n"),
            2 => format!("N {level} {lo}\n"),
            _ => "E\n".to_string(),
        };
    }
    input.into_bytes()
}

/// What a program writes for an input, fed while its output is read: neither
/// pipe takes all of it at once.
fn run(program: &mut Command, input: &[u8]) -> io::Result<Vec<u8>> {
    let piped = program.stdin(Stdio::piped()).stdout(Stdio::piped());
    let mut child = piped.spawn()?;
    let mut to_child = child.stdin.take().expect("piped");
    let mut from_child = child.stdout.take().expect("piped");
    let mut answers = Vec::new();
    thread::scope(|scope| {
        let feeder = scope.spawn(move || to_child.write_all(input));
        from_child.read_to_end(&mut answers)?;
        feeder.join().expect("the feeder doesn't panic")
    })?;
    child.wait()?;
    Ok(answers)
}

fn peer_potcount(input: &[u8]) -> Vec<u8> {
    let mut answers = Vec::new();
    let mut potcount = Potcount::new();
    potcount.feed(input, &mut answers);
    potcount.finish(&mut answers);
    answers
}

//! The program potcount: the peer's beside the naive version's.

use checks::cases::drawing;
use checks::draw::Draw;
use checks::naive;
use checks::peer::Potcount;
use checks::shape::Settings;

fn potcount(input: &[u8]) -> Vec<u8> {
    in_pieces(input, input.len().max(1))
}

fn in_pieces(input: &[u8], size: usize) -> Vec<u8> {
    let mut output = Vec::new();
    let mut program = Potcount::new();
    for piece in input.chunks(size) {
        program.feed(piece, &mut output);
    }
    program.finish(&mut output);
    output
}

const LISTING: &[u8] = b"S 10 101 37 5 3
A 1 2
A 2 4
A 6 6
A 9 10
E
C 1 1 10
N 1 4
N 2 4
A 0 3
";

const LISTING_ANSWERS: &[u8] = b"K 0 0
K 0 2
K 1 2
K 1 3
K 2 1
E about 4
C 4
N 6
N none
R 2
";

#[test]
fn listing_in_pieces_of_every_size() {
    assert_eq!(naive::potcount(LISTING), LISTING_ANSWERS);
    for size in 1..=LISTING.len() {
        let answers = in_pieces(LISTING, size);
        assert_eq!(answers, LISTING_ANSWERS, "pieces of {size}");
    }
    // The newline of the last line makes no difference.
    assert_eq!(potcount(&LISTING[..LISTING.len() - 1]), LISTING_ANSWERS);
}

#[test]
fn lines_of_every_shape() {
    let lines: &[&str] = &[
        "",
        " ",
        "S",
        "A",
        "E",
        "C",
        "N",
        "E ",
        " E",
        "e",
        "EE",
        "E 0",
        "X",
        "K 0 0",
        "A 1",
        "A 1 2 3",
        "A 1  2",
        "A  1 2",
        "A 1 2 ",
        "A 01 2",
        "A 0 0",
        "A 00 1",
        "A +1 2",
        "A -1 2",
        "A 1 2\r",
        "A\t1 2",
        "A 1 4294967295",
        "A 1 4294967296",
        "A 1 99999999999",
        "A 4294967295 4294967295",
        "A 1 1",
        "A 3 2",
        "A 1 11",
        "A 10 10",
        "C 0 1 10",
        "C 6 1 10",
        "C 7 1 10",
        "C 7 0 11",
        "C 6 0 1",
        "C 1 1",
        "C 1 1 1 1",
        "N 0 1",
        "N 6 10",
        "N 7 0",
        "N 6 0",
        "N 1 11",
        "N 1 5 9",
        "N 1",
        "N 4294967295 1",
        "S 10 101 37 5 3",
        "S 10 101 37 5",
        "S 10 101 37 5 3 0",
        "S 10 99 37 5 3",
        "S 0 0 0 0 0",
        "S 10 101 0 5 3",
        "S 10 100 50 5 3",
        "S 10 101 37 101 3",
        "S 10 101 37 5 0",
        "S 10 101 37 5 505",
        "S 10 101 37 5 504",
        "S 4294967295 4294967295 4294967295 4294967295 4294967295",
        "S 1 20 19 0 1",
        "\u{e9}",
        "E\0",
        "A 1 2A 1 2",
    ];
    // Each line alone, then after each other line, with and without an end.
    for first in lines {
        for second in lines {
            for end in ["", "\n", "\n\n"] {
                let input = format!("{first}\n{second}{end}").into_bytes();
                let shown = String::from_utf8_lossy(&input);
                assert_eq!(potcount(&input), naive::potcount(&input), "{shown:?}");
            }
        }
    }
    let all = lines.join("\n").into_bytes();
    assert_eq!(potcount(&all), naive::potcount(&all));
    assert_eq!(potcount(b""), b"");
    assert_eq!(potcount(b"\n"), b"R 9\n");
    assert_eq!(potcount(b"E"), b"R 4\n");
}

#[test]
fn lines_of_every_length() {
    for length in 0..200 {
        for byte in [b'E', b' ', b'1', 0, 0xFF] {
            let mut input = vec![byte; length];
            let ended = [&input[..], b"\nE\n"].concat();
            assert_eq!(potcount(&ended), naive::potcount(&ended));
            assert_eq!(potcount(&input), naive::potcount(&input));
            input.splice(0..0, *b"S 10 101 37 5 3\nA 1 1");
            input.extend(b"\nE\n");
            assert_eq!(potcount(&input), naive::potcount(&input));
        }
    }
}

#[test]
fn random_programs_in_random_pieces() {
    let mut draw = drawing(701);
    for _ in 0..20_000 {
        let input = random_program(&mut draw);
        let expected = naive::potcount(&input);
        let mut output = Vec::new();
        let mut program = Potcount::new();
        let mut rest = &input[..];
        while !rest.is_empty() {
            let size = draw.from_to(0, 90).min(rest.len() as u32) as usize;
            program.feed(&rest[..size], &mut output);
            rest = &rest[size..];
        }
        program.finish(&mut output);
        let shown = String::from_utf8_lossy(&input);
        assert!(output == expected, "{shown}");
    }
}

/// Mostly good lines under small settings, with some bytes changed.
fn random_program(draw: &mut Draw) -> Vec<u8> {
    let n = draw.from_to(1, 400);
    let mut program = String::new();
    for _ in 0..draw.from_to(1, 25) {
        let (lo, hi) = draw.stretch(n, n);
        let level = draw.from_to(0, 14);
        program += &match draw.from_to(0, 9) {
            0 | 1 => {
                let Settings {
                    n,
                    p,
                    a,
                    b,
                    capacity,
                } = draw.settings(n);
                format!("S {n} {p} {a} {b} {}\n", capacity % 40)
            }
            2..=4 => format!("A {lo} {hi}\n"),
            5 => format!(
                "A {} {}\n",
                lo - draw.from_to(0, 1),
                hi + draw.from_to(0, 1)
            ),
            6 => "E\n".to_string(),
            7 => format!("C {level} {lo} {hi}\n"),
            _ => format!("N {level} {lo}\n"),
        };
    }
    let mut bytes = program.into_bytes();
    for _ in 0..draw.from_to(0, 3) {
        let place = draw.from_to(0, bytes.len() as u32 - 1) as usize;
        bytes[place] = draw.choose(b" \n0159AECNS\r-+x\xFF");
    }
    if draw.once_in(2) {
        bytes.pop();
    }
    bytes
}

//! Timing and printing.

use std::hint::black_box;
use std::slice::Chunks;
use std::time::{Duration, Instant};

const ROUNDS: usize = 15;
/// Arguments timed together. A group is short, so that each has some rounds in
/// which nothing else took the processor.
const GROUP: usize = 25;
/// Rounds and tested cells in a round of the version that tests each cell: one
/// call of it may take a good part of a second.
const EACH_CELL_ROUNDS: usize = 2;
const EACH_CELL_CELLS: u32 = 5_000_000;
/// The room for a line's name.
const NAME: usize = 66;

/// One line of the table.
pub struct Line {
    name: String,
    library: f64,
    peer: f64,
    each_cell: Option<f64>,
}

impl Line {
    /// Times the library and the peer over the same arguments.
    pub fn time<T, A, B>(
        name: String,
        arguments: &[T],
        library: impl FnMut(&T) -> A,
        peer: impl FnMut(&T) -> B,
    ) -> Line {
        Line::time_groups(name, arguments.chunks(GROUP), library, peer)
    }

    /// The same for calls that take as long as a group: each is one.
    pub fn time_long<T, A, B>(
        name: String,
        arguments: &[T],
        library: impl FnMut(&T) -> A,
        peer: impl FnMut(&T) -> B,
    ) -> Line {
        Line::time_groups(name, arguments.chunks(1), library, peer)
    }

    fn time_groups<T, A, B>(
        name: String,
        groups: Chunks<T>,
        mut library: impl FnMut(&T) -> A,
        mut peer: impl FnMut(&T) -> B,
    ) -> Line {
        let arguments = groups.clone().map(<[T]>::len).sum();
        let mut library_times = BestTimes::new(groups.len());
        let mut peer_times = BestTimes::new(groups.len());
        for _ in 0..ROUNDS {
            for (i, group) in groups.clone().enumerate() {
                library_times.note(i, time_group(group, &mut library));
                peer_times.note(i, time_group(group, &mut peer));
            }
        }
        Line {
            name,
            library: library_times.mean(arguments),
            peer: peer_times.mean(arguments),
            each_cell: None,
        }
    }

    /// What each of so many steps takes, which this line has beyond the other.
    pub fn each_beyond(self, other: &Line, steps: usize) -> Line {
        Line {
            library: (self.library - other.library) / steps as f64,
            peer: (self.peer - other.peer) / steps as f64,
            ..self
        }
    }

    /// Times testing each of so many cells, over as many of the arguments as
    /// there is time for.
    pub fn beside_each_cell<T, R>(
        mut self,
        cells: u32,
        arguments: &[T],
        mut call: impl FnMut(&T) -> R,
    ) -> Line {
        let few = (EACH_CELL_CELLS / cells).max(1) as usize;
        let arguments = &arguments[..few.min(arguments.len())];
        let mut times = BestTimes::new(1);
        for _ in 0..EACH_CELL_ROUNDS {
            times.note(0, time_group(arguments, &mut call));
        }
        self.each_cell = Some(times.mean(arguments.len()));
        self
    }

    pub fn print(self) {
        let Line {
            name,
            library,
            peer,
            each_cell,
        } = self;
        let each = each_cell.map_or_else(
            || format!("{:>13} {:>11}", "-", "-"),
            |each| format!("{each:>13.0} {:>11.2}", each / library),
        );
        let ratio = library / peer;
        println!("{name:<NAME$} {library:>10.1} {peer:>10.1} {ratio:>9.2} {each}");
    }
}

/// The heads of the columns.
pub fn print_heads() {
    println!(
        "{:<NAME$} {:>10} {:>10} {:>9} {:>13} {:>11}",
        "", "library", "peer", "lib/peer", "each cell", "each/lib"
    );
}

/// The best time so far of each group of arguments.
struct BestTimes(Vec<Duration>);

impl BestTimes {
    fn new(groups: usize) -> BestTimes {
        BestTimes(vec![Duration::MAX; groups])
    }

    fn note(&mut self, group: usize, time: Duration) {
        self.0[group] = self.0[group].min(time);
    }

    /// The mean time of a call, in nanoseconds.
    fn mean(&self, calls: usize) -> f64 {
        let total: Duration = self.0.iter().sum();
        total.as_nanos() as f64 / calls as f64
    }
}

/// What a call answers is looked at where it is: to hand a sketch on would be one
/// copy more.
fn time_group<T, R>(arguments: &[T], call: &mut impl FnMut(&T) -> R) -> Duration {
    let start = Instant::now();
    for argument in arguments {
        black_box(&call(black_box(argument)));
    }
    start.elapsed()
}

/// So many cells.
pub fn cells_shown(number: u32) -> String {
    let noun = if number == 1 { "cell" } else { "cells" };
    format!("{} {noun}", with_commas(number))
}

/// A number with a comma between each three digits.
pub fn with_commas(number: u32) -> String {
    let digits = number.to_string();
    let groups: Vec<&str> = digits
        .as_bytes()
        .rchunks(3)
        .rev()
        .map(|group| std::str::from_utf8(group).expect("digits"))
        .collect();
    groups.join(",")
}

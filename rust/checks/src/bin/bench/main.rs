//! Times the library beside the peer, and beside a version that tests each
//! cell, in the largest kitchen; and its plain engine beside its first, in a small
//! one. Prints a table of nanoseconds a call.
//!
//! With the path of a potcount program as argument it also prints how many
//! lines a second that program and the peer's answer.

mod arguments;
mod calls;
mod plain;
mod potcount;
mod timing;

use calls::{
    time_adds, time_checks, time_counts, time_images, time_merges, time_next_hits, time_rows,
    time_walkers,
};
use checks::draw::Draw;
use plain::time_plain;
use potcount::time_potcount;
use std::env;
use std::io;
use std::process::Command;
use timing::print_heads;

const SEED: u64 = 2_025;

const NOTES: &str = "\
n 200,000,000, capacity 504; nanoseconds a call, the mean over 500 arguments in
groups of 25, each group's best of 15 rounds. Library and peer take turns, group
by group, over the same arguments. Each of their calls checks its settings, and
its whole sketch if it has one; the version that tests each cell checks neither,
has fewer arguments and takes the best of 2 rounds.
Levels: low 1, middle 12, high 26.
Rows of stretches: the mean over 50 rows, each row's best of 15 rounds. In a line
that ends in \"beside single adds\" as many adds of the library, one after the
other, stand in the place of the peer.
Plain engine: n 4,096, p 65,537. In a line that ends in \"beside the first\" the
plain engine stands in the place of the library, and the first engine in that of
the peer. Next hits go from cell 1 to a hit behind cell 4,000; adds are the mean
over 50 stretches, each stretch's best of 15 rounds. These lines have no bar.
Buffers: the row of a sketch is not cleared before a call. Before each add, row of
stretches and merge it is a fresh copy of the same sketch, and that copy is timed,
on both sides; for single adds there is one before the first of a row. The row of
numbers that a read fills is cleared before each call, and that is timed too. The
room for images is cleared once, before the first round, and not between calls.
Images to read were written before. Library and peer allocate nothing in a timed
call.
Check of a block: a read refused at its fifth block takes as long as one refused at
its first, and four checks more; the line has a quarter of the difference.
";

fn main() -> io::Result<()> {
    println!("seed {SEED}\n{NOTES}");
    print_heads();
    let mut draw = Draw::new(SEED);
    time_counts(&mut draw);
    time_next_hits(&mut draw);
    time_walkers();
    time_adds(&mut draw);
    time_rows(&mut draw);
    time_merges(&mut draw);
    time_images();
    time_checks();
    time_plain(&mut draw);
    match env::args_os().nth(1) {
        Some(program) => time_potcount(&mut draw, Command::new(program)),
        None => Ok(()),
    }
}

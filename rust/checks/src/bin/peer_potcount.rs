//! The program potcount (RULES: Program), with the peer.

use checks::peer::Potcount;
use std::io::{self, Read, Write};

fn main() -> io::Result<()> {
    let mut input = io::stdin().lock();
    let mut output = io::stdout().lock();
    let mut potcount = Potcount::new();
    let mut piece = [0; 8_192];
    let mut answers = Vec::new();
    loop {
        let length = input.read(&mut piece)?;
        if length == 0 {
            potcount.finish(&mut answers);
            output.write_all(&answers)?;
            return output.flush();
        }
        potcount.feed(&piece[..length], &mut answers);
        output.write_all(&answers)?;
        answers.clear();
    }
}

//! Times libpawdoku and the Rust original in one process, on the same inputs.
//!
//!     bench [ROUNDS]
//!
//! Prints tables in Markdown, in nanoseconds. docs/PERFORMANCE.md says how to read them.
#![deny(unsafe_code)]

mod calls;
mod pair;
mod press;
mod puzzle;
mod records;
mod sitting;
mod stack;

use puzzle::Puzzle;

fn main() {
    let words: Vec<String> = std::env::args().skip(1).collect();
    if let [word, kilobytes] = &words[..]
        && word == "--reopen-with"
    {
        return stack::reopen_with(kilobytes.parse().expect("a number of kilobytes"));
    }
    let rounds = words.first().and_then(|word| word.parse().ok()).unwrap_or(400);
    for puzzle in [Puzzle::empty(), Puzzle::thirty()] {
        println!("\n## {} givens\n", puzzle.givens.len());
        calls::table(&puzzle, rounds);
        records::table(&puzzle, rounds);
        press::table(&puzzle);
    }
    stack::table();
}

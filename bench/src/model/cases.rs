//! What the program `cases` of the proved crates has to print: the bench cases of the scope, and many runs beside them.
//!
//! A line is a name and its values, parted by tabs. A run begins with a line that says what is called, with its argument if
//! it has one (the cell, the distance, the cut, the group), the side, and how many cells and how many entries of a log are
//! lent. Then come `answer` (number, place, electronic moves, swaps) and what was lent, as the run leaves it; of records the
//! front lanes, and after the line `spare` the spare ones. Behind a whole run comes the line `plain`, with the answer and the
//! lanes of the same call without moves. Logs held 9s, spare lanes 7s. A row of more than 81 entries is
//! told by its check, in a line `NAME checked`: the sum of its prefix sums, modulo 2³².

mod on_records;
mod on_words;

use super::answers::Answer;

pub fn printed() -> String {
    [
        on_records::starred(),
        on_words::starred(),
        on_records::edges(),
        on_words::at_every_side(),
        on_words::refused(),
        on_records::states(),
    ]
    .concat()
}

/// The end of the line that says what is called.
fn lent(side: usize, cells: usize, log: usize) -> String {
    format!("\tside\t{side}\tcells\t{cells}\tlog\t{log}\n")
}

fn answer_line(answer: Answer) -> String {
    line("answer", &[answer.number, answer.place, answer.electronic, answer.swaps])
}

/// A row in full where it can be read, and else its check.
fn row<T: Copy + Into<u32>>(name: &str, entries: &[T]) -> String {
    let entries: Vec<u32> = entries.iter().map(|&entry| entry.into()).collect();
    if entries.len() <= 81 {
        line(name, &entries)
    } else {
        line(&format!("{name} checked"), &[check(&entries)])
    }
}

fn check(entries: &[u32]) -> u32 {
    let prefix_sums = entries.iter().scan(0u32, |sum, &entry| {
        *sum = sum.wrapping_add(entry);
        Some(*sum)
    });
    prefix_sums.fold(0, u32::wrapping_add)
}

fn line<T: ToString>(name: &str, values: &[T]) -> String {
    let values: String = values.iter().map(|value| format!("\t{}", value.to_string())).collect();
    format!("{name}{values}\n")
}

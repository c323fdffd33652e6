//! The second program: the same answers as the planner's, from documents 01
//! and 02 alone. It is naive on purpose, so that it can be believed by reading it.

mod batch;
mod cheap;
mod cheap_maker;
mod cheap_rows;
#[cfg(test)]
mod cheap_ways;
#[cfg(test)]
mod cheap_worked;
mod closing;
mod closing_maker;
mod closing_rows;
#[cfg(test)]
mod closing_ways;
#[cfg(test)]
mod closing_worked;
mod cover;
mod damage;
mod degree;
mod degree_maker;
mod degree_rows;
#[cfg(test)]
mod degree_ways;
#[cfg(test)]
mod degree_worked;
mod listing;
mod listing_cover;
mod listing_maker;
mod listing_rows;
#[cfg(test)]
mod listing_shape;
#[cfg(test)]
mod listing_ways;
#[cfg(test)]
mod listing_worked;
mod maker;
mod mark_maker;
mod mark_rows;
#[cfg(test)]
mod mark_ways;
#[cfg(test)]
mod mark_worked;
mod marks;
mod monomial;
mod no_room;
mod notation;
mod operations;
mod page;
mod panel;
mod program;
mod random;
mod reading;
mod records;
mod reply;
mod rows;
mod setting;
mod show;
mod system;
mod systems;
mod thin_cover;
mod thin_maker;
mod thin_rows;
#[cfg(test)]
mod thin_worked;
mod thinning;
mod walk;
#[cfg(test)]
mod ways;
mod wire_cover;
mod wire_maker;
mod wire_rows;
mod wiring;
#[cfg(test)]
mod worked;

use batch::{write_batch, Cases, BROKEN_LINE};
use std::io::{self, BufWriter, Read, Write};
use std::process::ExitCode;

const USAGE: &str = "\
usage: second program            term records in, document 01's lines out
       second answer             a batch in, one line of answer per case out
       second rows               the batch of fixed rows out
       second batch SEED COUNT   a random batch out
       second stored             the stored batch out: rows and random cases of each kind
       second show [NUMBER]      a batch in, its cases (or one) written for a person
       second cover              a batch in, what it covers out
";

fn main() -> ExitCode {
    let words: Vec<String> = std::env::args().skip(1).collect();
    let words: Vec<&str> = words.iter().map(String::as_str).collect();
    let done = match words[..] {
        ["program"] => write_out(program::output(&program::read_input(io::stdin())).as_bytes()),
        ["rows"] => write_out(&write_batch(&rows::rows())),
        ["batch", seed, count] => match (seed.parse(), count.parse()) {
            (Ok(seed), Ok(count)) => write_out(&write_batch(&maker::batch(seed, count))),
            _ => return usage(),
        },
        ["stored"] => write_out(&write_batch(&maker::stored())),
        ["answer"] => read_batch().and_then(|batch| answer(&batch)),
        ["show"] => read_batch().and_then(|batch| show(&batch, None)),
        ["show", number] => match number.parse() {
            Ok(number) => read_batch().and_then(|batch| show(&batch, Some(number))),
            Err(_) => return usage(),
        },
        ["cover"] => read_batch().and_then(|batch| cover(&batch)),
        _ => return usage(),
    };
    match done {
        Ok(()) => ExitCode::SUCCESS,
        Err(error) => {
            eprintln!("second: {error}");
            ExitCode::FAILURE
        }
    }
}

fn usage() -> ExitCode {
    eprint!("{USAGE}");
    ExitCode::from(2)
}

fn read_batch() -> io::Result<Vec<u8>> {
    let mut batch = Vec::new();
    io::stdin().read_to_end(&mut batch)?;
    Ok(batch)
}

fn write_out(bytes: &[u8]) -> io::Result<()> {
    let mut out = io::stdout().lock();
    out.write_all(bytes)?;
    out.flush()
}

fn answer(batch: &[u8]) -> io::Result<()> {
    let mut out = BufWriter::new(io::stdout().lock());
    for case in Cases::of(batch) {
        match case {
            Ok(case) => writeln!(out, "{}", case.line())?,
            Err(_) => writeln!(out, "{BROKEN_LINE}")?,
        }
    }
    out.flush()
}

fn show(batch: &[u8], only: Option<usize>) -> io::Result<()> {
    let mut out = BufWriter::new(io::stdout().lock());
    let mut shown = false;
    for (index, case) in Cases::of(batch).enumerate() {
        let number = index + 1;
        if only.is_some_and(|wanted| wanted != number) {
            continue;
        }
        shown = true;
        match case {
            Ok(case) => writeln!(out, "{}", show::block(number, &case))?,
            Err(_) => writeln!(out, "case {number}: {BROKEN_LINE}")?,
        }
    }
    if only.is_some() && !shown {
        return Err(io::Error::other("no case of this number"));
    }
    out.flush()
}

fn cover(batch: &[u8]) -> io::Result<()> {
    let mut cover = cover::Cover::default();
    for case in Cases::of(batch) {
        match case {
            Ok(case) => cover.add(&case),
            Err(_) => return Err(io::Error::other(BROKEN_LINE)),
        }
    }
    write_out(cover.report().as_bytes())
}

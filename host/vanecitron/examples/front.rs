//! A terminal for a run that is under way: what is left of it once a front has been done. `cargo run --offline --release -p vanecitron --example front`.
//!
//! What it must print is worked out by hand from docs/SPECIFICATION.md, as host/examples/front.c says: each letter of book Q is a piece and no longer run is,
//! and cadbadb, abdcadb and abdabdc are all the runs that a chain joins to cadbadb.

use std::error::Error;

use vanecitron::{compare, front, front_into, least, BookWriter, Reason, ALLOWANCE, BOOK};

/// A run in letters.
fn letters(run: &[u8]) -> String {
    run.iter().map(|&step| char::from(b'a' + step)).collect()
}

/// A run of letters in steps.
fn steps(letters: &str) -> Vec<u8> {
    letters.bytes().map(|letter| letter - b'a').collect()
}

/// What is left of a run less a front, or why there is no answer.
fn print_front(book: &[u8], run: &str, piece: &str) {
    match front(book, &steps(run), &steps(piece)) {
        Err(refusal) => println!("'{run}' less '{piece}': {refusal}"),
        Ok(left) => println!("'{run}' less '{piece}': '{}'", letters(&left)),
    }
}

/// The steps that a run can begin with: there is no such front of the others. The step and what is left are the same as the run.
fn print_beginnings(book: &[u8], run: &str) -> Result<(), Box<dyn Error>> {
    for step in 0..4 {
        match front(book, &steps(run), &[step]) {
            Err(refusal) if refusal.reason == Reason::NoFront => println!("'{run}' cannot begin with {}", letters(&[step])),
            Err(refusal) => return Err(refusal.into()),
            Ok(left) => {
                let whole = [vec![step], left].concat();
                println!("'{run}' can be '{}': {:?}", letters(&whole), compare(book, &steps(run), &whole, ALLOWANCE)?);
            }
        }
    }
    Ok(())
}

fn main() -> Result<(), Box<dyn Error>> {
    // abdc = cadb over four letters
    let mut lent = [0; BOOK];
    let mut writer = BookWriter::new(&mut lent, 4)?;
    writer.rule(&steps("abdc"), &steps("cadb"))?;
    let book = writer.bytes();

    for (run, piece) in [("abdc", "c"), ("cadbadb", "a"), ("acadb", "a"), ("c", "c"), ("abdc", "d"), ("abdc", "ab"), ("abde", "e"), ("abdc", "ce")] {
        print_front(book, run, piece);
    }
    println!("with no front it is the least run: {}", front(book, &steps("cadb"), &[])? == least(book, &steps("cadb"))?);
    print_beginnings(book, "bdc")?;
    print_beginnings(book, "abdc")?;

    // steps are worked off, each of them from what the one before has left
    let mut left = steps("cadbadb");
    for step in steps("abdcadb") {
        left = front(book, &left, &[step])?;
        println!("{} done, left '{}'", letters(&[step]), letters(&left));
    }

    // the same into a lent buffer, without an allocation; the room is judged by what is left
    let mut filed = [9; 8];
    for offset in [5, 6] {
        match front_into(book, &steps("abdc"), &steps("c"), &mut filed, offset) {
            Err(refusal) => println!("at an offset of {offset}: {refusal}"),
            Ok(length) => println!("at an offset of {offset}: {length} steps in {filed:?}"),
        }
    }
    Ok(())
}

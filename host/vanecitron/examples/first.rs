//! The program of README.md ("From Rust"), which host/run-examples holds to this file: `cargo run --offline --release -p vanecitron --example first`.

use vanecitron::{compare, BookWriter, Comparison, BOOK};

fn main() -> Result<(), Box<dyn std::error::Error>> {
    // the steps a, b, c, d are 0, 1, 2, 3: abdc, cadb
    let (u, v) = ([0, 1, 3, 2], [2, 0, 3, 1]);
    let mut bytes = [0; BOOK];
    let mut book = BookWriter::new(&mut bytes, 4)?;
    book.rule(&u, &v)?;
    match compare(book.bytes(), &u, &v, 262144)? {
        Comparison::Same { rounds } => println!("same: {rounds} rounds"),
        Comparison::Different { rounds } => println!("different: {rounds} rounds"),
    }
    Ok(())
}

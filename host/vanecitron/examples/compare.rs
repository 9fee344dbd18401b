//! The specification's example, book Q, through every function but the front and those of a held book:
//! `cargo run --offline --release -p vanecitron --example compare`.

use std::error::Error;

use vanecitron::{
    ample_allowance, check, compare, cut_sheet, cut_sheet_into, least, least_into, program, round, BookWriter, BOOK, SHEET, SHEET_SIDE,
};

fn main() -> Result<(), Box<dyn Error>> {
    // abdc and cadb over four letters
    let (u, v) = ([0, 1, 3, 2], [2, 0, 3, 1]);
    let mut lent = [0; BOOK];
    let mut writer = BookWriter::new(&mut lent, 4)?;
    writer.rule(&u, &v)?;
    let book = writer.bytes();

    println!("rules: {}", check(book)?);
    for (side, cut) in cut_sheet(book)?.iter().enumerate() {
        println!("side {side}: X {}, Y {}, Z {}; {}", cut.x, cut.y, cut.z, cut.pieces);
    }
    println!("first round: {:?}", round(book, &u, &v, &[])?);

    let mut sheet = [0; SHEET];
    let rules = cut_sheet_into(book, &mut sheet)?;
    let allowance = ample_allowance(&sheet[..2 * SHEET_SIDE * rules], u.len());
    println!("comparison within {allowance} rounds: {:?}", compare(book, &u, &v, allowance)?);
    match compare(book, &u, &v, 1) {
        Err(refusal) => println!("with an allowance of 1: {refusal}"),
        Ok(answer) => println!("with an allowance of 1: {answer:?}"),
    }

    println!("least runs: {:?} and {:?}", least(book, &u)?, least(book, &v)?);
    let mut filed = [9; 8];
    let length = least_into(book, &v, &mut filed, 3)?;
    println!("at an offset of 3: {length} steps in {filed:?}");
    match least_into(book, &v, &mut filed, 5) {
        Err(refusal) => println!("at an offset of 5: {refusal}"),
        Ok(length) => println!("at an offset of 5: {length}"),
    }

    writer.comparison(100, &u, &v)?;
    print!("{}", String::from_utf8_lossy(&program(writer.bytes())?));
    Ok(())
}

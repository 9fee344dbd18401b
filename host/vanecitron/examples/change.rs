//! A held book, changed rule by rule: `cargo run --offline --release -p vanecitron --example change`.
//!
//! What it must print is worked out by hand from docs/SPECIFICATION.md, as host/examples/change.c says: pieces by the pairs of letters, rounds by the rows.

use std::error::Error;

use vanecitron::{compare, least, load, rule_record, withdraw, BookWriter, HeldBook, BOOK, HELD, RULE, SHEET};

fn main() -> Result<(), Box<dyn Error>> {
    // book Q: abdc = cadb over four letters
    let (abdc, cadb, bcda) = ([0, 1, 3, 2], [2, 0, 3, 1], [1, 2, 3, 0]);
    let mut lent = [0; BOOK];
    let mut writer = BookWriter::new(&mut lent, 4)?;
    writer.rule(&abdc, &cadb)?;
    let mut held = HeldBook::load(writer.bytes())?;
    println!("loaded: {:?}, changes {}", held.book(), held.changes());

    // bcdcadb and abdcbdc are joined only where bcda is a side too
    let (u, v) = ([1, 2, 3, 2, 0, 3, 1], [0, 1, 3, 2, 1, 3, 2]);
    println!("comparison: {:?}", compare(held.book(), &u, &v, 100)?);
    let mut bytes = [0; RULE];
    let cuts = held.add(rule_record(&mut bytes, &cadb, &bcda)?)?;
    println!("added: {} sides", cuts.len());
    for (side, cut) in cuts.iter().enumerate() {
        println!("side {side}: X {}, Y {}, Z {}; {}", cut.x, cut.y, cut.z, cut.pieces);
    }
    println!("held: {} bytes, changes {}", held.book().len(), held.changes());
    println!("comparison: {:?}", compare(held.book(), &u, &v, 100)?);
    println!("least run: {:?}", least(held.book(), &u)?);

    // changes that are refused
    match held.add(rule_record(&mut bytes, &[0], &[0, 0])?) {
        Err(refusal) => println!("a = aa: {refusal}"),
        Ok(cuts) => println!("a = aa: {cuts:?}"),
    }
    match held.withdraw(2) {
        Err(refusal) => println!("rule 2: {refusal}"),
        Ok(cuts) => println!("rule 2: {cuts:?}"),
    }
    println!("held: {} bytes, changes {}", held.book().len(), held.changes());

    println!("withdrawn: {} sides", held.withdraw(1)?.len());
    println!("held: {} bytes, changes {}", held.book().len(), held.changes());
    println!("comparison: {:?}", compare(held.book(), &u, &v, 100)?);

    // the same over a lent array, without an allocation
    let (mut array, mut sheet) = ([0; HELD], [0; SHEET]);
    let rules = load(writer.bytes(), &mut array)?;
    println!("over a lent array: {rules} rule, then {}", withdraw(&mut array, 0, &mut sheet)?);
    match load(writer.bytes(), &mut array[..HELD - 1]) {
        Err(refusal) => println!("in a byte too few: {refusal}"),
        Ok(rules) => println!("in a byte too few: {rules}"),
    }
    Ok(())
}

//! A terminal for the rules of a book: changes are proposed, shown and posted. `cargo run --offline --release -p vanecitron --example propose`.
//!
//! What it must print is worked out by hand from docs/SPECIFICATION.md, as host/examples/propose.c says: pieces by the pairs of letters.

use std::error::Error;

use vanecitron::{
    cut_sheet, load, post, propose_withdrawal, rule_record, BookWriter, Cut, HeldBook, Refusal, Ticket, BOOK, HELD, RULE, SHEET, TICKET,
};

/// The sides that there would be, each beside its old cut; an addition leaves the numbers of the old sides as they are.
fn print_addition(held: &HeldBook, proposed: &[Cut]) -> Result<(), Refusal> {
    let old = cut_sheet(held.book())?;
    for (side, cut) in proposed.iter().enumerate() {
        let told = format!("X {}, Y {}, Z {}; {}", cut.x, cut.y, cut.z, cut.pieces);
        match old.get(side) {
            None => println!("  side {side}, new: {told}"),
            Some(before) if before == cut => println!("  side {side}, as before: {told}"),
            Some(before) => println!("  side {side}: {told}; before: X {}, Y {}, Z {}; {}", before.x, before.y, before.z, before.pieces),
        }
    }
    Ok(())
}

/// Posts a ticket and prints what it came to.
fn print_posting(held: &mut HeldBook, name: &str, ticket: &Ticket) {
    match held.post(ticket) {
        Err(refusal) => println!("{name}: {refusal}"),
        Ok(cuts) => println!("{name}: posted, {} sides", cuts.len()),
    }
    println!("held: {} bytes, changes {}", held.book().len(), held.changes());
}

fn main() -> Result<(), Box<dyn Error>> {
    // abcde = edcba over seven letters
    let mut lent = [0; BOOK];
    let mut writer = BookWriter::new(&mut lent, 7)?;
    writer.rule(&[0, 1, 2, 3, 4], &[4, 3, 2, 1, 0])?;
    let mut held = HeldBook::load(writer.bytes())?;
    println!("held: {} bytes, changes {}", held.book().len(), held.changes());

    // two rules are proposed, and nothing is changed by that
    let (mut first_bytes, mut second_bytes) = ([0; RULE], [0; RULE]);
    let first_record = rule_record(&mut first_bytes, &[5, 0, 1], &[6])?;
    let second_record = rule_record(&mut second_bytes, &[2, 3, 5], &[6])?;
    let (cuts, first) = held.propose_addition(first_record)?;
    println!("fab = g: {first:?}");
    print_addition(&held, &cuts)?;
    let (cuts, second) = held.propose_addition(second_record)?;
    println!("cdf = g: {second:?}");
    print_addition(&held, &cuts)?;
    println!("held: {} bytes, changes {}", held.book().len(), held.changes());

    // the first is stored and posted; the second is then stale, and would now be refused
    let stored = first.to_bytes();
    print_posting(&mut held, "fab = g", &Ticket::from_bytes(stored));
    print_posting(&mut held, "cdf = g", &second);
    match held.propose_addition(second_record) {
        Err(refusal) => println!("cdf = g: {refusal}"),
        Ok((cuts, _)) => println!("cdf = g: {cuts:?}"),
    }

    // the first rule is withdrawn again, and the second proposed anew
    let (cuts, ticket) = held.propose_withdrawal(1)?;
    println!("without fab = g: {ticket:?}, {} sides", cuts.len());
    print_posting(&mut held, "without fab = g", &ticket);
    let (_, again) = held.propose_addition(second_record)?;
    print_posting(&mut held, "cdf = g", &second);
    print_posting(&mut held, "cdf = g", &again);

    // the same over lent arrays, without an allocation
    let (mut array, mut sheet, mut lent_ticket) = ([0; HELD], [0; SHEET], [0; TICKET]);
    load(writer.bytes(), &mut array)?;
    let rules = propose_withdrawal(&array, 0, &mut sheet, &mut lent_ticket)?;
    println!("over lent arrays: {rules} rules, ticket {:?}", &lent_ticket[..6]);
    println!("over lent arrays: {} rules", post(&mut array, &lent_ticket, &mut sheet)?);
    match propose_withdrawal(&array, 0, &mut sheet, &mut lent_ticket) {
        Err(refusal) => println!("over lent arrays: {refusal}"),
        Ok(rules) => println!("over lent arrays: {rules} rules"),
    }
    Ok(())
}

//! Judging a transaction against the book, and entering it.

use crate::book::{Book, Entry, Line, Pair};
use crate::code::{Code, Fault};
use crate::layout::SetId;
use crate::transaction::{Detail, Transaction};

const DAYS_TO_ADJUST: u64 = 90;

/// Judges a transaction that is good on its own against the book, and enters it if it passes.
pub fn settle(transaction: &Transaction, day: u32, book: &mut Book) -> Result<(), Fault> {
    check_original(transaction, day, book)?;
    check_own_pair(transaction, book)?;
    enter(transaction, day, book);
    Ok(())
}

/// The checks 61 to 65.
fn check_original(transaction: &Transaction, day: u32, book: &Book) -> Result<(), Fault> {
    let Some(pair) = transaction.original_pair() else {
        return Ok(());
    };
    let adjusts = transaction.set_id.is_adjustment();
    let column = if adjusts { 50 } else { 10 };
    let original = book
        .entry(&pair)
        .filter(|entry| !adjusts || entry.set_id.is_original())
        .ok_or(Fault::at(Code::Original, 0, column))?;
    if adjusts && u64::from(day) > u64::from(original.day) + DAYS_TO_ADJUST {
        return Err(Fault::at(Code::Late, 0, column));
    }
    for detail in &transaction.details {
        check_line(transaction.set_id, detail, &pair, book)?;
    }
    if adjusts && transaction.total() > original.open {
        return Err(Fault::at(Code::AboveOpen, 0, 10));
    }
    Ok(())
}

/// The checks 63 and 64 of one detail.
fn check_line(set_id: SetId, detail: &Detail, pair: &Pair, book: &Book) -> Result<(), Fault> {
    let fault = |code, column| Fault::at(code, detail.record, column);
    let column = if set_id.is_adjustment() { 93 } else { 2 };
    let line = book
        .line(pair, detail.original_line(set_id))
        .ok_or(fault(Code::NoLine, column))?;
    if set_id == SetId::PostSgl {
        return if detail.postings.debits.sum == u128::from(line.amount) {
            Ok(())
        } else {
            Err(fault(Code::Differs, 1))
        };
    }
    let against = if set_id == SetId::ReceiverAdjustment {
        [line.receiver, line.sender]
    } else {
        [line.sender, line.receiver]
    };
    let [sender, receiver] = detail.symbols(set_id);
    for (own, theirs, column) in [(sender, against[0], 100), (receiver, against[1], 135)] {
        if own.zip(theirs).is_some_and(|(own, theirs)| own != theirs) {
            return Err(fault(Code::Differs, column));
        }
    }
    Ok(())
}

/// The checks 66 and 67.
fn check_own_pair(transaction: &Transaction, book: &Book) -> Result<(), Fault> {
    let Some(pair) = transaction.own_pair() else {
        return Ok(());
    };
    let lines = transaction.lines();
    let line_held = (1..=lines).any(|number| book.line(&pair, number).is_some());
    if book.entry(&pair).is_some() || line_held {
        let column = match transaction.set_id {
            SetId::ReceiverAdjustment | SetId::SenderAdjustment => 55,
            SetId::ZeroDollar => 26,
            SetId::Payment | SetId::Collection | SetId::PostSgl => 40,
        };
        return Err(Fault::at(Code::Held, 0, column));
    }
    let free = book.free();
    if free.entries == 0 || free.lines < lines {
        return Err(Fault::at(Code::NoPlace, 0, 1));
    }
    Ok(())
}

/// Takes the total from the original, and enters the entry and its lines.
fn enter(transaction: &Transaction, day: u32, book: &mut Book) {
    let set_id = transaction.set_id;
    if set_id.is_adjustment()
        && let Some(original) = transaction
            .original_pair()
            .and_then(|pair| book.entry_mut(&pair))
    {
        original.open -= transaction.total();
    }
    let Some(pair) = transaction.own_pair() else {
        return;
    };
    let open = transaction.total();
    book.enter_entry(pair, Entry { set_id, day, open });
    for (number, detail) in (1..=transaction.lines()).zip(&transaction.details) {
        let [sender, receiver] = detail.symbols(set_id);
        let amount = detail.amount(set_id);
        let line = Line {
            amount,
            sender,
            receiver,
        };
        book.enter_line(pair, number, line);
    }
}

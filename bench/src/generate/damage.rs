//! Damaging files and register texts.

use super::random::Random;
use crate::input::RegisterTexts;

/// Bytes that stand for something in some field.
const TELLING: &[u8] = b" 0123456789HDEACFPSRNX\n\r\t~\x7f\x80\xff";

#[derive(Clone, Copy)]
enum Damage {
    FlipBit,
    TellingByte,
    InsertByte,
    RemoveByte,
    Cut,
    SwapLines,
    DuplicateLine,
    DeleteLine,
}

const DAMAGES: [Damage; 8] = [
    Damage::FlipBit,
    Damage::TellingByte,
    Damage::InsertByte,
    Damage::RemoveByte,
    Damage::Cut,
    Damage::SwapLines,
    Damage::DuplicateLine,
    Damage::DeleteLine,
];

/// Damages a file in one place.
pub fn damage(file: &mut Vec<u8>, random: &mut Random) {
    if file.is_empty() {
        return;
    }
    let place = place(file, random);
    match *random.pick(&DAMAGES) {
        Damage::FlipBit => file[place] ^= 1 << random.below(8),
        Damage::TellingByte => file[place] = *random.pick(TELLING),
        Damage::InsertByte => file.insert(place, *random.pick(TELLING)),
        Damage::RemoveByte => {
            file.remove(place);
        }
        Damage::Cut => cut(file, place, random),
        Damage::SwapLines => with_lines(file, random, |lines, a, b| lines.swap(a, b)),
        Damage::DuplicateLine => with_lines(file, random, |lines, a, b| lines.insert(a, lines[b])),
        Damage::DeleteLine => with_lines(file, random, |lines, a, _| {
            lines.remove(a);
        }),
    }
}

/// A place in the file, mostly behind its opening.
fn place(file: &[u8], random: &mut Random) -> usize {
    const OPENING: usize = 41;
    if file.len() > OPENING && !random.once_in(32) {
        random.between(OPENING, file.len() - 1)
    } else {
        random.below(file.len())
    }
}

/// Cuts the end off, mostly leaving a line feed as the last byte.
fn cut(file: &mut Vec<u8>, place: usize, random: &mut Random) {
    file.truncate(place);
    if !random.once_in(4) {
        file.push(b'\n');
    }
}

/// Changes the lines, given two of their indices, mostly not of the opening.
fn with_lines(
    file: &mut Vec<u8>,
    random: &mut Random,
    change: impl FnOnce(&mut Vec<&[u8]>, usize, usize),
) {
    let text = std::mem::take(file);
    let mut lines: Vec<&[u8]> = text.split_inclusive(|byte| *byte == b'\n').collect();
    let first = if lines.len() > 2 && !random.once_in(32) {
        2
    } else {
        0
    };
    let mut index = || random.between(first, lines.len() - 1);
    let (a, b) = (index(), index());
    change(&mut lines, a, b);
    *file = lines.concat();
}

/// Damages the text of one register, so that most of the time it is refused.
pub fn damage_register(texts: &mut RegisterTexts, random: &mut Random) {
    let RegisterTexts {
        agencies,
        offices,
        symbols,
        units,
        accounts,
    } = texts;
    let text = match random.below(5) {
        0 => agencies,
        1 => offices,
        2 => symbols,
        3 => units,
        _ => accounts,
    };
    match random.below(4) {
        0 => drop(text.pop()),
        1 => text.push(b'\n'),
        2 => text.reverse(),
        _ => text.clear(),
    }
}

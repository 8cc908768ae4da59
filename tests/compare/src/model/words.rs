//! Shape words and class words, as strings of 32 digits with the sign digit in front.

use super::partitions::{degree, is_partition};
use super::{Answer, Parts, DEGREE_LIMIT, LIST_LIMIT};

fn digits(word: u32) -> String {
    format!("{word:032b}")
}

/// The word with these digits after a clear sign digit, and zeros behind them.
fn word(digits: &str) -> u32 {
    u32::from_str_radix(&format!("0{digits:0<31}"), 2).unwrap()
}

/// The rows of a shape word, which may have ones in front: they stand after no zero and lengthen no row. Refuses 1, 2.
pub fn read_shape(word: u32) -> Answer<Parts> {
    let digits = digits(word);
    if digits.starts_with('1') {
        return Err(1);
    }
    let mut rows = vec![];
    let mut ones = 0;
    for digit in digits[1..].trim_end_matches('0').chars().rev() {
        if digit == '1' {
            ones += 1;
        } else {
            rows.insert(0, ones);
        }
    }
    within(rows, 2)
}

/// The rows of a shape word that has to be good, as those of slips, lines and lists have. Refuses 1, 2.
pub fn read_good_shape(word: u32) -> Answer<Parts> {
    if !digits(word).starts_with("00") {
        return Err(1);
    }
    read_shape(word)
}

/// The good word of a shape word, which its rows are packed to again, and how many ones stand in front. Refuses 1, 2.
pub fn good_shape(word: u32) -> Answer<(u32, u32)> {
    let rows = read_shape(word)?;
    let in_front = digits(word).chars().skip(1).take_while(|&digit| digit == '1').count();
    Ok((pack_shape(&rows), in_front as u32))
}

/// The parts of a class word. Refuses 3, 4.
pub fn read_class(word: u32) -> Answer<Parts> {
    let digits = digits(word);
    if digits.starts_with('1') {
        return Err(3);
    }
    let used = digits[1..].trim_end_matches('0');
    let parts: Parts = used.split_inclusive('1').map(|part| part.len() as u8).collect();
    if !is_partition(&parts) {
        return Err(3);
    }
    within(parts, 4)
}

/// The rows of a shape word and the parts of a class word. Refuses 1, 3, 2, 4, 5.
pub fn read_pair(shape: u32, class: u32) -> Answer<(Parts, Parts)> {
    let (rows, parts) = (read_shape(shape), read_class(class));
    let refusals = [rows.as_ref().err().copied(), parts.as_ref().err().copied()];
    if let Some(refused) = [1, 3, 2, 4].into_iter().find(|&k| refusals.contains(&Some(k))) {
        return Err(refused);
    }
    let (rows, parts) = (rows?, parts?);
    if degree(&rows) != degree(&parts) {
        return Err(5);
    }
    Ok((rows, parts))
}

/// A list of words in another form, each read and packed again. Refuses 20 with the index 0, then as the first word
/// that is refused, with its index.
pub fn moved(
    words: &[u32],
    room: usize,
    read: fn(u32) -> Answer<Parts>,
    pack: fn(&[u8]) -> u32,
) -> Result<Vec<u32>, (u32, u64)> {
    if words.len() != room || words.len() > LIST_LIMIT {
        return Err((20, 0));
    }
    let refused = |index: usize| move |number| (number, index as u64);
    let moved = |(index, &word)| read(word).map(|parts| pack(&parts)).map_err(refused(index));
    words.iter().enumerate().map(moved).collect()
}

/// The shape word of a partition of any degree whose digits fit a word.
pub fn pack_shape(rows: &[u8]) -> u32 {
    let after = rows.iter().skip(1).chain([&0]);
    let digits: String =
        rows.iter().zip(after).map(|(row, next)| "0".to_string() + &"1".repeat((row - next).into())).collect();
    word(&digits)
}

/// The class word of a list of parts, none of them 0, whose digits fit a word.
pub fn pack_class(parts: &[u8]) -> u32 {
    let digits: String = parts.iter().map(|&part| "0".repeat(usize::from(part) - 1) + "1").collect();
    word(&digits)
}

/// The shape word of a part list. Refuses 3, 2.
pub fn shape_word(parts: &[u8]) -> Answer<u32> {
    Ok(pack_shape(&listed(parts, 2)?))
}

/// The class word of a part list. Refuses 3, 4.
pub fn class_word(parts: &[u8]) -> Answer<u32> {
    Ok(pack_class(&listed(parts, 4)?))
}

fn listed(parts: &[u8], too_large: u32) -> Answer<Parts> {
    if !is_partition(parts) {
        return Err(3);
    }
    within(parts.to_vec(), too_large)
}

fn within(parts: Parts, too_large: u32) -> Answer<Parts> {
    if degree(&parts) > DEGREE_LIMIT {
        return Err(too_large);
    }
    Ok(parts)
}

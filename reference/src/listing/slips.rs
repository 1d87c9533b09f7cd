//! Planted mistakes that change the text alone: a line as a wrong program would
//! write it, or as one that takes too much would see it.

use super::mistake::ListingMistake::{self, *};
use crate::words::immediate;

/// The line of a program that writes in another way.
pub fn written(line: String, mistake: Option<ListingMistake>) -> String {
    let Some(mistake) = mistake else { return line };
    let mut fields: Vec<String> = line.split(' ').map(str::to_string).collect();
    let number = |text: &str| u32::from_str_radix(text, 16).unwrap_or(0);
    let [address, word] = [number(&fields[0]), number(&fields[1])];
    let is_data = fields[2] == "data";
    // An operand of eight digits is a target: a number has at most seven.
    let target = fields.get(3).is_some_and(|operand| operand.trim_start_matches('-').len() == 8);
    match mistake {
        UpperCaseDigits => fields[..2].iter_mut().for_each(|field| field.make_ascii_uppercase()),
        UpperCaseTargets if target => fields[3].make_ascii_uppercase(),
        ShortNumbers => {
            [fields[0], fields[1]] = [address, word].map(|number| format!("{number:x}"))
        }
        ShortTargets if target => fields[3] = format!("{:x}", number(&fields[3])),
        WideTargets if target => {
            let wide = i64::from(address) + 4 + i64::from(immediate(word) as i32);
            fields[3] = format!("{wide:08x}");
        }
        LowerCaseNames => fields[2].make_ascii_lowercase(),
        UpperCaseData if is_data => fields[2] = "DATA".to_string(),
        DataOperand if is_data => fields.push((immediate(word) as i32).to_string()),
        PlusSign if fields.len() == 4 && !target && !fields[3].starts_with('-') => {
            fields[3].insert(0, '+');
        }
        HexOperands if fields.len() == 4 && !target => fields[3] = format!("{:06x}", word >> 8),
        TwoSpaces => fields[2].insert(0, ' '),
        TrailingSpace if fields.len() == 3 => fields[2].push(' '),
        _ => {}
    }
    fields.join(" ")
}

/// The line as a reader that takes more than the listing writes would see it.
pub fn seen(line: &[u8], mistake: Option<ListingMistake>) -> Vec<u8> {
    let Some(mistake) = mistake else { return line.to_vec() };
    let without_end = |end: &[u8]| line.strip_suffix(end).unwrap_or(line).to_vec();
    match mistake {
        AcceptsTrailingSpace => without_end(b" "),
        AcceptsNewline => without_end(b"\n"),
        AcceptsCarriageReturn => without_end(b"\r"),
        AcceptsZeroByte => without_end(b"\0"),
        AcceptsLeadingSpace => line.strip_prefix(b" ").unwrap_or(line).to_vec(),
        AcceptsTabs => replaced(line, b'\t', b' '),
        AcceptsNextDigit => replaced(line, b':', b'a'),
        AcceptsLongerLine => line[..line.len().min(31)].to_vec(),
        AcceptsTwoSpaces => {
            let fields = line.split(|byte| *byte == b' ').filter(|field| !field.is_empty());
            fields.collect::<Vec<_>>().join(&b' ')
        }
        AcceptsMoreFields => {
            line.split(|byte| *byte == b' ').take(4).collect::<Vec<_>>().join(&b' ')
        }
        _ => seen_by_fields(line, mistake),
    }
}

fn seen_by_fields(line: &[u8], mistake: ListingMistake) -> Vec<u8> {
    let changed = |nth: usize, change: &dyn Fn(&[u8]) -> Vec<u8>| {
        let mut fields: Vec<Vec<u8>> =
            line.split(|byte| *byte == b' ').map(<[u8]>::to_vec).collect();
        if let Some(field) = fields.get_mut(nth) {
            *field = change(field);
        }
        fields.join(&b' ')
    };
    match mistake {
        AcceptsUpperAddress => changed(0, &|field| field.to_ascii_lowercase()),
        AcceptsUpperWord => changed(1, &|field| field.to_ascii_lowercase()),
        AcceptsUpperTarget => changed(3, &|field| field.to_ascii_lowercase()),
        AcceptsLowerName => changed(2, &|field| match field {
            b"data" => field.to_vec(),
            _ => field.to_ascii_uppercase(),
        }),
        AcceptsUpperData => changed(2, &|field| match field {
            b"DATA" => b"data".to_vec(),
            _ => field.to_vec(),
        }),
        AcceptsShortAddress => changed(0, &filled),
        AcceptsShortWord => changed(1, &filled),
        AcceptsShortTarget if has_target(line) => changed(3, &filled),
        AcceptsLongAddress => changed(0, &cut),
        AcceptsLongWord => changed(1, &cut),
        AcceptsPlus => changed(3, &|field| field.strip_prefix(b"+").unwrap_or(field).to_vec()),
        AcceptsMinusZero => changed(3, &|field| match field {
            b"-0" => b"0".to_vec(),
            _ => field.to_vec(),
        }),
        AcceptsLeadingZeros => changed(3, &without_zeros),
        _ => line.to_vec(),
    }
}

fn replaced(line: &[u8], byte: u8, other: u8) -> Vec<u8> {
    line.iter().map(|found| if *found == byte { other } else { *found }).collect()
}

/// Zeros in front, up to eight digits.
fn filled(field: &[u8]) -> Vec<u8> {
    let missing = 8usize.saturating_sub(field.len());
    [&vec![b'0'; missing], field].concat()
}

/// Without the zeros in front of eight digits.
fn cut(field: &[u8]) -> Vec<u8> {
    let spare = field.len().saturating_sub(8);
    let zeros = field[..spare].iter().all(|byte| *byte == b'0');
    field[if zeros { spare } else { 0 }..].to_vec()
}

/// A number without leading zeros; a target of eight digits stays.
fn without_zeros(field: &[u8]) -> Vec<u8> {
    let (sign, digits) = match field {
        [b'-', digits @ ..] => (&b"-"[..], digits),
        digits => (&b""[..], digits),
    };
    let zeros = digits.iter().take_while(|byte| **byte == b'0').count();
    let kept = if digits.len() == 8 { 0 } else { zeros.min(digits.len().saturating_sub(1)) };
    [sign, &digits[kept..]].concat()
}

/// Whether an operand of the line would be a target. BIN and BOUT have none.
fn has_target(line: &[u8]) -> bool {
    let name = line.split(|byte| *byte == b' ').nth(2).unwrap_or(b"");
    matches!(name, b"JMP" | b"JSR") || name.starts_with(b"B")
}

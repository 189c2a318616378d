//! The one spelling of a sheet by its text alone: signs and zeros are struck from the numbers as they stand there.

use crate::sheets::reader::read;

/// The digits without leading zeros, but at least one, and a minus sign only before those of a number that is not 0.
fn plain(field: &[u8]) -> Vec<u8> {
    let signs = usize::from(matches!(field[0], b'+' | b'-'));
    let (sign, digits) = field.split_at(signs);
    let zeros = digits.iter().take_while(|&&digit| digit == b'0').count();
    match &digits[zeros..] {
        [] => b"0".to_vec(),
        size if sign == b"-" => [b"-", size].concat(),
        size => size.to_vec(),
    }
}

/// A line without its line feed.
fn plain_line(line: &[u8]) -> Vec<u8> {
    let key = line.iter().take_while(|&&byte| byte != b'=').count() + 1;
    let fields = line[key..].split(|&byte| byte == b',').map(plain);
    let fields: Vec<Vec<u8>> = fields.collect();
    [&line[..key], &fields.join(&b","[..]), b"\n"].concat()
}

/// The one spelling of a text, or the number of its error.
pub fn normalised(text: &[u8]) -> Result<Vec<u8>, u64> {
    read(text)?;
    let lines = text
        .strip_suffix(b"\n")
        .expect("a sheet ends in a line feed");
    Ok(lines
        .split(|&byte| byte == b'\n')
        .flat_map(plain_line)
        .collect())
}

/// What the program spell prints of a text.
pub fn printed(text: &[u8]) -> Vec<u8> {
    normalised(text).unwrap_or_else(|number| format!("error={number}\n").into_bytes())
}

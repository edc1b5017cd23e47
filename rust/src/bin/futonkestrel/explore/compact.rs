//! Rows of numbers as few bytes. Of two different rows of one length neither's
//! bytes begin with the other's, so a row can be looked for by its bytes.

/// Begins a row of zeros; its length stands behind it.
const ZEROS: u8 = 0;
/// More of a number follows.
const MORE: u8 = 0x80;

/// Adds numbers: those near 0 take a byte, a row of zeros takes two.
pub fn put(bytes: &mut Vec<u8>, numbers: impl Iterator<Item = i32>) {
    let mut zeros = 0;
    for number in numbers {
        if number == 0 && zeros < u8::MAX {
            zeros += 1;
            continue;
        }
        put_zeros(bytes, zeros);
        zeros = u8::from(number == 0);
        if number != 0 {
            put_number(bytes, number);
        }
    }
    put_zeros(bytes, zeros);
}

fn put_zeros(bytes: &mut Vec<u8>, zeros: u8) {
    if zeros > 0 {
        bytes.extend([ZEROS, zeros]);
    }
}

/// Seven bits a byte, the lowest first; the sign is the lowest of all.
fn put_number(bytes: &mut Vec<u8>, number: i32) {
    let mut left = ((number << 1) ^ (number >> 31)) as u32;
    while left >= u32::from(MORE) {
        bytes.push(left as u8 | MORE);
        left >>= 7;
    }
    bytes.push(left as u8);
}

/// Takes as many numbers as there are places, and gives the bytes behind them.
pub fn take<'a>(
    bytes: &'a [u8],
    places: impl Iterator<Item = usize>,
    numbers: &mut [i32],
) -> &'a [u8] {
    let mut rest = bytes;
    let mut zeros = 0;
    for place in places {
        if zeros == 0 && rest[0] == ZEROS {
            zeros = rest[1];
            rest = &rest[2..];
        }
        if zeros > 0 {
            zeros -= 1;
            numbers[place] = 0;
        } else {
            (numbers[place], rest) = take_number(rest);
        }
    }
    rest
}

fn take_number(bytes: &[u8]) -> (i32, &[u8]) {
    let length = 1 + bytes.iter().take_while(|byte| **byte >= MORE).count();
    let (number, rest) = bytes.split_at(length);
    let bits = |sum: u32, byte: &u8| sum << 7 | u32::from(byte & !MORE);
    let read = number.iter().rev().fold(0, bits);
    ((read >> 1) as i32 ^ -((read & 1) as i32), rest)
}

#[cfg(test)]
mod tests {
    use super::{put, take};

    fn packed(numbers: &[i32]) -> Vec<u8> {
        let mut bytes = Vec::new();
        put(&mut bytes, numbers.iter().copied());
        bytes
    }

    #[test]
    fn there_and_back() {
        let edges = [0, 1, -1, 63, 64, -64, -65, 255, 8_191, 8_192, 1_000_000_000];
        let mut rows: Vec<Vec<i32>> = edges
            .iter()
            .map(|edge| vec![*edge, i32::MAX, 0, i32::MIN])
            .collect();
        rows.extend([254, 255, 256, 600].map(|zeros| [vec![7], vec![0; zeros], vec![-3]].concat()));
        rows.extend([1, 255, 256, 511].map(|zeros| vec![0; zeros]));
        for row in rows {
            let bytes = [packed(&row), vec![9, 9]].concat();
            let mut back = vec![5; row.len()];
            assert_eq!(take(&bytes, 0..row.len(), &mut back), [9, 9]);
            assert_eq!(back, row);
        }
    }

    #[test]
    fn small_numbers_are_short() {
        assert_eq!(packed(&[1, 63, -64, 0, 0, 0, 64]).len(), 7);
    }
}

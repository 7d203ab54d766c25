//! Sets of numbers below 64 as words.

use second::layout::PLACES;

/// The numbers below `end`, which is at most 64.
pub fn bits_below(end: usize) -> u64 {
    match end {
        0 => 0,
        _ => u64::MAX >> (PLACES - end),
    }
}

/// The words with rows and columns exchanged: bit j of word i becomes bit i of
/// word j. Squares of half the size are exchanged, then those of a quarter, and
/// so on.
pub fn transposed(mut words: [u64; PLACES]) -> [u64; PLACES] {
    let mut size = PLACES / 2;
    let mut low = bits_below(size);
    while size > 0 {
        for rows in words.chunks_exact_mut(2 * size) {
            let (upper, lower) = rows.split_at_mut(size);
            for (a, b) in upper.iter_mut().zip(lower) {
                let exchanged = (*a >> size ^ *b) & low;
                *a ^= exchanged << size;
                *b ^= exchanged;
            }
        }
        size /= 2;
        low ^= low << size;
    }
    words
}

/// The same for eight words of eight bytes: byte j of word i becomes byte i of
/// word j.
pub fn transposed_bytes(mut words: [u64; 8]) -> [u64; 8] {
    exchange::<4>(&mut words, 0x0000_0000_FFFF_FFFF);
    exchange::<2>(&mut words, 0x0000_FFFF_0000_FFFF);
    exchange::<1>(&mut words, 0x00FF_00FF_00FF_00FF);
    words
}

/// Exchanges squares of SIZE by SIZE bytes, those whose bytes are low in their word
/// with the ones across.
fn exchange<const SIZE: usize>(words: &mut [u64; 8], low: u64) {
    for rows in words.chunks_exact_mut(2 * SIZE) {
        for i in 0..SIZE {
            let exchanged = (rows[i] >> (8 * SIZE) ^ rows[i + SIZE]) & low;
            rows[i] ^= exchanged << (8 * SIZE);
            rows[i + SIZE] ^= exchanged;
        }
    }
}

/// The places of the bytes that are not 0.
pub fn non_zero(bytes: &[u8; PLACES]) -> u64 {
    let ones = bytes.map(|byte| u8::from(byte != 0));
    let mut sets = [0; 8];
    for (set, ones) in sets.iter_mut().zip(ones.as_chunks().0) {
        // Takes the lowest bit of byte k to bit 56 + k.
        let gathered = u64::from_le_bytes(*ones).wrapping_mul(0x0102_0408_1020_4080);
        *set = (gathered >> 56) as u8;
    }
    u64::from_le_bytes(sets)
}

/// The word of `width` bits with bit `start` taken to bit 0, and the bits below
/// it to the end. `start` is below `width`, and `width` below 64.
pub fn read_from(word: u64, start: usize, width: usize) -> u64 {
    word >> start | (word & bits_below(start)) << (width - start)
}

/// Takes bit `from` to `to`, and those between one step the other way.
pub fn move_bit(word: u64, from: usize, to: usize) -> u64 {
    let between = bits_below(from.max(to) + 1) & !bits_below(from.min(to));
    let shifted = if from < to { word >> 1 } else { word << 1 };
    let moved = (word >> from & 1) << to;
    word & !between | shifted & between & !(1 << to) | moved
}

/// Writes the numbers in a set in rising sequence, each raised by `start`, and
/// gives how many they are. Up to eight places behind them are written to.
pub fn write_sorted(set: u64, start: u8, list: &mut [u8]) -> usize {
    let mut end = 0;
    let mut raised = u64::from(start) * EACH_BYTE;
    for byte in set.to_le_bytes() {
        let numbers = u64::from_le_bytes(SORTED[usize::from(byte)]) + raised;
        list[end..end + 8].copy_from_slice(&numbers.to_le_bytes());
        end += usize::from(ONES[usize::from(byte)]);
        raised += 8 * EACH_BYTE;
    }
    end
}

/// A word of eight bytes that are 1.
const EACH_BYTE: u64 = 0x0101_0101_0101_0101;

/// The numbers of the bits set in each byte, sorted, with 0 behind them.
static SORTED: [[u8; 8]; 256] = sorted_bits();

/// How many bits are set in each byte.
static ONES: [u8; 256] = ones();

const fn sorted_bits() -> [[u8; 8]; 256] {
    let mut table = [[0; 8]; 256];
    let mut byte = 0;
    while byte < 256 {
        let mut bits: usize = byte;
        let mut end = 0;
        while bits != 0 {
            table[byte][end] = bits.trailing_zeros() as u8;
            bits &= bits - 1;
            end += 1;
        }
        byte += 1;
    }
    table
}

const fn ones() -> [u8; 256] {
    let mut table = [0; 256];
    let mut byte = 0;
    while byte < 256 {
        table[byte] = byte.count_ones() as u8;
        byte += 1;
    }
    table
}

#[cfg(test)]
mod tests {
    use super::*;

    /// Words without a pattern.
    fn some_words() -> [u64; PLACES] {
        std::array::from_fn(|i| (i as u64 + 1).wrapping_mul(0x9E37_79B9_7F4A_7C15))
    }

    fn bit(word: u64, i: usize) -> bool {
        word >> i & 1 == 1
    }

    #[test]
    fn rows_and_columns_are_exchanged() {
        let words = some_words();
        for (j, column) in transposed(words).into_iter().enumerate() {
            for (i, row) in words.into_iter().enumerate() {
                assert_eq!(bit(row, j), bit(column, i), "{i} {j}");
            }
        }
    }

    #[test]
    fn rows_and_columns_of_bytes_are_exchanged() {
        let words: [u64; 8] = std::array::from_fn(|i| some_words()[i]);
        for (j, column) in transposed_bytes(words).into_iter().enumerate() {
            let bytes: Vec<u8> = words.iter().map(|word| word.to_le_bytes()[j]).collect();
            assert_eq!(column.to_le_bytes(), *bytes, "{j}");
        }
    }

    #[test]
    fn bytes_that_are_not_0() {
        for set in [0, 1, 1 << 63, u64::MAX, some_words()[3]] {
            let byte = |i| if bit(set, i) { 1 + i as u8 * 4 } else { 0 };
            assert_eq!(non_zero(&std::array::from_fn(byte)), set);
        }
    }

    #[test]
    fn a_word_is_read_from_a_bit_on() {
        for width in 1..PLACES {
            let word = some_words()[width] & bits_below(width);
            for start in 0..width {
                let read = read_from(word, start, width);
                let expected = (0..width).filter(|i| bit(word, (start + i) % width));
                let expected = expected.fold(0, |read, i| read | 1_u64 << i);
                assert_eq!(read, expected, "{width} {start}");
            }
        }
    }

    #[test]
    fn a_bit_is_moved() {
        let word = some_words()[5];
        for from in 0..PLACES {
            for to in 0..PLACES {
                let mut bits: Vec<bool> = (0..PLACES).map(|i| bit(word, i)).collect();
                let moved = bits.remove(from);
                bits.insert(to, moved);
                let result = move_bit(word, from, to);
                let result: Vec<bool> = (0..PLACES).map(|i| bit(result, i)).collect();
                assert_eq!(result, bits, "{from} {to}");
            }
        }
    }

    #[test]
    fn a_set_is_written_sorted() {
        for set in [0, 1, 1 << 63, u64::MAX, some_words()[7]] {
            let mut list = [0; 72];
            let length = write_sorted(set, 60, &mut list);
            let expected = (0..64).filter(|&i| bit(set, i)).map(|i| i as u8 + 60);
            let expected: Vec<u8> = expected.collect();
            assert_eq!(list[..length], expected);
        }
    }
}

//! What the three records have in common: a head of three bytes, and lists of pairs of positions; and the lists
//! of an edition-two plan.
//!
//! "Fields are packed most significant bit first. A position is 6 bits. A move is 12 bits: the
//! position left, then the position entered. A pad is zero bits up to the next byte."
//!
//! A pair of positions is kept as one number of 12 bits, as it stands in the record: an edge (lower,
//! higher), a move (left, entered), or two racks' positions. Pairs so kept compare as their first
//! positions do, and by the second where those are equal.
//!
//! In edition two of the plan "each move has 6 more bits at its end, rack number minus 1". Such a triple is kept
//! as one number of 18 bits: a pair, and the 6 bits behind it.

/// The first three bytes as one number of 24 bits, its last two the spare ones; none if the record is
/// under 3 bytes.
pub fn head(record: &[u8]) -> Option<u32> {
    let first = record.get(..3)?;
    Some(u32::from_be_bytes([0, first[0], first[1], first[2]]))
}

/// "two spare zero bits": whether one of them is set.
pub fn spare_is_set(head: u32) -> bool {
    head & 0b11 != 0
}

/// How many bytes a packed list takes, its pad included: 12 bits for each pair, rounded up to bytes.
pub fn packed_length(pairs: usize) -> usize {
    (12 * pairs).div_ceil(8)
}

/// Whether a bit of the list's pad is set. An even number of pairs has no pad, an odd one 4 bits.
pub fn pad_is_set(packed: &[u8], pairs: usize) -> bool {
    pairs % 2 == 1 && packed[packed_length(pairs) - 1] & 0x0F != 0
}

/// The pair at this place of a packed list, counted from 0.
#[inline]
pub fn pair(packed: &[u8], index: usize) -> u16 {
    let at = index / 2 * 3 + index % 2;
    let bytes = u16::from_be_bytes([packed[at], packed[at + 1]]);
    match index % 2 {
        0 => bytes >> 4,
        _ => bytes & 0x0FFF,
    }
}

/// The two positions of a pair.
#[inline]
pub fn positions(pair: u16) -> (usize, usize) {
    (usize::from(pair >> 6 & 63), usize::from(pair & 63))
}

/// How many bytes a packed list of triples takes, its pad included: 18 bits for each, rounded up to bytes.
pub fn triples_length(triples: usize) -> usize {
    (18 * triples).div_ceil(8)
}

/// Whether a bit of the pad behind a list of triples is set. The pad has 0, 6, 4 or 2 bits, in turn.
pub fn triples_pad_is_set(packed: &[u8], triples: usize) -> bool {
    let pad = 8 * triples_length(triples) - 18 * triples;
    pad > 0 && packed[triples_length(triples) - 1] & ((1 << pad) - 1) != 0
}

/// Where the triple of this place begins: a byte, and 0, 2, 4 or 6 of its bits are before it. It ends in the
/// second byte behind that one, with 6 bits or fewer to spare.
#[inline]
fn triple_begin(index: usize) -> (usize, usize) {
    (index * 9 / 4, index % 4 * 2)
}

/// The triple at this place of a packed list, counted from 0.
#[inline]
pub fn triple(packed: &[u8], index: usize) -> u32 {
    let (at, before) = triple_begin(index);
    let bytes = &packed[at..at + 3];
    u32::from_be_bytes([0, bytes[0], bytes[1], bytes[2]]) >> (6 - before) & 0x3_FFFF
}

/// Writes a packed list of triples, its pad included, over the first bytes of `out`: how many there were.
pub fn pack_triples(triples: impl IntoIterator<Item = u32>, out: &mut [u8]) -> usize {
    let mut count = 0;
    let mut begun = 0; // the byte in which the next one begins, so far
    for triple in triples {
        let (at, before) = triple_begin(count);
        let [_, first, second, third] = (triple << (6 - before)).to_be_bytes();
        out[at..at + 3].copy_from_slice(&[begun | first, second, third]);
        begun = if before == 6 { 0 } else { third };
        count += 1;
    }
    count
}

/// Writes a packed list, its pad included, over the first bytes of `out`: how many pairs there were.
pub fn pack(pairs: impl IntoIterator<Item = u16>, out: &mut [u8]) -> usize {
    let mut count = 0;
    let mut begun = 0; // the byte in which the next one begins, so far
    for pair in pairs {
        let (at, is_even) = (count / 2 * 3 + count % 2, count % 2 == 0);
        let [first, second] = if is_even { pair << 4 } else { pair }.to_be_bytes();
        out[at..at + 2].copy_from_slice(&[begun | first, second]);
        begun = if is_even { second } else { 0 };
        count += 1;
    }
    count
}

#[cfg(test)]
mod tests {
    use super::*;

    #[test]
    fn pairs_are_read_as_packed() {
        let pairs = [0xABC, 0x123, 0xFFF, 0x000, 0x801];
        let mut bytes = [0x55; 9];
        assert_eq!(pack(pairs, &mut bytes), 5);
        assert_eq!(bytes, [0xAB, 0xC1, 0x23, 0xFF, 0xF0, 0x00, 0x80, 0x10, 0x55]);
        for (index, &expected) in pairs.iter().enumerate() {
            assert_eq!(pair(&bytes, index), expected);
        }
    }

    #[test]
    fn lengths_are_rounded_up_to_bytes() {
        let lengths: Vec<usize> = (0..6).map(packed_length).collect();
        assert_eq!(lengths, [0, 2, 3, 5, 6, 8]);
    }

    #[test]
    fn only_an_odd_list_has_a_pad() {
        assert!(!pad_is_set(&[], 0));
        assert!(!pad_is_set(&[0xFF, 0xF0], 1));
        assert!(pad_is_set(&[0xFF, 0xF1], 1));
        assert!(!pad_is_set(&[0xFF, 0xFF, 0xFF], 2));
    }

    #[test]
    fn triples_are_read_as_packed() {
        // 10 1010 1111 0000 1111, 00 0000 0000 0000 0001, 11 1111 1111 1111 1111, 10 0000 0000 0000 0000, and the
        // first again with 6 bits of pad
        let triples = [0x2_AF0F, 0x0_0001, 0x3_FFFF, 0x2_0000, 0x2_AF0F];
        let packed = [0xAB, 0xC3, 0xC0, 0x00, 0x1F, 0xFF, 0xFE, 0x00, 0x00, 0xAB, 0xC3, 0xC0, 0x55];
        let mut bytes = [0x55; 13];
        assert_eq!(pack_triples(triples, &mut bytes), 5);
        assert_eq!(bytes, packed);
        for (index, &expected) in triples.iter().enumerate() {
            assert_eq!(triple(&packed, index), expected);
        }
    }

    #[test]
    fn a_list_of_triples_has_a_pad_of_6_4_2_or_no_bits() {
        let lengths: Vec<usize> = (0..6).map(triples_length).collect();
        assert_eq!(lengths, [0, 3, 5, 7, 9, 12]);
        for (triples, pad) in [(1, 6), (2, 4), (3, 2), (4, 0), (5, 6)] {
            for bit in 0..8 {
                let mut bytes = vec![0; triples_length(triples)];
                bytes[triples_length(triples) - 1] = 1 << bit;
                assert_eq!(triples_pad_is_set(&bytes, triples), bit < pad, "bit {bit} with {triples}");
            }
        }
        assert!(!triples_pad_is_set(&[], 0));
    }
}

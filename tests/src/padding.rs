//! Other length prefixes in the place of those of a stream: padded ones, which
//! say the same, and bad ones.

use crate::generate::Random;
use crate::reader::{prefixes, Prefix};

/// The most bytes of a prefix.
pub const MOST_BYTES: usize = 5;

/// A fifth byte is at most 7.
const BAD_FIFTHS: [u8; 6] = [8, 9, 0x7F, 0x80, 0x87, 0xFF];

/// The number in so many bytes, of which all but the last ask for another.
/// Nothing where they are too few.
pub fn in_bytes(number: usize, bytes: usize) -> Option<Vec<u8>> {
    let groups: Vec<u8> = (0..bytes).map(|group| (number >> (7 * group)) as u8 & 0x7F).collect();
    let (last, others) = groups.split_last()?;
    let more = others.iter().map(|group| group | 0x80);
    (number >> (7 * bytes) == 0).then(|| more.chain([*last]).collect())
}

/// The number of the prefix at a place and how many bytes it has, padded or not.
pub fn at(stream: &[u8], place: usize) -> Option<(usize, usize)> {
    let there = stream.get(place..)?.iter().take(MOST_BYTES);
    let last = there.clone().position(|&byte| byte < 0x80)?;
    let groups = there.take(last + 1).enumerate();
    let number = groups.map(|(group, &byte)| usize::from(byte & 0x7F) << (7 * group)).sum();
    Some((number, last + 1))
}

/// The stream, which is read with this book, with a share of its prefixes, or
/// all, in any number of bytes that they fit in.
pub fn padded(stream: &[u8], book: &[u8], random: &mut Random) -> Vec<u8> {
    let share = random.pick(&[100, 100, 50, 15]);
    rewritten(stream, &prefixes(stream, book), |prefix| match random.chance(share) {
        true => any_form(prefix.number, random),
        false => stream[prefix.place.clone()].to_vec(),
    })
}

/// The stream with every prefix in so many bytes, or in the fewest more that it
/// fits in.
pub fn padded_to(stream: &[u8], book: &[u8], bytes: usize) -> Vec<u8> {
    rewritten(stream, &prefixes(stream, book), |prefix| {
        let form = (bytes..=MOST_BYTES).find_map(|bytes| in_bytes(prefix.number, bytes));
        form.unwrap_or_else(|| stream[prefix.place.clone()].to_vec())
    })
}

/// A padded stream that ends badly: one prefix with a bad fifth byte, or the
/// stream cut inside the padding of one. As it is where it has no prefix.
pub fn badly_padded(stream: &[u8], book: &[u8], random: &mut Random) -> Vec<u8> {
    let stream = padded(stream, book, random);
    let all = prefixes(&stream, book);
    if all.is_empty() {
        return stream;
    }
    let one = random.pick(&all);
    let bad = match random.chance(50) {
        true => bad_fifth(one.number, random),
        false => {
            let whole = any_form(one.number, random);
            let kept = random.below(whole.len() + 1);
            return [&stream[..one.place.start], &whole[..kept]].concat();
        }
    };
    [&stream[..one.place.start], &bad, &stream[one.place.end..]].concat()
}

fn any_form(number: usize, random: &mut Random) -> Vec<u8> {
    let forms: Vec<Vec<u8>> =
        (1..=MOST_BYTES).filter_map(|bytes| in_bytes(number, bytes)).collect();
    random.pick(&forms)
}

/// The lower 28 bits of the number, and a fifth byte that no prefix has.
fn bad_fifth(number: usize, random: &mut Random) -> Vec<u8> {
    let mut bytes: Vec<u8> = (0..4).map(|group| (number >> (7 * group)) as u8 | 0x80).collect();
    bytes.push(random.pick(&BAD_FIFTHS));
    bytes
}

fn rewritten(
    stream: &[u8],
    prefixes: &[Prefix],
    mut form: impl FnMut(&Prefix) -> Vec<u8>,
) -> Vec<u8> {
    let (mut written, mut from) = (Vec::new(), 0);
    for prefix in prefixes {
        written.extend_from_slice(&stream[from..prefix.place.start]);
        written.extend(form(prefix));
        from = prefix.place.end;
    }
    written.extend_from_slice(&stream[from..]);
    written
}

//! Damage to bytes.

use crate::Chance;

/// The bytes after one small change, seldom more: a byte changed, put in, taken out, a part repeated, or the end cut off.
pub fn damaged(chance: &mut Chance, bytes: &[u8]) -> Vec<u8> {
    let mut bytes = bytes.to_vec();
    for _ in 0..*chance.pick(&[1, 1, 1, 2, 3]) {
        if bytes.is_empty() {
            bytes.push(chance.number() as u8);
            continue;
        }
        let at = chance.below(bytes.len());
        match chance.below(6) {
            0 => bytes[at] = chance.number() as u8,
            1 => bytes[at] = bytes[at].wrapping_add(if chance.once_in(2) { 1 } else { 255 }),
            2 => bytes.insert(at, *chance.pick(&[0, 1, 2, 3, 64, 65, 255])),
            3 => drop(bytes.remove(at)),
            4 => bytes.truncate(at),
            _ => {
                let part = bytes[at..(at + 20).min(bytes.len())].to_vec();
                bytes.extend(part);
            }
        }
    }
    bytes
}

/// Every way to cut the bytes off, from none kept to one taken.
pub fn truncations(bytes: &[u8]) -> impl Iterator<Item = &[u8]> {
    (0..bytes.len()).map(|n| &bytes[..n])
}

/// Every byte changed by itself, to one more, one less, to the values at the limits, and to the values of its neighbours.
pub fn changes(bytes: &[u8]) -> impl Iterator<Item = Vec<u8>> + '_ {
    (0..bytes.len()).flat_map(move |at| {
        let old = bytes[at];
        let before = if at > 0 { bytes[at - 1] } else { 7 };
        let behind = bytes.get(at + 1).copied().unwrap_or(9);
        let mut values = vec![old.wrapping_add(1), old.wrapping_sub(1), 0, 1, 2, 3, 4, 63, 64, 65, 128, 254, 255, before, behind];
        values.sort_unstable();
        values.dedup();
        values.retain(|&value| value != old);
        values.into_iter().map(move |value| {
            let mut changed = bytes.to_vec();
            changed[at] = value;
            changed
        })
    })
}

//! Document 01, "Numbers the steps stand on": Fibonacci numbers, Zeckendorf forms both ways,
//! Hofstadter's G, and h.

use crate::refusal;

/// The largest index whose Fibonacci number fits 64 bits.
const LAST_INDEX: usize = 93;
/// The largest place of a form; place i weighs F_(i+1).
const LAST_PLACE: usize = 92;
/// No form of a 64-bit number has more places set.
const MOST_PLACES: usize = 46;
/// Every 32-bit r is below φ^47.
const LAST_HEIGHT: usize = 47;

/// F_0 to F_93.
pub(crate) const FIBONACCI: [u64; LAST_INDEX + 1] = fibonacci_table();
/// ⌊φ^h⌋ at h − 1: L_h for odd h, L_h − 1 for even h.
const PHI_POWERS: [u64; LAST_HEIGHT] = phi_powers();
/// The highest place that a number of so many bits can have.
const PLACE_BY_BITS: [u8; 65] = place_by_bits();
/// ⌊2^64 / φ⌋. F_94 exceeds 2^64, and no fraction with a denominator below F_94 lies between
/// F_93 / F_94 and 1 / φ, so the quotient of Fibonacci numbers has the same floor.
const INVERSE_PHI: u64 = {
    let (lower, upper) = fibonacci_pair(LAST_INDEX as u32);
    ((lower << 64) / upper) as u64
};

/// The Fibonacci number of an index; refusal 13 above 93.
pub fn fibonacci(index: u32) -> Result<u64, u32> {
    FIBONACCI.get(index as usize).copied().ok_or(refusal::INDEX)
}

/// Number to list: the places of the Zeckendorf form of n, highest first; refusal 5 where there are
/// more than `room`.
pub fn places(n: u64, room: usize) -> Result<Vec<u8>, u32> {
    let mut list = [0; MOST_PLACES];
    let count = write_places(n, &mut list[..room.min(MOST_PLACES)])?;
    Ok(list[..count].to_vec())
}

/// As `places`, into a lent list: answers the count of places and leaves the bytes past it.
pub fn write_places(n: u64, list: &mut [u8]) -> Result<usize, u32> {
    let mut found = [0; MOST_PLACES];
    let mut count = 0;
    let mut rest = n;
    while rest > 0 {
        let place = highest_place(rest);
        rest -= FIBONACCI[place + 1];
        found[count] = place as u8;
        count += 1;
    }
    let lent = list.get_mut(..count).ok_or(refusal::TAPE)?;
    lent.copy_from_slice(&found[..count]);
    Ok(count)
}

/// List to number: refusal 13 for a list that isn't a Zeckendorf form of places 1 to 92, then 12 for
/// a sum above 64 bits.
pub fn number(places: &[u8]) -> Result<u64, u32> {
    let mut above = LAST_PLACE + 2;
    for &place in places {
        let place = place as usize;
        if place < 1 || place + 2 > above {
            return Err(refusal::INDEX);
        }
        above = place;
    }
    let weights = places.iter().map(|&place| FIBONACCI[place as usize + 1]);
    let mut sum = 0u64;
    for weight in weights {
        sum = sum.checked_add(weight).ok_or(refusal::RANGE)?;
    }
    Ok(sum)
}

/// Hofstadter's G, as the paper's equation (1): ⌊(n + 1) / φ⌋.
pub fn hofstadter(n: u64) -> u64 {
    let m = n as u128 + 1;
    // m is at most 2^64, so the fixed-point product is less than 1 below m / φ.
    let low = (m * INVERSE_PHI as u128) >> 64;
    // u ≤ m / φ exactly where u² ≤ m (m − u).
    let high = low + 1;
    let reached = high * high <= m * (m - high);
    low as u64 + reached as u64
}

/// h: the least positive number with r < φ^h.
pub fn height(r: u32) -> u32 {
    PHI_POWERS.partition_point(|&power| power < r as u64) as u32 + 1
}

/// A Zeckendorf form as a bit string, place i at bit i − 1.
#[derive(Clone, Copy)]
pub(crate) struct Form(u128);

impl Form {
    pub(crate) fn of(n: u64) -> Form {
        let mut bits = 0;
        let mut rest = n;
        while rest > 0 {
            let place = highest_place(rest);
            rest -= FIBONACCI[place + 1];
            bits |= 1 << (place - 1);
        }
        Form(bits)
    }

    /// The highest place set, 0 for the empty form.
    pub(crate) fn length(self) -> u32 {
        u128::BITS - self.0.leading_zeros()
    }

    /// How many places are set.
    pub(crate) fn count(self) -> u32 {
        self.0.count_ones()
    }

    /// Whether a place from 1 on is set; padding is clear.
    pub(crate) fn has(self, place: u32) -> bool {
        self.0 >> (place - 1) & 1 == 1
    }
}

/// The highest place of the form of a positive number.
fn highest_place(n: u64) -> usize {
    let bits = u64::BITS - n.leading_zeros();
    let mut place = PLACE_BY_BITS[bits as usize] as usize;
    while FIBONACCI[place + 1] > n {
        place -= 1;
    }
    place
}

/// F_index and F_(index+1) by fast doubling, the bits of the index from the highest down.
const fn fibonacci_pair(index: u32) -> (u128, u128) {
    let (mut this, mut next) = (0u128, 1u128);
    let mut bit = u32::BITS - index.leading_zeros();
    while bit > 0 {
        bit -= 1;
        let even = this * (2 * next - this);
        let odd = this * this + next * next;
        (this, next) = if index >> bit & 1 == 0 {
            (even, odd)
        } else {
            (odd, even + odd)
        };
    }
    (this, next)
}

const fn fibonacci_table() -> [u64; LAST_INDEX + 1] {
    let mut table = [0; LAST_INDEX + 1];
    let mut index = 0;
    while index <= LAST_INDEX {
        table[index] = fibonacci_pair(index as u32).0 as u64;
        index += 1;
    }
    table
}

const fn phi_powers() -> [u64; LAST_HEIGHT] {
    let mut table = [0; LAST_HEIGHT];
    let mut h = 1;
    while h <= LAST_HEIGHT {
        // L_h = F_(h−1) + F_(h+1)
        let lucas = FIBONACCI[h - 1] + FIBONACCI[h + 1];
        table[h - 1] = if h % 2 == 1 { lucas } else { lucas - 1 };
        h += 1;
    }
    table
}

const fn place_by_bits() -> [u8; 65] {
    let mut table = [1; 65];
    let mut bits = 1;
    while bits <= 64 {
        let most = u64::MAX >> (64 - bits);
        let mut place = 1;
        while place < LAST_PLACE && FIBONACCI[place + 2] <= most {
            place += 1;
        }
        table[bits] = place as u8;
        bits += 1;
    }
    table
}

#[cfg(test)]
mod tests {
    use super::*;

    #[test]
    fn constants_agree_with_addition() {
        assert_eq!(FIBONACCI[..2], [0, 1]);
        for i in 2..=LAST_INDEX {
            assert_eq!(
                FIBONACCI[i - 1].checked_add(FIBONACCI[i - 2]),
                Some(FIBONACCI[i])
            );
        }
        assert_eq!(FIBONACCI[92].checked_add(FIBONACCI[93]), None);
        // u = ⌊2^64 / φ⌋: u² ≤ m (m − u) with m = 2^64, and not for u + 1.
        let (u, m) = (INVERSE_PHI as u128, 1u128 << 64);
        assert!(u * u <= m * (m - u) && (u + 1) * (u + 1) > m * (m - u - 1));
        assert!(PHI_POWERS[LAST_HEIGHT - 1] > u32::MAX as u64);
        assert!(PHI_POWERS[LAST_HEIGHT - 2] < u32::MAX as u64);
    }

    #[test]
    fn forms_agree_with_lists() {
        for n in (0..2000).chain([
            u64::MAX,
            u64::MAX - 1,
            1 << 63,
            FIBONACCI[93],
            FIBONACCI[93] - 1,
        ]) {
            let form = Form::of(n);
            let list: Vec<u8> = (1..=form.length())
                .rev()
                .filter(|&i| form.has(i))
                .map(|i| i as u8)
                .collect();
            assert_eq!(list.len() as u32, form.count());
            assert_eq!(places(n, 46), Ok(list));
        }
    }
}

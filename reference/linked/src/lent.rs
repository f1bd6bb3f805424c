//! What is lent to a call: outputs and rows between canaries.

use reference::drawing::noise::Noise;

/// Elements before and after a lent row.
const MARGIN: usize = 8;

/// A lent output between two canaries.
#[derive(Clone, Copy, PartialEq, Debug)]
#[repr(C)]
pub struct Lent<T> {
    before: T,
    pub value: T,
    after: T,
}

impl<T: Copy> Lent<T> {
    pub fn new(noise: &mut Noise, draw: impl Fn(&mut Noise) -> T) -> Lent<T> {
        Lent {
            before: draw(noise),
            value: draw(noise),
            after: draw(noise),
        }
    }

    /// The number of an answer, and what the output then holds.
    pub fn settled(self, answer: Result<T, u32>) -> (u32, Lent<T>) {
        match answer {
            Ok(value) => (0, Lent { value, ..self }),
            Err(number) => (number, self),
        }
    }
}

/// What stands in lent rows before a call.
pub struct Canaries(Vec<u32>);

impl Canaries {
    /// Enough for rows of so many elements.
    pub fn drawn(noise: &mut Noise, longest: usize) -> Canaries {
        Canaries((0..2 * longest).map(|_| noise.word()).collect())
    }

    /// A row of words with room for so many between its margins.
    pub fn row(&self, noise: &mut Noise, room: usize) -> Vec<u32> {
        self.part(noise, room).to_vec()
    }

    pub fn byte_row(&self, noise: &mut Noise, room: usize) -> Vec<u8> {
        let words = self.part(noise, room).iter();
        words.map(|&word| word as u8).collect()
    }

    fn part(&self, noise: &mut Noise, room: usize) -> &[u32] {
        let length = room + 2 * MARGIN;
        let start = noise.index(self.0.len() - length);
        &self.0[start..start + length]
    }
}

/// The part of a row that is lent.
pub fn inner<T>(row: &mut [T], room: usize) -> &mut [T] {
    &mut row[MARGIN..MARGIN + room]
}

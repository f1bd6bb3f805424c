//! The register record of document 02: the registers, and the position at which they stand.

#[derive(Clone, Copy, Debug, PartialEq, Eq)]
pub struct Record {
    pub registers: [u32; 4],
    pub position: u32,
}

impl Record {
    pub fn at(position: u32, registers: [u32; 4]) -> Record {
        Record {
            registers,
            position,
        }
    }

    /// The record that five numbers give, and `numbers` gives back: the registers, then the position.
    pub fn of(numbers: [u32; 5]) -> Record {
        let [c, d, e, f, position] = numbers;
        Record::at(position, [c, d, e, f])
    }

    pub fn numbers(self) -> [u32; 5] {
        let [c, d, e, f] = self.registers;
        [c, d, e, f, self.position]
    }

    /// A turn: the user sets the position. Nothing is checked before the next run or step.
    pub fn turned(self, position: u32) -> Record {
        Record { position, ..self }
    }
}

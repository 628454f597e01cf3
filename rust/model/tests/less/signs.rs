//! Counts of what a less compared, by the signs.

use super::{answer, number, LESS};

/// How often, by whether reg2 is below 0, whether reg3 is, and the answer.
#[derive(Debug, Default, PartialEq, Eq)]
pub struct Signs(pub [[[u64; 2]; 2]; 2]);

impl Signs {
    /// Counts a less. To compare the words unsigned gives another answer exactly
    /// where their top bits differ.
    pub fn count(&mut self, reg2: u32, reg3: u32) {
        let less = answer(LESS, reg2, reg3);
        let differs = less != u32::from(reg2 < reg3);
        assert_eq!(differs, (reg2 ^ reg3) >> 31 == 1, "{reg2} and {reg3}");
        let [first, second] = [reg2, reg3].map(|word| usize::from(number(word) < 0));
        self.0[first][second][less as usize] += 1;
    }

    /// Those with one word alone below 0.
    pub fn apart(&self) -> u64 {
        let apart = [self.0[0][1], self.0[1][0]];
        apart.as_flattened().iter().sum()
    }

    /// Fails unless both answers were met where the signs are the same, and the
    /// only one that there is where they are not.
    pub fn demand(&self) {
        let met = self.0.map(|by| by.map(|by| by.map(|times| times > 0)));
        let expected = [[[true, true], [true, false]], [[false, true], [true, true]]];
        assert_eq!(met, expected, "{self:?}");
    }
}

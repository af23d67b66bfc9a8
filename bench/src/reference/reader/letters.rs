//! A BASE64 text's letters, counted.

#[derive(Default)]
pub struct Letters {
    letters: usize,
    pads: usize,
    /// The last letter's number.
    last: u8,
    letter_after_pad: bool,
}

impl Letters {
    /// Whether the byte may stand in the text.
    pub fn take(&mut self, byte: u8) -> bool {
        self.last = match byte {
            b'A'..=b'Z' => byte - b'A',
            b'a'..=b'z' => byte - b'a' + 26,
            b'0'..=b'9' => byte - b'0' + 52,
            b'+' => 62,
            b'/' => 63,
            b'=' => {
                self.pads += 1;
                return true;
            }
            b'\t' | b' ' => return true,
            _ => return false,
        };
        self.letters += 1;
        self.letter_after_pad |= self.pads > 0;
        true
    }

    /// How many octets the whole text stands for; none where it is wrong.
    pub fn octets(&self) -> Option<usize> {
        let unused_bits = match (self.letters % 4, self.pads) {
            (0, 0) => 0,
            (3, 1) => 0b11,
            (2, 2) => 0b1111,
            _ => return None,
        };
        (!self.letter_after_pad && self.last & unused_bits == 0).then_some(self.letters * 3 / 4)
    }
}

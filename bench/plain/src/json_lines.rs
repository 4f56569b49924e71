//! A line of JSON as the line of text with these tokens: docs/format.md, "Lines of JSON".

use crate::stands_for_itself;

/// The text of a line of JSON, and of each token whether it is a number. A line that is no array of numbers and strings has no token.
pub fn text_of(line: &[u8]) -> (Vec<u8>, Vec<bool>) {
    let (mut text, mut numbers) = (Vec::new(), Vec::new());
    let mut reader = Reader { left: line };
    if std::str::from_utf8(line).is_err() || reader.read(&mut text, &mut numbers).is_none() {
        return (Vec::new(), Vec::new());
    }
    (text, numbers)
}

struct Reader<'a> { left: &'a [u8] }

impl Reader<'_> {
    fn read(&mut self, text: &mut Vec<u8>, numbers: &mut Vec<bool>) -> Option<()> {
        self.expect(b'[')?;
        loop {
            if !numbers.is_empty() {
                text.push(b' ');
            }
            self.skip_spaces();
            let is_string = self.left.first() == Some(&b'"');
            if is_string { self.string(text)? } else { self.number(text)? }
            numbers.push(!is_string);
            self.skip_spaces();
            match self.next()? {
                b',' => {}
                b']' => break,
                _ => return None,
            }
        }
        self.skip_spaces();
        self.left.is_empty().then_some(())
    }

    fn next(&mut self) -> Option<u8> {
        let (&byte, left) = self.left.split_first()?;
        self.left = left;
        Some(byte)
    }

    fn expect(&mut self, wanted: u8) -> Option<()> {
        self.skip_spaces();
        (self.next()? == wanted).then_some(())
    }

    fn skip_spaces(&mut self) {
        while let [b' ' | b'\t' | b'\r', left @ ..] = self.left {
            self.left = left;
        }
    }

    /// A number of another form than a trace's is no record, so digits are all that is read.
    fn number(&mut self, text: &mut Vec<u8>) -> Option<()> {
        let digits = self.left.iter().take_while(|byte| byte.is_ascii_digit()).count();
        text.extend_from_slice(&self.left[..digits]);
        self.left = &self.left[digits..];
        (digits > 0).then_some(())
    }

    /// A string, as a name is written in a line of text.
    fn string(&mut self, text: &mut Vec<u8>) -> Option<()> {
        self.next()?;
        loop {
            match self.next()? {
                b'"' => return Some(()),
                b'\\' => self.escape(text)?,
                0..=0x1f => return None,
                byte => spell(byte, text),
            }
        }
    }

    fn escape(&mut self, text: &mut Vec<u8>) -> Option<()> {
        let byte = match self.next()? {
            b'u' => return self.character(text),
            b'b' => 8,
            b't' => b'\t',
            b'n' => b'\n',
            b'f' => 12,
            b'r' => b'\r',
            byte @ (b'"' | b'\\' | b'/') => byte,
            _ => return None,
        };
        spell(byte, text);
        Some(())
    }

    /// A character by its number, which may be two halves.
    fn character(&mut self, text: &mut Vec<u8>) -> Option<()> {
        let mut number = self.four_digits()?;
        if (0xd800..0xdc00).contains(&number) {
            (self.next()? == b'\\' && self.next()? == b'u').then_some(())?;
            let low = self.four_digits()?.checked_sub(0xdc00).filter(|low| *low < 0x400)?;
            number = 0x10000 + ((number - 0xd800) << 10) + low;
        }
        let mut bytes = [0; 4];
        char::from_u32(number)?.encode_utf8(&mut bytes).bytes().for_each(|byte| spell(byte, text));
        Some(())
    }

    fn four_digits(&mut self) -> Option<u32> {
        let mut number = 0;
        for _ in 0..4 {
            number = number * 16 + char::from(self.next()?).to_digit(16)?;
        }
        Some(number)
    }
}

fn spell(byte: u8, text: &mut Vec<u8>) {
    if stands_for_itself(byte) {
        text.push(byte);
    } else {
        text.extend_from_slice(format!("%{byte:02X}").as_bytes());
    }
}

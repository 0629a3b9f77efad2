//! A line that fits a form, as fields of known kinds, so that one of them can be changed.

use crate::random::Random;

#[derive(Clone, Copy, Debug, PartialEq, Eq)]
pub enum Kind {
    /// The word that names the form.
    Name,
    Number,
    /// A number of 32 bits.
    Word,
    Fate,
    Data,
    Lock,
}

impl Kind {
    pub fn is_number(self) -> bool {
        matches!(self, Kind::Number | Kind::Word | Kind::Fate | Kind::Lock)
    }
}

#[derive(Clone, Debug)]
pub struct Field {
    pub kind: Kind,
    pub text: Vec<u8>,
}

#[derive(Clone, Debug)]
pub struct Line {
    pub fields: Vec<Field>,
}

impl Line {
    pub fn new(name: &str) -> Line {
        Line { fields: Vec::new() }.with(Kind::Name, name)
    }

    pub fn number(self, value: u64) -> Line {
        self.with(Kind::Number, &value.to_string())
    }

    pub fn word(self, value: u32) -> Line {
        self.with(Kind::Word, &value.to_string())
    }

    pub fn fate(self, value: u64) -> Line {
        self.with(Kind::Fate, &value.to_string())
    }

    pub fn data(self, digits: &str) -> Line {
        self.with(Kind::Data, digits)
    }

    pub fn lock(self, value: u64) -> Line {
        self.with(Kind::Lock, &value.to_string())
    }

    fn with(mut self, kind: Kind, text: &str) -> Line {
        self.fields.push(Field { kind, text: text.as_bytes().to_vec() });
        self
    }

    /// The line with a tab between fields, without newline.
    pub fn bytes(&self) -> Vec<u8> {
        let fields: Vec<&[u8]> = self.fields.iter().map(|field| field.text.as_slice()).collect();
        fields.join(&b'\t')
    }

    /// The line with the text of one of the fields that `fits` changed, if there is one.
    pub fn changed(
        &self,
        random: &mut Random,
        fits: impl Fn(Kind) -> bool,
        change: impl FnOnce(&mut Random, &[u8]) -> Vec<u8>,
    ) -> Option<Line> {
        let fitting: Vec<usize> =
            (0..self.fields.len()).filter(|&at| fits(self.fields[at].kind)).collect();
        if fitting.is_empty() {
            return None;
        }
        let mut line = self.clone();
        let text = &mut line.fields[*random.pick(&fitting)].text;
        *text = change(random, text);
        Some(line)
    }

    /// The line made `length` bytes long by zeros before one of its numbers; as it is if it has so
    /// many already.
    pub fn padded(&self, random: &mut Random, length: usize) -> Line {
        let zeros = length.saturating_sub(self.bytes().len());
        let pad = |_: &mut Random, text: &[u8]| [&vec![b'0'; zeros], text].concat();
        self.changed(random, Kind::is_number, pad).unwrap_or_else(|| self.clone())
    }
}

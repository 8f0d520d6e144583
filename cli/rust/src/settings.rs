//! The settings of a box as text.

use crate::{raw, Refusal, Rule, Scheme};
use core::fmt;

/// The most bytes of a [`Label`].
pub const LABEL: usize = 16;

/// The most bytes of the text of [`Settings`].
pub const SETTINGS_TEXT: usize = 49;

/// The formats of the text. A reader reads its own and those before it.
#[derive(Clone, Copy, Debug, PartialEq, Eq, PartialOrd, Ord, Hash)]
pub enum Format {
    /// 1: scheme and rule.
    One,
    /// 2: also a label.
    Two,
}

impl Format {
    /// The newest one.
    pub const NEWEST: Format = Format::Two;

    /// The number by which a text names the format.
    #[must_use]
    pub const fn number(self) -> u32 {
        match self {
            Format::One => 1,
            Format::Two => 2,
        }
    }
}

/// A label: at most 16 capital letters or digits, and none where it is empty.
#[derive(Clone, Copy, PartialEq, Eq, Hash, Default)]
pub struct Label {
    /// Zeros behind the label, so that equal labels are equal here.
    bytes: [u8; LABEL],
    count: usize,
}

impl Label {
    /// No label.
    pub const NONE: Label = Label {
        bytes: [0; LABEL],
        count: 0,
    };

    /// The label of these bytes.
    ///
    /// # Errors
    ///
    /// Refuses with 2 where there are over 16, and with 8 where one is no capital
    /// letter and no digit: what [`raw::settings_write`] says of them.
    pub fn new(bytes: &[u8]) -> Result<Label, Refusal> {
        let rule = Rule::LowBits.number();
        raw::settings_write(Scheme::Bcns.number(), rule, bytes, &mut [0; SETTINGS_TEXT])?;
        let mut label = Label::NONE;
        label.bytes[..bytes.len()].copy_from_slice(bytes);
        label.count = bytes.len();
        Ok(label)
    }

    /// Its bytes, none where there is no label.
    #[must_use]
    pub fn bytes(&self) -> &[u8] {
        &self.bytes[..self.count]
    }

    /// Its bytes as text.
    #[must_use]
    pub fn text(&self) -> &str {
        // capital letters and digits alone
        core::str::from_utf8(self.bytes()).unwrap_or_default()
    }
}

impl fmt::Debug for Label {
    fn fmt(&self, f: &mut fmt::Formatter) -> fmt::Result {
        write!(f, "Label({:?})", self.text())
    }
}

impl fmt::Display for Label {
    fn fmt(&self, f: &mut fmt::Formatter) -> fmt::Result {
        f.pad(self.text())
    }
}

/// The settings of a box.
#[derive(Clone, Copy, Debug, PartialEq, Eq, Hash)]
pub struct Settings {
    /// The scheme of its exchanges.
    pub scheme: Scheme,
    /// The rule by which it takes NewHope's public numbers.
    pub rule: Rule,
    /// Its label, or [`Label::NONE`].
    pub label: Label,
}

impl Settings {
    /// The settings that a text holds, to a reader of this format. What
    /// [`write`](Settings::write) gives is read as it was, and no other text is.
    ///
    /// ```
    /// use wimmostry::{Format, Label, Refusal, Rule, Scheme, Settings};
    ///
    /// let text = b"format=2\nscheme=4\nrule=16\nlabel=STUDIO7\n";
    /// let settings = Settings::read(Format::Two, text)?;
    /// assert_eq!(settings.scheme, Scheme::FrodoRecommended);
    /// assert_eq!(settings.rule, Rule::WholeWord);
    /// assert_eq!(settings.label.text(), "STUDIO7");
    /// // an older box names the newer format and gives no setting
    /// assert_eq!(Settings::read(Format::One, text), Err(Refusal::NewerFormat(2)));
    ///
    /// let mut room = [0; wimmostry::SETTINGS_TEXT];
    /// let n = settings.write(&mut room)?;
    /// assert_eq!(room[..n], text[..]);
    /// # Ok::<(), Refusal>(())
    /// ```
    ///
    /// # Errors
    ///
    /// Refuses with 15, which carries the newer format's number, and 8. It lends
    /// [`LABEL`] bytes, so that 3 can't arise.
    pub fn read(reader: Format, text: &[u8]) -> Result<Settings, Refusal> {
        let mut bytes = [0; LABEL];
        let read = raw::settings_read(reader.number(), text, &mut bytes)?;
        Ok(Settings {
            scheme: Scheme::try_from(read.scheme)?,
            rule: Rule::try_from(read.rule)?,
            label: Label {
                bytes,
                count: read.label,
            },
        })
    }

    /// The text, in the oldest format that holds the settings, and how many bytes
    /// it takes: [`SETTINGS_TEXT`] are always enough.
    ///
    /// # Errors
    ///
    /// Refuses with 3.
    pub fn write(&self, text: &mut [u8]) -> Result<usize, Refusal> {
        let (scheme, rule) = (self.scheme.number(), self.rule.number());
        raw::settings_write(scheme, rule, self.label.bytes(), text)
    }

    /// The format of that text.
    #[must_use]
    pub fn format(&self) -> Format {
        match self.label.bytes() {
            [] => Format::One,
            _ => Format::Two,
        }
    }
}

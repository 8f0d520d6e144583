use super::write;
use crate::refusal::{self, refusal, Refusal};
use crate::settings::{self, allowed, Settings, Unread, LABEL};

/// What the reader tells beside the label: its written count or a refusal, and
/// three numbers. After a refusal these are 0, but the format after 15, which is
/// the newer one.
#[derive(Clone, Copy, Debug, PartialEq, Eq)]
pub struct Read {
    pub told: Result<usize, Refusal>,
    pub format: u64,
    pub scheme: u64,
    pub rule: u64,
}

/// Settings read: the reader's number, the text. Gives the label, format, scheme
/// and rule. The answer that 3 speaks of is the label that was read, so that 15
/// and 8 are tested before it.
pub fn settings_read(reader: u64, text: &[u8], label: &mut [u8]) -> Read {
    label.fill(0);

    let refused = |refused, format| Read {
        told: Err(refused),
        format,
        scheme: 0,
        rule: 0,
    };
    let read = match settings::read(reader, text) {
        Ok(read) => read,
        Err(Unread::Newer(format)) => return refused(refusal(15, 0), format),
        Err(Unread::Misfit) => return refused(refusal(8, 0), 0),
    };
    if let Err(short) = refusal::short_output(label.len(), read.label.len()) {
        return refused(short, 0);
    }
    Read {
        told: Ok(write(&read.label, label)),
        format: read.format(),
        scheme: read.scheme,
        rule: read.rule,
    }
}

/// Settings write: scheme, rule, label. Gives the text, whose length the bytes
/// of the label don't change.
pub fn settings_write(
    scheme: u64,
    rule: u32,
    label: &[u8],
    text: &mut [u8],
) -> Result<usize, Refusal> {
    text.fill(0);

    refusal::no_scheme(scheme)?;
    refusal::no_rule(rule)?;
    refusal::too_long(label.len(), LABEL)?;
    let answer = settings::write(&Settings {
        scheme,
        rule: rule.into(),
        label: label.to_vec(),
    });
    refusal::short_output(text.len(), answer.len())?;
    if !label.iter().all(allowed) {
        return Err(refusal(8, 0));
    }
    Ok(write(&answer, text))
}

//! The settings held to the second program: every text of its list by five readers,
//! and every call of the writer, with guards around every buffer.

use crate::lent::Lent;
use second::settings::texts::{grid, texts, writes};
use second::settings::Unread;
use wimmostry::{raw, Format, Label, Refusal, Rule, Scheme, Settings, LABEL, SETTINGS_TEXT};

/// Both answers: the refusal's number, the format, scheme and rule, and the count.
fn read(reader: u32, text: &[u8], room: usize) -> u32 {
    let lent = Lent::new(text, 7);
    let mut expected = vec![9; room];
    let mut label = Lent::new(&expected, 9);
    let answer = raw::settings_read(reader, lent.entries(), label.entries_mut());
    let told = second::calls::settings_read(reader.into(), text, &mut expected);
    label.holds(&expected);
    lent.holds(text);
    match (answer, told.told) {
        (Ok(read), Ok(count)) => {
            assert_eq!(read.label, count);
            let numbers = (read.format, u64::from(read.scheme), u64::from(read.rule));
            assert_eq!(numbers, (told.format, told.scheme, told.rule));
            0
        }
        (Err(refusal), Err(other)) => {
            assert_eq!(
                (refusal.number(), refusal.place()),
                (other.number, other.place)
            );
            let format = match refusal {
                Refusal::NewerFormat(format) => format,
                _ => 0,
            };
            assert_eq!((format, 0, 0), (told.format, told.scheme, told.rule));
            refusal.number()
        }
        (answer, told) => panic!("{answer:?} and {told:?} of {text:?}"),
    }
}

#[test]
fn every_text_is_read_alike() {
    let all = texts(1);
    assert!(all.len() >= 5000, "{}", all.len());
    let mut counts = [0; 19];
    for (k, text) in all.iter().enumerate() {
        for reader in [0, 1, 2, 3, u32::MAX] {
            counts[read(reader, text, LABEL) as usize] += 1;
        }
        // a label's room of every length
        counts[read(2, text, k % 40) as usize] += 1;
        read(1, text, k % LABEL);
    }
    for number in [0, 3, 8, 15] {
        assert!(counts[number] > 100, "refusal {number}: {}", counts[number]);
    }
}

/// 3 is for the label that was read: 15 and 8 come before it.
#[test]
fn every_room_of_a_label() {
    for one in grid() {
        let text = second::settings::write(&one);
        for room in 0..=LABEL + 1 {
            let short = if room < one.label.len() { 3 } else { 0 };
            assert_eq!(read(2, &text, room), short);
            let newer = if one.label.is_empty() { 0 } else { 15 };
            assert_eq!(read(1, &text, room), newer);
            assert_eq!(read(2, &text[1..], room), 8);
        }
    }
    let text = b"format=2\nscheme=4\nrule=16\nlabel=STUDIO7\n";
    assert_eq!(raw::settings_read(2, text, &mut [9; 6]), Err(Refusal::Room));
    let read = raw::settings_read(2, text, &mut [9; 7]);
    assert_eq!(read.map(|read| read.label), Ok(7));
    let none = raw::settings_read(2, b"format=1\nscheme=4\nrule=16\n", &mut []);
    assert_eq!(none.map(|none| none.label), Ok(0));
    let newer = raw::settings_read(2, b"format=3\n", &mut []);
    assert_eq!(newer, Err(Refusal::NewerFormat(3)));
}

#[test]
fn every_call_is_written_alike() {
    let mut counts = [0; 19];
    for one in writes() {
        let label = Lent::new(&one.label, 7);
        let mut expected = vec![9; one.room];
        let mut text = Lent::new(&expected, 9);
        let scheme = u32::try_from(one.scheme).expect("32 bits");
        let answer = raw::settings_write(scheme, one.rule, label.entries(), text.entries_mut());
        let told = second::calls::settings_write(one.scheme, one.rule, &one.label, &mut expected);
        text.holds(&expected);
        label.holds(&one.label);
        let answer = answer.map_err(|r| (r.number(), r.place()));
        assert_eq!(answer, told.map_err(|r| (r.number, r.place)), "{one:?}");
        counts[answer.map_or_else(|(number, _)| number as usize, |_| 0)] += 1;
    }
    for number in [0, 1, 12, 2, 3, 8] {
        assert!(counts[number] > 10, "refusal {number}: {}", counts[number]);
    }
}

/// A number has at most ten digits.
#[test]
fn digits_of_a_number() {
    for (text, refusal) in [
        ("format=9999999999\n", Refusal::NewerFormat(9_999_999_999)),
        ("format=10000000000\n", Refusal::Misfit),
        ("format=03\n", Refusal::Misfit),
    ] {
        let answer = Settings::read(Format::Two, text.as_bytes());
        assert_eq!(answer, Err(refusal), "{text}");
    }
}

#[test]
fn settings_come_back() {
    for one in grid() {
        let settings = Settings {
            scheme: Scheme::try_from(one.scheme as u32).expect("a scheme"),
            rule: Rule::try_from(one.rule as u32).expect("a rule"),
            label: Label::new(&one.label).expect("a label"),
        };
        let mut room = [9; SETTINGS_TEXT];
        let n = settings.write(&mut room).expect("room");
        assert_eq!(room[..n], second::settings::write(&one)[..]);
        assert_eq!(Settings::read(Format::NEWEST, &room[..n]), Ok(settings));
        let older = match second::settings::read(1, &room[..n]) {
            Ok(_) => Ok(settings),
            Err(Unread::Newer(format)) => Err(Refusal::NewerFormat(format)),
            Err(Unread::Misfit) => panic!("{settings:?}"),
        };
        assert_eq!(Settings::read(Format::One, &room[..n]), older);
        assert_eq!(settings.format() == Format::One, older.is_ok());
        assert_eq!(settings.write(&mut room[..n - 1]), Err(Refusal::Room));
    }
    assert_eq!(Label::new(b"STUDIO 7"), Err(Refusal::Misfit));
    assert_eq!(Label::new(b"ABCDEFGHIJKLMNOPQ"), Err(Refusal::Length));
    assert_eq!(Label::new(b""), Ok(Label::NONE));
    assert_eq!(format!("{:?}", Label::new(b"A7")), "Ok(Label(\"A7\"))");
    let newer = Refusal::NewerFormat(3);
    assert!(newer.to_string().ends_with(", format 3"), "{newer}");
}

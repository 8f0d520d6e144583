//! 02, request h: settings, read and written.

use crate::program::run;
use second::calls::{settings_read, settings_write, Read};
use second::refusal::refusal;
use second::settings::frames::answers;
use second::settings::texts::{grid, texts, writes};
use second::settings::{read, write, Settings, Unread, LABEL};
use std::collections::BTreeMap;

fn of(scheme: u64, rule: u64, label: &str) -> Settings {
    Settings {
        scheme,
        rule,
        label: label.as_bytes().to_vec(),
    }
}

const FORMAT_1: &str = "format=1\nscheme=4\nrule=16\n";
const FORMAT_2: &str = "format=2\nscheme=0\nrule=14\nlabel=STUDIO7\n";

/// Both readers, and such as there are not yet.
const READERS: [u64; 4] = [1, 2, 3, 9999999999];

#[test]
fn by_hand() {
    let (unlabelled, labelled) = (of(4, 16, ""), of(0, 14, "STUDIO7"));
    assert_eq!(write(&unlabelled), FORMAT_1.as_bytes());
    assert_eq!(write(&labelled), FORMAT_2.as_bytes());
    assert_eq!(read(1, FORMAT_1.as_bytes()), Ok(unlabelled.clone()));
    assert_eq!(read(2, FORMAT_1.as_bytes()), Ok(unlabelled));
    assert_eq!(read(1, FORMAT_2.as_bytes()), Err(Unread::Newer(2)));
    assert_eq!(read(2, FORMAT_2.as_bytes()), Ok(labelled));
}

#[test]
fn a_newer_format_whatever_follows() {
    for text in [
        "format=3\n",
        "format=3\n\n",
        "format=3\nscheme=4\nrule=16\n",
        "format=3\n\0\r and no end",
    ] {
        assert_eq!(read(1, text.as_bytes()), Err(Unread::Newer(3)), "{text:?}");
        assert_eq!(read(2, text.as_bytes()), Err(Unread::Newer(3)), "{text:?}");
        // To its own reader it is a format that is not known.
        assert_eq!(read(3, text.as_bytes()), Err(Unread::Misfit), "{text:?}");
    }
    for (text, number) in [
        ("format=9999999999\n", 9999999999),
        ("format=4294967296\n", 4294967296),
        ("format=4294967297\n", 4294967297),
        ("format=10\n", 10),
    ] {
        assert_eq!(read(2, text.as_bytes()), Err(Unread::Newer(number)));
    }
    assert_eq!(read(1, b"format=2\n"), Err(Unread::Newer(2)));
    assert_eq!(read(2, b"format=2\n"), Err(Unread::Misfit));
    // No reader at all: every format is newer.
    assert_eq!(read(0, FORMAT_1.as_bytes()), Err(Unread::Newer(1)));
    assert_eq!(read(0, b"format=0\n"), Err(Unread::Misfit));
}

#[test]
fn no_newer_format() {
    for text in [
        "",
        "\n",
        "format=3",
        "format=3\r\n",
        "format=03\n",
        "format=10000000000\n",
        "format=99999999999\n",
        "format=\n",
        "format=x\n",
        "format=-3\n",
        "format=+3\n",
        "format= 3\n",
        "format=3 \n",
        "Format=3\n",
        "FORMAT=3\n",
        " format=3\n",
        "\nformat=3\n",
        "format3\n",
        "format==3\n",
        "format=0\n",
        "format=0\nscheme=4\nrule=16\n",
    ] {
        for reader in READERS {
            let answer = read(reader, text.as_bytes());
            assert_eq!(answer, Err(Unread::Misfit), "{reader} {text:?}");
        }
    }
}

#[test]
fn other_text() {
    for text in [
        "format=1\n",
        "format=1\nscheme=4\n",
        "format=1\nscheme=4\nrule=16",
        "format=1\nscheme=4\nrule=16\n\n",
        "format=1\nscheme=4\nrule=16\nlabel=A\n",
        "format=1\nscheme=4\nrule=16\nlabel=\n",
        "format=1\nrule=16\nscheme=4\n",
        "scheme=4\nformat=1\nrule=16\n",
        "format=1\nscheme=6\nrule=16\n",
        "format=1\nscheme=04\nrule=16\n",
        "format=1\nscheme=4\nrule=15\n",
        "format=1\nscheme=4\nrule=0\n",
        "format=1\nscheme=4\nrule=016\n",
        "format=1\nscheme=4\nrule=1\n",
        "format=1\nscheme=4294967300\nrule=16\n",
        "format=1\nscheme=4\nrule=4294967312\n",
        "format=1\nscheme=4\nrule=10000000016\n",
        "format=1\r\nscheme=4\r\nrule=16\r\n",
        "format=1\nscheme=4\nrule=16\r\n",
        "format=01\nscheme=4\nrule=16\n",
        "format=2\nscheme=4\nrule=16\n",
        "format=2\nscheme=4\nrule=16\nlabel=\n",
        "format=2\nscheme=4\nrule=16\nlabel=A",
        "format=2\nscheme=4\nrule=16\nlabel=a\n",
        "format=2\nscheme=4\nrule=16\nlabel=A B\n",
        "format=2\nscheme=4\nrule=16\nlabel=A\r\n",
        "format=2\nscheme=4\nrule=16\nlabel=ABCDEFGHIJ0123456\n",
        "format=2\nscheme=4\nrule=16\nlabel=A\n\n",
        "format=2\nscheme=4\nrule=16\nlabel=A\nlabel=A\n",
        "format=2\nscheme=4\nrule=16\nLabel=A\n",
        "format=2\nlabel=A\nscheme=4\nrule=16\n",
    ] {
        for reader in &READERS[1..] {
            let answer = read(*reader, text.as_bytes());
            assert_eq!(answer, Err(Unread::Misfit), "{reader} {text:?}");
        }
    }
}

#[test]
fn every_byte_in_a_label() {
    for byte in 0..=255u8 {
        let good = b"ABCDEFGHIJKLMNOPQRSTUVWXYZ0123456789".contains(&byte);
        for label in [&[byte][..], &[b'X', byte], &[byte; 16]] {
            let text = [b"format=2\nscheme=3\nrule=16\nlabel=", label, b"\n"].concat();
            assert_eq!(read(2, &text).is_ok(), good, "{byte}");
            let written = settings_write(3, 16, label, &mut [0; 64]);
            assert_eq!(written.is_ok(), good, "{byte}");
        }
    }
}

#[test]
fn writing_then_reading() {
    let mut all = vec![];
    for settings in grid() {
        let text = write(&settings);
        assert_eq!(read(2, &text), Ok(settings.clone()));
        let first = match settings.label[..] {
            [] => Ok(settings),
            _ => Err(Unread::Newer(2)),
        };
        assert_eq!(read(1, &text), first);
        // Settings are equal exactly when their bytes are.
        assert!(!all.contains(&text));
        all.push(text);
    }
    assert_eq!(all.len(), 6 * 2 * 10);
}

#[test]
fn no_text_but_the_written_ones_is_read() {
    let all = texts(1);
    assert!(all.len() > 40_000, "{}", all.len());
    let mut answers = BTreeMap::new();
    for text in &all {
        for reader in READERS {
            let kind = match read(reader, text) {
                Ok(settings) => {
                    assert_eq!(write(&settings), *text);
                    assert!(settings.format() <= reader);
                    assert_eq!(read(2, text), Ok(settings));
                    0
                }
                Err(Unread::Newer(format)) => {
                    assert!(format > reader);
                    let line = format!("format={format}\n");
                    assert!(text.starts_with(line.as_bytes()));
                    15
                }
                Err(Unread::Misfit) => 8,
            };
            *answers.entry((reader, kind)).or_insert(0) += 1;
        }
    }
    // Every kind of answer, often; but of format 1 there are just twelve texts.
    assert_eq!(answers[&(1, 0)], 12);
    for told in [(1, 8), (1, 15), (2, 0), (2, 8), (2, 15)] {
        assert!(answers[&told] > 1000, "{told:?} {answers:?}");
    }
    assert!(!answers.contains_key(&(9999999999, 15)));
}

#[test]
fn the_reader_on_a_lent_label() {
    for room in [7, 8, 16, 17, 40] {
        let mut label = vec![0xA5; room];
        let told = settings_read(2, FORMAT_2.as_bytes(), &mut label);
        let expected = Read {
            told: Ok(7),
            format: 2,
            scheme: 0,
            rule: 14,
        };
        assert_eq!(told, expected);
        assert_eq!(label, [&b"STUDIO7"[..], &vec![0; room - 7]].concat());

        label.fill(0xA5);
        let told = settings_read(2, FORMAT_1.as_bytes(), &mut label);
        let expected = Read {
            told: Ok(0),
            format: 1,
            scheme: 4,
            rule: 16,
        };
        assert_eq!(told, expected);
        assert_eq!(label, vec![0; room]);
    }
    let refused = |number, format| Read {
        told: Err(refusal(number, 0)),
        format,
        scheme: 0,
        rule: 0,
    };
    for (reader, text, expected) in [
        (1, FORMAT_2, refused(15, 2)),
        (2, "format=77\n", refused(15, 77)),
        (2, "format=2\nscheme=4\nrule=16\nlabel=ab\n", refused(8, 0)),
        (1, "", refused(8, 0)),
    ] {
        let mut label = [0xA5; 20];
        assert_eq!(settings_read(reader, text.as_bytes(), &mut label), expected);
        assert_eq!(label, [0; 20]);
        // 15 and 8 come before 3, and no label is read.
        for room in [0, 1, 15] {
            let mut label = vec![0xA5; room];
            let told = settings_read(reader, text.as_bytes(), &mut label);
            assert_eq!(told, expected);
            assert_eq!(label, vec![0; room]);
        }
    }
    // A label of 7 needs 7 bytes.
    for room in 0..7 {
        let mut label = vec![0xA5; room];
        let told = settings_read(2, FORMAT_2.as_bytes(), &mut label);
        assert_eq!(told, refused(3, 0));
        assert_eq!(label, vec![0; room]);
    }
    // No label needs none.
    let expected = Read {
        told: Ok(0),
        format: 1,
        scheme: 4,
        rule: 16,
    };
    assert_eq!(settings_read(2, FORMAT_1.as_bytes(), &mut []), expected);
}

/// Every label of the grid in every room: 3 exactly where the room is shorter.
#[test]
fn the_room_of_every_label() {
    for settings in grid() {
        let text = write(&settings);
        for room in 0..=LABEL + 1 {
            let mut label = vec![0xA5; room];
            let told = settings_read(2, &text, &mut label);
            let short = room < settings.label.len();
            assert_eq!(told.told == Err(refusal(3, 0)), short, "{room} {text:?}");
            let numbers = (told.format, told.scheme, told.rule);
            let read = (settings.format(), settings.scheme, settings.rule);
            assert_eq!(numbers, if short { (0, 0, 0) } else { read });
            let bytes = if short { &[] } else { &settings.label[..] };
            assert_eq!(label, [bytes, &vec![0; room - bytes.len()]].concat());
        }
    }
}

#[test]
fn the_writers_refusals_in_their_order() {
    let long = b"abcdefghij0123456";
    for (scheme, rule, label, room, number) in [
        (6, 15, &long[..], 0, 1),
        (4294967295, 16, b"A", 64, 1),
        (5, 15, long, 0, 12),
        (0, 0, b"A", 64, 12),
        (5, 16, long, 0, 2),
        (5, 16, b"ABCDEFGHIJ0123456", 64, 2),
        (5, 16, &long[..16], 0, 3),
        (5, 16, b"a", 33, 3),
        (5, 16, b"a", 34, 8),
        (5, 16, b"A", 33, 3),
        (5, 16, b"", 25, 3),
        (5, 16, b"AB\n", 64, 8),
        (5, 16, b"\0", 64, 8),
    ] {
        let mut text = vec![0xA5; room];
        let told = settings_write(scheme, rule, label, &mut text);
        assert_eq!(told, Err(refusal(number, 0)), "{scheme} {rule} {room}");
        assert_eq!(text, vec![0; room]);
    }
    // Just enough room, and more.
    for (label, count) in [("", 26), ("A", 34), ("ABCDEFGHIJ012345", 49)] {
        for more in [0, 5] {
            let mut text = vec![0xA5; count + more];
            let told = settings_write(5, 16, label.as_bytes(), &mut text);
            assert_eq!(told, Ok(count));
            assert_eq!(text[..count], write(&of(5, 16, label)));
            assert_eq!(text[count..], vec![0; more]);
        }
    }
}

#[test]
fn what_the_writes_have() {
    let mut seen = BTreeMap::new();
    for case in writes() {
        let mut text = vec![0xA5; case.room];
        let told = settings_write(case.scheme, case.rule, &case.label, &mut text);
        let number = match told {
            Ok(count) => {
                let read = read(2, &text[..count]).unwrap();
                assert_eq!((read.scheme, read.rule as u32), (case.scheme, case.rule));
                assert_eq!(read.label, case.label);
                0
            }
            Err(refused) => refused.number,
        };
        *seen.entry(number).or_insert(0) += 1;
    }
    let kinds: Vec<u32> = seen.keys().copied().collect();
    assert_eq!(kinds, [0, 1, 2, 3, 8, 12]);
    assert!(seen.values().all(|&count| count > 40), "{seen:?}");
}

#[test]
fn frames() {
    let mut input = vec![];
    let mut frame = |head: &str, bytes: &str| {
        input.extend(format!("{head} {}\n{bytes}", bytes.len()).bytes());
    };
    frame("read 2 16", FORMAT_2);
    frame("read 2 7", FORMAT_2);
    frame("read 2 6", FORMAT_2);
    frame("read 1 0", FORMAT_2);
    frame("read 1 0", FORMAT_1);
    frame("read 2 0", "");
    frame("write 4 16", "");
    frame("write 4 16", "a");
    frame("write 6 16", "");
    frame("write 0 14", "Z");
    let hex = |text: &str| -> String { text.bytes().map(|b| format!("{b:02x}")).collect() };
    let expected = [
        "refusal=0 format=2 scheme=0 rule=14 label=STUDIO7",
        "refusal=0 format=2 scheme=0 rule=14 label=STUDIO7",
        "refusal=3 format=0 scheme=0 rule=0 label=",
        "refusal=15 format=2 scheme=0 rule=0 label=",
        "refusal=0 format=1 scheme=4 rule=16 label=",
        "refusal=8 format=0 scheme=0 rule=0 label=",
        &format!("refusal=0 written=26 text={}", hex(FORMAT_1)),
        "refusal=8 written=0 text=",
        "refusal=1 written=0 text=",
        &format!(
            "refusal=0 written=34 text={}",
            hex("format=2\nscheme=0\nrule=14\nlabel=Z\n")
        ),
        "",
    ];
    let expected = expected.join("\n");
    assert_eq!(answers(&input), expected.as_bytes());
    let output = run(&["settings"], &input);
    assert!(output.status.success());
    assert_eq!(output.stdout, expected.as_bytes());
    assert_eq!(answers(b""), b"");
}

#[test]
fn no_frames() {
    for input in [
        "\n",
        "read\n",
        "read 2\n",
        "read 2 0\n",
        "read 2 16 3\nab",
        "read 2 16 x\n",
        "read 2 x 0\n",
        "read x 16 0\n",
        "read  2 16 0\n",
        "read 2 16 0",
        "write 2 0\n",
        "write 2 4294967296 0\n",
        "wrote 2 14 0\n",
    ] {
        assert_eq!(answers(input.as_bytes()), b"no frame\n", "{input:?}");
    }
    let after = answers(b"read 2 16 0\nread 2 16 1\nxread");
    assert!(after.ends_with(b"\nno frame\n"));
    assert_eq!(after.iter().filter(|&&byte| byte == b'\n').count(), 3);
}

#[test]
fn on_files() {
    let folder = std::env::temp_dir().join(format!("second-settings-{}", std::process::id()));
    std::fs::create_dir_all(&folder).unwrap();
    let file = folder.join("settings").to_str().unwrap().to_string();
    let told = |words: &[&str]| String::from_utf8(run(words, b"").stdout).unwrap();

    let written = told(&["box", "settings", "write", "0", "14", "STUDIO7", &file]);
    assert_eq!(written, "written=40\n");
    assert_eq!(std::fs::read(&file).unwrap(), FORMAT_2.as_bytes());
    assert_eq!(told(&["box", "settings", "read", &file]), FORMAT_2);
    // A refused one leaves what stood there.
    let refused = told(&["box", "settings", "write", "0", "15", &file]);
    assert_eq!(refused, "refusal=12 place=0\n");
    assert_eq!(std::fs::read(&file).unwrap(), FORMAT_2.as_bytes());
    let written = told(&["box", "settings", "write", "4", "16", &file]);
    assert_eq!(written, "written=26\n");
    assert_eq!(told(&["box", "settings", "read", &file]), FORMAT_1);
    std::fs::write(&file, "format=3\n").unwrap();
    let refused = told(&["box", "settings", "read", &file]);
    assert_eq!(refused, "refusal=15 place=0\n");
    std::fs::remove_dir_all(&folder).unwrap();
}

//! Answers and refusals as JSON, one object a line.

/// The lines `name=value` of an answer as one object. A line without a value is
/// true, and one as `note: text` has its name before the colon.
pub fn object(lines: &str) -> String {
    let pairs = lines.lines().map(pair);
    braced(pairs)
}

/// The line of a refusal: its words, and behind them the sentence.
pub fn refusal(line: &str) -> String {
    let (words, sentence) = line.split_once(": ").unwrap_or((line, ""));
    let pairs = words.split(' ').map(pair);
    let text = (!sentence.is_empty()).then(|| format!("\"text\":{}", string(sentence)));
    braced(pairs.chain(text))
}

/// What else is wrong.
pub fn fault(status: u8, line: &str) -> String {
    let named = if status == 0 { "note" } else { "error" };
    let text = format!("\"{named}\":{}", string(line));
    braced([format!("\"status\":{status}"), text].into_iter())
}

fn braced(pairs: impl Iterator<Item = String>) -> String {
    format!("{{{}}}\n", pairs.collect::<Vec<_>>().join(","))
}

fn pair(line: &str) -> String {
    match (line.split_once('='), line.split_once(": ")) {
        (Some((name, value)), _) if !name.contains(' ') => {
            format!("{}:{}", string(name), value_of(value))
        }
        (_, Some((name, text))) => format!("{}:{}", string(name), string(text)),
        _ => format!("{}:true", string(line)),
    }
}

/// A number where it is one that every reader of JSON takes as it is.
fn value_of(text: &str) -> String {
    let digits = !text.is_empty() && text.len() <= 15 && text.bytes().all(|b| b.is_ascii_digit());
    match digits && (text == "0" || !text.starts_with('0')) {
        true => text.to_string(),
        false => string(text),
    }
}

/// Control characters, quotes and backslashes escaped.
fn string(text: &str) -> String {
    let mut quoted = String::from("\"");
    for c in text.chars() {
        match c {
            '"' | '\\' => quoted.extend(['\\', c]),
            c if c < ' ' => quoted.push_str(&format!("\\u{:04x}", u32::from(c))),
            c => quoted.push(c),
        }
    }
    quoted + "\""
}

#[cfg(test)]
mod tests {
    use super::*;

    #[test]
    fn one_object_a_line() {
        let answer = "agree\nslack=512\nsend=my \"link\\1\"/opening\nkey=0012\nnote: a = b\n";
        assert_eq!(
            object(answer),
            "{\"agree\":true,\"slack\":512,\"send\":\"my \\\"link\\\\1\\\"/opening\",\
             \"key\":\"0012\",\"note\":\"a = b\"}\n"
        );
        assert_eq!(
            refusal("refusal=8 place=0 line=2: the text is: none"),
            "{\"refusal\":8,\"place\":0,\"line\":2,\"text\":\"the text is: none\"}\n"
        );
        assert_eq!(refusal("heard=differs"), "{\"heard\":\"differs\"}\n");
        assert_eq!(
            fault(3, "x: \n"),
            "{\"status\":3,\"error\":\"x: \\u000a\"}\n"
        );
    }
}

//! Files of lines, and the notation of stored questions.

use std::fs;

/// The lines of a file. A last line without a line feed counts too.
pub struct Lines(Vec<u8>);

impl Lines {
    pub fn read(name: &str) -> Result<Lines, String> {
        fs::read(name)
            .map(Lines)
            .map_err(|e| format!("{name}: {e}"))
    }

    pub fn all(&self) -> Vec<&[u8]> {
        let mut lines: Vec<&[u8]> = self.0.split(|byte| *byte == b'\n').collect();
        if lines.last().is_some_and(|line| line.is_empty()) {
            lines.pop();
        }
        lines
    }
}

/// One stored line: the question and what stands behind the bar, if anything.
pub struct Stored {
    pub question: Vec<u8>,
    pub answer: Vec<u8>,
}

/// The question of a stored line, or `None` for a comment.
pub fn stored(line: &[u8]) -> Result<Option<Stored>, String> {
    if line.is_empty() || line[0] == b'#' {
        return Ok(None);
    }
    let bar = line.windows(3).position(|three| three == b" | ");
    let (question, answer) = match bar {
        Some(place) => (&line[..place], &line[place + 3..]),
        None => (line, &line[line.len()..]),
    };
    Ok(Some(Stored {
        question: unescape(question)?,
        answer: answer.to_vec(),
    }))
}

/// Bytes that a text file holds badly are written `\xHH`; `\e` stands for
/// nothing, so that the empty line can be asked.
fn unescape(text: &[u8]) -> Result<Vec<u8>, String> {
    let wrong = || format!("wrong escape in: {}", String::from_utf8_lossy(text));
    let mut bytes = Vec::new();
    let mut rest = text;
    while let Some((first, after)) = rest.split_first() {
        rest = after;
        if *first != b'\\' {
            bytes.push(*first);
        } else if let Some(after) = rest.strip_prefix(b"e") {
            rest = after;
        } else {
            let digits = rest.strip_prefix(b"x").and_then(|digits| digits.get(..2));
            let digits = digits.and_then(|digits| std::str::from_utf8(digits).ok());
            let byte = digits.and_then(|digits| u8::from_str_radix(digits, 16).ok());
            bytes.push(byte.ok_or_else(wrong)?);
            rest = &rest[3..];
        }
    }
    Ok(bytes)
}

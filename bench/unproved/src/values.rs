//! Long values: a hash map from name to bytes, which malloc keeps.

use crate::out::Out;
use std::collections::HashMap;

const GREATEST: usize = 1_048_576;
const MOST_COMMANDS: u64 = 1_048_576;

fn number(field: &[u8], most: u64) -> Option<u64> {
    let plain = !field.is_empty() && field.len() <= 7 && field.iter().all(u8::is_ascii_digit) && (field.len() == 1 || field[0] != b'0');
    if !plain {
        return None;
    }
    Some(field.iter().fold(0, |n, digit| n * 10 + u64::from(digit - b'0'))).filter(|n| *n <= most)
}

/// A field, and what stands behind its space.
fn field(line: &[u8]) -> (&[u8], Option<&[u8]>) {
    match line.iter().position(|b| *b == b' ') {
        Some(at) => (&line[..at], Some(&line[at + 1..])),
        None => (line, None),
    }
}

fn size_of(len: usize) -> u64 {
    let full = len.saturating_sub(1) / 12_264;
    full as u64 * 12_296 + ((32 + len - full * 12_264 + 7) & !7) as u64
}

enum Command<'a> {
    Set(u32, &'a [u8]),
    Read(u32, usize, usize),
    Drop(u32),
}

fn command(line: &[u8]) -> Result<Command<'_>, &'static str> {
    let (word, rest) = field(line);
    if ![b"set".as_slice(), b"read", b"drop"].contains(&word) {
        return Err("UnknownWord");
    }
    let (text, rest) = field(rest.ok_or("MissingField")?);
    let name = number(text, 999).ok_or("Number")? as u32;
    match word {
        b"set" => {
            let value = rest.ok_or("MissingField")?;
            if value.len() > GREATEST {
                return Err("ValueLength");
            }
            if value.iter().any(|b| *b < 32 || *b == 127) {
                return Err("ValueByte");
            }
            Ok(Command::Set(name, value))
        }
        b"read" => {
            let (at, rest) = field(rest.ok_or("MissingField")?);
            let at = number(at, GREATEST as u64).ok_or("Number")?;
            let (count, rest) = field(rest.ok_or("MissingField")?);
            let count = number(count, 64).ok_or("Number")?;
            if rest.is_some() {
                return Err("ExtraField");
            }
            Ok(Command::Read(name, at as usize, count as usize))
        }
        _ if rest.is_some() => Err("ExtraField"),
        _ => Ok(Command::Drop(name)),
    }
}

/// The commands, or the first line that is none and why.
fn commands(bytes: &[u8]) -> Result<Vec<Command<'_>>, (u64, &'static str)> {
    let (mut found, mut line) = (Vec::new(), 0);
    for text in bytes.split(|b| *b == b'\n') {
        line += 1;
        let text = text.strip_suffix(b"\r").unwrap_or(text);
        if text.is_empty() || text[0] == b'#' {
            continue;
        }
        if found.len() as u64 == MOST_COMMANDS {
            return Err((line, "TooManyCommands"));
        }
        found.push(command(text).map_err(|cause| (line, cause))?);
    }
    Ok(found)
}

/// Whether the script was read and run.
pub fn run(bytes: &[u8], limit: u64, out: &mut Out) -> std::io::Result<bool> {
    let commands = match commands(bytes) {
        Ok(commands) => commands,
        Err((line, cause)) => {
            out.text(format!("refused line {line} {cause}").as_bytes());
            out.end_line()?;
            out.flush()?;
            return Ok(false);
        }
    };
    let mut values: HashMap<u32, Vec<u8>> = HashMap::new();
    let mut live = 0;
    for (i, command) in commands.iter().enumerate() {
        out.number(i as u64 + 1);
        match command {
            Command::Set(_, value) if live + size_of(value.len()) > limit => out.text(b" full"),
            Command::Set(name, value) => {
                live += size_of(value.len());
                if let Some(old) = values.insert(*name, value.to_vec()) {
                    live -= size_of(old.len());
                }
                out.text(b" set");
            }
            Command::Read(name, at, count) => match values.get(name) {
                Some(value) => {
                    out.text(b" value ");
                    out.number(value.len() as u64);
                    out.text(b" ");
                    let from = (*at).min(value.len());
                    out.text(&value[from..(from + count).min(value.len())]);
                }
                None => out.text(b" missing"),
            },
            Command::Drop(name) => match values.remove(name) {
                Some(old) => {
                    live -= size_of(old.len());
                    out.text(b" dropped");
                }
                None => out.text(b" missing"),
            },
        }
        out.end_line()?;
    }
    out.text(format!("values {} live {live}", values.len()).as_bytes());
    out.end_line()?;
    out.flush()?;
    Ok(true)
}

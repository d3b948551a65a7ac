//! The unproved program that shardcache is compared with: the same trace and the same report, by hash maps, a slab and malloc, with one thread a
//! shard and batches of parts between them.

mod cache;
mod dirty;
mod out;
mod shards;
mod trace;
mod values;

use cache::{Cache, EVICTED};
use out::Out;
use std::fs::File;
use std::io::Read;
use std::os::fd::AsFd;
use std::process::ExitCode;
use trace::{Command, Kind, TRACE_LIMIT};

fn number(text: &str, least: u64, most: u64) -> Option<u32> {
    if text.is_empty() || text.len() > 10 || !text.bytes().all(|b| b.is_ascii_digit()) {
        return None;
    }
    text.parse().ok().filter(|n| (least..=most).contains(n)).map(|n| n as u32)
}

#[derive(Clone, Copy, PartialEq, Eq)]
enum Mode {
    Run,
    Parse,
    Dirty,
    Values,
}

struct Options {
    mode: Mode,
    shards: u32,
    pages: u32,
    limit: Option<u32>,
}

/// A mode and its options. `--limit BYTES` stands in the floor's place, to give a
/// shard the room of some other program. `parse` reads and checks the trace and stops, to
/// measure that part alone. `dirty` keeps puts until they are flushed, in the room of the pages, with one shard; so does
/// `values` with the values of a script.
fn options() -> Option<Options> {
    let (mut mode, mut shards, mut pages, mut limit) = (None, None, None, None);
    let mut words = std::env::args().skip(1);
    while let Some(word) = words.next() {
        if let Some(option) = word.strip_prefix("--") {
            let (name, value) = match option.split_once('=') {
                Some((name, value)) => (name.to_string(), value.to_string()),
                None => (option.to_string(), words.next()?),
            };
            let (slot, least, most) = match &name[..] {
                "shards" => (&mut shards, 1, 16),
                "pages" => (&mut pages, 1_280, 65_536),
                "limit" => (&mut limit, 12_296, u32::MAX as u64),
                _ => return None,
            };
            if slot.replace(number(&value, least, most)?).is_some() {
                return None;
            }
        } else if mode.replace(word).is_some() {
            return None;
        }
    }
    let (shards, pages) = (shards.unwrap_or(1), pages.unwrap_or(8_192));
    let mode = match &mode?[..] {
        "run" => Mode::Run,
        "parse" => Mode::Parse,
        "dirty" if shards == 1 => Mode::Dirty,
        "values" if shards == 1 => Mode::Values,
        _ => return None,
    };
    (pages % 32 == 0 && shards * pages <= 262_144).then_some(Options { mode, shards, pages, limit })
}

impl Options {
    /// The most bytes of a shard's rows: the floor below which the program evicts nothing.
    fn limit(&self) -> u64 {
        match self.limit {
            Some(limit) => limit as u64,
            None => (self.pages as u64 / 32 - 34) * 118_776,
        }
    }
}

fn read_input() -> std::io::Result<Vec<u8>> {
    let file = File::from(std::io::stdin().as_fd().try_clone_to_owned()?);
    let known = file.metadata().map(|m| m.len() as usize).unwrap_or(0);
    let mut bytes = Vec::with_capacity(known.min(TRACE_LIMIT) + 64);
    file.take(TRACE_LIMIT as u64 + 1).read_to_end(&mut bytes)?;
    Ok(bytes)
}

/// One shard: no threads, each reply goes straight to the output buffer.
fn run_one(bytes: &[u8], commands: &[Command], cache: &mut Cache, out: &mut Out) -> std::io::Result<()> {
    cache.journal.reserve(commands.len());
    for (i, command) in commands.iter().enumerate() {
        let number = i as u32 + 1;
        let key = command.key(bytes);
        out.number(number as u64);
        match command.kind {
            Kind::Put => match cache.put(command.hash, key, command.value(bytes), number) {
                true => out.text(b" replaced"),
                false => out.text(b" stored"),
            },
            Kind::Get => match cache.get(command.hash, key) {
                Some(value) => {
                    out.text(b" value ");
                    out.text(value);
                }
                None => out.text(b" missing"),
            },
            Kind::Erase => match cache.erase(command.hash, key) {
                true => out.text(b" erased"),
                false => out.text(b" missing"),
            },
            Kind::Scan => {
                out.text(b" keys");
                for key in cache.scan(key, command.count) {
                    out.buf.push(b' ');
                    key.append(&mut out.buf);
                }
            }
        }
        cache.journal.push(number);
        out.end_line()?;
    }
    Ok(())
}

/// What remains of a shard when it has run.
pub struct Rest {
    pub journal: Vec<u32>,
    pub rows: u32,
    pub live: u64,
    pub lent: u64,
}

impl Rest {
    fn of(cache: &mut Cache, lent: u64) -> Rest {
        let journal = std::mem::take(&mut cache.journal);
        Rest { journal, rows: cache.count, live: cache.live, lent }
    }
}

fn write_rest(out: &mut Out, rests: &[Rest]) -> std::io::Result<()> {
    for (shard, rest) in rests.iter().enumerate() {
        out.text(b"journal ");
        out.number(shard as u64);
        for &entry in &rest.journal {
            out.text(if entry & EVICTED != 0 { b" !" } else { b" " });
            out.number((entry & !EVICTED) as u64);
            out.drain()?;
        }
        out.end_line()?;
    }
    for (shard, rest) in rests.iter().enumerate() {
        let fields: [(&[u8], u64); 5] = [
            (b"shard ", shard as u64),
            (b" rows ", rest.rows as u64),
            (b" live ", rest.live),
            (b" lent ", rest.lent),
            (b" back ", rest.lent),
        ];
        for (text, n) in fields {
            out.text(text);
            out.number(n);
        }
        out.end_line()?;
    }
    out.flush()
}

fn run(options: &Options, out: &mut Out) -> std::io::Result<u8> {
    let Ok(bytes) = read_input() else {
        out.text(b"read fault\n");
        out.flush()?;
        return Ok(4);
    };
    if options.mode == Mode::Values {
        let known = values::run(&bytes, (options.pages as u64 / 32 - 2) * 118_776, out)?;
        return Ok(if known { 0 } else { 3 });
    }
    let commands = match trace::parse(&bytes, options.shards) {
        Ok(commands) => commands,
        Err(refused) => {
            out.text(b"refused line ");
            out.number(refused.line as u64);
            out.text(b" ");
            out.text(refused.cause.as_bytes());
            out.end_line()?;
            out.flush()?;
            return Ok(3);
        }
    };
    if options.mode == Mode::Parse {
        out.text(b"commands ");
        out.number(commands.len() as u64);
        out.end_line()?;
        out.flush()?;
    } else if options.mode == Mode::Dirty {
        dirty::run(&bytes, &commands, (options.pages as u64 / 32 - 2) * 118_776, out)?;
    } else if options.shards == 1 {
        let mut cache = Cache::new(options.limit());
        run_one(&bytes, &commands, &mut cache, out)?;
        write_rest(out, &[Rest::of(&mut cache, 0)])?;
        std::mem::forget(cache); // the process ends here; a row by row free would be wasted
    } else {
        let (logs, rests) = shards::run(&bytes, &commands, options.shards, options.limit());
        shards::write_replies(out, &commands, &logs)?;
        write_rest(out, &rests)?;
        std::mem::forget(logs);
    }
    Ok(0)
}

fn main() -> ExitCode {
    let Ok(stdout) = std::io::stdout().as_fd().try_clone_to_owned() else {
        return ExitCode::from(5);
    };
    let mut out = Out::new(File::from(stdout));
    let Some(options) = options() else {
        out.text(b"usage\n");
        let _ = out.flush();
        return ExitCode::from(2);
    };
    match run(&options, &mut out) {
        Ok(status) => ExitCode::from(status),
        Err(_) => ExitCode::from(5),
    }
}

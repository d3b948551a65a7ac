//! Puts that stay until they are flushed: a deque of them, and a hash map to the newest of each key. A put has its bytes by malloc.

use crate::cache::Spread;
use crate::out::Out;
use crate::trace::{Command, Kind};
use std::collections::{HashMap, VecDeque};
use std::hash::BuildHasherDefault;

const NONE: u64 = u64::MAX;

struct Put {
    hash: u64,
    older: u64, // the put before it with an equal hash, by how many puts had come then
    data: Box<[u8]>, // the key, then the value
    key_len: u32,
}

impl Put {
    fn size(&self) -> u64 {
        size_of(self.data.len())
    }
}

struct Queue {
    puts: VecDeque<Put>,
    gone: u64,
    newest: HashMap<u64, u64, BuildHasherDefault<Spread>>,
    live: u64,
}

fn size_of(data: usize) -> u64 {
    (40 + data as u64 + 7) & !7
}

impl Queue {
    #[inline]
    fn put(&mut self, hash: u64, key: &[u8], value: &[u8]) {
        let mut data = Vec::with_capacity(key.len() + value.len());
        data.extend_from_slice(key);
        data.extend_from_slice(value);
        let number = self.gone + self.puts.len() as u64;
        let older = self.newest.insert(hash, number).unwrap_or(NONE);
        let put = Put { hash, older, data: data.into_boxed_slice(), key_len: key.len() as u32 };
        self.live += put.size();
        self.puts.push_back(put);
    }

    #[inline]
    fn get(&self, hash: u64, key: &[u8]) -> Option<&[u8]> {
        let mut number = *self.newest.get(&hash)?;
        while number != NONE && number >= self.gone {
            let put = &self.puts[(number - self.gone) as usize];
            let (its, value) = put.data.split_at(put.key_len as usize);
            if its == key {
                return Some(value);
            }
            number = put.older;
        }
        None
    }

    #[inline]
    fn flush(&mut self, out: &mut Out) -> std::io::Result<bool> {
        let Some(put) = self.puts.pop_front() else {
            return Ok(false);
        };
        if self.newest.get(&put.hash) == Some(&self.gone) {
            self.newest.remove(&put.hash);
        }
        self.gone += 1;
        self.live -= put.size();
        let (key, value) = put.data.split_at(put.key_len as usize);
        out.text(b"put ");
        out.text(key);
        out.text(b" ");
        out.text(value);
        out.end_line()?;
        Ok(true)
    }
}

pub fn run(bytes: &[u8], commands: &[Command], limit: u64, out: &mut Out) -> std::io::Result<()> {
    let mut queue = Queue { puts: VecDeque::new(), gone: 0, newest: HashMap::default(), live: 0 };
    for (i, command) in commands.iter().enumerate() {
        let key = command.key(bytes);
        match command.kind {
            Kind::Put => {
                let value = command.value(bytes);
                while queue.live + size_of(key.len() + value.len()) > limit && queue.flush(out)? {}
                queue.put(command.hash, key, value);
                continue;
            }
            Kind::Get => match queue.get(command.hash, key) {
                Some(value) => {
                    out.number(i as u64 + 1);
                    out.text(b" dirty ");
                    out.text(value);
                }
                None => {
                    out.number(i as u64 + 1);
                    out.text(b" clean");
                }
            },
            Kind::Erase | Kind::Scan => {
                out.number(i as u64 + 1);
                out.text(b" passed");
            }
        }
        out.end_line()?;
    }
    while queue.flush(out)? {}
    out.text(b"dirty ");
    out.number(queue.gone);
    out.end_line()?;
    out.flush()
}

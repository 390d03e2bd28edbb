// What `ubxlist` does, written in plain Rust from docs/ alone: a measure for its speed, and a second opinion on its output.
use std::collections::BTreeMap;
use std::io::{self, BufWriter, Read, Write};

const VALSET: u8 = 0x8a;
const VALGET: u8 = 0x8b;
const VALDEL: u8 = 0x8c;

struct Item {
    key: u32,
    default: u64,
    bounds: Option<(u64, u64)>,
}

const fn item(key: u32, default: u64, low: u64, high: u64) -> Item {
    Item { key, default, bounds: Some((low, high)) }
}

const ITEMS: [Item; 7] = [
    item(0x1051_0002, 0, 0, 1),
    item(0x1051_0003, 1, 0, 1),
    item(0x2051_0001, 65, 8, 119),
    item(0x2091_033b, 0, 0, 10),
    item(0x2091_033d, 0, 0, 10),
    Item { key: 0x2092_0002, default: 0, bounds: None },
    Item { key: 0x2092_0004, default: 0, bounds: None },
];

type Settings = BTreeMap<u32, u64>;
type Changes = BTreeMap<u32, Option<u64>>;

struct Transaction {
    id: u8,
    layers: u8,
    changes: Changes,
}

struct Receiver {
    ram: Settings,
    bbr: Settings,
    open: Option<Transaction>,
}

fn check_bytes(bytes: &[u8]) -> (u8, u8) {
    bytes.iter().fold((0u8, 0u8), |(a, b), byte| {
        let a = a.wrapping_add(*byte);
        (a, b.wrapping_add(a))
    })
}

fn frame(out: &mut Vec<u8>, class: u8, id: u8, payload: &[u8]) {
    let start = out.len();
    let [low, high] = (payload.len() as u16).to_le_bytes();
    out.extend_from_slice(&[0xb5, 0x62, class, id, low, high]);
    out.extend_from_slice(payload);
    let (a, b) = check_bytes(&out[start + 2..]);
    out.extend_from_slice(&[a, b]);
}

enum Standing<'a> {
    Noise,
    Undecided,
    Intact(u8, u8, &'a [u8]),
}

fn standing(bytes: &[u8]) -> Standing<'_> {
    match bytes {
        [] | [0xb5] => return Standing::Undecided,
        [0xb5, 0x62, ..] => {}
        _ => return Standing::Noise,
    }
    if bytes.len() < 6 {
        return Standing::Undecided;
    }
    let length = u16::from_le_bytes([bytes[4], bytes[5]]) as usize;
    if length > 772 {
        return Standing::Noise;
    }
    let end = 6 + length;
    if bytes.len() <= end {
        return Standing::Undecided;
    }
    let (a, b) = check_bytes(&bytes[2..end]);
    match bytes[end..] {
        [x, ..] if x != a => Standing::Noise,
        [_] => Standing::Undecided,
        [_, y, ..] if y == b => Standing::Intact(bytes[2], bytes[3], &bytes[6..end]),
        _ => Standing::Noise,
    }
}

fn width(key: u32) -> Option<usize> {
    match key >> 28 & 7 {
        1 | 2 => Some(1),
        3 => Some(2),
        4 => Some(4),
        5 => Some(8),
        _ => None,
    }
}

fn names(number: u32, key: u32) -> bool {
    if number >> 16 & 0xfff == 0xfff {
        true
    } else if number & 0xffff == 0xffff && number >> 24 & 0xf == 0 {
        number >> 16 & 0xff == key >> 16 & 0xff
    } else {
        number == key
    }
}

fn named(number: u32) -> impl Iterator<Item = u32> {
    ITEMS.iter().map(|item| item.key).filter(move |key| names(number, *key))
}

fn key_of(entry: &[u8]) -> Result<u32, u8> {
    let bytes = entry.first_chunk().ok_or(19u8)?;
    Ok(u32::from_le_bytes(*bytes))
}

fn read_data(id: u8, mut data: &[u8]) -> Result<Changes, u8> {
    let mut changes = Changes::new();
    let mut count = 0;
    while !data.is_empty() {
        if count == 64 {
            return Err(18);
        }
        count += 1;
        let key = key_of(data)?;
        data = &data[4..];
        if id == VALSET {
            let mut value = 0;
            if let Some(width) = width(key) {
                let bytes = data.get(..width).ok_or(19u8)?;
                value = bytes.iter().rev().fold(0, |sum, byte| sum << 8 | *byte as u64);
                data = &data[width..];
            }
            if key >> 28 & 7 == 1 {
                value &= 1;
            }
            if ITEMS.binary_search_by_key(&key, |item| item.key).is_err() {
                return Err(20);
            }
            changes.insert(key, Some(value));
        } else {
            if named(key).next().is_none() {
                return Err(20);
            }
            changes.extend(named(key).map(|key| (key, None)));
        }
    }
    Ok(changes)
}

fn apply(changes: &Changes, settings: &mut Settings) {
    for (key, value) in changes {
        match value {
            Some(value) => settings.insert(*key, *value),
            None => settings.remove(key),
        };
    }
}

fn is_fit(ram: &Settings) -> bool {
    let value = |item: &Item| *ram.get(&item.key).unwrap_or(&item.default);
    ITEMS.iter().all(|item| item.bounds.is_none_or(|(low, high)| (low..=high).contains(&value(item))))
        && (value(&ITEMS[0]) == 0 || value(&ITEMS[1]) != 0)
}

impl Receiver {
    fn new() -> Receiver {
        let ram = ITEMS.iter().map(|item| (item.key, item.default)).collect();
        Receiver { ram, bbr: Settings::new(), open: None }
    }

    fn commit(&mut self, layers: u8, changes: &Changes) -> Result<(), u8> {
        if layers & 1 != 0 {
            let mut ram = self.ram.clone();
            apply(changes, &mut ram);
            if !is_fit(&ram) {
                return Err(21);
            }
            self.ram = ram;
        }
        if layers & 2 != 0 {
            apply(changes, &mut self.bbr);
        }
        self.open = None;
        Ok(())
    }

    fn change(&mut self, id: u8, payload: &[u8]) -> Result<(), u8> {
        if payload[0] > 1 {
            return Err(12);
        }
        let layers = payload[1] & if id == VALSET { 7 } else { 6 };
        if layers == 0 {
            return Err(13);
        }
        if layers & 4 != 0 {
            return Err(14);
        }
        let action = if payload[0] == 0 { 0 } else { payload[2] & 3 };
        if action >= 2 {
            let open = self.open.as_ref().ok_or(15u8)?;
            if open.layers != layers {
                return Err(16);
            }
        }
        let data = &payload[4..];
        if action == 2 && data.is_empty() {
            return Err(17);
        }
        match action {
            0 => self.commit(layers, &read_data(id, data)?),
            1 => {
                let changes = read_data(id, data)?;
                self.open = Some(Transaction { id, layers, changes });
                Ok(())
            }
            2 => {
                let changes = read_data(id, data)?;
                if let Some(open) = &mut self.open {
                    open.changes.extend(changes);
                }
                Ok(())
            }
            _ => match self.open.take() {
                Some(open) => self.commit(layers, &open.changes),
                None => Err(15),
            },
        }
    }

    fn get(&self, payload: &[u8], out: &mut Vec<u8>) -> Result<(), u8> {
        if payload[0] != 0 {
            return Err(12);
        }
        let defaults: Settings;
        let layer = match payload[1] {
            0 => &self.ram,
            1 => &self.bbr,
            7 => {
                defaults = ITEMS.iter().map(|item| (item.key, item.default)).collect();
                &defaults
            }
            _ => return Err(14),
        };
        let mut skip = u16::from_le_bytes([payload[2], payload[3]]);
        let mut left = 64;
        let mut reply = vec![1, payload[1], payload[2], payload[3]];
        for (count, entry) in payload[4..].chunks(4).enumerate() {
            if count == 64 {
                return Err(18);
            }
            let number = key_of(entry)?;
            if named(number).next().is_none() {
                return Err(20);
            }
            for key in named(number) {
                let Some(value) = layer.get(&key) else { continue };
                if skip > 0 {
                    skip -= 1;
                } else if left > 0 {
                    left -= 1;
                    reply.extend_from_slice(&key.to_le_bytes());
                    reply.extend_from_slice(&value.to_le_bytes()[..width(key).unwrap_or(0)]);
                }
            }
        }
        frame(out, 0x06, VALGET, &reply);
        Ok(())
    }

    fn judge(&mut self, id: u8, payload: &[u8], out: &mut Vec<u8>) -> Result<(), u8> {
        if !matches!(id, VALSET | VALGET | VALDEL) {
            Err(10)
        } else if payload.len() < 4 {
            Err(11)
        } else if id == VALGET {
            self.get(payload, out)
        } else {
            self.change(id, payload)
        }
    }

    fn handle(&mut self, id: u8, payload: &[u8], out: &mut Vec<u8>) -> Result<(), u8> {
        if self.open.as_ref().is_some_and(|open| open.id != id) {
            self.open = None;
        }
        let judged = self.judge(id, payload, out);
        if judged.is_err() {
            self.open = None;
        }
        frame(out, 0x05, judged.is_ok() as u8, &[0x06, id]);
        judged
    }
}

fn main() -> io::Result<()> {
    let mut input = io::stdin().lock();
    let mut out = BufWriter::new(io::stdout().lock());
    writeln!(out, "place class id verdict number")?;
    let mut receiver = Receiver::new();
    let mut piece = vec![0; 32 * 1024];
    let mut held: Vec<u8> = Vec::new();
    let mut reply = Vec::new();
    let (mut place, mut noise) = (0u64, 0u64);
    loop {
        let count = input.read(&mut piece)?;
        if count == 0 {
            break;
        }
        held.extend_from_slice(&piece[..count]);
        let mut start = 0;
        loop {
            match standing(&held[start..]) {
                Standing::Undecided => break,
                Standing::Noise => {
                    noise += 1;
                    start += 1;
                }
                Standing::Intact(class, id, payload) => {
                    let at = place + start as u64;
                    if class == 0x06 {
                        reply.clear();
                        match receiver.handle(id, payload, &mut reply) {
                            Ok(()) => writeln!(out, "{at} {class:02x} {id:02x} ack 0")?,
                            Err(number) => writeln!(out, "{at} {class:02x} {id:02x} nak {number}")?,
                        }
                    } else {
                        writeln!(out, "{at} {class:02x} {id:02x} out 0")?;
                    }
                    start += payload.len() + 8;
                }
            }
        }
        place += start as u64;
        held.drain(..start);
    }
    writeln!(out, "noise {noise} held {}", held.len())
}

// The lines of bench/run.sh: writes one of them, about 16 MiB, to standard output.
use std::io::{self, BufWriter, Write};

const LENGTH: usize = 16 << 20;

// Numbers that look random, the same at each run (xorshift).
struct Noise(u64);

impl Noise {
    fn byte(&mut self) -> u8 {
        self.0 ^= self.0 << 13;
        self.0 ^= self.0 >> 7;
        self.0 ^= self.0 << 17;
        (self.0 >> 32) as u8
    }

    fn bytes(&mut self, count: usize) -> Vec<u8> {
        (0..count).map(|_| self.byte()).collect()
    }
}

fn frame(class: u8, id: u8, payload: &[u8]) -> Vec<u8> {
    let [low, high] = (payload.len() as u16).to_le_bytes();
    let mut bytes = vec![0xb5, 0x62, class, id, low, high];
    bytes.extend_from_slice(payload);
    let (a, b) = bytes[2..].iter().fold((0u8, 0u8), |(a, b), byte| {
        let a = a.wrapping_add(*byte);
        (a, b.wrapping_add(a))
    });
    bytes.extend_from_slice(&[a, b]);
    bytes
}

// One frame, or one stretch of static, of a line.
fn stretch(line: &str, noise: &mut Noise) -> Vec<u8> {
    let pair = [0x01, 0x00, 0x51, 0x20, 0x42];
    match line {
        "starts" => vec![0xb5, 0x62, 0x01, 0x01, 0x04, 0x03],
        "twins" => vec![0xb5, 0x62, 0xb5, 0x62, 0x04, 0x03, 0x04, 0x03],
        "preambles" => [&[0xb5, 0x62], &noise.bytes(4)[..]].concat(),
        "random" => noise.bytes(1024),
        "clean" => frame(0x01, 0x07, &noise.bytes(772)),
        "usual" => frame(0x01, 0x07, &noise.bytes(92)),
        "short" => frame(0x01, 0x07, &noise.bytes(9)),
        "sets" => frame(0x06, 0x8a, &[&[0, 1, 0, 0], &pair[..]].concat()),
        "gets" => frame(0x06, 0x8b, &[0, 0, 0, 0, 0x01, 0x00, 0x51, 0x20]),
        "transactions" => [
            frame(0x06, 0x8a, &[&[1, 1, 1, 0], &pair[..]].concat()),
            frame(0x06, 0x8a, &[&[1, 1, 2, 0], &pair[..]].concat()),
            frame(0x06, 0x8a, &[1, 1, 3, 0]),
        ]
        .concat(),
        _ => panic!("no such line: {line}"),
    }
}

fn main() -> io::Result<()> {
    let line = std::env::args().nth(1).expect("usage: lines LINE");
    let mut noise = Noise(0x9e37_79b9_7f4a_7c15);
    let mut out = BufWriter::new(io::stdout().lock());
    let mut written = 0;
    while written < LENGTH {
        let bytes = stretch(&line, &mut noise);
        out.write_all(&bytes)?;
        written += bytes.len();
    }
    out.flush()
}

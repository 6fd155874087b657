// The reading of a board of tracks and vias in plain Rust, for a comparison of times and memory: `rustc -O reader.rs`.
// It proves nothing. Like the crates sexpr_read, part_read and pcb_read it reads the text once into a flat row of cells,
// and then takes the items list by list: `reader sexpr FILE` or `reader board FILE`.

use std::collections::HashMap;

// A list or an atom: its bytes, and how many cells it has, itself among them; an atom has one.
#[derive(Clone, Copy)]
struct Cell {
    at: u32,
    end: u32,
    cells: u32,
}

fn parse(text: &[u8]) -> Vec<Cell> {
    let mut cells: Vec<Cell> = Vec::with_capacity(text.len() / 6);
    let mut open: Vec<usize> = Vec::new();
    let mut at = 0;
    while at < text.len() {
        match text[at] {
            b' ' | b'\t' | b'\n' | b'\r' => at += 1,
            b'(' => {
                open.push(cells.len());
                cells.push(Cell { at: at as u32, end: 0, cells: 0 });
                at += 1;
            }
            b')' => {
                let list = open.pop().expect("a bracket that was opened");
                at += 1;
                cells[list].end = at as u32;
                cells[list].cells = (cells.len() - list) as u32;
            }
            b'"' => {
                let from = at;
                at += 1;
                while text[at] != b'"' {
                    at += 1 + usize::from(text[at] == b'\\');
                }
                at += 1;
                cells.push(Cell { at: from as u32, end: at as u32, cells: 1 });
            }
            _ => {
                let from = at;
                while !matches!(text[at], b' ' | b'\t' | b'\n' | b'\r' | b'(' | b')' | b'"') {
                    at += 1;
                }
                cells.push(Cell { at: from as u32, end: at as u32, cells: 1 });
            }
        }
    }
    assert!(open.is_empty());
    std::str::from_utf8(text).expect("text in UTF-8");
    cells
}

struct Parts<'a> {
    cells: &'a [Cell],
    text: &'a [u8],
}

impl<'a> Parts<'a> {
    fn word(&self, k: usize) -> &'a [u8] {
        let cell = self.cells[k];
        let bytes = &self.text[cell.at as usize..cell.end as usize];
        if bytes[0] == b'"' { &bytes[1..bytes.len() - 1] } else { bytes }
    }

    // The places of the parts of the list at a place.
    fn each(&self, list: usize, mut take: impl FnMut(usize)) {
        let end = list + self.cells[list].cells as usize;
        let mut k = list + 1;
        while k < end {
            take(k);
            k += self.cells[k].cells as usize;
        }
    }

    fn is_list(&self, k: usize) -> bool {
        self.text[self.cells[k].at as usize] == b'('
    }

    // The first list of each head in the list.
    fn find<const N: usize>(&self, list: usize, heads: [&[u8]; N]) -> [Option<usize>; N] {
        let mut found = [None; N];
        self.each(list, |k| {
            if self.is_list(k) && self.cells[k].cells > 1 && !self.is_list(k + 1) {
                let head = self.word(k + 1);
                for (wanted, place) in heads.iter().zip(found.iter_mut()) {
                    if place.is_none() && head == *wanted {
                        *place = Some(k);
                    }
                }
            }
        });
        found
    }
}

// Millimetres, cut to nanometres.
fn length(text: &[u8]) -> i64 {
    let (negative, digits) = match text[0] {
        b'-' => (true, &text[1..]),
        _ => (false, text),
    };
    let (mut value, mut behind) = (0i64, None);
    for byte in digits {
        match byte {
            b'.' => behind = Some(0),
            _ if behind == Some(6) => {}
            _ => {
                value = value * 10 + i64::from(byte - b'0');
                behind = behind.map(|n| n + 1);
            }
        }
    }
    for _ in behind.unwrap_or(0)..6 {
        value *= 10;
    }
    if negative { -value } else { value }
}

#[derive(Clone, Copy)]
struct Part {
    layers: u32,
    ends: [i64; 4],
    radius: i64,
}

enum What {
    Track { width: i64 },
    Via { size: i64, drill: i64 },
}

struct Item {
    name: String,
    net: u32,
    x: i64,
    y: i64,
    copper: Part,
    hole: Option<Part>,
    what: What,
}

fn layer(name: &[u8]) -> u32 {
    match name {
        b"F.Cu" => 0,
        b"B.Cu" => 31,
        _ => std::str::from_utf8(&name[2..name.len() - 3]).unwrap().parse().expect("a layer"),
    }
}

fn item(parts: &Parts, list: usize) -> Option<Item> {
    let number = |k: usize, n: usize| length(parts.word(k + 1 + n));
    let name = |k: Option<usize>| k.map_or(String::new(), |k| String::from_utf8(parts.word(k + 2).to_vec()).unwrap());
    let net = |k: Option<usize>| k.map_or(0, |k| std::str::from_utf8(parts.word(k + 2)).unwrap().parse().expect("a net"));
    match parts.word(list + 1) {
        b"segment" => {
            let [start, end, wide, on, of, named] = parts.find(list, [b"start", b"end", b"width", b"layer", b"net", b"tstamp"]);
            let (start, end, width) = (start?, end?, number(wide?, 1));
            let ends = [number(start, 1), number(start, 2), number(end, 1), number(end, 2)];
            Some(Item {
                name: name(named),
                net: net(of),
                x: ends[0],
                y: ends[1],
                copper: Part { layers: 1 << layer(parts.word(on? + 2)), ends: ends.map(|z| 2 * z), radius: width },
                hole: None,
                what: What::Track { width },
            })
        }
        b"via" => {
            let [at, size, drill, on, of, named] = parts.find(list, [b"at", b"size", b"drill", b"layers", b"net", b"tstamp"]);
            let (at, size, on) = (at?, number(size?, 1), on?);
            let (x, y) = (number(at, 1), number(at, 2));
            let layers = (1u32 << layer(parts.word(on + 2))) | (1 << layer(parts.word(on + 3)));
            let ends = [2 * x, 2 * y, 2 * x, 2 * y];
            let drill = drill.map(|k| number(k, 1));
            Some(Item {
                name: name(named),
                net: net(of),
                x,
                y,
                copper: Part { layers, ends, radius: size },
                hole: drill.map(|radius| Part { layers, ends, radius }),
                what: What::Via { size, drill: drill.unwrap_or(0) },
            })
        }
        _ => None,
    }
}

fn board(text: &[u8]) -> usize {
    let cells = parse(text);
    let parts = Parts { cells: &cells, text };
    let mut nets: HashMap<u32, String> = HashMap::new();
    let mut items: Vec<Item> = Vec::new();
    parts.each(0, |k| {
        if parts.is_list(k) {
            if parts.word(k + 1) == b"net" {
                let number = std::str::from_utf8(parts.word(k + 2)).unwrap().parse().expect("a net");
                nets.entry(number).or_insert_with(|| String::from_utf8(parts.word(k + 3).to_vec()).unwrap());
            } else if let Some(item) = item(&parts, k) {
                assert!(nets.contains_key(&item.net) && item.x.abs() <= 500_000_000 && item.y.abs() <= 500_000_000);
                items.push(item);
            }
        }
    });
    // What was read is looked at, so that none of it is left out.
    let sum = items.iter().fold(0i64, |sum, item| {
        let size = match item.what {
            What::Track { width } => width,
            What::Via { size, drill } => size ^ drill,
        };
        let hole = item.hole.map_or(0, |part| part.radius ^ part.ends[0]);
        sum ^ size ^ hole ^ item.copper.ends[2] ^ i64::from(item.copper.layers) ^ item.copper.radius ^ item.name.len() as i64
    });
    assert!(sum != i64::MIN);
    items.len()
}

fn main() {
    let words: Vec<String> = std::env::args().collect();
    let text = std::fs::read(&words[2]).expect("a file");
    let count = match words[1].as_str() {
        "plain" => text.iter().fold(0u64, |sum, byte| sum.wrapping_mul(31).wrapping_add(u64::from(*byte))) as usize,
        "sexpr" => parse(&text).len(),
        _ => board(&text),
    };
    println!("{} {}: {count}", words[1], text.len());
}

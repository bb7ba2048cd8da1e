//! The same as memory_table.txt over Rust's `BTreeMap`, with keys and records of the same sizes.
use std::collections::BTreeMap;
use std::hint::black_box;
use std::ops::Bound::{Excluded, Unbounded};
use std::time::Instant;

const LOOKUPS: u64 = 200_000;

#[derive(Clone, Copy, PartialEq, Eq)]
struct Key {
    len: usize,
    bytes: [u8; 64],
}

impl Key {
    fn of(number: u64) -> Key {
        let mut bytes = [0; 64];
        bytes[..8].copy_from_slice(&number.to_be_bytes());
        Key { len: 8, bytes }
    }
}

impl Ord for Key {
    fn cmp(&self, other: &Key) -> std::cmp::Ordering {
        self.bytes[..self.len].cmp(&other.bytes[..other.len])
    }
}

impl PartialOrd for Key {
    fn partial_cmp(&self, other: &Key) -> Option<std::cmp::Ordering> {
        Some(self.cmp(other))
    }
}

#[derive(Clone, Copy)]
#[allow(dead_code)]
struct Rec {
    count: u64,
    len: usize,
    text: [u8; 435],
}

fn number(order: &str, count: u64, at: u64) -> u64 {
    match order {
        "Rising" => at,
        "Falling" => count.wrapping_sub(at),
        _ => {
            let mut mixed = at.wrapping_add(0x9e37_79b9_7f4a_7c15);
            mixed = (mixed ^ (mixed >> 30)).wrapping_mul(0xbf58_476d_1ce4_e5b9);
            mixed = (mixed ^ (mixed >> 27)).wrapping_mul(0x94d0_49bb_1331_11eb);
            mixed ^ (mixed >> 31)
        }
    }
}

fn main() {
    let rec = Rec { count: 1, len: 100, text: [b't'; 435] };
    for count in [1_000, 5_000, 20_000, 100_000] {
        for order in ["Rising", "Falling", "Drawn"] {
            let mut map = BTreeMap::new();
            let start = Instant::now();
            for at in 0..count {
                map.insert(Key::of(number(order, count, at)), black_box(rec));
            }
            let filled = start.elapsed().as_nanos();
            let start = Instant::now();
            let mut found = 0;
            for at in 0..LOOKUPS {
                let copy: Option<Rec> = map.get(&Key::of(number(order, count, at % count))).copied();
                found += u64::from(black_box(copy).is_some());
            }
            let looked = start.elapsed().as_nanos();
            let start = Instant::now();
            let mut passed = 0;
            let mut last: Option<Key> = None;
            for _ in 0..count {
                let next = match &last {
                    Some(key) => map.range((Excluded(*key), Unbounded)).next(),
                    None => map.iter().next(),
                };
                let entry: Option<(Key, Rec)> = next.map(|(key, rec)| (*key, *rec));
                if let Some((key, _)) = black_box(entry) {
                    passed += 1;
                    last = Some(key);
                }
            }
            let walked = start.elapsed().as_nanos();
            let start = Instant::now();
            map.clear();
            let cleared = start.elapsed().as_nanos();
            println!("{order} {count} {filled} {looked} {walked} {cleared} {found} {passed}");
        }
    }
}

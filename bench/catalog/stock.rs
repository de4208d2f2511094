// The routing of program.rattle in stock Rust: the same rows, each searched for in a sorted vector; and its pruning, which
// finds the same partition and counts it.
use std::env;

const M: u64 = 0xFFFF_FFFF;

fn rot(x: u64, k: u32) -> u64 {
    ((x << k) | (x >> (32 - k))) & M
}

// The hash of a number: its two words, the low one first.
fn number_hash(n: u64) -> u64 {
    let start = (0x9E37_79B9 + 8 + 3_923_095) & M;
    let (mut a, mut b, mut c) = ((start + 0x7A5B_2236) & M, (start + 0x7996_DCFD) & M, start);
    a = (a.wrapping_sub(c) & M) ^ rot(c, 4);
    c = (c + b) & M;
    b = (b.wrapping_sub(a) & M) ^ rot(a, 6);
    a = (a + c) & M;
    c = (c.wrapping_sub(b) & M) ^ rot(b, 8);
    b = (b + a) & M;
    a = (a.wrapping_sub(c) & M) ^ rot(c, 16);
    c = (c + b) & M;
    b = (b.wrapping_sub(a) & M) ^ rot(a, 19);
    a = (a + c) & M;
    c = (c.wrapping_sub(b) & M) ^ rot(b, 4);
    b = (b + a) & M;
    a = (a + (n & M)) & M;
    b = (b + (n >> 32)) & M;
    c = (c ^ b).wrapping_sub(rot(b, 14)) & M;
    a = (a ^ c).wrapping_sub(rot(c, 11)) & M;
    b = (b ^ a).wrapping_sub(rot(a, 25)) & M;
    c = (c ^ b).wrapping_sub(rot(b, 16)) & M;
    a = (a ^ c).wrapping_sub(rot(c, 4)) & M;
    b = (b ^ a).wrapping_sub(rot(a, 14)) & M;
    c = (c ^ b).wrapping_sub(rot(b, 24)) & M;
    b << 32 | c
}

// The hash of a key of one number.
fn key_hash(n: i64) -> u64 {
    number_hash(n as u64).wrapping_add(0x49a0_f4dd_15e5_a8e3)
}

fn rows_of(count: u32) -> Vec<i64> {
    let mut state = 1u64;
    (0..1000)
        .map(|_| {
            state = state
                .wrapping_mul(6_364_136_223_846_793_005)
                .wrapping_add(1_442_695_040_888_963_407);
            ((state >> 33) % u64::from(count.max(1))) as i64
        })
        .collect()
}

// Routes each of the rows so many times, and sums up the numbers of the leaves, which stand from the last to the first, or
// counts them.
fn routes(prunes: bool, rows: &[i64], count: u32, rounds: u32, find: impl Fn(i64) -> Option<usize>) -> u64 {
    let mut sum = 0u64;
    for _ in 0..rounds {
        for row in rows {
            if let Some(at) = find(*row) {
                sum = sum.wrapping_add(if prunes { 1 } else { u64::from(count - 1) - at as u64 });
            }
        }
    }
    sum
}

fn main() {
    let words: Vec<String> = env::args().skip(1).collect();
    let prunes = words[0] == "prune";
    let count: u32 = words[2].parse().unwrap();
    let rounds: u32 = words[3].parse().unwrap();
    let numbers: Vec<i64> = (0..i64::from(count)).collect();
    let sum = match words[1].as_str() {
        "range" => {
            let bounds: Vec<(i64, i64)> = numbers.iter().map(|k| (k * 10, k * 10 + 10)).collect();
            routes(prunes, &rows_of(count * 10), count, rounds, |v| {
                let at = bounds.partition_point(|b| b.0 <= v).checked_sub(1)?;
                (v < bounds[at].1).then_some(at)
            })
        }
        "list" => routes(prunes, &rows_of(count), count, rounds, |v| numbers.binary_search(&v).ok()),
        _ => {
            let remainders: Vec<u64> = (0..u64::from(count)).collect();
            routes(prunes, &rows_of(count), count, rounds, |v| {
                remainders.binary_search(&(key_hash(v) % u64::from(count))).ok()
            })
        }
    };
    println!("{sum}");
}

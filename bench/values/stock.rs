// The values and loops of program.rattle in stock Rust: std's `parse` and `cmp`, digits written two
// at a time into a buffer as `itoa` does, and the hash written out.
use std::cmp::Ordering;

const COUNT: usize = 1000;

const TENS: [u64; 10] = [
    1,
    10,
    100,
    1_000,
    10_000,
    100_000,
    1_000_000,
    10_000_000,
    100_000_000,
    1_000_000_000,
];

const TEXT: &[u8] = b"the quick brown fox jumps over the lazy dog";

#[derive(Clone, Copy)]
enum Kind {
    Int4,
    Int8,
    Text,
    Day,
    Truth,
}

enum Value {
    Int4(i32),
    Int8(i64),
    Text(Vec<u8>),
    Day(i32),
    Truth(bool),
}

// The state of a refusal, and the texts that it tells of.
#[allow(dead_code)]
struct Fault {
    code: &'static [u8; 5],
    args: Vec<Vec<u8>>,
}

struct Numbers {
    state: u64,
}

impl Numbers {
    fn below(&mut self, limit: u64) -> u64 {
        self.state = self
            .state
            .wrapping_mul(6_364_136_223_846_793_005)
            .wrapping_add(1_442_695_040_888_963_407);
        (self.state >> 33) % limit
    }

    fn sign(&mut self) -> i64 {
        if self.below(2) == 0 {
            -1
        } else {
            1
        }
    }

    fn integer(&mut self) -> i32 {
        let digits = self.below(10);
        let number = (self.below(1_000_000_000) / TENS[digits as usize]) as i32;
        if self.below(2) == 0 {
            -number
        } else {
            number
        }
    }

    fn bigint(&mut self) -> i64 {
        let digits = self.below(10);
        let high = self.below(1_000_000_000);
        let low = self.below(1_000_000_000);
        let number = (high * 1_000_000_000 + low) / TENS[digits as usize];
        number as i64 * self.sign()
    }

    fn text(&mut self) -> Vec<u8> {
        let begin = self.below(8) as usize;
        let length = self.below(25) as usize;
        TEXT[begin..begin + length].to_vec()
    }

    fn day(&mut self) -> i32 {
        self.below(73_049) as i32 - 25_567
    }
}

struct Pair {
    a: Value,
    b: Value,
}

fn drawn_pair(numbers: &mut Numbers, kind: Kind) -> Pair {
    match kind {
        Kind::Int4 => Pair {
            a: Value::Int4(numbers.integer()),
            b: Value::Int4(numbers.integer()),
        },
        Kind::Int8 => Pair {
            a: Value::Int8(numbers.bigint()),
            b: Value::Int4(numbers.integer()),
        },
        Kind::Text => Pair {
            a: Value::Text(numbers.text()),
            b: Value::Text(numbers.text()),
        },
        Kind::Day => Pair {
            a: Value::Day(numbers.day()),
            b: Value::Day(numbers.day()),
        },
        Kind::Truth => Pair {
            a: Value::Truth(numbers.below(2) == 1),
            b: Value::Truth(numbers.below(2) == 1),
        },
    }
}

fn mix(word: &str) -> &'static [Kind] {
    match word {
        "integer" => &[Kind::Int4],
        "bigint" => &[Kind::Int8],
        "text" => &[Kind::Text],
        "date" => &[Kind::Day],
        "boolean" => &[Kind::Truth],
        _ => &[Kind::Int4, Kind::Int8, Kind::Text, Kind::Day, Kind::Truth],
    }
}

fn pairs(kinds: &[Kind]) -> Vec<Pair> {
    let mut numbers = Numbers { state: 1 };
    (0..COUNT)
        .map(|_| {
            let kind = kinds[numbers.below(kinds.len() as u64) as usize];
            drawn_pair(&mut numbers, kind)
        })
        .collect()
}

// --- reading

fn is_leap_year(year: i32) -> bool {
    year % 4 == 0 && (year % 100 != 0 || year % 400 == 0)
}

fn days_in_month(year: i32, month: i32) -> i32 {
    match month {
        4 | 6 | 9 | 11 => 30,
        2 if is_leap_year(year) => 29,
        2 => 28,
        _ => 31,
    }
}

// The days from 1970-01-01, by a year that begins in March.
fn day_number(year: i32, month: i32, day: i32) -> i32 {
    let year = if month <= 2 { year - 1 } else { year };
    let century = year / 100;
    let month = if month > 2 { month - 3 } else { month + 9 };
    year * 365 + year / 4 - century + century / 4 + (153 * month + 2) / 5 + day - 719_469
}

fn two_at(text: &[u8], i: usize) -> Option<i32> {
    let (tens, ones) = (text[i], text[i + 1]);
    (tens.is_ascii_digit() && ones.is_ascii_digit())
        .then(|| (tens - b'0') as i32 * 10 + (ones - b'0') as i32)
}

fn date_parts(text: &[u8]) -> Option<(i32, i32, i32)> {
    if text.len() != 10 || text[4] != b'-' || text[7] != b'-' {
        return None;
    }
    let year = two_at(text, 0)? * 100 + two_at(text, 2)?;
    Some((year, two_at(text, 5)?, two_at(text, 8)?))
}

fn form(text: &[u8], kind: &[u8]) -> Fault {
    Fault {
        code: b"22P02",
        args: vec![text.to_vec(), kind.to_vec()],
    }
}

fn read_value(kind: Kind, text: &[u8]) -> Result<Value, Fault> {
    match kind {
        Kind::Int4 => match std::str::from_utf8(text).map(str::parse::<i32>) {
            Ok(Ok(n)) => Ok(Value::Int4(n)),
            _ => Err(form(text, b"integer")),
        },
        Kind::Int8 => match std::str::from_utf8(text).map(str::parse::<i64>) {
            Ok(Ok(n)) => Ok(Value::Int8(n)),
            _ => Err(form(text, b"bigint")),
        },
        Kind::Text => Ok(Value::Text(text.to_vec())),
        Kind::Day => {
            let Some((year, month, day)) = date_parts(text) else {
                return Err(Fault {
                    code: b"22007",
                    args: vec![text.to_vec()],
                });
            };
            let is_there = year >= 1
                && (1..=12).contains(&month)
                && day >= 1
                && day <= days_in_month(year, month);
            if is_there {
                Ok(Value::Day(day_number(year, month, day)))
            } else {
                Err(Fault {
                    code: b"22008",
                    args: Vec::new(),
                })
            }
        }
        Kind::Truth => {
            if text.eq_ignore_ascii_case(b"t") || text.eq_ignore_ascii_case(b"true") {
                Ok(Value::Truth(true))
            } else if text.eq_ignore_ascii_case(b"f") || text.eq_ignore_ascii_case(b"false") {
                Ok(Value::Truth(false))
            } else {
                Err(form(text, b"boolean"))
            }
        }
    }
}

// --- printing

const TWO_DIGITS: &[u8; 200] = b"0001020304050607080910111213141516171819\
    2021222324252627282930313233343536373839\
    4041424344454647484950515253545556575859\
    6061626364656667686970717273747576777879\
    8081828384858687888990919293949596979899";

fn write_number(n: i64, out: &mut Vec<u8>) {
    let mut buffer = [0u8; 20];
    let mut at = buffer.len();
    let mut rest = n.unsigned_abs();
    while rest >= 100 {
        let two = (rest % 100) as usize * 2;
        rest /= 100;
        at -= 2;
        buffer[at..at + 2].copy_from_slice(&TWO_DIGITS[two..two + 2]);
    }
    if rest >= 10 {
        let two = rest as usize * 2;
        at -= 2;
        buffer[at..at + 2].copy_from_slice(&TWO_DIGITS[two..two + 2]);
    } else {
        at -= 1;
        buffer[at] = b'0' + rest as u8;
    }
    if n < 0 {
        at -= 1;
        buffer[at] = b'-';
    }
    out.extend_from_slice(&buffer[at..]);
}

// The year, month and day of a day that is counted from 1970-01-01.
fn civil(day: i32) -> (u32, u32, u32) {
    let day = (day + 719_468) as u32;
    let era = day / 146_097;
    let of_era = day % 146_097;
    let year = (of_era - of_era / 1_460 + of_era / 36_524 - of_era / 146_096) / 365;
    let of_year = of_era - (365 * year + year / 4 - year / 100);
    let month = (5 * of_year + 2) / 153;
    let day = of_year - (153 * month + 2) / 5 + 1;
    let month = if month < 10 { month + 3 } else { month - 9 };
    let year = year + era * 400 + (month <= 2) as u32;
    (year, month, day)
}

fn put_two(buffer: &mut [u8; 10], at: usize, n: u32) {
    let two = n as usize * 2;
    buffer[at..at + 2].copy_from_slice(&TWO_DIGITS[two..two + 2]);
}

fn write_value(value: &Value, out: &mut Vec<u8>) {
    match value {
        Value::Int4(n) => write_number(*n as i64, out),
        Value::Int8(n) => write_number(*n, out),
        Value::Text(text) => out.extend_from_slice(text),
        Value::Day(day) => {
            let (year, month, day) = civil(*day);
            let mut buffer = *b"0000-00-00";
            put_two(&mut buffer, 0, year / 100);
            put_two(&mut buffer, 2, year % 100);
            put_two(&mut buffer, 5, month);
            put_two(&mut buffer, 8, day);
            out.extend_from_slice(&buffer);
        }
        Value::Truth(truth) => out.push(if *truth { b't' } else { b'f' }),
    }
}

// --- comparing

fn cmp_values(a: &Value, b: &Value) -> Ordering {
    match (a, b) {
        (Value::Int4(m), Value::Int4(n)) => m.cmp(n),
        (Value::Int4(m), Value::Int8(n)) => (*m as i64).cmp(n),
        (Value::Int8(m), Value::Int4(n)) => m.cmp(&(*n as i64)),
        (Value::Int8(m), Value::Int8(n)) => m.cmp(n),
        (Value::Text(s), Value::Text(t)) => s.cmp(t),
        (Value::Day(m), Value::Day(n)) => m.cmp(n),
        (Value::Truth(p), Value::Truth(q)) => p.cmp(q),
        _ => unreachable!(),
    }
}

// --- hashing

type Words = (u32, u32, u32);

fn mixed((mut a, mut b, mut c): Words) -> Words {
    for k in [4, 6, 8, 16, 19, 4] {
        let turned = a.wrapping_sub(c) ^ c.rotate_left(k);
        (a, b, c) = (b, c.wrapping_add(b), turned);
    }
    (a, b, c)
}

fn started(bytes: usize) -> Words {
    let base = 0x9e37_79b9u32
        .wrapping_add(bytes as u32)
        .wrapping_add(3_923_095);
    mixed((
        base.wrapping_add(0x7a5b_2236),
        base.wrapping_add(0x7996_dcfd),
        base,
    ))
}

fn finished((mut a, mut b, mut c): (u32, u32, u32)) -> u64 {
    for k in [14, 11, 25, 16, 4, 14, 24] {
        let laid = (c ^ b).wrapping_sub(b.rotate_left(k));
        (a, b, c) = (b, laid, a);
    }
    (a as u64) << 32 | b as u64
}

fn number_hash(n: i64) -> u64 {
    let (a, b, c) = started(8);
    finished((
        a.wrapping_add(n as u32),
        b.wrapping_add((n as u64 >> 32) as u32),
        c,
    ))
}

fn added((a, b, c): Words, group: &[u8; 12]) -> Words {
    let word = |i: usize| u32::from_le_bytes(group[i..i + 4].try_into().unwrap());
    (
        a.wrapping_add(word(0)),
        b.wrapping_add(word(4)),
        c.wrapping_add(word(8)),
    )
}

fn text_hash(text: &[u8]) -> u64 {
    let mut words = started(text.len());
    let mut rest = text;
    while rest.len() > 12 {
        words = mixed(added(words, rest[..12].try_into().unwrap()));
        rest = &rest[12..];
    }
    let mut last = [0u8; 12];
    last[..rest.len()].copy_from_slice(rest);
    finished(added(words, &last))
}

fn value_hash(value: &Value) -> u64 {
    match value {
        Value::Int4(n) => number_hash(*n as i64),
        Value::Int8(n) => number_hash(*n),
        Value::Text(text) => text_hash(text),
        Value::Day(day) => number_hash(*day as i64),
        Value::Truth(truth) => number_hash(*truth as i64),
    }
}

// --- the loops

fn kind_of(value: &Value) -> Kind {
    match value {
        Value::Int4(_) => Kind::Int4,
        Value::Int8(_) => Kind::Int8,
        Value::Text(_) => Kind::Text,
        Value::Day(_) => Kind::Day,
        Value::Truth(_) => Kind::Truth,
    }
}

fn weight(value: &Value) -> u64 {
    match value {
        Value::Int4(n) => *n as u64,
        Value::Int8(n) => *n as u64,
        Value::Text(text) => text.len() as u64,
        Value::Day(day) => *day as u64,
        Value::Truth(truth) => *truth as u64,
    }
}

fn parse(pairs: &[Pair], rounds: u64) -> u64 {
    let spellings: Vec<(Kind, Vec<u8>)> = pairs
        .iter()
        .map(|pair| {
            let mut text = Vec::new();
            write_value(&pair.a, &mut text);
            (kind_of(&pair.a), text)
        })
        .collect();
    let mut sum = 0u64;
    for _ in 0..rounds {
        for (kind, text) in &spellings {
            if let Ok(value) = read_value(*kind, text) {
                sum = sum.wrapping_add(weight(&value));
            }
        }
    }
    sum
}

fn print(pairs: &[Pair], rounds: u64) -> u64 {
    let mut out = Vec::new();
    let mut sum = 0u64;
    for _ in 0..rounds {
        for pair in pairs {
            out.clear();
            write_value(&pair.a, &mut out);
            sum = sum.wrapping_add(out.len() as u64);
        }
    }
    sum
}

fn compare(pairs: &[Pair], rounds: u64) -> u64 {
    let mut sum = 0u64;
    for _ in 0..rounds {
        for pair in pairs {
            if cmp_values(&pair.a, &pair.b).is_lt() {
                sum = sum.wrapping_add(1);
            }
        }
    }
    sum
}

fn hash(pairs: &[Pair], rounds: u64) -> u64 {
    let mut sum = 0u64;
    for _ in 0..rounds {
        for pair in pairs {
            sum = sum.wrapping_add(value_hash(&pair.a));
        }
    }
    sum
}

fn main() {
    let words: Vec<String> = std::env::args().skip(1).collect();
    let pairs = pairs(mix(&words[1]));
    let rounds = words[2].parse().unwrap();
    let sum = match words[0].as_str() {
        "parse" => parse(&pairs, rounds),
        "print" => print(&pairs, rounds),
        "compare" => compare(&pairs, rounds),
        _ => hash(&pairs, rounds),
    };
    println!("{sum}");
}

// The work of the scripts of `run` in stock Rust, over rows of values in versions, as a store keeps them: each version knows by
// which statement it was made and by which it was ended, and each partition has a list of the numbers of its versions, from
// which those that are ended are taken once it is twice as long as it was left the last time.
//
//   stock insert ROWS ROUNDS        a table of 1,000 partitions is filled, in statements of 1,000 rows
//   stock change ROWS ROUNDS        such a table is filled once, and a column of all rows that is no key is changed
//   stock move ROWS ROUNDS          .. and the key of all rows is changed, which moves each to another partition
//   stock one TIMES ROUNDS          the one row of a table is changed so many times
//   stock permutations COUNT STEPS  so often a table is made, and its row is read in so many steps and printed, as text
//
// All but the last print the second column of the row whose key is 5.
use std::env;
use std::fmt::Write;
use std::hint::black_box;

const PARTITIONS: i64 = 1000;

// A list with fewer versions is not gone through.
const FEW: usize = 16;

#[allow(dead_code)]
#[derive(Clone)]
enum Value {
    Int(i64),
    Text(String),
}

type Row = Vec<Value>;

fn number(value: &Value) -> i64 {
    match value {
        Value::Int(number) => *number,
        Value::Text(_) => 0,
    }
}

struct Version {
    row: Row,
    made: u32,
    ended: Option<u32>,
}

struct Partition {
    lower: i64,
    list: Vec<u32>,
    left: usize,
}

struct Table {
    versions: Vec<Version>,
    partitions: Vec<Partition>,
    statements: u32,
}

impl Table {
    fn new(partitions: i64, rows: i64) -> Self {
        let width = rows / partitions;
        let partitions = (0..partitions).map(|i| Partition { lower: i * width, list: Vec::new(), left: 0 }).collect();
        Table { versions: Vec::new(), partitions, statements: 0 }
    }

    fn at(&self, row: &Row) -> usize {
        let key = number(&row[0]);
        self.partitions.partition_point(|p| p.lower <= key) - 1
    }

    fn put(&mut self, at: usize, row: Row) {
        let list = &mut self.partitions[at].list;
        list.push(self.versions.len() as u32);
        self.versions.push(Version { row, made: self.statements, ended: None });
        if list.len() >= FEW && list.len() / 2 > self.partitions[at].left {
            self.vacuum(at);
        }
    }

    fn vacuum(&mut self, at: usize) {
        let now = self.statements;
        let versions = &self.versions;
        let partition = &mut self.partitions[at];
        partition.list.retain(|n| versions[*n as usize].ended.map_or(true, |by| by == now));
        partition.left = partition.list.len();
    }

    // The versions of a partition that a statement sees.
    fn seen(&self, at: usize) -> Vec<u32> {
        let is_seen = |n: &u32| {
            let version = &self.versions[*n as usize];
            version.made < self.statements && version.ended.is_none()
        };
        self.partitions[at].list.iter().copied().filter(is_seen).collect()
    }

    fn insert(&mut self, rows: Vec<Row>) {
        self.statements += 1;
        for row in rows {
            let at = self.at(&row);
            self.put(at, row);
        }
    }

    fn update(&mut self, change: impl Fn(&Row) -> Row) {
        self.statements += 1;
        let targets: Vec<Vec<u32>> = (0..self.partitions.len()).map(|at| self.seen(at)).collect();
        for n in targets.into_iter().flatten() {
            let row = change(&self.versions[n as usize].row);
            let at = self.at(&row);
            self.versions[n as usize].ended = Some(self.statements);
            self.put(at, row);
        }
    }

    // The second column of the row with this key.
    fn asked(&mut self, key: i64) -> i64 {
        self.statements += 1;
        (0..self.partitions.len())
            .flat_map(|at| self.seen(at))
            .map(|n| &self.versions[n as usize].row)
            .find(|row| number(&row[0]) == key)
            .map_or(-1, |row| number(&row[1]))
    }
}

fn row(key: i64, other: i64) -> Row {
    vec![Value::Int(key), Value::Int(other)]
}

fn filled(rows: i64) -> Table {
    let mut table = Table::new(PARTITIONS, rows);
    for first in (0..rows).step_by(1000) {
        table.insert((first..first + 1000).map(|k| row((k * 7919) % rows, k)).collect());
    }
    table
}

fn changed_often(times: i64) -> Table {
    let mut table = Table::new(1, 1);
    table.insert(vec![row(5, 0)]);
    for _ in 0..times {
        table.update(|r| row(number(&r[0]), number(&r[1]) + 1));
    }
    table
}

fn print(steps: i64, text: &mut String) {
    let mut table = Table::new(1, 1);
    table.insert(vec![vec![Value::Int(1)]]);
    text.push_str("\nstarting permutation:");
    for _ in 0..steps {
        text.push_str(" q");
    }
    text.push('\n');
    for _ in 0..steps {
        table.statements += 1;
        let seen = table.seen(0);
        text.push_str("step q: SELECT a FROM t;\na\n-\n");
        for n in &seen {
            let _ = writeln!(text, "{}", number(&table.versions[*n as usize].row[0]));
        }
        let _ = write!(text, "({} row)\n\n", seen.len());
    }
}

fn main() {
    let words: Vec<String> = env::args().skip(1).collect();
    let count = |at: usize| words.get(at).and_then(|word| word.parse::<i64>().ok()).unwrap_or(0);
    let mut table;
    match words.first().map(String::as_str) {
        Some("insert") => {
            table = filled(1000);
            for _ in 0..count(2) {
                table = black_box(filled(count(1)));
            }
        }
        Some("change") => {
            table = filled(count(1));
            for _ in 0..count(2) {
                table.update(|r| row(number(&r[0]), number(&r[1]) + 1));
            }
        }
        Some("move") => {
            let most = count(1) - 1;
            table = filled(count(1));
            for _ in 0..count(2) {
                table.update(|r| row(most - number(&r[0]), number(&r[1])));
            }
        }
        Some("one") => {
            table = changed_often(1);
            for _ in 0..count(2) {
                table = black_box(changed_often(count(1)));
            }
        }
        _ => {
            let mut text = String::from("Parsed test spec with 1 sessions\n");
            for _ in 0..count(1) {
                print(count(2), &mut text);
            }
            print!("{text}");
            return;
        }
    }
    println!("{}", table.asked(5));
}

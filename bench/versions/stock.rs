// The versions and the loop of program.rattle in stock Rust: a plain vector of rows, each with who
// made it and who ended it, a list of their numbers without some that are dead, and the same test of
// what a snapshot sees.
const EACH: u64 = 100;

// Fewer versions are not gone through.
const FEW: usize = 64;

#[allow(dead_code)]
enum Value {
    Int4(i32),
    Int8(i64),
}

#[derive(Clone, Copy, PartialEq)]
enum Fate {
    Running,
    Committed,
    Aborted,
}

#[derive(Clone, Copy)]
struct End {
    by: u64,
    cmd: u32,
}

struct Version {
    row: Vec<Value>,
    by: u64,
    cmd: u32,
    ended: Option<End>,
}

struct Numbers {
    state: u64,
}

impl Numbers {
    fn says(&mut self, times: u32) -> bool {
        self.state = self
            .state
            .wrapping_mul(6_364_136_223_846_793_005)
            .wrapping_add(1_442_695_040_888_963_407);
        ((self.state >> 33) as u32) % times == 0
    }
}

struct Snapshot {
    next: u64,
    running: Vec<u64>,
    own: u64,
    cmd: u32,
}

struct World {
    fates: Vec<Fate>,
    current: Vec<Option<u64>>,
    versions: Vec<Version>,
    list: Vec<u32>,
    // How many numbers the last vacuum left.
    left: usize,
    numbers: Numbers,
}

impl World {
    fn begin(&mut self, session: usize) {
        if self.current[session].is_none() {
            self.current[session] = Some(self.fates.len() as u64);
            self.fates.push(Fate::Running);
        }
    }

    fn end(&mut self, session: usize, fate: Fate) {
        if let Some(tx) = self.current[session].take() {
            self.fates[tx as usize] = fate;
        }
    }

    fn fate(&self, tx: u64) -> Fate {
        self.fates.get(tx as usize).copied().unwrap_or(Fate::Running)
    }

    fn delete(&mut self, number: usize, by: u64, cmd: u32) {
        let stands = match self.versions[number].ended {
            Some(end) => self.fate(end.by) == Fate::Aborted,
            None => true,
        };
        let made_by = self.versions[number].by;
        if stands && (self.fate(made_by) == Fate::Committed || made_by == by) {
            self.versions[number].ended = Some(End { by, cmd });
        }
    }

    // Whether nobody sees the version any more. No session holds a snapshot.
    fn is_dead(&self, version: &Version) -> bool {
        match self.fate(version.by) {
            Fate::Running => false,
            Fate::Aborted => true,
            Fate::Committed => match version.ended {
                Some(end) => self.fate(end.by) == Fate::Committed,
                None => false,
            },
        }
    }

    fn vacuum(&mut self) {
        if self.list.len() < FEW || self.list.len() / 2 <= self.left {
            return;
        }
        let mut list = std::mem::take(&mut self.list);
        list.retain(|&number| !self.is_dead(&self.versions[number as usize]));
        self.left = list.len();
        self.list = list;
    }

    fn snapshot(&self, session: usize) -> Option<Snapshot> {
        Some(Snapshot {
            next: self.fates.len() as u64,
            running: self.current.iter().flatten().copied().collect(),
            own: self.current[session]?,
            cmd: 0,
        })
    }

    fn sees(&self, snap: &Snapshot, tx: u64, cmd: u32) -> bool {
        if self.fate(tx) == Fate::Committed && tx < snap.next && !snap.running.contains(&tx) {
            return true;
        }
        tx == snap.own && cmd < snap.cmd
    }

    fn shows(&self, snap: &Snapshot, version: &Version) -> bool {
        if !self.sees(snap, version.by, version.cmd) {
            return false;
        }
        match version.ended {
            Some(end) => self.fate(end.by) == Fate::Aborted || !self.sees(snap, end.by, end.cmd),
            None => true,
        }
    }
}

fn new_world(versions: u64, running: u32) -> World {
    let mut world = World {
        fates: Vec::new(),
        current: vec![None; 65],
        versions: Vec::new(),
        list: Vec::new(),
        left: 0,
        numbers: Numbers { state: 1 },
    };
    for number in 0..versions {
        if number % EACH == 0 {
            let commits = !world.numbers.says(8);
            world.end(0, if commits { Fate::Committed } else { Fate::Aborted });
            world.begin(0);
        }
        let turn = (number % 64) as u32;
        if turn < running {
            world.begin(turn as usize + 1);
        }
        let is_beside = world.numbers.says(16);
        let session = if is_beside && turn < running { turn + 1 } else { 0 };
        if let Some(tx) = world.current[session as usize] {
            let cmd = (number % EACH) as u32;
            world.versions.push(Version {
                row: vec![Value::Int8(number as i64), Value::Int4((number & 0xffff) as i32)],
                by: tx,
                cmd,
                ended: None,
            });
            world.list.push(number as u32);
            world.vacuum();
            if world.numbers.says(8) && number >= 1000 {
                world.delete(number as usize - 1000, tx, cmd);
            }
        }
    }
    world.end(0, Fate::Committed);
    world
}

fn scan(world: &World, rounds: u64) -> u64 {
    let mut sum = 0u64;
    let Some(mut snap) = world.snapshot(1) else {
        return sum;
    };
    snap.cmd = 50;
    for _ in 0..rounds {
        for &number in &world.list {
            let version = &world.versions[number as usize];
            if world.shows(&snap, version) {
                sum = sum.wrapping_add(u64::from(number)).wrapping_add(version.row.len() as u64);
            }
        }
    }
    sum
}

fn main() {
    let words: Vec<u64> = std::env::args().skip(1).filter_map(|word| word.parse().ok()).collect();
    let [versions, running, rounds] = words[..] else {
        std::process::exit(2);
    };
    let world = new_world(versions, running as u32);
    println!("{}", scan(&world, rounds));
}

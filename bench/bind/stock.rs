// The conditions and the loop of program.rattle in stock Rust: the same enums, three values, and std's `cmp`.
use std::cmp::Ordering;

#[allow(dead_code)]
enum Value {
    Null,
    Int4(i32),
    Int8(i64),
    Text(Vec<u8>),
    Day(i32),
    Truth(bool),
}

#[derive(Clone, Copy, PartialEq)]
enum Truth3 {
    Yes,
    No,
    Unknown,
}

#[allow(dead_code)]
enum Operand {
    Column(u32, usize),
    Lit(Value),
    Param(usize),
}

#[allow(dead_code)]
#[derive(Clone, Copy)]
enum CompareOp {
    Eq,
    Ne,
    Lt,
    Le,
    Gt,
    Ge,
}

#[allow(dead_code)]
enum Cond {
    And(Vec<Cond>),
    Or(Vec<Cond>),
    Not(Box<Cond>),
    Compare(CompareOp, Operand, Operand),
    IsNull(Operand),
    Const(Truth3),
}

struct Binding<'a> {
    args: &'a [Value],
    rows: [Option<&'a [Value]>; 4],
}

fn operand<'b>(binding: &'b Binding<'_>, operand: &'b Operand) -> Option<&'b Value> {
    match operand {
        Operand::Column(item, position) => binding.rows.get(*item as usize)?.as_ref()?.get(*position),
        Operand::Lit(value) => Some(value),
        Operand::Param(place) => binding.args.get(*place),
    }
}

fn order(a: &Value, b: &Value) -> Option<Ordering> {
    match (a, b) {
        (Value::Int4(m), Value::Int4(n)) => Some(m.cmp(n)),
        (Value::Int4(m), Value::Int8(n)) => Some(i64::from(*m).cmp(n)),
        (Value::Int8(m), Value::Int4(n)) => Some(m.cmp(&i64::from(*n))),
        (Value::Int8(m), Value::Int8(n)) => Some(m.cmp(n)),
        (Value::Text(s), Value::Text(t)) => Some(s.cmp(t)),
        (Value::Day(d), Value::Day(e)) => Some(d.cmp(e)),
        (Value::Truth(p), Value::Truth(q)) => Some(p.cmp(q)),
        _ => None,
    }
}

fn compared(op: CompareOp, order: Ordering) -> Truth3 {
    let holds = match op {
        CompareOp::Eq => order == Ordering::Equal,
        CompareOp::Ne => order != Ordering::Equal,
        CompareOp::Lt => order == Ordering::Less,
        CompareOp::Le => order != Ordering::Greater,
        CompareOp::Gt => order == Ordering::Greater,
        CompareOp::Ge => order != Ordering::Less,
    };
    if holds { Truth3::Yes } else { Truth3::No }
}

fn eval(cond: &Cond, binding: &Binding<'_>) -> Truth3 {
    match cond {
        Cond::And(parts) => {
            let mut all = Truth3::Yes;
            for part in parts {
                match eval(part, binding) {
                    Truth3::No => return Truth3::No,
                    Truth3::Unknown => all = Truth3::Unknown,
                    Truth3::Yes => {}
                }
            }
            all
        }
        Cond::Or(parts) => {
            let mut any = Truth3::No;
            for part in parts {
                match eval(part, binding) {
                    Truth3::Yes => return Truth3::Yes,
                    Truth3::Unknown => any = Truth3::Unknown,
                    Truth3::No => {}
                }
            }
            any
        }
        Cond::Not(part) => match eval(part, binding) {
            Truth3::Yes => Truth3::No,
            Truth3::No => Truth3::Yes,
            Truth3::Unknown => Truth3::Unknown,
        },
        Cond::Compare(op, left, right) => match (operand(binding, left), operand(binding, right)) {
            (Some(a), Some(b)) => match order(a, b) {
                Some(order) => compared(*op, order),
                None => Truth3::Unknown,
            },
            _ => Truth3::Unknown,
        },
        Cond::IsNull(x) => match operand(binding, x) {
            None | Some(Value::Null) => Truth3::Yes,
            Some(_) => Truth3::No,
        },
        Cond::Const(truth) => *truth,
    }
}

fn comparison(op: CompareOp, n: i32) -> Cond {
    Cond::Compare(op, Operand::Column(0, 0), Operand::Lit(Value::Int4(n)))
}

fn main() {
    let words: Vec<String> = std::env::args().skip(1).collect();
    let times: usize = words[1].parse().unwrap();
    let rounds: u64 = words[2].parse().unwrap();
    let cond = match (words[0].as_str(), times) {
        ("ands", 1) => comparison(CompareOp::Ge, -1),
        ("ands", _) => Cond::And((0..times).map(|_| comparison(CompareOp::Ge, -1)).collect()),
        _ => Cond::Or((0..times).map(|_| comparison(CompareOp::Eq, 1_234_567)).collect()),
    };
    let rows: Vec<Vec<Value>> = (0..1000).map(|n| vec![Value::Int4(n)]).collect();
    let mut count = 0u64;
    for _ in 0..rounds {
        for row in &rows {
            let binding = Binding { args: &[], rows: [Some(row), None, None, None] };
            if eval(std::hint::black_box(&cond), &binding) == Truth3::Yes {
                count = count.wrapping_add(1);
            }
        }
    }
    println!("{count}");
}

//! The vectors: each line a call and the answer that the requirements give. The library gives it, and so does the
//! evaluator. The file says at its head what a line may be; any other ends the test.

use std::collections::BTreeMap;
use std::str::FromStr;

use crate::compare::Compare;
use crate::evaluator::{self, Diagram, Due, Joint, Table, Values, MOST_SUBJECTS};

const VECTORS: &str = include_str!("../../../crates/cases/stdin");

/// How many cases there are of each call at least.
const LEAST: [(&str, usize); 7] = [
    ("read", 195),
    ("rule", 770),
    ("read_standard", 110),
    ("rule_standard", 140),
    ("build", 110),
    ("attach", 175),
    ("look_up", 350),
];

/// A call with its input, what is asked, and how many places or bytes are lent.
enum Call {
    Read(Vec<u8>),
    Rule(Vec<u8>, Joint, usize),
    ReadStandard(Vec<u8>),
    RuleStandard(Vec<u8>, Joint, usize),
    Build(Vec<u8>, usize),
    LookUp(Vec<u16>, Values, usize),
    Attach(Vec<u8>, Vec<u8>, usize),
}

impl Call {
    fn name(&self) -> &'static str {
        match self {
            Call::Read(_) => "read",
            Call::Rule(..) => "rule",
            Call::ReadStandard(_) => "read_standard",
            Call::RuleStandard(..) => "rule_standard",
            Call::Build(..) => "build",
            Call::LookUp(..) => "look_up",
            Call::Attach(..) => "attach",
        }
    }

    /// What is due by the evaluator.
    fn evaluated(&self) -> Due {
        match self {
            Call::Read(bytes) => Due::read(&Table::read(bytes)),
            Call::Rule(bytes, joint, places) => {
                let ruled = evaluator::rule(&Table::read(bytes), joint);
                Due::ruled(&ruled, joint, *places)
            }
            Call::ReadStandard(bytes) => Due::read(&Table::read_standard(bytes)),
            Call::RuleStandard(bytes, joint, places) => {
                let ruled = evaluator::rule_standard(&Table::read_standard(bytes), joint);
                Due::ruled(&ruled, joint, *places)
            }
            Call::Build(bytes, places) => {
                let walked = evaluator::walk(&Table::read(bytes));
                Due::built(&walked, *places)
            }
            Call::LookUp(diagram, values, places) => {
                let ruled = evaluator::look_up(&Diagram::check(diagram), *values);
                Due::listed(&ruled, *places)
            }
            Call::Attach(base, expansion, bytes) => {
                let attached = evaluator::attach(base, expansion);
                let mut due = Due::attached(&attached, *bytes);
                // a table may end with zeros, which no line has
                let last = due.numbers.iter().rposition(|&byte| byte != 0);
                due.numbers.truncate(last.map_or(0, |last| last + 1));
                due
            }
        }
    }

    fn compare(&self, compare: &mut Compare, due: &Due) {
        match self {
            Call::Read(bytes) => compare.reads(bytes, due),
            Call::Rule(bytes, joint, places) => compare.rules(bytes, joint, *places, due),
            Call::ReadStandard(bytes) => compare.reads_standard(bytes, due),
            Call::RuleStandard(bytes, joint, places) => {
                compare.rules_standard(bytes, joint, *places, due);
            }
            Call::Build(bytes, places) => {
                compare.builds(bytes, *places, due);
            }
            Call::LookUp(diagram, values, places) => {
                compare.looks_up(diagram, *values, *places, due);
            }
            Call::Attach(base, expansion, bytes) => {
                compare.attaches(base, expansion, *bytes, due);
            }
        }
    }
}

/// The last table and the last diagram, which cases start from, and the last expansion.
#[derive(Default)]
struct Starts {
    table: Vec<u8>,
    diagram: Vec<u16>,
    expansion: Vec<u8>,
}

/// The cases, each with the number of its line.
fn cases() -> Vec<(usize, Call, Due)> {
    let mut starts = Starts::default();
    let mut cases = Vec::new();
    for (number, line) in (1..).zip(VECTORS.lines()) {
        let understood = if line.is_empty() || line.starts_with('#') {
            Some(())
        } else if let Some(bytes) = line.strip_prefix("table ") {
            bytes_in(bytes).map(|bytes| starts.table = bytes)
        } else if let Some(numbers) = line.strip_prefix("diagram ") {
            numbers_in(numbers).map(|numbers| starts.diagram = numbers)
        } else if let Some(bytes) = line.strip_prefix("expansion ") {
            bytes_in(bytes).map(|bytes| starts.expansion = bytes)
        } else {
            let case = starts.case(line);
            case.map(|(call, due)| cases.push((number, call, due)))
        };
        assert!(
            understood.is_some(),
            "line {number} is not understood: {line}"
        );
    }
    cases
}

impl Starts {
    fn case(&self, line: &str) -> Option<(Call, Due)> {
        let (_name, case) = line.split_once(':')?;
        let parts: Vec<&str> = case.split(';').map(str::trim).collect();
        let [call, changes, answer, written] = parts[..] else {
            return None;
        };
        Some((self.call(call, changes)?, due(answer, written)?))
    }

    fn call(&self, call: &str, changes: &str) -> Option<Call> {
        let table = || changed(&self.table, changes);
        let diagram = || changed(&self.diagram, changes);
        if let Some((name, asked)) = call.split_once(" {") {
            let (set, others) = asked.split_once("} ")?;
            let words: Vec<&str> = others.split(' ').collect();
            let [resource, action, "list", places] = words[..] else {
                return None;
            };
            let joint = Joint::new(members(set)?, [number(resource)?, number(action)?]);
            let places = number(places)?;
            return match name {
                "rule" => Some(Call::Rule(table()?, joint, places)),
                "rule_standard" => Some(Call::RuleStandard(table()?, joint, places)),
                _ => None,
            };
        }
        let words: Vec<&str> = call.split(' ').collect();
        Some(match words[..] {
            ["read"] => Call::Read(table()?),
            ["read_standard"] => Call::ReadStandard(table()?),
            ["build", "room", places] => Call::Build(table()?, number(places)?),
            ["look_up", ref asked @ .., "list", places] => {
                Call::LookUp(diagram()?, values(asked)?, number(places)?)
            }
            ["attach", "room", bytes] => {
                Call::Attach(table()?, self.expansion.clone(), number(bytes)?)
            }
            _ => return None,
        })
    }
}

/// A table or diagram after changes of its length and of its numbers.
fn changed<T: Copy + Default + FromStr>(numbers: &[T], changes: &str) -> Option<Vec<T>> {
    let mut changed = numbers.to_vec();
    let changes = changes.split(", ").filter(|change| !change.is_empty());
    for (turn, change) in changes.enumerate() {
        match change.split_once(' ')? {
            ("length", length) if turn == 0 => changed.resize(number(length)?, T::default()),
            (place, value) => *changed.get_mut(number::<usize>(place)?)? = number(value)?,
        }
    }
    Some(changed)
}

fn due(answer: &str, written: &str) -> Option<Due> {
    let answer: Vec<usize> = numbers_in(answer)?;
    let [number, place, decision, count, subjects] = answer[..] else {
        return None;
    };
    let numbers: Vec<u16> = numbers_in(written)?;
    if numbers.last() == Some(&0) {
        return None;
    }
    Some(Due {
        number: number.try_into().ok()?,
        place,
        decision: decision.try_into().ok()?,
        count,
        subjects,
        numbers,
    })
}

fn values(words: &[&str]) -> Option<Values> {
    let values: Option<Vec<u16>> = words.iter().map(|word| number(word)).collect();
    values?.try_into().ok()
}

/// The members of a set, a space between two.
fn members(text: &str) -> Option<Vec<u16>> {
    let words = text.split(' ').filter(|_| !text.is_empty());
    let member = |word| number(word).filter(|&member| member < MOST_SUBJECTS);
    words.map(member).collect()
}

/// Decimal numbers, parted by spaces and commas.
fn numbers_in<T: FromStr>(text: &str) -> Option<Vec<T>> {
    let words = text.split([' ', ',']).filter(|word| !word.is_empty());
    words.map(number).collect()
}

fn number<T: FromStr>(word: &str) -> Option<T> {
    let digits = word.bytes().all(|digit| digit.is_ascii_digit());
    word.parse().ok().filter(|_| digits)
}

/// Bytes of two hexadecimal digits, a space between two.
fn bytes_in(text: &str) -> Option<Vec<u8>> {
    let byte = |word: &str| {
        let digits = word.len() == 2 && word.bytes().all(|digit| digit.is_ascii_hexdigit());
        u8::from_str_radix(word, 16).ok().filter(|_| digits)
    };
    text.split(' ').map(byte).collect()
}

#[test]
fn every_line() {
    let mut compare = Compare::new("vectors");
    let mut counts: BTreeMap<&str, usize> = BTreeMap::new();
    for (line, call, due) in cases() {
        compare.case("line", line);
        compare.same("what the evaluator gives", &call.evaluated(), &due);
        call.compare(&mut compare, &due);
        *counts.entry(call.name()).or_default() += 1;
    }
    println!("cases of each call: {counts:?}");
    for (call, least) in LEAST {
        assert!(counts[call] >= least, "too few cases of {call}");
    }
    compare.end(10_000, 0..=19, 3);
}

//! Calls the library and compares what it hands back and writes with what is due, number by number, and counts.

use std::fmt::Debug;
use std::iter;
use std::sync::Mutex;

use kolfsein::{Decision, JointRequest, JointRuling, Refusal, Request, Subjects};

use crate::evaluator::{Due, Joint, Refused, Ruled, Values, MOST_SUBJECTS};

/// A number that is lent to be written: a place of a list or of a diagram, or a byte of a table.
trait Number: Copy + Debug + PartialEq + Into<u16> {
    /// What stands in lent places before a call, and around them: no 0, and seldom a number that is due.
    const MARK: Self;
}

impl Number for u16 {
    const MARK: u16 = 0xA5A5;
}

impl Number for u8 {
    const MARK: u8 = 0xA5;
}

/// How many marks stand before what is lent, and how many after it.
const AROUND: usize = 4;

/// Numbers of answers, 0 or a refusal's, are below this.
const NUMBERS: usize = 20;

/// How many tests compare, and how many comparisons all of them make at least.
const TESTS: usize = 29;
const COMPARISONS: u64 = 900_000_000;

/// What the tests that ended did.
static ENDED: Mutex<Ended> = Mutex::new(Ended {
    tests: 0,
    calls: 0,
    comparisons: 0,
});

struct Ended {
    tests: usize,
    calls: u64,
    comparisons: u64,
}

/// A call that reads a table, and one that rules by it: the plain one, or that of the profile.
type Read = fn(&[u8]) -> Result<usize, Refusal>;
type Rule = fn(&[u8], JointRequest, &mut [u16]) -> Result<JointRuling, Refusal>;

pub struct Compare {
    test: &'static str,
    case: (&'static str, usize),
    comparisons: u64,
    /// How often each number, 0 or a refusal's, and each decision was due.
    numbers: [u64; NUMBERS],
    decisions: [u64; 4],
    /// How often indeterminate was due with no card, and with one.
    silent: [u64; 2],
    /// How often sets of each size were ruled on, and sets with each subject.
    sizes: [u64; 1 + MOST_SUBJECTS as usize],
    members: [u64; MOST_SUBJECTS as usize],
}

impl Compare {
    pub fn new(test: &'static str) -> Compare {
        Compare {
            test,
            case: ("case", 0),
            comparisons: 0,
            numbers: [0; NUMBERS],
            decisions: [0; 4],
            silent: [0; 2],
            sizes: [0; 1 + MOST_SUBJECTS as usize],
            members: [0; MOST_SUBJECTS as usize],
        }
    }

    /// Names what is compared next, for a difference that is found.
    pub fn case(&mut self, what: &'static str, number: usize) {
        self.case = (what, number);
    }

    pub fn reads(&mut self, bytes: &[u8], due: &Due) {
        self.reads_by(kolfsein::read, bytes, due);
    }

    pub fn reads_standard(&mut self, bytes: &[u8], due: &Due) {
        self.reads_by(kolfsein::read_standard, bytes, due);
    }

    /// Rules with each of some lists.
    pub fn rules_with(
        &mut self,
        bytes: &[u8],
        joint: &Joint,
        ruled: &Result<Ruled, Refused>,
        lists: impl IntoIterator<Item = usize>,
    ) {
        for places in lists {
            self.rules(bytes, joint, places, &Due::ruled(ruled, joint, places));
        }
    }

    /// Rules by the profile with each of some lists.
    pub fn rules_standard_with(
        &mut self,
        bytes: &[u8],
        joint: &Joint,
        ruled: &Result<Ruled, Refused>,
        lists: impl IntoIterator<Item = usize>,
    ) {
        for places in lists {
            self.rules_standard(bytes, joint, places, &Due::ruled(ruled, joint, places));
        }
    }

    /// Builds in each of some rooms.
    pub fn builds_in(
        &mut self,
        bytes: &[u8],
        walked: &Result<Vec<usize>, Refused>,
        rooms: impl IntoIterator<Item = usize>,
    ) {
        for places in rooms {
            self.builds(bytes, places, &Due::built(walked, places));
        }
    }

    /// Looks up with each of some lists.
    pub fn looks_up_with(
        &mut self,
        diagram: &[u16],
        values: Values,
        ruled: &Result<Ruled, Refused>,
        lists: impl IntoIterator<Item = usize>,
    ) {
        for places in lists {
            self.looks_up(diagram, values, places, &Due::listed(ruled, places));
        }
    }

    /// Attaches an expansion to a base in each of some rooms.
    pub fn attaches_in(
        &mut self,
        base: &[u8],
        expansion: &[u8],
        attached: &Result<Vec<u8>, Refused>,
        rooms: impl IntoIterator<Item = usize>,
    ) {
        for bytes in rooms {
            self.attaches(base, expansion, bytes, &Due::attached(attached, bytes));
        }
    }

    /// Rules with a list of so many places.
    pub fn rules(&mut self, bytes: &[u8], joint: &Joint, places: usize, due: &Due) {
        self.rules_by(kolfsein::rule, bytes, joint, places, due);
    }

    /// Rules by the profile with a list of so many places.
    pub fn rules_standard(&mut self, bytes: &[u8], joint: &Joint, places: usize, due: &Due) {
        self.rules_by(kolfsein::rule_standard, bytes, joint, places, due);
    }

    fn reads_by(&mut self, call: Read, bytes: &[u8], due: &Due) {
        let table = bytes.to_vec();
        let answer = call(&table);
        self.counted(answer, due);
        self.stays(&table, bytes);
    }

    fn rules_by(&mut self, call: Rule, bytes: &[u8], joint: &Joint, places: usize, due: &Due) {
        let table = bytes.to_vec();
        let request = asked_together(joint);
        let (answer, list) = self.lend(places, |list| call(&table, request, list));
        self.ruled(answer.map(|given| (given.decision, given.count)), due);
        let subjects = answer.map_or(0, |given| given.subjects);
        self.same("subjects", subjects, due.subjects);
        if due.number == 0 {
            self.tally(joint);
        }
        self.lent(&list, due);
        self.stays(&table, bytes);
    }

    /// Builds in a room of so many places, and hands back what it then holds.
    pub fn builds(&mut self, bytes: &[u8], places: usize, due: &Due) -> Vec<u16> {
        let table = bytes.to_vec();
        let (answer, room) = self.lend(places, |room| kolfsein::build(&table, room));
        self.counted(answer, due);
        self.lent(&room, due);
        self.stays(&table, bytes);
        room
    }

    /// Looks up with a list of so many places.
    pub fn looks_up(&mut self, numbers: &[u16], values: Values, places: usize, due: &Due) {
        let diagram = numbers.to_vec();
        let call = |list: &mut [u16]| kolfsein::look_up(&diagram, asked(values), list);
        let (answer, list) = self.lend(places, call);
        self.ruled(answer.map(|given| (given.decision, given.count)), due);
        self.lent(&list, due);
        self.stays(&diagram, numbers);
    }

    /// Attaches an expansion to a base in a room of so many bytes, and hands back what it then holds.
    pub fn attaches(&mut self, base: &[u8], expansion: &[u8], bytes: usize, due: &Due) -> Vec<u8> {
        let (table, more) = (base.to_vec(), expansion.to_vec());
        let (answer, room) = self.lend(bytes, |room| kolfsein::attach(&table, &more, room));
        self.counted(answer, due);
        self.lent(&room, due);
        self.stays(&table, base);
        self.stays(&more, expansion);
        room
    }

    /// One comparison.
    pub fn same<T: PartialEq + Debug>(&mut self, what: &str, is: T, due: T) {
        self.comparisons += 1;
        if is != due {
            let (case, number) = self.case;
            let test = self.test;
            panic!("{test}, {case} {number}: {what} is {is:?}, due is {due:?}");
        }
    }

    /// Sees that sets of each size but 0, and sets with each subject, were ruled on so often.
    pub fn every_set(&self, often: u64) {
        for (what, times) in [("size", &self.sizes[1..]), ("member", &self.members)] {
            let enough = times.iter().all(|&times| times >= often);
            assert!(enough, "{}: sets of each {what} {times:?}", self.test);
        }
    }

    /// Sees that each decision was due so often.
    pub fn every_decision(&self, often: u64) {
        let enough = self.decisions.iter().all(|&times| times >= often);
        assert!(enough, "{}: decisions {:?}", self.test, self.decisions);
    }

    /// Sees that indeterminate was due so often with no card, and so often with one: a table gives this only where a
    /// group counts in which no rule matches.
    pub fn silent_groups(&self, often: u64) {
        let enough = self.silent.iter().all(|&times| times >= often);
        assert!(enough, "{}: silent groups {:?}", self.test, self.silent);
    }

    /// Sees that there were so many comparisons, and that each of these numbers, 0 or a refusal's, was due so often.
    pub fn end(self, comparisons: u64, numbers: impl IntoIterator<Item = usize>, often: u64) {
        let test = self.test;
        let made = self.comparisons;
        let calls: u64 = self.numbers.iter().sum();
        println!("{test}: {calls} calls, {made} comparisons");
        assert!(made >= comparisons, "{test}: too few comparisons");
        let enough = numbers
            .into_iter()
            .all(|number| self.numbers[number] >= often);
        assert!(enough, "{test}: numbers {:?}", self.numbers);
        total(calls, made);
    }

    fn counted(&mut self, answer: Result<usize, Refusal>, due: &Due) {
        self.refused(answer.err(), due);
        self.same("count", answer.unwrap_or(0), due.count);
    }

    fn ruled(&mut self, answer: Result<(Decision, usize), Refusal>, due: &Due) {
        self.decisions[usize::from(due.decision)] += u64::from(due.number == 0);
        if due.decision == 3 && due.count < 2 {
            self.silent[due.count] += 1;
        }
        self.refused(answer.err(), due);
        let given = answer.map_or((0, 0), |(given, count)| (decision(given), count));
        self.same("decision", given.0, due.decision);
        self.same("count", given.1, due.count);
    }

    fn tally(&mut self, joint: &Joint) {
        self.sizes[joint.members.len()] += 1;
        for &member in &joint.members {
            self.members[usize::from(member)] += 1;
        }
    }

    fn refused(&mut self, refusal: Option<Refusal>, due: &Due) {
        self.numbers[usize::from(due.number)] += 1;
        let given = refusal.map_or((0, 0), |refusal| (refusal.reason.number(), refusal.place));
        self.same("number", given.0, due.number);
        self.same("place", given.1, due.place);
    }

    /// "Inputs only read don't change": what a call was handed is as it was.
    fn stays<T: PartialEq>(&mut self, handed: &[T], was: &[T]) {
        self.same("whether the input stays", handed == was, true);
    }

    /// The numbers due, and zeros after them.
    fn lent<T: Number>(&mut self, lent: &[T], due: &Due) {
        assert!(due.numbers.len() <= lent.len(), "more is due than was lent");
        let zeros = iter::repeat(&0);
        for (&number, &due) in lent.iter().zip(due.numbers.iter().chain(zeros)) {
            self.same("a lent number", number.into(), due);
        }
    }

    /// Lends so many places to a call, and sees that what stands around them stays.
    fn lend<T: Number, R>(&mut self, n: usize, call: impl FnOnce(&mut [T]) -> R) -> (R, Vec<T>) {
        let mut places = vec![T::MARK; AROUND + n + AROUND];
        let answer = call(&mut places[AROUND..AROUND + n]);
        let after = places.split_off(AROUND + n);
        let lent = places.split_off(AROUND);
        for mark in places.into_iter().chain(after) {
            self.same("a place around", mark, T::MARK);
        }
        (answer, lent)
    }
}

/// Adds to what the tests did; the last of them prints the total.
fn total(calls: u64, comparisons: u64) {
    let mut ended = ENDED.lock().expect("nothing fails while it is locked");
    ended.tests += 1;
    ended.calls += calls;
    ended.comparisons += comparisons;
    let Ended {
        tests,
        calls,
        comparisons,
    } = *ended;
    drop(ended);
    assert!(tests <= TESTS, "there are more than {TESTS} tests");
    if tests == TESTS {
        println!("all {TESTS} tests: {calls} calls, {comparisons} comparisons");
        assert!(comparisons >= COMPARISONS, "too few comparisons in all");
    }
}

fn asked([subject, resource, action]: Values) -> Request {
    Request::new(subject, resource, action)
}

fn asked_together(joint: &Joint) -> JointRequest {
    let subjects = Subjects::of(joint.members.iter().copied()).expect("members of a set");
    let [resource, action] = joint.others;
    JointRequest::new(subjects, resource, action)
}

/// The requirements' numbers.
fn decision(decision: Decision) -> u8 {
    match decision {
        Decision::NotApplicable => 0,
        Decision::Permit => 1,
        Decision::Deny => 2,
        Decision::Indeterminate => 3,
    }
}

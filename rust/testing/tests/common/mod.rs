//! What the tests that compare a version with the reference share.
#![forbid(unsafe_code)]

mod charge;
mod explain;

use std::env;

use mavisglen::{Answer, Refusal};
use mavisglen_testing::encode::{limit, statement, Plan};
use mavisglen_testing::filed::{data_d, plans};
use mavisglen_testing::generate::{Case, Generator, Inquiries, Inquiry};
use mavisglen_testing::meaning::Meaning;
use mavisglen_testing::reference;
use mavisglen_testing::version::Version;
use mavisglen_testing::workload::{filed_example, largest_check, longest_chain, longest_loop, mixed, Mix};

use charge::Charges;

/// A version that is compared with the reference.
pub struct Compared(pub Version);

/// A slice to lend, between values that must stay as they are.
struct Guarded<T> {
    all: Vec<T>,
    guard: T,
}

impl<T: Copy + PartialEq> Guarded<T> {
    const MARGIN: usize = 8;

    fn new(old: &[T], guard: T) -> Guarded<T> {
        let margin = [guard].repeat(Self::MARGIN);
        Guarded { all: [&margin, old, &margin].concat(), guard }
    }

    fn lent(&mut self) -> &mut [T] {
        let end = self.all.len() - Self::MARGIN;
        &mut self.all[Self::MARGIN..end]
    }

    /// What the slice holds after.
    fn written(mut self) -> Vec<T> {
        let written = self.lent().to_vec();
        let guarded = [&self.all[..Self::MARGIN], &self.all[Self::MARGIN + written.len()..]].concat();
        assert!(guarded.iter().all(|&value| value == self.guard), "values outside the slice were written");
        written
    }
}

/// What both make of one input.
struct Comparison {
    /// The reference's first, then the version's.
    checked: [Answer; 2],
    evaluated: [Answer; 2],
    words: [Vec<u64>; 2],
}

impl Compared {
    fn compare(&self, plan: &[u8], data: &[u8], old_words: &[u64]) -> Comparison {
        let checked = [reference::check(plan), (self.0.check)(plan)];
        let mut expected = old_words.to_vec();
        let first = reference::evaluate(plan, data, &mut expected);
        let mut words = Guarded::new(old_words, 0x5A5A_A5A5_0F0F_F0F0);
        let second = (self.0.evaluate)(plan, data, words.lent());
        Comparison { checked, evaluated: [first, second], words: [expected, words.written()] }
    }

    /// Random cases; each is handed on with its answer and final words.
    pub fn agrees_on_random_cases(&self, default_cases: u64, mut then: impl FnMut(&Case, Answer, &[u64])) {
        let (cases, seed) = (setting("MAVISGLEN_CASES", default_cases), setting("MAVISGLEN_SEED", 7));
        for (number, case) in (0..cases).zip(Generator::new(seed)) {
            let comparison = self.compare(&case.plan, &case.data, &case.words);
            let name = || format!("case {number} of seed {seed}, {:?}", case.origin);
            comparison.must_agree(name, &case.plan, &case.data);
            then(&case, comparison.evaluated[1], &comparison.words[1]);
        }
        println!("{cases} cases from seed {seed} agree");
    }

    /// Random requests to explain and to charge, about plans of which most are accepted and data sets of which most
    /// fit.
    pub fn answers_random_requests_alike(&self, default_inquiries: u64) {
        let (inquiries, seed) = (setting("MAVISGLEN_CASES", default_inquiries), setting("MAVISGLEN_SEED", 7));
        let (mut requests, mut explained, mut charges) = (0, 0, Charges::default());
        for (number, inquiry) in (0..inquiries).zip(Inquiries::new(seed)) {
            let name = || format!("inquiry {number} of seed {seed}");
            for request in &inquiry.requests {
                requests += 1;
                explained += usize::from(self.explains_alike(name, &inquiry, request).length().is_some());
            }
            self.charges_alike(name, &inquiry, &inquiry.transfers, &mut charges);
        }
        println!(
            "{requests} requests of {inquiries} inquiries from seed {seed} agree, {explained} are explained"
        );
        println!("{} requests to charge agree, {charges:?}", charges.all());
        assert!(inquiries < 10_000 || charges.has_every_kind(), "{charges:?}");
    }

    /// Every value of every byte, and every length, of the filed examples.
    pub fn agrees_around_the_filed_examples(&self) {
        let data = data_d().encode();
        for plan in plans().map(|plan| plan.encode()) {
            altered_once(&plan).for_each(|altered| self.agrees_on_altered(altered, data.clone()));
            altered_once(&data).for_each(|altered| self.agrees_on_altered(plan.clone(), altered));
        }
    }

    fn agrees_on_altered(&self, plan: Vec<u8>, data: Vec<u8>) {
        self.compare(&plan, &data, &[!0; 100]).must_agree(|| "altered bytes".into(), &plan, &data);
        let inquiry = Inquiry::of(plan, data);
        self.explains_altered_alike(&inquiry);
        self.charges_altered_alike(&inquiry);
    }

    /// Every row of three accesses in one loop: a third can undo what is remembered of the first two. Refused are the
    /// loops that are disturbed.
    pub fn agrees_on_every_three_accesses(&self) {
        let accesses = accesses();
        let mut numbers = [0; 16];
        for (first, second) in pairs(&accesses) {
            for &third in &accesses {
                let plan = loop_of(&[first, second, third]).encode();
                let answer = reference::check(&plan);
                assert_eq!((self.0.check)(&plan), answer, "{first:?} {second:?} {third:?}");
                loops_are_judged_by_touches(&plan, answer);
                numbers[usize::from(answer.number())] += 1;
            }
        }
        println!("{} loops are parallelizable, {} are not", numbers[9], numbers[8]);
        assert!(numbers[8] > 10_000 && numbers[8] + numbers[9] == accesses.len().pow(3));
    }

    /// A read and a reduction through pointers, each of every field of every region: only where both are of one are
    /// they refused, and else for the symbols that nothing is assigned to.
    pub fn tells_all_targets_apart(&self) {
        let count = limit::REGIONS * limit::FIELDS;
        for (read, reduced) in (0..count * count).map(|number| (number / count, number % count)) {
            let plan = loop_of_targets(read, reduced).encode();
            let refusal =
                if read == reduced { Refusal::NotParallelizable(0) } else { Refusal::AssignmentCount(3) };
            let answers = [reference::check(&plan), (self.0.check)(&plan)];
            assert_eq!(answers, [Answer::Refused(refusal); 2], "targets {read} and {reduced}");
        }
    }

    /// The plans that the benchmark measures, in full size.
    pub fn agrees_on_the_largest_plans(&self) {
        let mut workloads: Vec<_> = Mix::ALL.iter().map(|&mix| mixed(mix, 48, 16, 512)).collect();
        workloads.extend([
            filed_example(),
            largest_check(),
            longest_loop(limit::STATEMENTS),
            longest_chain(),
        ]);
        for workload in workloads {
            let comparison = self.compare(&workload.plan, &workload.data, &vec![!0; workload.words + 3]);
            assert!(comparison.evaluated[0].is_accepted(), "{}", workload.name);
            comparison.must_agree(|| workload.name.clone(), &workload.plan, &workload.data);
            self.charges_workload_alike(&workload);
            let length = self.explains_workload_alike(&workload);
            println!("{}: a chain of {length}", workload.name);
        }
    }
}

/// The loop that an answer refuses is the first that can be disturbed; where it refuses none, none can be.
pub fn loops_are_judged_by_touches(plan: &[u8], answer: Answer) {
    let by_touches = Meaning::of(plan).map(|meaning| meaning.judgement());
    let answered = match answer {
        Answer::Refused(refusal @ Refusal::NotParallelizable(_)) => Some(Err(refusal)),
        // Refused before the loops are judged.
        Answer::Refused(_) if by_touches.is_none() => None,
        _ => Some(Ok(())),
    };
    assert_eq!(answered, by_touches, "plan {}", hexadecimal(plan));
}

/// LOAD, READ, WRITE and REDUCEs of two operators, through each variable and in two fields.
fn accesses() -> Vec<[u8; 4]> {
    let mut accesses = Vec::new();
    for (variable, map) in [(0, 0), (1, 0), (2, 0), (3, 2)] {
        for field in [0, 1] {
            accesses.push([statement::LOAD, map, variable, field]);
            accesses.push([statement::READ, variable, field, 0]);
            accesses.push([statement::WRITE, variable, field, 0]);
            accesses.push([statement::REDUCE, variable, field, 0]);
            accesses.push([statement::REDUCE, variable, field, 1]);
        }
    }
    accesses
}

fn pairs(accesses: &[[u8; 4]]) -> impl Iterator<Item = ([u8; 4], [u8; 4])> + '_ {
    accesses.iter().flat_map(|&first| accesses.iter().map(move |&second| (first, second)))
}

/// A loop over region 0: a copy of its variable, a pointer into the region, one into region 1, and accesses. Nothing
/// is assigned, so that the plan is refused for that if the loop is parallelizable.
fn loop_of(accesses: &[[u8; 4]]) -> Plan {
    let variables = [
        [statement::FOR, 0, 0, 0],
        [statement::COPY, 0, 0, 0],
        [statement::CALL, 0, 0, 0],
        [statement::CALL, 1, 0, 0],
    ];
    Plan {
        regions: vec![[2], [2]],
        maps: vec![[0, 0, 1], [0, 1, 1], [1, 0, 1]],
        statements: [&variables, accesses].concat(),
        ..Plan::default()
    }
}

/// As many regions and fields as there may be, and a loop that reads one field, by its number among all, and reduces
/// another.
fn loop_of_targets(read: usize, reduced: usize) -> Plan {
    let region = |target: usize| (target / limit::FIELDS) as u8;
    let field = |target: usize| (target % limit::FIELDS) as u8;
    Plan {
        regions: vec![[limit::FIELDS as u8]; limit::REGIONS],
        maps: (0..limit::REGIONS as u8).map(|region| [0, region, 1]).collect(),
        statements: vec![
            [statement::FOR, 0, 0, 0],
            [statement::CALL, region(read), 0, 0],
            [statement::CALL, region(reduced), 0, 0],
            [statement::READ, 1, field(read), 0],
            [statement::REDUCE, 2, field(reduced), 0],
        ],
        ..Plan::default()
    }
}

/// The bytes with one of them changed, cut off, or some added.
fn altered_once(bytes: &[u8]) -> impl Iterator<Item = Vec<u8>> + '_ {
    let cut = (0..bytes.len()).map(|length| bytes[..length].to_vec());
    let longer = [[bytes, &[0]].concat(), [bytes, bytes].concat()];
    let changed = (0..bytes.len() * 256).map(|number| {
        let mut changed = bytes.to_vec();
        changed[number / 256] = (number % 256) as u8;
        changed
    });
    cut.chain(longer).chain(changed)
}

impl Comparison {
    fn must_agree(&self, name: impl Fn() -> String, plan: &[u8], data: &[u8]) {
        let agree = |answers: [Answer; 2]| answers[0] == answers[1];
        if agree(self.checked) && agree(self.evaluated) && self.words[0] == self.words[1] {
            return;
        }
        let different = self.words[0].iter().zip(&self.words[1]).position(|(one, other)| one != other);
        panic!(
            "{}: reference and version differ\ncheck {:?}\nevaluate {:?}\nfirst different word {different:?} of {}\n\
             plan {}\ndata {}",
            name(),
            self.checked,
            self.evaluated,
            self.words[0].len(),
            hexadecimal(plan),
            hexadecimal(data),
        );
    }
}

/// A number from the environment, or a default.
fn setting(variable: &str, default: u64) -> u64 {
    match env::var(variable) {
        Ok(text) => text.parse().unwrap_or_else(|_| panic!("{variable} is not a number: {text}")),
        Err(_) => default,
    }
}

fn hexadecimal(bytes: &[u8]) -> String {
    bytes.iter().map(|byte| format!("{byte:02x}")).collect()
}

//! The verified library beside the plain reference and the optimised
//! version, in one run, as Markdown tables of times and ratios.
#![forbid(unsafe_code)]

use std::cell::RefCell;
use std::hint::black_box;
use std::time::{Duration, Instant};

use mavisglen::{Answer, Charge, Written, LONGEST_CHAIN};
use mavisglen_testing::encode::limit;
use mavisglen_testing::version::Version;
use mavisglen_testing::workload::{
    filed_example, largest_check, longest_chain, longest_loop, mixed, Asked, Billed, Mix, Workload,
};

/// Time for one pair of versions on one workload.
const PAIR_BUDGET: Duration = Duration::from_millis(500);
/// A batch is repeated calls long enough for the clock.
const BATCH: Duration = Duration::from_micros(100);
const MOST_ROUNDS: usize = 1001;
const LEAST_ROUNDS: usize = 7;

const LIBRARY: Version = Version::LIBRARY;
const REFERENCE: Version = Version::REFERENCE;
const OPTIMISED: Version = Version::OPTIMISED;

/// Two calls on one workload, the library's first: of each round, the microseconds of either.
struct Rounds(Vec<[f64; 2]>);

impl Rounds {
    /// The median over the rounds of a value of both times.
    fn median(&self, value: impl Fn(f64, f64) -> f64) -> f64 {
        let mut values: Vec<f64> = self.0.iter().map(|&[first, second]| value(first, second)).collect();
        values.sort_by(f64::total_cmp);
        values[values.len() / 2]
    }

    /// Both times, and the ratio of the first to the second.
    fn columns(&self) -> String {
        let [first, second] = [self.median(|first, _| first), self.median(|_, second| second)];
        format!("{first:.3} | {second:.3} | {:.2}", self.median(|first, second| first / second))
    }
}

fn main() {
    println!("A round times the library and one other version in turn. Three columns belong together, the");
    println!("times of both and their ratio, from the same rounds; so the library has two columns of times.");
    println!("Times are medians of up to {MOST_ROUNDS} rounds; ratios are medians of the rounds' own ratios, so that");
    println!("a busy machine slows both alike, and may differ a little from the quotient of the times.");
    println!("Buffers are not cleared: each call overwrites the words that the call before left.\n");
    table("Checking", &check_workloads(), check_rounds);
    table("Evaluating (checking included)", &evaluate_workloads(), evaluate_rounds);
    let nodes = growing(&[6, 12, 24, 48].map(|nodes| (nodes, 8, 256)));
    table("Checking, by nodes", &nodes, check_rounds);
    table("Evaluating, by nodes", &nodes, evaluate_rounds);
    let statements = [8, 16, 32, limit::STATEMENTS].map(longest_loop);
    table("Checking, by statements of one loop", &statements, check_rounds);
    let pieces = growing(&[1, 2, 4, 8, 16].map(|pieces| (24, pieces, 256)));
    table("Evaluating, by pieces", &pieces, evaluate_rounds);
    let elements = growing(&[32, 64, 128, 256, 512].map(|elements| (24, 8, elements)));
    table("Evaluating, by elements", &elements, evaluate_rounds);
    explaining_table();
    charging_table();
}

/// All operators in turn, for these nodes, pieces and elements.
fn growing(sizes: &[(usize, usize, usize)]) -> Vec<Workload> {
    sizes.iter().map(|&(nodes, pieces, elements)| mixed(Mix::AllInTurn, nodes, pieces, elements)).collect()
}

fn check_workloads() -> Vec<Workload> {
    vec![
        filed_example(),
        mixed(Mix::AllInTurn, 16, 4, 128),
        mixed(Mix::AllInTurn, 48, 16, 512),
        largest_check(),
        longest_loop(limit::STATEMENTS),
    ]
}

fn evaluate_workloads() -> Vec<Workload> {
    let mut workloads = vec![filed_example(), mixed(Mix::AllInTurn, 16, 4, 128)];
    workloads.extend(Mix::ALL.iter().map(|&mix| mixed(mix, 48, 16, 512)));
    workloads
}

/// Times the library against both other versions on each workload.
fn table(title: &str, workloads: &[Workload], rounds: fn(&Workload, &Version) -> Rounds) {
    println!("### {title}\n");
    println!(
        "| input | library, µs | optimised, µs | library / optimised \
         | library, µs | reference, µs | reference / library |"
    );
    println!("|---|---:|---:|---:|---:|---:|---:|");
    for workload in workloads {
        let (plain, fast) = (rounds(workload, &REFERENCE), rounds(workload, &OPTIMISED));
        println!(
            "| {} | {} | {:.3} | {:.2} | {:.1} |",
            workload.name,
            fast.columns(),
            plain.median(|library, _| library),
            plain.median(|_, reference| reference),
            plain.median(|library, reference| reference / library)
        );
    }
    println!();
}

/// The library's explanation beside its evaluation of the same plan and data set, and beside the optimised explanation.
/// Asked for is a member of the last node that has any, one with the longest chain.
fn explaining_table() {
    println!("### Explaining (checking and evaluating included)\n");
    println!(
        "| input | chain | explain, µs | evaluate, µs | explain / evaluate \
         | library, µs | optimised, µs | library / optimised |"
    );
    println!("|---|---:|---:|---:|---:|---:|---:|---:|");
    let mut workloads = evaluate_workloads();
    workloads.push(longest_chain());
    for workload in &workloads {
        let asked = workload.deepest_question();
        let rounds = [explain_evaluate_rounds(workload, asked), explain_rounds(workload, asked)];
        let [beside_evaluate, beside_optimised] = rounds.map(|rounds| rounds.columns());
        println!("| {} | {} | {beside_evaluate} | {beside_optimised} |", workload.name, asked.length);
    }
    println!();
}

/// A call that explains into slices of its own, tried once.
fn explainer<'a>(version: &Version, workload: &'a Workload, asked: Asked) -> impl FnMut() -> Written + 'a {
    let (explain, mut nodes, mut elements) = (version.explain, [0; LONGEST_CHAIN], [0; LONGEST_CHAIN]);
    let mut call = move || {
        let (plan, data) = (black_box(&workload.plan), black_box(&workload.data));
        explain(plan, data, black_box(asked.question), black_box(&mut nodes), black_box(&mut elements))
    };
    assert_eq!(call(), Written::Length(asked.length), "{}", workload.name);
    call
}

fn explain_rounds(workload: &Workload, asked: Asked) -> Rounds {
    let [library, optimised] = [LIBRARY, OPTIMISED].map(|version| explainer(&version, workload, asked));
    measure(library, optimised)
}

fn explain_evaluate_rounds(workload: &Workload, asked: Asked) -> Rounds {
    measure(explainer(&LIBRARY, workload, asked), evaluator(workload))
}

/// A call by which the library evaluates into words of its own.
fn evaluator(workload: &Workload) -> impl FnMut() -> Answer + '_ {
    let mut words = vec![!0; workload.words];
    move || (LIBRARY.evaluate)(black_box(&workload.plan), black_box(&workload.data), black_box(&mut words))
}

/// The library's charge beside its evaluation of the same plan and data set, and beside the optimised charge. Charged
/// for are the last two nodes of one region, or the last node against itself where no two are of one.
fn charging_table() {
    println!("### Charging (checking and evaluating included)\n");
    println!(
        "| input | accessed, owned | count | charge, µs | evaluate, µs | charge / evaluate \
         | library, µs | optimised, µs | library / optimised |"
    );
    println!("|---|---:|---:|---:|---:|---:|---:|---:|---:|");
    let mut workloads = evaluate_workloads();
    workloads.push(longest_chain());
    for workload in &workloads {
        let billed = workload.last_transfer();
        let Charge::Charged { count, .. } = billed.charge else { panic!("{}", workload.name) };
        let rounds = [charge_evaluate_rounds(workload, billed), charge_rounds(workload, billed)];
        let [beside_evaluate, beside_optimised] = rounds.map(|rounds| rounds.columns());
        let nodes = format!("{}, {}", billed.transfer.accessed, billed.transfer.owned);
        println!("| {} | {nodes} | {count} | {beside_evaluate} | {beside_optimised} |", workload.name);
    }
    println!();
}

/// A call that charges, tried once.
fn charger<'a>(version: &Version, workload: &'a Workload, billed: Billed) -> impl FnMut() -> Charge + 'a {
    let charge = version.charge;
    let call =
        move || charge(black_box(&workload.plan), black_box(&workload.data), black_box(billed.transfer));
    assert_eq!(call(), billed.charge, "{}", workload.name);
    call
}

fn charge_rounds(workload: &Workload, billed: Billed) -> Rounds {
    let [library, optimised] = [LIBRARY, OPTIMISED].map(|version| charger(&version, workload, billed));
    measure(library, optimised)
}

fn charge_evaluate_rounds(workload: &Workload, billed: Billed) -> Rounds {
    measure(charger(&LIBRARY, workload, billed), evaluator(workload))
}

fn check_rounds(workload: &Workload, other: &Version) -> Rounds {
    let answers = [LIBRARY.check, other.check].map(|check| check(&workload.plan));
    assert!(answers[0].is_accepted() && answers[0] == answers[1], "{}: {answers:?}", workload.name);
    let [library, other] = [LIBRARY.check, other.check].map(|check| move || check(black_box(&workload.plan)));
    measure(library, other)
}

/// Both versions write the same words, so that neither is favoured by where a buffer lies.
fn evaluate_rounds(workload: &Workload, other: &Version) -> Rounds {
    let words = RefCell::new(vec![!0; workload.words]);
    let mut expected: Option<Vec<u64>> = None;
    let [library, other] = [LIBRARY.evaluate, other.evaluate].map(|evaluate| {
        let call =
            move |words: &mut [u64]| evaluate(black_box(&workload.plan), black_box(&workload.data), words);
        let answer = call(&mut words.borrow_mut());
        assert!(answer.is_accepted(), "{}: {answer:?}", workload.name);
        let filled = words.replace(vec![!0; workload.words]);
        assert_eq!(filled, *expected.get_or_insert_with(|| filled.clone()), "{}", workload.name);
        let words = &words;
        move || call(black_box(&mut words.borrow_mut()))
    });
    measure(library, other)
}

/// Rounds of both calls, the library's first, until the time is used up.
fn measure<T, U>(mut first: impl FnMut() -> T, mut second: impl FnMut() -> U) -> Rounds {
    let batches = [batch_size(&mut first), batch_size(&mut second)];
    let mut rounds: Vec<[f64; 2]> = Vec::new();
    let start = Instant::now();
    while rounds.len() < LEAST_ROUNDS || (rounds.len() < MOST_ROUNDS && start.elapsed() < PAIR_BUDGET) {
        rounds.push([per_call(&mut first, batches[0]), per_call(&mut second, batches[1])]);
    }
    Rounds(rounds)
}

/// Microseconds for a call, of a batch.
fn per_call<T>(call: &mut impl FnMut() -> T, batch: u32) -> f64 {
    timed(call, batch).as_secs_f64() * 1e6 / f64::from(batch)
}

fn timed<T>(call: &mut impl FnMut() -> T, batch: u32) -> Duration {
    let start = Instant::now();
    for _ in 0..batch {
        black_box(call());
    }
    start.elapsed()
}

/// Calls that together last about as long as a batch should.
fn batch_size<T>(call: &mut impl FnMut() -> T) -> u32 {
    let mut batch = 1;
    while batch < 1 << 20 && timed(call, batch) < BATCH {
        batch *= 2;
    }
    batch
}

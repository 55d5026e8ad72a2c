//! What a statement is by its kind, for every byte: the answers to small loops against one table of the paper's kinds.
//! Nothing is assigned in these loops, so that one that is right is refused for the number of its symbols.
#![forbid(unsafe_code)]

use mavisglen::{Answer, Refusal};
use mavisglen_testing::encode::{statement, Plan};
use mavisglen_testing::reference::flaw::Flaw;
use mavisglen_testing::reference::kind::Kind;
use mavisglen_testing::reference::plan::Effect;
use mavisglen_testing::reference::Reference;
use mavisglen_testing::version::Version;

use Access::{Read, Reduce, Write};

type Statement = [u8; 4];
type Check<'a> = &'a dyn Fn(&[u8]) -> Answer;

#[derive(Clone, Copy, Debug, PartialEq, Eq)]
enum Access {
    Read,
    Write,
    Reduce,
}

/// What statements of a kind are.
#[derive(Clone, Copy, Debug, PartialEq, Eq)]
struct Row {
    /// The first and the last byte.
    bytes: [u8; 2],
    opens: bool,
    defines: bool,
    access: Option<Access>,
    /// How many values of a, b and c are right after `BEFORE`: there are one region, one map, three variables, four
    /// fields and four operators.
    operands: [u8; 3],
    /// Which of them is an access's variable.
    variable: usize,
}

/// FOR, LOAD, CALL, COPY, READ, WRITE, REDUCE, and all that is unknown.
const TABLE: [Row; 8] = [
    Row { bytes: [0, 0], opens: true, defines: false, access: None, operands: [1, 1, 1], variable: 0 },
    Row { bytes: [1, 1], opens: false, defines: true, access: Some(Read), operands: [1, 3, 4], variable: 1 },
    Row { bytes: [2, 2], opens: false, defines: true, access: None, operands: [1, 3, 1], variable: 1 },
    Row { bytes: [3, 3], opens: false, defines: true, access: None, operands: [3, 1, 1], variable: 0 },
    Row { bytes: [4, 4], opens: false, defines: false, access: Some(Read), operands: [3, 4, 1], variable: 0 },
    Row {
        bytes: [5, 5],
        opens: false,
        defines: false,
        access: Some(Write),
        operands: [3, 4, 1],
        variable: 0,
    },
    Row {
        bytes: [6, 6],
        opens: false,
        defines: false,
        access: Some(Reduce),
        operands: [3, 4, 4],
        variable: 0,
    },
    Row { bytes: [7, 255], opens: false, defines: false, access: None, operands: [0, 0, 0], variable: 0 },
];

/// What comes before the statement in question: a loop, and in it a pointer and a copy of the loop variable.
const BEFORE: [Statement; 3] =
    [[statement::FOR, 0, 0, 0], [statement::CALL, 0, 0, 0], [statement::COPY, 0, 0, 0]];
const FIELDS: u8 = 4;
const POINTER: u8 = 1;

/// Values of a, b and c that are tried, all with all.
const TRIED: [u8; 8] = [0, 1, 2, 3, 4, 5, 128, 255];

/// Accesses of one field that a statement is set beside: kind and variable, and the first operator.
const OTHERS: [[u8; 2]; 4] =
    [[statement::READ, 0], [statement::WRITE, 0], [statement::READ, POINTER], [statement::REDUCE, POINTER]];

impl Row {
    fn of(byte: u8) -> Row {
        let rows: Vec<Row> =
            TABLE.into_iter().filter(|row| (row.bytes[0]..=row.bytes[1]).contains(&byte)).collect();
        assert_eq!(rows.len(), 1, "rows of byte {byte}");
        rows[0]
    }

    fn admits(&self, [_, a, b, c]: Statement) -> bool {
        [a, b, c].into_iter().zip(self.operands).all(|(value, count)| value < count)
    }

    /// Whether the loop is tangled by the statement alone, and by it with each of the others, if of its field.
    fn conflicts(&self, [_, a, b, c]: Statement) -> [bool; 5] {
        let centered = [a, b, c][self.variable] != POINTER;
        match (self.access, centered) {
            (None, _) => [false; 5],
            (Some(Read), true) => [false, false, false, false, true],
            (Some(Read), false) => [false, false, true, false, true],
            (Some(Write), true) => [false, false, false, true, true],
            (Some(Write), false) => [true; 5],
            (Some(Reduce), true) => [false, false, false, true, true],
            // One operator with itself is no conflict.
            (Some(Reduce), false) => [false, true, true, true, c != 0],
        }
    }
}

/// What a loop of these statements is refused for.
fn refusal(check: Check, statements: &[Statement]) -> Refusal {
    let statements = statements.to_vec();
    let plan = Plan { regions: vec![[FIELDS]], maps: vec![[0, 0, 0]], statements, ..Plan::default() };
    match check(&plan.encode()) {
        Answer::Refused(refusal) => refusal,
        accepted => panic!("nothing is assigned: {accepted:?} {plan:?}"),
    }
}

fn refusal_after(check: Check, statements: &[Statement]) -> Refusal {
    refusal(check, &[&BEFORE, statements].concat())
}

fn invalid_record(record: usize) -> Refusal {
    Refusal::InvalidRecord(4 * 256 + record as u64)
}

/// What is looked at of a statement: whether the answers are as its row says.
type Aspect = fn(Check, &Row, Statement) -> bool;

/// It is refused exactly where an operand is not right, and an unknown kind whatever they are.
fn is_admitted_by_its_row(check: Check, row: &Row, tried: Statement) -> bool {
    let refused = refusal_after(check, &[tried]) == invalid_record(BEFORE.len());
    refused != row.admits(tried)
}

/// FOR and accesses have a symbol each. Only a loop that is not tangled has its symbols counted.
fn has_its_symbol(check: Check, row: &Row, tried: Statement) -> bool {
    let symbols = 1 + u64::from(row.opens || row.access.is_some());
    let tangled = row.conflicts(tried)[0];
    let expected = if tangled { Refusal::NotParallelizable(0) } else { Refusal::AssignmentCount(symbols) };
    !row.admits(tried) || refusal_after(check, &[tried]) == expected
}

/// Variables are counted by the first that cannot be read: FOR starts anew, and a definition adds one.
fn leaves_its_variables(check: Check, row: &Row, tried: Statement) -> bool {
    let refused = invalid_record(BEFORE.len() + 1);
    let is_missing =
        |&variable: &u8| refusal_after(check, &[tried, [statement::READ, variable, 0, 0]]) == refused;
    let before = if row.opens { 1 } else { BEFORE.len() as u8 };
    let expected = before + u8::from(row.defines);
    !row.admits(tried) || (0..=16).find(is_missing) == Some(expected)
}

/// It conflicts with other accesses of some field as accesses of its class do.
fn has_its_conflicts(check: Check, row: &Row, tried: Statement) -> bool {
    let is_tangled =
        |statements: &[Statement]| refusal_after(check, statements) == Refusal::NotParallelizable(0);
    // The other comes first, in the loop that is open even if the statement opens one.
    let is_tangled_beside =
        |[kind, variable]: [u8; 2]| (0..FIELDS).any(|field| is_tangled(&[[kind, variable, field, 0], tried]));
    let [first, second, third, fourth] = OTHERS.map(is_tangled_beside);
    let observed = [is_tangled(&[tried]), first, second, third, fourth];
    !row.admits(tried) || observed == row.conflicts(tried)
}

const ASPECTS: [(&str, Aspect); 4] = [
    ("is admitted by its row", is_admitted_by_its_row),
    ("has its symbol", has_its_symbol),
    ("leaves its variables", leaves_its_variables),
    ("has its conflicts", has_its_conflicts),
];

/// The statements of a kind that are tried.
fn tried(kind: u8) -> impl Iterator<Item = Statement> {
    TRIED.into_iter().flat_map(move |a| {
        TRIED.into_iter().flat_map(move |b| TRIED.into_iter().map(move |c| [kind, a, b, c]))
    })
}

/// The first statement of a kind whose answers are not as its row says.
fn first_wrong(check: Check, kind: u8, aspect: Aspect) -> Option<Statement> {
    let row = Row::of(kind);
    tried(kind).find(|&tried| !aspect(check, &row, tried))
}

#[test]
fn every_byte_has_one_row() {
    let rows: Vec<Row> = (0..=255).map(Row::of).collect();
    assert!(TABLE.iter().all(|row| rows.contains(row)));
}

#[test]
fn every_version_answers_by_the_table_for_every_byte() {
    for (number, version) in Version::ALL.iter().enumerate() {
        for kind in 0..=255 {
            for (name, aspect) in ASPECTS {
                let wrong = first_wrong(&version.check, kind, aspect);
                assert_eq!(wrong, None, "version {number}: not so that it {name}");
            }
        }
    }
}

/// Nothing would be shown if no statement of a known kind were admitted, or one of an unknown kind.
#[test]
fn as_many_statements_are_admitted_as_the_table_says() {
    for version in Version::ALL {
        for kind in 0..=255 {
            let admitted = |&tried: &Statement| {
                !matches!(refusal_after(&version.check, &[tried]), Refusal::InvalidRecord(_))
            };
            let expected: u8 = Row::of(kind).operands.into_iter().product();
            assert_eq!(tried(kind).filter(admitted).count(), usize::from(expected), "kind {kind}");
        }
    }
}

#[test]
fn before_any_loop_only_for_is_no_invalid_record() {
    for version in Version::ALL {
        for kind in 0..=255 {
            let expected = if Row::of(kind).opens { Refusal::AssignmentCount(1) } else { invalid_record(0) };
            assert_eq!(refusal(&version.check, &[[kind, 0, 0, 0]]), expected, "kind {kind}");
        }
    }
}

/// Through a pointer, conflicts tell a read, a write, a reduction and none from each other.
#[test]
fn classes_have_different_conflicts() {
    let conflicts = |access: Option<Access>, operator: u8| {
        Row { access, variable: 0, ..TABLE[0] }.conflicts([0, POINTER, 0, operator])
    };
    let classes = [None, Some(Read), Some(Write), Some(Reduce)];
    for (number, &one) in classes.iter().enumerate() {
        for &other in &classes[..number] {
            for operator in 0..4 {
                assert_ne!(conflicts(one, operator), conflicts(other, operator), "{one:?} {other:?}");
            }
        }
    }
}

#[test]
fn the_reference_decides_by_the_table() {
    for byte in 0..=255 {
        let (row, kind) = (Row::of(byte), Kind::of(usize::from(byte)));
        assert_eq!([kind.opens(), kind.defines()], [row.opens, row.defines], "{byte}");
        let access = kind.effect(2).map(|effect| match effect {
            Effect::Read => Read,
            Effect::Write => Write,
            Effect::Reduce { operator } => {
                assert_eq!(operator, 2, "{byte}");
                Reduce
            }
        });
        assert_eq!(access, row.access, "{byte}");
        assert_eq!(kind == Kind::Unknown, row.operands == [0; 3], "{byte}");
    }
}

#[test]
fn every_flaw_of_kinds_is_noticed_by_the_table() {
    for flaw in Flaw::KINDS {
        let flawed = Reference::flawed(flaw);
        let check = |plan: &[u8]| flawed.check(plan);
        let notices = |kind: u8| {
            let by = |(name, aspect): (&'static str, Aspect)| {
                first_wrong(&check, kind, aspect).map(|wrong| (wrong, name))
            };
            ASPECTS.into_iter().find_map(by)
        };
        let noticed = (0..=255).find_map(notices);
        println!("{flaw:?}: {noticed:?}");
        assert!(noticed.is_some(), "{flaw:?} is not noticed");
    }
}

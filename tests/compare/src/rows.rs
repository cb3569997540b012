//! The worked examples (S11 of docs/SPEC.md), run through the library and through both programs. The numbers are those of the specification.

use crate::calls::TABLE_BYTES;
use crate::coverage::Coverage;
use crate::sketch::{Action, Form, Node, Sketch, AT_CEILING, CEILING, HEAD_BYTES, NONE};
use crate::{draft_rows, price};

const LARGEST: u64 = u64::MAX;
const NO_PLAN: u64 = NONE as u64;

type Solve = fn(&mut [u8], &mut [u8], u64, &mut [u8]) -> u32;

/// What a row says: outcome, price, passes and raises; or that the sheet is accepted.
enum Expected {
    Answer(u32, u64, u64, u64),
    Accepted,
}

use Expected::{Accepted, Answer};

const fn refused(number: u32) -> Expected {
    Answer(number, 0, 0, 0)
}

pub fn check(cost: u32, successors: &[u16]) -> Action {
    Action { cost, successors: successors.to_vec() }
}

pub fn sheet_a() -> Sketch {
    let first = Node::Decision(vec![check(200, &[1, 3]), check(500, &[3])]);
    let second = Node::Decision(vec![check(400, &[2, 3])]);
    Sketch::new(0, 0, vec![first, second, Node::Terminal(100), Node::Terminal(0)])
}

fn sheet_b(kind: u8) -> Sketch {
    let junction = Node::Decision(vec![check(100, &[1, 2])]);
    Sketch::new(kind, 0, vec![junction, Node::Terminal(30), Node::Terminal(50)])
}

fn sheet_c(kind: u8, costs: [u32; 4]) -> Sketch {
    let mut nodes = vec![Node::Decision(vec![check(10, &[1, 2, 3, 4])])];
    nodes.extend(costs.map(Node::Terminal));
    Sketch::new(kind, 0, nodes)
}

fn sheet_d(kind: u8, findings: &[u16]) -> Sketch {
    Sketch::new(kind, 0, vec![Node::Decision(vec![check(100, findings)]), Node::Terminal(30)])
}

/// D with values, all open.
fn sheet_d_at(junction: u32, ending: u32) -> Vec<u8> {
    but(sheet_d(1, &[1, 1]), |d| (d.states[0].value, d.states[1].value) = (junction, ending))
}

fn sheet_e(findings: &[u16]) -> Sketch {
    Sketch::new(1, 0, vec![Node::Decision(vec![check(10, findings)]), Node::Terminal(5), Node::Terminal(7)])
}

fn one_ending(cost: u32) -> Sketch {
    Sketch::new(0, 0, vec![Node::Terminal(cost)])
}

fn one_ending_at(value: u32) -> Vec<u8> {
    but(one_ending(70), |ending| ending.states[0].value = value)
}

pub fn sheet_f() -> Sketch {
    Sketch::new(0, 0, vec![Node::Decision(Vec::new())])
}

/// F with its value, mark and chosen check.
fn sheet_f_at(value: u32, mark: u8, chosen: u8) -> Vec<u8> {
    but(sheet_f(), |f| (f.states[0].value, f.states[0].mark, f.states[0].chosen) = (value, mark, chosen))
}

pub fn sheet_g(kind: u8) -> Sketch {
    let first = Node::Decision(vec![check(10, &[1]), check(100, &[2])]);
    Sketch::new(kind, 0, vec![first, Node::Decision(Vec::new()), Node::Terminal(30)])
}

pub fn sheet_h() -> Sketch {
    let first = Node::Decision(vec![check(10, &[1]), check(100, &[1])]);
    Sketch::new(0, 0, vec![first, Node::Decision(Vec::new())])
}

/// I with these checks at junction 0.
fn sheet_i(checks: Vec<Action>) -> Vec<u8> {
    let mut nodes = vec![Node::Decision(checks)];
    for stage in 1..12 {
        let behind: Vec<u16> = (stage + 1..=12).collect();
        nodes.push(Node::Decision(vec![check(1_000_000, &behind)]));
    }
    nodes.extend([Node::Terminal(1_000_000), Node::Decision(Vec::new())]);
    let mut sketch = Sketch::new(1, 0, nodes);
    (sketch.states[0].value, sketch.states[13].value) = (AT_CEILING, AT_CEILING);
    for stage in 1..=12 {
        let state = &mut sketch.states[stage];
        (state.value, state.mark) = (AT_CEILING.min(1_000_000 << (12 - stage)), 1);
    }
    sketch.bytes()
}

/// J with this number written.
pub fn sheet_j(number: u8) -> Sketch {
    let mut sketch = sheet_a();
    sketch.states[0].form = Form::Counted(number);
    sketch
}

/// Sheet A in the forms of its two junctions.
fn sheet_a_in(first: Form, second: Form) -> Vec<u8> {
    but(sheet_a(), |a| (a.states[0].form, a.states[1].form) = (first, second))
}

/// A or J without the field of one check of junction 0.
fn lost(sketch: Sketch, place: usize) -> Vec<u8> {
    but(sketch, |sheet| {
        if let Node::Decision(actions) = &mut sheet.states[0].node {
            actions.remove(place);
        }
    })
}

/// F, counted, with this number written.
fn sheet_f_counted(number: u8) -> Vec<u8> {
    but(sheet_f(), |f| f.states[0].form = Form::Counted(number))
}

/// The sheet with another tag at junction 0, whose length stays.
fn tagged(sketch: Sketch, tag: u8) -> Vec<u8> {
    let mut bytes = sketch.bytes();
    bytes[HEAD_BYTES] = tag;
    bytes
}

/// The bytes without the last one.
fn cut(mut bytes: Vec<u8>) -> Vec<u8> {
    bytes.pop();
    bytes
}

/// 999 junctions of cost 1,000,000, all values least costs.
fn long_chain(ending: u32) -> Sketch {
    let mut nodes: Vec<Node> = (1..=999).map(|next| Node::Decision(vec![check(1_000_000, &[next])])).collect();
    nodes.push(Node::Terminal(ending));
    let mut sketch = Sketch::new(0, 0, nodes);
    for (place, state) in sketch.states.iter_mut().enumerate() {
        state.value = (999 - place as u32) * 1_000_000 + ending;
    }
    sketch
}

fn with_checks(count: usize) -> Sketch {
    Sketch::new(0, 0, vec![Node::Decision(vec![check(1, &[1]); count]), Node::Terminal(0)])
}

/// The same junction, counted, with a written number.
pub fn counted_with_checks(count: usize, number: u8) -> Sketch {
    let mut sketch = with_checks(count);
    sketch.states[0].form = Form::Counted(number);
    sketch
}

fn with_findings(count: u16) -> Sketch {
    let findings: Vec<u16> = (1..=count).collect();
    let mut nodes = vec![Node::Decision(vec![check(1, &findings)])];
    nodes.resize(usize::from(count) + 1, Node::Terminal(0));
    Sketch::new(0, 0, nodes)
}

/// The sketch with one thing changed.
pub fn but(mut sketch: Sketch, change: impl Fn(&mut Sketch)) -> Vec<u8> {
    change(&mut sketch);
    sketch.bytes()
}

fn set_first_check(sketch: &mut Sketch, action: Action) {
    if let Node::Decision(actions) = &mut sketch.states[0].node {
        actions[0] = action;
    }
}

fn bad_cost_and_cut() -> Vec<u8> {
    cut(but(sheet_a(), |a| set_first_check(a, check(0, &[1, 3]))))
}

/// The costs of the endings of sheet C.
const COSTS_OF_C: [u32; 4] = [10, 40, 40, 20];

/// What `price` prints for A and J, D, E, G and H, whole, and behind the line of stage 0 for C.
const LINES_OF_A: &str = "settled 500 3 3
stage 0 check 1 value 500 by 3
stage 3 end value 0
";
const LINES_OF_D: &str = "settled 160 3 3
stage 0 check 0 value 160 by 1
stage 1 end value 30
";
const LINES_OF_E: &str = "settled 41 4 5
stage 0 check 0 value 41 by 2
stage 1 end value 5
stage 2 end value 7
";
const LINES_OF_G: &str = "settled 130 4 5
stage 0 check 1 value 130 by 2
stage 2 end value 30
";
const LINE_OF_H: &str = "none 1000000001 3 3
";
const LINES_OF_C_WITHOUT_COSTS: &str = "settled 10 2 1
stage 0 check 0 value 10 by 1
";
const ENDINGS_OF_C: &str = "stage 1 end value 10
stage 2 end value 40
stage 3 end value 40
stage 4 end value 20
";
const ENDINGS_WITHOUT_COSTS: &str = "stage 1 end value 0
stage 2 end value 0
stage 3 end value 0
stage 4 end value 0
";

/// A row: its name, the sheet, the budget, and what it says.
type Row = (&'static str, Vec<u8>, u64, Expected);

/// Puts every row to all three, and sheets A, C, D, E, G, H and J to the `price` program if there is one. The error says what the row gave.
pub fn run(price: Option<&str>) -> Result<Coverage, String> {
    let mut seen = Coverage::default();
    let a_stopped = call("A, budget 2", &sheet_a().bytes(), 2, Answer(102, 200, 2, 2))?;
    let d_stopped = call("D, budget 2", &sheet_d(1, &[1, 1]).bytes(), 2, Answer(102, 100, 2, 2))?;
    let f_settled = call("F, budget 1", &sheet_f().bytes(), 1, Answer(103, NO_PLAN, 1, 1))?;
    let h_stopped = call("H, budget 2", &sheet_h().bytes(), 2, Answer(102, 10, 2, 2))?;
    let j_stopped = call("J, budget 2", &sheet_j(2).bytes(), 2, Answer(102, 200, 2, 2))?;
    let mut rows = rows_of_a_to_c(a_stopped);
    rows.extend(rows_of_repeats(d_stopped));
    rows.extend(rows_of_none(f_settled, h_stopped));
    rows.extend(rows_of_counted(j_stopped));
    seen.add("worked examples", 5 + rows.len() as u64);
    for (name, bytes, budget, expected) in rows {
        call(name, &bytes, budget, expected)?;
    }
    seen.add("worked examples of drafts", draft_rows::run()?);
    if let Some(program) = price {
        printed(program)?;
    }
    Ok(seen)
}

fn rows_of_a_to_c(a_stopped: Vec<u8>) -> Vec<Row> {
    vec![
        ("one ending, cost 0", one_ending(0).bytes(), LARGEST, Answer(100, 0, 1, 0)),
        ("one ending, cost 70, budget 1", one_ending(70).bytes(), 1, Answer(100, 70, 1, 1)),
        ("A", sheet_a().bytes(), LARGEST, Answer(100, 500, 3, 3)),
        ("that sheet carried on", a_stopped, LARGEST, Answer(100, 500, 2, 1)),
        ("B worst", sheet_b(0).bytes(), LARGEST, Answer(100, 150, 4, 5)),
        ("B whole", sheet_b(1).bytes(), LARGEST, Answer(100, 180, 4, 5)),
        ("B, junction value 100", but(sheet_b(0), |b| b.states[0].value = 100), LARGEST, Accepted),
        ("B, junction value 101", but(sheet_b(0), |b| b.states[0].value = 101), LARGEST, refused(7)),
        ("number of stages 0", but(sheet_b(0), |b| b.count = 0), LARGEST, refused(3)),
        ("B, finding 1 replaced by 0", but(sheet_b(0), |b| set_first_check(b, check(100, &[0, 2]))), LARGEST, refused(6)),
        ("B, ending 1 settled at 0", but(sheet_b(0), |b| b.states[1].mark = 1), LARGEST, refused(8)),
        ("A, budget 0", sheet_a().bytes(), 0, refused(9)),
        ("chain, ending 999,999", long_chain(999_999).bytes(), LARGEST, Answer(100, 999_999_999, 1, 0)),
        ("chain, ending 1,000,000", long_chain(1_000_000).bytes(), LARGEST, Answer(101, 1_000_000_000, 1, 0)),
        ("check cost 0 and a cut last field", bad_cost_and_cut(), LARGEST, refused(4)),
        ("16 checks", with_checks(16).bytes(), LARGEST, Accepted),
        ("17 checks", with_checks(17).bytes(), LARGEST, refused(4)),
        ("16 findings", with_findings(16).bytes(), LARGEST, Accepted),
        ("17 findings", with_findings(17).bytes(), LARGEST, refused(4)),
        ("C worst", sheet_c(0, COSTS_OF_C).bytes(), LARGEST, Answer(100, 50, 4, 7)),
        ("C whole", sheet_c(1, COSTS_OF_C).bytes(), LARGEST, Answer(100, 120, 6, 9)),
        ("C with every ending's cost 0", sheet_c(0, [0; 4]).bytes(), LARGEST, Answer(100, 10, 2, 1)),
    ]
}

/// S11.23 to S11.29.
fn rows_of_repeats(d_stopped: Vec<u8>) -> Vec<Row> {
    vec![
        ("D", sheet_d(1, &[1, 1]).bytes(), LARGEST, Answer(100, 160, 3, 3)),
        ("D, kind worst", sheet_d(0, &[1, 1]).bytes(), LARGEST, refused(6)),
        ("D, budget 2, carried on", d_stopped, LARGEST, Answer(100, 160, 2, 1)),
        ("D, ending 1 at 30 and junction 0 at 160", sheet_d_at(160, 30), LARGEST, Accepted),
        ("D, ending 1 at 30 and junction 0 at 161", sheet_d_at(161, 30), LARGEST, refused(7)),
        ("D, finding 1 listed 16 times", sheet_d(1, &[1; 16]).bytes(), LARGEST, Answer(100, 580, 3, 3)),
        ("E", sheet_e(&[1, 1, 2, 2, 2]).bytes(), LARGEST, Answer(100, 41, 4, 5)),
        ("E, findings 1, 2 and 1", sheet_e(&[1, 2, 1]).bytes(), LARGEST, refused(6)),
        ("E, findings 0 and 0", sheet_e(&[0, 0]).bytes(), LARGEST, refused(6)),
        ("E, findings 3 and 3", sheet_e(&[3, 3]).bytes(), LARGEST, refused(6)),
    ]
}

/// S11.31 to S11.40.
fn rows_of_none(f_settled: Vec<u8>, h_stopped: Vec<u8>) -> Vec<Row> {
    vec![
        ("F", sheet_f().bytes(), LARGEST, Answer(103, NO_PLAN, 1, 1)),
        ("F, budget 1, carried on", f_settled, LARGEST, Answer(103, NO_PLAN, 1, 0)),
        ("F, open at 1,000,000,001", sheet_f_at(NONE, 0, 0), LARGEST, Answer(103, NO_PLAN, 1, 0)),
        ("F, open at 1,000,000,002", sheet_f_at(NONE + 1, 0, 0), LARGEST, refused(5)),
        ("F, settled at 1,000,000,001", sheet_f_at(NONE, 1, 0), LARGEST, Accepted),
        ("F, settled at 1,000,000,000", sheet_f_at(AT_CEILING, 1, 0), LARGEST, refused(8)),
        ("F, settled at 0", sheet_f_at(0, 1, 0), LARGEST, refused(8)),
        ("F, chosen check 1, open", sheet_f_at(0, 0, 1), LARGEST, refused(5)),
        ("F, chosen check 1, settled at 1,000,000,001", sheet_f_at(NONE, 1, 1), LARGEST, refused(5)),
        ("one ending, value 1,000,000,001", one_ending_at(NONE), LARGEST, refused(7)),
        ("one ending, value 1,000,000,002", one_ending_at(NONE + 1), LARGEST, refused(5)),
        ("F without its last byte", cut(sheet_f().bytes()), LARGEST, refused(2)),
        ("one ending without its last byte", cut(one_ending(0).bytes()), LARGEST, refused(4)),
        ("G worst", sheet_g(0).bytes(), LARGEST, Answer(100, 130, 4, 5)),
        ("G whole", sheet_g(1).bytes(), LARGEST, Answer(100, 130, 4, 5)),
        ("H", sheet_h().bytes(), LARGEST, Answer(103, NO_PLAN, 3, 3)),
        ("H, budget 2, carried on", h_stopped, LARGEST, Answer(103, NO_PLAN, 2, 1)),
        ("I", sheet_i(vec![check(1, &[13]), check(1, &[1, 2])]), LARGEST, Answer(101, CEILING, 1, 1)),
        ("I, one check at junction 0", sheet_i(vec![check(1, &[1, 2, 13])]), LARGEST, Answer(103, NO_PLAN, 2, 2)),
    ]
}

/// S11.42 to S11.50.
fn rows_of_counted(j_stopped: Vec<u8>) -> Vec<Row> {
    use Form::{Counted, Plain};
    vec![
        ("J", sheet_j(2).bytes(), LARGEST, Answer(100, 500, 3, 3)),
        ("A, both junctions counted", sheet_a_in(Counted(2), Counted(1)), LARGEST, Answer(100, 500, 3, 3)),
        ("J, budget 2, carried on", j_stopped, LARGEST, Answer(100, 500, 2, 1)),
        ("J, the number 1", sheet_j(1).bytes(), LARGEST, refused(10)),
        ("J, the number 3", sheet_j(3).bytes(), LARGEST, refused(10)),
        ("J, the number 0", sheet_j(0).bytes(), LARGEST, refused(10)),
        ("J, the number 200", sheet_j(200).bytes(), LARGEST, refused(10)),
        ("A without check 1", lost(sheet_a(), 1), LARGEST, Answer(100, 700, 4, 6)),
        ("J without check 1", lost(sheet_j(2), 1), LARGEST, refused(10)),
        ("J without check 0", lost(sheet_j(2), 0), LARGEST, refused(10)),
        ("F counted, the number 0", sheet_f_counted(0), LARGEST, Answer(103, NO_PLAN, 1, 1)),
        ("F counted, the number 1", sheet_f_counted(1), LARGEST, refused(10)),
        ("16 checks, the number 16", counted_with_checks(16, 16).bytes(), LARGEST, Accepted),
        ("16 checks, the number 17", counted_with_checks(16, 17).bytes(), LARGEST, refused(10)),
        ("17 checks, the number 17", counted_with_checks(17, 17).bytes(), LARGEST, refused(4)),
        ("J, the number 1, cut", cut(sheet_j(1).bytes()), LARGEST, refused(4)),
        ("J, the number 1, check cost 0", but(sheet_j(1), |j| set_first_check(j, check(0, &[1, 3]))), LARGEST, refused(10)),
        ("J, the number 1, finding 0", but(sheet_j(1), |j| set_first_check(j, check(200, &[0, 3]))), LARGEST, refused(10)),
        ("J, the number 1, budget 0", sheet_j(1).bytes(), 0, refused(10)),
        ("J, tag 03 with length 7", tagged(sheet_j(2), 3), LARGEST, refused(4)),
        ("A, tag 05 with length 6", tagged(sheet_a(), 5), LARGEST, refused(4)),
        ("A, junction 1 counted, the number 2", sheet_a_in(Plain, Counted(2)), LARGEST, refused(10)),
    ]
}

fn printed(program: &str) -> Result<(), String> {
    let texts = [
        ("A", sheet_a(), LINES_OF_A, ""),
        ("C worst", sheet_c(0, COSTS_OF_C), "settled 50 4 7\nstage 0 check 0 value 50 by 2\n", ENDINGS_OF_C),
        ("C whole", sheet_c(1, COSTS_OF_C), "settled 120 6 9\nstage 0 check 0 value 120 by 2\n", ENDINGS_OF_C),
        ("C with every ending's cost 0", sheet_c(0, [0; 4]), LINES_OF_C_WITHOUT_COSTS, ENDINGS_WITHOUT_COSTS),
        ("D", sheet_d(1, &[1, 1]), LINES_OF_D, ""),
        ("E", sheet_e(&[1, 1, 2, 2, 2]), LINES_OF_E, ""),
        ("G", sheet_g(0), LINES_OF_G, ""),
        ("H", sheet_h(), LINE_OF_H, ""),
        ("J", sheet_j(2), LINES_OF_A, ""),
    ];
    for (name, sketch, first, endings) in texts {
        println!("at row '{name}', printed");
        price::expect(program, &sketch.bytes(), &format!("{first}{endings}"))?;
    }
    Ok(())
}

/// The bytes that the call leaves.
fn call(name: &str, sheet: &[u8], budget: u64, expected: Expected) -> Result<Vec<u8>, String> {
    println!("at row '{name}'");
    let solvers: [(&str, Solve); 2] = [("procedure", procedure::call), ("library", library::solve)];
    let mut left = Vec::new();
    for (solver, solve) in solvers {
        let mut bytes = sheet.to_vec();
        let (mut table, mut result) = ([0; TABLE_BYTES], [0; 24]);
        let number = solve(&mut bytes, &mut table, budget, &mut result);
        let [price, passes, raises] =
            [0, 8, 16].map(|at| u64::from_le_bytes(result[at..at + 8].try_into().expect("eight bytes")));
        let holds = match expected {
            Accepted => number >= 100,
            Answer(n, p, q, r) => (number, price, passes, raises) == (n, p, q, r),
        };
        if !holds {
            return Err(format!("{solver} gives {number} {price} {passes} {raises}"));
        }
        left = bytes;
    }
    by_sweep(sheet, expected)?;
    Ok(left)
}

/// The price of a settled row is the least cost, and `sweep`'s reader refuses what is refused for the sheet's sake.
fn by_sweep(sheet: &[u8], expected: Expected) -> Result<(), String> {
    let least = sweep::read(sheet).map(|read| sweep::written(read.least_costs()[read.start]));
    let holds = match expected {
        Answer(100 | 101 | 103, price, _, _) => least == Ok(price),
        Answer(number @ (2..=8 | 10), _, _, _) => least == Err(number),
        _ => least.is_ok(),
    };
    if holds {
        Ok(())
    } else {
        Err(format!("sweep gives {least:?}"))
    }
}

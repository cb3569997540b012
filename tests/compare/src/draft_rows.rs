//! The worked examples of drafts (S11.52 to S11.65), by the library and by `order`. What they give is that of the specification.

use crate::calls::{Call, TABLE_BYTES};
use crate::check::{self, same};
use crate::coverage::Coverage;
use crate::draft_calls::{expect, Slices, Which, LIST_BYTES};
use crate::rng::Rng;
use crate::rows::{but, check, sheet_a};
use crate::sketch::{Action, Form, Node, Sketch, MOST_STATES};

/// What a row says: the refusal; or the new sheet and the order; or the draft.
enum Due {
    Refused(u32),
    Sheet(Vec<u8>, &'static [usize]),
    Draft(Vec<u8>),
}

use Due::Refused;
use Which::{Rearrange, Restore};

/// A row: its name, the call, the sheet, how the list begins, and what it says.
type Row = (&'static str, Which, Vec<u8>, &'static [u32], Due);

const NO_LIST: &[u32] = &[];

/// The sketch as a draft.
fn draft(sketch: Sketch) -> Vec<u8> {
    let mut bytes = sketch.bytes();
    bytes[0] = order::DRAFT_TAG;
    bytes
}

/// The draft of a sketch with one thing changed.
fn draft_but(mut sketch: Sketch, change: impl Fn(&mut Sketch)) -> Vec<u8> {
    change(&mut sketch);
    draft(sketch)
}

fn junction(actions: &[Action]) -> Node {
    Node::Decision(actions.to_vec())
}

fn sheet_k() -> Sketch {
    let first = junction(&[check(200, &[1, 3]), check(500, &[1])]);
    Sketch::new(0, 2, vec![Node::Terminal(100), Node::Terminal(0), first, junction(&[check(400, &[0, 1])])])
}

fn sheet_l() -> Sketch {
    let to = |finding| junction(&[check(1, &[finding])]);
    Sketch::new(0, 2, vec![to(1), Node::Terminal(0), to(0), to(1)])
}

/// M, with these findings of junction 1.
fn sheet_m(findings: &[u16]) -> Sketch {
    Sketch::new(0, 0, vec![Node::Terminal(0), junction(&[check(1, findings)]), junction(&[check(1, &[1])])])
}

fn sheet_n() -> Sketch {
    let mut sketch = Sketch::new(1, 1, vec![junction(&[]), junction(&[check(1, &[0, 0, 2])]), Node::Terminal(0)]);
    sketch.states[1].form = Form::Counted(1);
    sketch
}

/// One junction with one check (1).
fn alone(kind: u8, findings: &[u16]) -> Vec<u8> {
    draft(Sketch::new(kind, 0, vec![junction(&[check(1, findings)])]))
}

fn endings(start: usize, costs: [u32; 2]) -> Sketch {
    Sketch::new(0, start, costs.map(Node::Terminal).to_vec())
}

/// The sheet with a junction settled at 500 by check 0, and its endings, of 100 and of 0, settled at their costs.
fn settle(sketch: &mut Sketch, junction: usize, endings: [usize; 2]) {
    for (stage, value) in [(junction, 500), (endings[0], 100), (endings[1], 0)] {
        (sketch.states[stage].value, sketch.states[stage].mark) = (value, 1);
    }
}

/// The bytes without the last one.
fn cut(mut bytes: Vec<u8>) -> Vec<u8> {
    bytes.pop();
    bytes
}

/// The new sheet of L.
fn new_l() -> Vec<u8> {
    let to = |finding| junction(&[check(1, &[finding])]);
    Sketch::new(0, 0, vec![to(1), to(3), to(3), Node::Terminal(0)]).bytes()
}

fn rearranged() -> Vec<Row> {
    let new_n = {
        let nodes = vec![junction(&[check(1, &[1, 1, 2])]), junction(&[]), Node::Terminal(0)];
        but(Sketch::new(1, 0, nodes), |n| n.states[0].form = Form::Counted(1))
    };
    let a = || sheet_a().bytes();
    let k_settled = draft_but(sheet_k(), |k| settle(k, 3, [0, 1]));
    let a_settled = but(sheet_a(), |a| settle(a, 1, [2, 3]));
    vec![
        ("K", Rearrange, draft(sheet_k()), NO_LIST, Due::Sheet(a(), &[2, 3, 0, 1])),
        ("K with stage 3 settled", Rearrange, k_settled, NO_LIST, Due::Sheet(a_settled, &[2, 3, 0, 1])),
        ("L", Rearrange, draft(sheet_l()), NO_LIST, Due::Sheet(new_l(), &[2, 0, 3, 1])),
        ("N", Rearrange, draft(sheet_n()), NO_LIST, Due::Sheet(new_n, &[1, 0, 2])),
        (
            "the draft of two endings",
            Rearrange,
            draft(endings(1, [7, 5])),
            NO_LIST,
            Due::Sheet(endings(1, [7, 5]).bytes(), &[0, 1]),
        ),
        ("A with tag 06", Rearrange, draft(sheet_a()), NO_LIST, Due::Sheet(a(), &[0, 1, 2, 3])),
    ]
}

/// The list of L is not its own inverse, as the others are.
fn restored() -> Vec<Row> {
    let a = || sheet_a().bytes();
    let others = &[2, 3, 0, 1, 9_999, 9_999, 9_999];
    vec![
        ("A restored by 2, 3, 0, 1", Restore, a(), &[2, 3, 0, 1], Due::Draft(draft(sheet_k()))),
        ("A restored by 2, 3, 0, 1 and others behind", Restore, a(), others, Due::Draft(draft(sheet_k()))),
        ("L restored from its new sheet", Restore, new_l(), &[2, 0, 3, 1], Due::Draft(draft(sheet_l()))),
        ("A restored by 2, 3, 0, 0", Restore, a(), &[2, 3, 0, 0, 9_999], Refused(11)),
        ("A restored by 2, 3, 0, 4", Restore, a(), &[2, 3, 0, 4, 9_999], Refused(11)),
        ("two endings restored by 1, 0", Restore, endings(0, [5, 7]).bytes(), &[1, 0], Due::Draft(draft(endings(1, [7, 5])))),
        ("K restored", Restore, draft(sheet_k()), &[0, 1, 2, 3], Refused(3)),
    ]
}

fn refused() -> Vec<Row> {
    let m = || sheet_m(&[2]);
    let free_check = draft_but(m(), |m| m.states[1].node = junction(&[check(0, &[2])]));
    let row = |name, bytes, number| (name, Rearrange, bytes, NO_LIST, Refused(number));
    vec![
        row("A rearranged", sheet_a().bytes(), 3),
        row("M", draft(m()), 11),
        row("M, ending 0 at value 5", draft_but(m(), |m| m.states[0].value = 5), 11),
        row("a junction that leads to itself", alone(0, &[0]), 11),
        row("M, a check of cost 0", free_check, 5),
        row("M, a wrong number", draft_but(m(), |m| m.states[1].form = Form::Counted(2)), 10),
        row("M, cut", cut(draft(m())), 4),
        row("M, finding 3", draft(sheet_m(&[3])), 6),
        row("M, findings 2 and 1", draft(sheet_m(&[2, 1])), 6),
        row("M, findings 1 and 2", draft(sheet_m(&[1, 2])), 11),
        row("one junction, 0 and 0, worst", alone(0, &[0, 0]), 6),
        row("one junction, 0 and 0, whole", alone(1, &[0, 0]), 11),
        row("K, ending 0 at value 101", draft_but(sheet_k(), |k| k.states[0].value = 101), 7),
        row("K, ending 0 settled at value 0", draft_but(sheet_k(), |k| k.states[0].mark = 1), 8),
    ]
}

/// Puts every row to both, and says how many there are. What the calls return is not counted among that of the seeds.
pub fn run() -> Result<u64, String> {
    let rows = [rearranged(), restored(), refused()].into_iter().flatten();
    let mut count = 0;
    for (name, which, sheet, list, due) in rows {
        println!("at row '{name}'");
        one(which, &sheet, list, due)?;
        count += 1;
    }
    Ok(count + room()? + worked()?)
}

fn one(which: Which, sheet: &[u8], list: &[u32], due: Due) -> Result<(), String> {
    let mut slices = Slices::new(&mut Rng::new(1), TABLE_BYTES, sheet.len(), LIST_BYTES).with_list(list);
    let number = if let Refused(number) = due { number } else { which.done() };
    expect(which, sheet, &mut slices, number, &mut Coverage::default())?;
    match due {
        Refused(_) => Ok(()),
        Due::Draft(draft) => same("draft", &slices.output, &draft),
        Due::Sheet(new, order) => {
            let zeros = MOST_STATES - order.len();
            let listed = slices.listed(MOST_STATES) == [order, &vec![0; zeros]].concat();
            same("new sheet", &slices.output, &new).and(if listed { Ok(()) } else { Err("another list".to_string()) })
        }
    }
}

/// S11.61: the room that K needs.
fn room() -> Result<u64, String> {
    let (bytes, least) = (draft(sheet_k()), LIST_BYTES);
    let rooms = [(least, 80, least, 1), (least, 81, least - 4, 1), (least - 4, 81, least, 1), (least, 81, least, 105)];
    for (table, output, list, number) in rooms {
        println!("at row 'K, a table of {table} bytes, an output of {output} and a list of {list}'");
        let mut slices = Slices::new(&mut Rng::new(1), table, output, list);
        expect(Rearrange, &bytes, &mut slices, number, &mut Coverage::default())?;
    }
    Ok(rooms.len() as u64)
}

/// S11.54: K is not worked, by the library nor by `procedure`.
fn worked() -> Result<u64, String> {
    println!("at row 'K worked'");
    let call = Call { budget: u64::MAX, table: vec![0; TABLE_BYTES], result: vec![0; 24], before: 16 };
    match check::one(&mut draft(sheet_k()), &call)?.number {
        3 => Ok(1),
        number => Err(format!("returned {number}")),
    }
}

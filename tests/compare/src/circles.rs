//! Findings that lead in a circle (S13.4): put into a right draft, through its bytes, and what the refused drafts had of them.

use crate::blocks::{blocks, checks, findings, number16, set_findings, CHECK_TAG, COUNTED_TAG, TERMINAL_TAG};
use crate::coverage::Coverage;
use crate::draft_counts::reached;
use crate::numbering::{shuffle, START_AT};
use crate::rng::Rng;
use crate::shapes::FULL;
use crate::sketch::HEAD_BYTES;
use order::Sheet;

/// The most findings of a check (S3.2).
const MOST_FINDINGS: usize = 16;

/// A junction with one check of cost 1, without its finding.
const JUNCTION: [u8; 9] = [3, 0, 6, 0, 0, 0, 0, 0, 0];
const CHECK: [u8; 7] = [CHECK_TAG, 0, 6, 0, 0, 0, 1];

/// Where a counted junction's number stands in its field.
const WRITTEN: usize = 9;

/// A junction, and a finding that it gets.
type Link = (usize, usize);

/// How often a circle is drawn until there is room for it.
const TURNS: usize = 4;

/// Findings of the draft lead in a circle. Endings on it become junctions. The draft stays as it is where there is no room for that.
pub fn put(draft: &mut Vec<u8>, rng: &mut Rng) -> bool {
    let full = draft.len() + 2 > FULL;
    for _ in 0..TURNS {
        let mut blocks = blocks(draft);
        let links = if rng.one_in(3) { back(draft, &blocks, rng) } else { around(draft, blocks.len(), rng) };
        for (stage, finding) in links {
            lead(&mut blocks[stage], finding, full, rng);
        }
        let with_circle = [&draft[..HEAD_BYTES], &blocks.concat()].concat();
        if with_circle.len() <= FULL {
            *draft = with_circle;
            return true;
        }
    }
    false
}

/// One link, from the end of a run that begins at the start or at any stage, or from the stage before that, back to a stage of the run,
/// most often the first.
fn back(draft: &[u8], blocks: &[Vec<u8>], rng: &mut Rng) -> Vec<Link> {
    let any = rng.below(blocks.len());
    let mut run = vec![rng.pick(&[number16(draft, START_AT), any])];
    loop {
        let block = &blocks[run[run.len() - 1]];
        let next: Vec<usize> = checks(block).into_iter().flat_map(|at| findings(block, at)).collect();
        if next.is_empty() {
            break;
        }
        run.push(rng.pick(&next));
    }
    if run.len() > 1 && !rng.one_in(3) {
        run.pop();
    }
    let some = rng.pick(&run);
    vec![(run[run.len() - 1], rng.pick(&[run[0], run[0], some]))]
}

/// Each of some stages leads to the next: few or many, of those that the start reaches or does not, of low or of high numbers, or any.
fn around(draft: &[u8], states: usize, rng: &mut Rng) -> Vec<Link> {
    let (some, many) = (rng.between(4, 40), rng.between(1, states));
    let length = rng.pick(&[1, 1, 2, 2, 3, 3, some, many, states, states]).min(states);
    let mut pool: Vec<usize> = match rng.below(5) {
        0 => among(draft, true),
        1 => among(draft, false),
        2 => (0..length).collect(),
        3 => (states - length..states).collect(),
        _ => (0..states).collect(),
    };
    if pool.is_empty() {
        pool = (0..states).collect();
    }
    shuffle(&mut pool, rng);
    pool.truncate(length);
    (0..pool.len()).map(|place| (pool[place], pool[(place + 1) % pool.len()])).collect()
}

/// The stages that the start reaches, or those that it does not.
fn among(draft: &[u8], wanted: bool) -> Vec<usize> {
    let found = order::fields(draft, draft[0]).map_or(Vec::new(), |read| reached(&read));
    (0..found.len()).filter(|&stage| found[stage] == wanted).collect()
}

/// The stage leads to this finding too. Where the check or the sheet is full, it takes the place of the next one.
fn lead(block: &mut Vec<u8>, finding: usize, full: bool, rng: &mut Rng) {
    let checks = checks(block);
    if checks.is_empty() {
        return begin(block, finding);
    }
    let at = rng.pick(&checks);
    let mut list = findings(block, at);
    let place = list.partition_point(|&other| other < finding);
    if list.contains(&finding) {
        return;
    } else if list.len() < MOST_FINDINGS && !full {
        list.insert(place, finding);
    } else {
        let last = list.len() - 1;
        list[place.min(last)] = finding;
    }
    set_findings(block, at, &list);
}

/// The only check of a stage that had none.
fn begin(block: &mut Vec<u8>, finding: usize) {
    if block[0] == TERMINAL_TAG {
        *block = JUNCTION.to_vec();
    }
    if block[0] == COUNTED_TAG {
        block[WRITTEN] = 1;
    }
    block.extend(CHECK);
    block.extend((finding as u16).to_be_bytes());
}

/// Of a draft that is refused 11: no stage of a circle can be placed, and what the circle had that `order` finds.
pub fn count(draft: &Sheet, seen: &mut Coverage) -> Result<(), String> {
    let circle = draft.circle().ok_or("refused 11, but order finds no circle")?;
    let order = draft.order();
    if let Some(stage) = circle.iter().find(|stage| order.contains(stage)) {
        return Err(format!("stage {stage} is on a circle and can be placed"));
    }
    let (states, length) = (draft.states.len(), circle.len());
    let from_start = reached(draft);
    let met = circle.iter().any(|&stage| from_start[stage]);
    seen.saw(if draft.whole { "circle: whole" } else { "circle: worst" });
    seen.saw_if(length == 1, "circle: of one stage");
    seen.saw_if(length == 2, "circle: of two stages");
    seen.saw_if(length == 3, "circle: of three stages");
    seen.saw_if((4..100).contains(&length), "circle: of 4 to 99 stages");
    seen.saw_if(length >= 100, "circle: of 100 stages or more");
    seen.saw_if(length >= 4 && length == states, "circle: of all stages, four or more");
    seen.saw_if(met, "circle: reached from the start");
    seen.saw_if(!met, "circle: not reached from the start");
    seen.saw_if(states >= 8 && circle.iter().all(|&stage| stage < states / 4), "circle: of low numbers");
    seen.saw_if(states >= 8 && circle.iter().all(|&stage| stage >= states - states / 4), "circle: of high numbers");
    seen.saw_if(states > 1_000, "circle: among more than 1,000 stages");
    seen.saw_if(order.is_empty(), "circle: nothing can be placed");
    seen.saw_if(!order.is_empty(), "circle: some stages can be placed");
    Ok(())
}

#[cfg(test)]
mod tests {
    use super::{count, lead, put};
    use crate::coverage::Coverage;
    use crate::numbering::draft;
    use crate::rng::Rng;
    use crate::rows::sheet_a;

    /// The block of a stage that leads to this finding too, in a sheet that is not full.
    fn led(block: &[u8], finding: usize) -> Vec<u8> {
        let mut block = block.to_vec();
        lead(&mut block, finding, false, &mut Rng::new(1));
        block
    }

    /// A junction with one check (7), a counted one without checks that is settled at none, and a settled ending.
    #[test]
    fn links() {
        let junction =
            |findings: &[u8]| [&[3, 0, 6, 0, 0, 0, 0, 0, 0, 4, 0, 4 + findings.len() as u8, 0, 0, 0, 7], findings].concat();
        assert_eq!(led(&junction(&[0, 1, 0, 3]), 2), junction(&[0, 1, 0, 2, 0, 3]));
        assert_eq!(led(&junction(&[0, 1, 0, 3]), 3), junction(&[0, 1, 0, 3]));
        let mut in_full_sheet = junction(&[0, 1, 0, 3]);
        lead(&mut in_full_sheet, 2, true, &mut Rng::new(1));
        assert_eq!(in_full_sheet, junction(&[0, 1, 0, 2]));
        let full: Vec<u8> = (1..=16).flat_map(|finding| [0, 2 * finding]).collect();
        let (before, behind) = ([&[0, 1], &full[2..]].concat(), [&full[..30], &[1, 0]].concat());
        assert_eq!(led(&junction(&full), 1), junction(&before));
        assert_eq!(led(&junction(&full), 256), junction(&behind));
        let counted = |number| [5, 0, 7, 59, 154, 202, 1, 1, 0, number];
        assert_eq!(led(&counted(0), 258), [&counted(1)[..], &[4, 0, 6, 0, 0, 0, 1, 1, 2]].concat());
        let ending = [2, 0, 9, 0, 0, 0, 5, 0, 0, 0, 5, 1];
        assert_eq!(led(&ending, 0), [3, 0, 6, 0, 0, 0, 0, 0, 0, 4, 0, 6, 0, 0, 0, 1, 0, 0]);
    }

    /// Whatever is drawn, the draft is refused 11 and has nothing else wrong that is asked before.
    #[test]
    fn circles_in_sheet_k() {
        for seed in 0..500 {
            let mut bytes = draft(&sheet_a().bytes(), &[2, 3, 0, 1]);
            assert!(put(&mut bytes, &mut Rng::new(seed)));
            assert_eq!(order::draft(&bytes).err(), Some(11), "seed {seed}");
        }
    }

    /// Sheet M (S11), and a junction alone that leads to itself.
    #[test]
    fn circles_that_are_counted() {
        let counted = |bytes: &[u8]| {
            let mut seen = Coverage::default();
            let sheet = order::fields(bytes, 6).unwrap_or_else(|number| panic!("refused {number}"));
            count(&sheet, &mut seen).unwrap_or_else(|why| panic!("{why}"));
            seen.lines().map(|(name, _)| name.trim_start_matches("circle: ")).collect::<Vec<_>>().join("; ")
        };
        let to = |finding| [3, 0, 6, 0, 0, 0, 0, 0, 0, 4, 0, 6, 0, 0, 0, 1, 0, finding];
        let ending = [2, 0, 9, 0, 0, 0, 0, 0, 0, 0, 0, 0];
        let sheet_m = [&[6, 0, 5, 0, 0, 3, 0, 0][..], &ending, &to(2), &to(1)].concat();
        assert_eq!(counted(&sheet_m), "not reached from the start; of two stages; some stages can be placed; worst");
        let alone = [&[6, 0, 5, 1, 0, 1, 0, 0][..], &to(0)].concat();
        assert_eq!(counted(&alone), "nothing can be placed; of one stage; reached from the start; whole");
    }
}

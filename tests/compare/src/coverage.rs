//! Counts of what the generated sheets and calls had, so that nobody has to trust that they had it.

use crate::draft_calls::{Which, BOTH};
use crate::draft_refusals::ASKED;
use std::collections::BTreeMap;

/// A long run must have each of these.
const WANTED: [&str; 152] = [
    "refused 1",
    "refused 2",
    "refused 3",
    "refused 4",
    "refused 5",
    "refused 6",
    "refused 7",
    "refused 8",
    "refused 9",
    "refused 10",
    "settled worst",
    "settled whole",
    "over worst",
    "over whole",
    "stopped worst",
    "stopped whole",
    "carried on",
    "largest budget",
    "more than 65,536 raises in one call",
    "start is not 0",
    "partly worked at the outset",
    "settled at the outset",
    "sum above 32 bits",
    "sum that wraps to below the ceiling",
    "chosen check is not the first of its price",
    "16 checks",
    "16 findings",
    "chain of 1,000 or more worked to its end",
    "chain of 3,000 or more worked to its end",
    "256 states",
    "257 states",
    "1,024 states",
    "1,025 to 4,095 states",
    "4,096 states",
    "stage 4,095 settled by work",
    "nothing wrong but 4,097 stages",
    "60,000 bytes",
    "nothing wrong but 60,001 bytes",
    "4,096 states and 60,000 bytes",
    "20 bytes",
    "table of 1,024 to 4,095 entries refused",
    "table longer than 4,096 entries",
    "bytes left over behind the table",
    "result shorter than 24",
    "result longer than 24",
    "accepted although damaged",
    "repeats: 4,096 states",
    "repeats: a finding listed twice",
    "repeats: a finding listed 3 to 15 times",
    "repeats: a finding listed 16 times",
    "repeats: two groups in one check",
    "repeats: three or more groups in one check",
    "repeats: of a junction",
    "repeats: of an ending",
    "repeats: five within one another",
    "repeats: partly worked at the outset",
    "repeats: worked to settled",
    "repeats: worked to settled with more than 256 states",
    "repeats: worked to over",
    "repeats: stopped and carried on",
    "repeats: a price one cent below the ceiling",
    "repeats: a price of the ceiling to the cent",
    "repeats: sum above 32 bits",
    "repeats: one finding n times costs n times",
    "refused 6: equal findings on a worst sheet, and nothing else",
    "refused 6: equal findings apart on a whole sheet",
    "refused 6: equal findings before a smaller one on a whole sheet",
    "refused 6: equal findings at their junction's number on a whole sheet",
    "refused 6: equal findings at the number of stages on a whole sheet",
    "refused 7: a repeated finding counted once more",
    "refused 8: a repeated finding counted once less",
    "none worst",
    "none whole",
    "none: carried on after a stop",
    "17 bytes",
    "none: partly worked at the outset",
    "none: stopped with the start at none",
    "none: the start has no checks",
    "none: a stage in the middle has no checks",
    "none: the last stage has no checks",
    "none: raised from 0",
    "none: raised from between 0 and the ceiling",
    "none: raised from the ceiling",
    "none: settled without a raise",
    "none: every check of the start is none",
    "none: every check of the start is none with more than 256 states",
    "none: settled beside a check that is none",
    "none: settled beside a check that is none with more than 256 states",
    "none: over beside a check that is none",
    "none: only the first of several findings",
    "none: only one between the first and the last finding",
    "none: only the last of several findings",
    "none: a finding listed several times",
    "none: beside findings that add up to the ceiling",
    "none: climbed five stages or more",
    "none: climbed 500 stages or more",
    "refused 2: 16 bytes",
    "refused 4: 17 to 19 bytes",
    "refused 5: a chosen check at an open junction without checks",
    "refused 5: a chosen check at a settled junction without checks",
    "refused 5: 1,000,000,002 at an ending",
    "refused 5: 1,000,000,002 at a junction",
    "refused 5: 1,000,000,002 at a junction without checks",
    "refused 7: an ending at none",
    "refused 7: a junction at none beside a check that is none",
    "refused 7: a junction at the ceiling beside a check that is none",
    "refused 7: settled at none for the ceiling",
    "refused 8: settled at the ceiling for none",
    "refused 8: settled at none with an open finding",
    "refused 8: settled without checks at 0",
    "refused 8: settled without checks a cent below the ceiling",
    "refused 8: settled without checks at the ceiling",
    "forms: plain junctions only",
    "forms: counted junctions only",
    "forms: both in one sheet",
    "counted: 18 bytes",
    "counted: 60,000 bytes",
    "counted: 4,096 states",
    "counted: partly worked at the outset",
    "counted: stopped and carried on",
    "counted: raised by work and open still",
    "counted: settled on a worst sheet",
    "counted: settled on a whole sheet",
    "counted: settled with more than 256 states",
    "counted: settled at the ceiling",
    "counted: settled at none",
    "counted: settled without checks",
    "counted: settled with 16 checks",
    "counted: settled by another check than the first",
    "lost: the last check of a counted junction",
    "lost: a check before the last of a counted junction",
    "lost: with the budget 0",
    "refused 4: behind a wrong number",
    "refused 4: 17 checks where 17 is written, and nothing else",
    "refused 4: tag 05 with length 6, and nothing else",
    "refused 4: tag 03 with length 7, and nothing else",
    "refused 10: refused 5 with the right number",
    "refused 10: refused 6 with the right number",
    "refused 10: refused 7 with the right number",
    "refused 10: refused 8 with the right number",
    "refused 10: with the budget 0",
    "refused 10: one more is written than follow",
    "refused 10: one fewer is written than follow",
    "refused 10: 0 is written where checks follow",
    "refused 10: 200 is written",
    "refused 10: 255 is written",
    "refused 10: the number is off by more than one",
    "refused 10: a number is written where no check follows",
    "refused 10: 17 is written where 16 checks follow",
    "refused 10: several numbers are wrong",
    "refused 10: one of several numbers is wrong",
    "refused 10: beside plain junctions",
];

/// And each of these of drafts.
const WANTED_OF_DRAFTS: [&str; 63] = [
    "draft: 17 bytes",
    "draft: 4,096 stages",
    "draft: 60,000 bytes",
    "draft: a junction without checks",
    "draft: a least cost above 64 bits",
    "draft: a least cost above the ceiling",
    "draft: a least cost of none",
    "draft: another chosen check than the first",
    "draft: another order than in rounds from 0 up",
    "draft: another stage than the start is placed first",
    "draft: counted junctions only",
    "draft: findings below their junction's number",
    "draft: findings listed several times",
    "draft: findings listed several times that are sorted anew",
    "draft: findings that are sorted anew",
    "draft: junctions of both forms",
    "draft: more than 256 stages",
    "draft: numbered in any order",
    "draft: numbered in order already",
    "draft: numbered in reverse order",
    "draft: numbered to and fro between the ends",
    "draft: partly worked",
    "draft: refused 3 by work",
    "draft: settled",
    "draft: stages that the start does not reach",
    "draft: the start gets another number",
    "draft: whole",
    "draft: worst",
    "restored: none",
    "restored: over",
    "restored: raised by work under another number, and open still",
    "restored: rearranged again",
    "restored: settled by another check than the first",
    "restored: settled by work under another number",
    "restored: settled whole",
    "restored: settled worst",
    "restored: something stands behind the stages in the list",
    "restored: stopped",
    "restored: the plan of a junction that work settled costs the price",
    "restore: findings that do not lead on, and nothing else",
    "restore: the sheet stands in the list",
    "circle: among more than 1,000 stages",
    "circle: not reached from the start",
    "circle: nothing can be placed",
    "circle: of 100 stages or more",
    "circle: of 4 to 99 stages",
    "circle: of all stages, four or more",
    "circle: of high numbers",
    "circle: of low numbers",
    "circle: of one stage",
    "circle: of three stages",
    "circle: of two stages",
    "circle: reached from the start",
    "circle: some stages can be placed",
    "circle: whole",
    "circle: worst",
    "list: a number is repeated",
    "list: right but for its highest bit",
    "list: right but for its upper half",
    "list: the largest number",
    "list: the number of stages",
    "list: the same number everywhere",
    "list: what is missing stands behind the stages",
];

/// Wanted of the rearranger and of the inverse, behind the call's name.
const WANTED_OF_BOTH_CALLS: [&str; 41] = [
    "done",
    "refused 1",
    "refused 2",
    "refused 3",
    "refused 4",
    "refused 5",
    "refused 6",
    "refused 7",
    "refused 8",
    "refused 10",
    "refused 11",
    "a finding that is no stage",
    "findings that do not ascend",
    "equal findings of a worst sheet",
    "damaged bytes, done",
    "damaged bytes, refused",
    "the other call's tag",
    "the tag of neither",
    "a sheet of no bytes",
    "a sheet of 16 bytes",
    "a sheet of 17 bytes",
    "a sheet of 60,000 bytes",
    "a sheet of 60,001 bytes",
    "table empty",
    "table of less than an entry",
    "table up to four bytes too short",
    "table just long enough",
    "table with one to three bytes left over",
    "table of one entry more",
    "table of many entries more",
    "list empty",
    "list of less than an entry",
    "list up to four bytes too short",
    "list just long enough",
    "list with one to three bytes left over",
    "list of one entry more",
    "list of many entries more",
    "output empty",
    "output one byte too short",
    "output just long enough",
    "output longer",
];

/// Wanted too where a `price` program is given.
const WANTED_OF_PRICE: [&str; 15] = [
    "price: settled",
    "price: over",
    "price: none",
    "price: refused",
    "price: by on a whole sheet",
    "price: by where two findings share the largest value",
    "price: by that is neither the first nor the last finding",
    "price: by that is not the dearest finding of check 0",
    "price: a chosen check that lists a stage more than once",
    "price: by that is listed more than once",
    "price: by where a repeated finding shares the largest value",
    "price: run along by adds up to the price",
    "price: settled past a junction without checks",
    "price: refused 10",
    "price: a counted junction's line",
];

/// And of these, one sheet in so many must have had each: the whole text was compared, and had the line of a junction in it.
const OFTEN: [&str; 2] = ["price: compared", "price: a junction's line"];
const ONE_IN: u64 = 5;

#[derive(Default)]
pub struct Coverage(BTreeMap<String, u64>);

impl Coverage {
    pub fn saw(&mut self, name: &str) {
        self.add(name, 1);
    }

    pub fn saw_if(&mut self, holds: bool, name: &str) {
        if holds {
            self.saw(name);
        }
    }

    pub fn add(&mut self, name: &str, count: u64) {
        *self.0.entry(name.to_string()).or_default() += count;
    }

    pub fn lines(&self) -> impl Iterator<Item = (&String, &u64)> {
        self.0.iter()
    }

    /// What a long run of so many sheets should have had and had not.
    pub fn missing(&self, sheets: u64, with_price: bool) -> Vec<String> {
        let mut missing = self.never(&WANTED);
        missing.extend(self.never(&WANTED_OF_DRAFTS));
        for which in BOTH {
            missing.extend(self.never(&WANTED_OF_BOTH_CALLS.map(|name| format!("{which}: {name}"))));
            missing.extend(self.never(&in_order(which)));
        }
        if with_price {
            missing.extend(self.never(&WANTED_OF_PRICE));
            missing.extend(self.seldom(&OFTEN, sheets));
        }
        missing
    }

    fn never(&self, names: &[impl AsRef<str>]) -> Vec<String> {
        let none = names.iter().map(AsRef::as_ref).filter(|name| self.count(name) == 0);
        none.map(|name| format!("no sheet had: {name}")).collect()
    }

    fn seldom(&self, names: &[&str], sheets: u64) -> Vec<String> {
        let few = names.iter().filter(|name| self.count(name) * ONE_IN < sheets);
        few.map(|name| format!("fewer than one sheet in {ONE_IN} had: {name}")).collect()
    }

    fn count(&self, name: &str) -> u64 {
        self.0.get(name).copied().unwrap_or(0)
    }
}

/// Of every two questions that a call puts, the first refuses where both are answered no.
pub fn in_order(which: Which) -> Vec<String> {
    let later =
        |place: usize| ASKED[place + 1..].iter().map(move |later| format!("{which}: refused {} before {later}", ASKED[place]));
    (0..ASKED.len()).flat_map(later).collect()
}

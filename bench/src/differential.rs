//! Holds the proved library's answers and buffers to the reference on random inputs.

use std::collections::BTreeMap;
use std::fmt::{Debug, LowerHex};

use crate::inputs;
use crate::random::Random;
use crate::reference::{self, Plan, Verdict, HEIGHT, NODE_BYTES};
use crate::sepia::LINKED;
use crate::shape;
use crate::trust;

/// Cells before and behind each output buffer that no call may change.
const GUARD: usize = 16;

/// What an output buffer holds: bytes or words.
trait Cell: Copy + PartialEq + LowerHex {
    /// The lowest bits of a word.
    fn of(word: u64) -> Self;
}

impl Cell for u8 {
    fn of(word: u64) -> Self {
        word as u8
    }
}

impl Cell for u64 {
    fn of(word: u64) -> Self {
        word
    }
}

/// Two output buffers with the same content, one for each side, and that content.
#[derive(Default)]
struct Outputs<C> {
    before: Vec<C>,
    reference: Vec<C>,
    sepia: Vec<C>,
    room: usize,
}

impl<C: Cell> Outputs<C> {
    fn fill(&mut self, random: &mut Random, room: usize) {
        self.room = room;
        let (first, step) = (random.next(), random.next() | 1);
        self.before.clear();
        let cell = |place: usize| C::of(first.wrapping_add(step.wrapping_mul(place as u64)));
        self.before.extend((0..room + 2 * GUARD).map(cell));
        self.reference.clone_from(&self.before);
        self.sepia.clone_from(&self.before);
    }

    fn of_reference(&mut self) -> &mut [C] {
        &mut self.reference[GUARD..GUARD + self.room]
    }

    fn of_sepia(&mut self) -> &mut [C] {
        &mut self.sepia[GUARD..GUARD + self.room]
    }

    fn difference(&self) -> Option<String> {
        let place = self.reference.iter().zip(&self.sepia).position(|(a, b)| a != b)?;
        Some(format!(
            "output cell {}: reference {:02x}, sepia {:02x}",
            place as isize - GUARD as isize,
            self.reference[place],
            self.sepia[place]
        ))
    }

    /// Whether the library has changed nothing but the first `written` cells.
    fn kept_past(&self, written: usize) -> bool {
        let (start, end) = (GUARD, GUARD + written);
        self.sepia[..start] == self.before[..start] && self.sepia[end..] == self.before[end..]
    }
}

/// The answers of one call, counted, and how many of them had something special.
struct Counts {
    call: &'static str,
    seen: BTreeMap<String, u64>,
    special: BTreeMap<&'static str, u64>,
}

impl Counts {
    fn new(call: &'static str) -> Self {
        Counts { call, seen: BTreeMap::new(), special: BTreeMap::new() }
    }

    fn add(&mut self, answer: String) {
        *self.seen.entry(answer).or_insert(0) += 1;
    }

    fn note(&mut self, seen: bool, what: &'static str) {
        if seen {
            *self.special.entry(what).or_insert(0) += 1;
        }
    }

    fn print(&self) {
        println!("{}: {} inputs", self.call, self.seen.values().sum::<u64>());
        for (answer, count) in &self.seen {
            println!("  {count:>9}  {answer}");
        }
        for (what, count) in &self.special {
            println!("  {count:>9}    of these with {what}");
        }
    }
}

fn refusal(number: u32) -> String {
    format!("refused {number:>2}")
}

/// A table and what it was asked for, to be shown beside a difference.
fn shown(table: &[u8], Plan { t, m, l }: Plan) -> String {
    format!("\n  table {}\n  T {t} M {m} L {l}", hex(table))
}

fn hex(bytes: &[u8]) -> String {
    bytes.iter().map(|byte| format!("{byte:02x}")).collect()
}

/// Tells how the two sides differ, if they do.
fn compare<A: PartialEq + Debug>(reference: &A, sepia: &A, inputs_kept: bool) -> Option<String> {
    if reference != sepia {
        Some(format!("answer: reference {reference:?}, sepia {sepia:?}"))
    } else if !inputs_kept {
        Some("sepia changed an input".to_string())
    } else {
        None
    }
}

/// The same for a call with an output: also how the buffers differ, or that a refused call wrote.
fn compare_outputs<C: Cell>(
    reference: Result<usize, u32>,
    sepia: Result<usize, u32>,
    outputs: &Outputs<C>,
    inputs_kept: bool,
) -> Option<String> {
    compare(&reference, &sepia, inputs_kept).or_else(|| outputs.difference()).or_else(|| {
        let written = sepia.is_err() && !outputs.kept_past(0);
        written.then(|| "sepia refused, and changed the output".to_string())
    })
}

fn read(cases: u64, random: &mut Random, counts: &mut Counts) -> Result<(), String> {
    let mut text = Vec::new();
    let mut outputs = Outputs::<u8>::default();
    for case in 0..cases {
        let m = inputs::atom_count(random);
        inputs::text(random, m, &mut text);
        let nodes = reference::read(&text, m, &mut [0; reference::MAX_NODES * NODE_BYTES]).unwrap_or(3);
        let room = inputs::room(random, nodes * NODE_BYTES);
        outputs.fill(random, room);
        let kept = text.clone();
        let expected = reference::read(&text, m, outputs.of_reference());
        let answer = LINKED.read(&text, m, outputs.of_sepia());
        if let Some(difference) = compare_outputs(expected, answer, &outputs, kept == text) {
            return Err(format!(
                "case {case}: {difference}\n  text {} ({:?})\n  M {m} room {room}",
                hex(&text),
                String::from_utf8_lossy(&text)
            ));
        }
        counts.add(match expected {
            Ok(128) => "128 nodes".to_string(),
            Ok(127) => "127 nodes".to_string(),
            Ok(_) => "1 to 126 nodes".to_string(),
            Err(number) => refusal(number),
        });
        counts.note(text.contains(&b'['), "a bracket of a window");
        counts.note(expected.is_ok() && text.contains(&b'['), "a window, and read");
        let root = expected.map(|nodes| outputs.of_reference()[nodes * NODE_BYTES - 1]);
        counts.note(root.is_ok_and(|height| height >= 64), "a height of 64 or more, and read");
    }
    Ok(())
}

fn evaluate(cases: u64, random: &mut Random, counts: &mut Counts) -> Result<(), String> {
    let (mut table, mut run) = (Vec::new(), Vec::new());
    let mut outputs = Outputs::<u64>::default();
    for case in 0..cases {
        let plan = inputs::plan(random);
        inputs::table(random, plan.m, &mut table);
        inputs::run(random, plan, &mut run);
        let room = inputs::room(random, shape::len(&table));
        outputs.fill(random, room);
        let kept = (table.clone(), run.clone());
        let expected = reference::evaluate(&table, plan, &run, outputs.of_reference());
        let answer = LINKED.evaluate(&table, plan, &run, outputs.of_sepia());
        let difference = compare_outputs(expected, answer, &outputs, kept.0 == table && kept.1 == run)
            .or_else(|| compare_bytes(answer, &table, plan, &run, &mut outputs));
        if let Some(difference) = difference {
            return Err(format!("case {case}: {difference}{} room {room}\n  run {run:?}", shown(&table, plan)));
        }
        counts.add(match expected {
            Ok(truth) => format!("root is {truth}"),
            Err(number) => refusal(number),
        });
        note_table(counts, &expected, &table, plan);
        if expected.is_ok() {
            note_stay(counts, &table, plan, &run, outputs.of_sepia());
            let root = outputs.of_sepia()[shape::len(&table) - 1];
            counts.note(root & 1 == 0 && root != 0, "a root that holds first at a later slot");
            counts.note(root == 0, "a root that holds at no slot");
            counts.note(root >> 63 == 1, "a root that holds at slot 64");
        }
    }
    Ok(())
}

/// Whether the words are other ones than those of a plan that stays at its last slot.
fn note_stay(counts: &mut Counts, table: &[u8], plan: Plan, run: &[u16], words: &[u64]) {
    if plan.l < plan.t {
        let mut stay = vec![0; shape::len(table)];
        let same =
            reference::evaluate(table, Plan { l: plan.t, ..plan }, run, &mut stay).is_ok() && words.starts_with(&stay);
        counts.note(!same, "other words than L equal to T has");
    }
}

/// How the library's words differ from the bytes of before, if they do: the same answer, where the bytes have room for
/// as many nodes as the words; the truth of every node at every slot; zeros above; nothing behind the words; and the
/// root's first slot.
fn compare_bytes(
    answer: Result<usize, u32>,
    table: &[u8],
    plan: Plan,
    run: &[u16],
    outputs: &mut Outputs<u64>,
) -> Option<String> {
    let t = plan.t;
    let mut bytes = vec![0; outputs.room * t.min(reference::MAX_SLOTS)];
    let expected = reference::evaluate_bytes(table, plan, run, &mut bytes);
    if expected != answer {
        return Some(format!("answer: bytes {expected:?}, sepia {answer:?}"));
    }
    answer.ok()?;
    let nodes = shape::len(table);
    if !outputs.kept_past(nodes) {
        return Some("sepia wrote past the words".to_string());
    }
    let words = &outputs.of_sepia()[..nodes];
    for (node, (word, truth)) in words.iter().zip(bytes.chunks_exact(t)).enumerate() {
        let slot = (0..64).find(|&slot| word >> slot & 1 != u64::from(truth.get(slot).copied().unwrap_or(0)));
        if let Some(slot) = slot {
            return Some(format!("node {node}, slot {}: bytes {truth:?}, sepia {word:x}", slot + 1));
        }
    }
    let first = bytes[(nodes - 1) * t..][..t].iter().position(|&truth| truth == 1).map(|place| place + 1);
    let slot = LINKED.first_slot(words[nodes - 1]);
    (first != slot).then(|| format!("the root's first slot: bytes {first:?}, sepia {slot:?}"))
}

/// Words without a plan, after none set, all set and each bit alone.
fn first_slot(cases: u64, random: &mut Random, counts: &mut Counts) -> Result<(), String> {
    let fixed = [0, u64::MAX].into_iter().chain((0..64).map(|bit| 1 << bit));
    let all = fixed.chain(std::iter::from_fn(|| Some(inputs::word(random))));
    for (case, word) in all.take(cases as usize).enumerate() {
        let (expected, answer) = (reference::first_slot(word), LINKED.first_slot(word));
        if let Some(difference) = compare(&expected, &answer, true) {
            return Err(format!("case {case}: {difference}\n  word {word:016x}"));
        }
        counts.add(match expected {
            None => "no slot".to_string(),
            Some(1) => "slot 1".to_string(),
            Some(64) => "slot 64".to_string(),
            Some(_) => "slots 2 to 63".to_string(),
        });
        counts.note(word.count_ones() == 1, "a single bit");
        counts.note(word.count_ones() >= 32, "32 bits or more");
    }
    Ok(())
}

fn rows(cases: u64, random: &mut Random, counts: &mut Counts) -> Result<(), String> {
    let mut table = Vec::new();
    let mut outputs = Outputs::<u8>::default();
    for case in 0..cases {
        let plan = inputs::plan(random);
        inputs::table(random, plan.m, &mut table);
        let room = inputs::room(random, reference::row_bytes(&table, plan).unwrap_or(100));
        outputs.fill(random, room);
        let kept = table.clone();
        let expected = reference::rows(&table, plan, outputs.of_reference());
        let answer = LINKED.rows(&table, plan, outputs.of_sepia());
        if let Some(difference) = compare_outputs(expected, answer, &outputs, kept == table) {
            return Err(format!("case {case}: {difference}{} room {room}", shown(&table, plan)));
        }
        counts.add(match expected {
            Ok(2..=99) => "2 to 99 rows".to_string(),
            Ok(100..=9999) => "100 to 9,999 rows".to_string(),
            Ok(10_000..=99_999) => "10,000 to 99,999 rows".to_string(),
            Ok(_) => "100,000 rows or more".to_string(),
            Err(number) => refusal(number),
        });
        note_table(counts, &expected, &table, plan);
    }
    Ok(())
}

/// What a table has, where it was answered, and some of what can be wrong with one that was refused.
fn note_table<A>(counts: &mut Counts, answer: &Result<A, u32>, table: &[u8], plan: Plan) {
    match answer {
        Ok(_) => {
            counts.note(shape::has_window(table), "a window, and answered");
            counts.note(shape::has_shared(table), "a shared child, and answered");
            counts.note(!shape::unused(table).is_empty(), "a node that the root does not use, and answered");
            note_loop(counts, table, plan);
        }
        Err(7) => {
            counts.note(has_old_records(table), "records of 7 bytes");
            note_heights(counts, table, plan);
        }
        Err(_) => {}
    }
}

/// What a loop does in a table that was answered.
fn note_loop(counts: &mut Counts, table: &[u8], plan: Plan) {
    counts.note(plan.l < plan.t, "L below T, and answered");
    counts.note(plan.l == 1 && plan.t > 1, "L 1 and T above it, and answered");
    counts.note(!shape::with_seconds(table, plan).is_empty(), "V slacks, and answered");
    counts.note(shape::has_wrapped_window(table, plan), "a window that wraps, and answered");
    counts.note(shape::has_parted_window(table, plan), "a window that wraps with a gap, and answered");
    counts.note(shape::has_far_window(table, plan), "a window that wraps more than once, and answered");
}

/// How the heights of a refused table are wrong, where all else in it is good.
fn note_heights(counts: &mut Counts, table: &[u8], plan: Plan) {
    let wrong = shape::wrong_heights(table);
    let mut right = table.to_vec();
    shape::fill_heights(&mut right, 0);
    if wrong.is_empty() || reference::row_bytes(&right, plan).is_err() {
        return;
    }
    let unused = shape::unused(table);
    counts.note(true, "a height alone wrong");
    counts.note(
        wrong.iter().all(|node| unused.contains(node)),
        "a height alone wrong, of a node that the root does not use",
    );
    if let [node] = wrong[..] {
        let height = table[node * NODE_BYTES + HEIGHT];
        let lowest = shape::heights_under(table, node).min();
        counts.note(lowest.is_none(), "a height alone wrong, in one record, an atom's");
        let by_lowest = lowest.is_some_and(|lowest| height == lowest.wrapping_add(1));
        counts.note(by_lowest, "a height alone wrong, in one record, as the lower child's would have it");
    }
}

/// Whether a record begins every 7 bytes, as was so before records had a height.
fn has_old_records(table: &[u8]) -> bool {
    !table.is_empty() && table.len() % 7 == 0 && table.chunks_exact(7).all(|record| record[..2] == [0x4E, 0x44])
}

/// Whether a line of a column has this number in its last field. Only COST lines have 0.
fn has_number(page: &[u8], number: &[u8]) -> bool {
    page.split(|&byte| byte == b'\n').any(|line| line.starts_with(b"    X") && line.get(24..) == Some(number))
}

/// Whether a row of a good table has a term that another one cancels: an implication of a node by itself.
fn has_cancelled(table: &[u8]) -> bool {
    table.chunks_exact(NODE_BYTES).any(|record| record[2] == reference::IMPLIES && record[3] == record[4])
}

fn mps(cases: u64, random: &mut Random, counts: &mut Counts) -> Result<(), String> {
    let mut table = Vec::new();
    let mut outputs = Outputs::<u8>::default();
    for case in 0..cases {
        let plan = inputs::plan(random);
        inputs::table(random, plan.m, &mut table);
        let page = reference::whole_page(&table, plan).unwrap_or_default();
        let room = inputs::room(random, if page.is_empty() { 300 } else { page.len() });
        outputs.fill(random, room);
        let kept = table.clone();
        let expected = reference::mps_page(&table, plan, outputs.of_reference());
        let answer = LINKED.mps_page(&table, plan, outputs.of_sepia());
        if let Some(difference) = compare_outputs(expected, answer, &outputs, kept == table) {
            return Err(format!("case {case}: {difference}{} room {room}", shown(&table, plan)));
        }
        counts.add(match expected {
            Ok(0..=9_999) => "under 10,000 bytes".to_string(),
            Ok(10_000..=999_999) => "10,000 to 999,999 bytes".to_string(),
            Ok(1_000_000..=9_999_999) => "1,000,000 to 9,999,999 bytes".to_string(),
            Ok(_) => "10,000,000 bytes or more".to_string(),
            Err(number) => refusal(number),
        });
        if expected.is_ok() {
            counts.note(has_number(&page, b"2"), "a coefficient 2");
            counts.note(has_number(&page, b"-2"), "a coefficient -2");
            counts.note(has_cancelled(&table), "a term that is dropped");
            counts.note(has_number(&page, b"0"), "a variable in no row");
        }
        note_table(counts, &expected, &table, plan);
    }
    Ok(())
}

fn judge(cases: u64, random: &mut Random, counts: &mut Counts) -> Result<(), String> {
    let (mut table, mut figures) = (Vec::new(), Vec::new());
    for case in 0..cases {
        let plan = inputs::plan(random);
        inputs::table(random, plan.m, &mut table);
        let e = inputs::tolerance(random);
        inputs::figures(random, &table, plan, e, &mut figures);
        let kept = (table.clone(), figures.clone());
        let expected = reference::judge(&table, plan, &figures, e);
        let answer = LINKED.judge(&table, plan, &figures, e);
        let difference = compare(&expected, &answer, kept.0 == table && kept.1 == figures);
        let outcome = difference.map_or(Ok(()), Err).and_then(|()| {
            trust::compare_counts(&table, plan, e)?;
            note_verdict(counts, &expected, &table, plan, &figures, e)
        });
        if let Err(difference) = outcome {
            return Err(format!("case {case}: {difference}{} e {e}\n  figures {figures:?}", shown(&table, plan)));
        }
        note_table(counts, &expected, &table, plan);
    }
    Ok(())
}

/// Counts a verdict, and holds one that passed to its promise.
fn note_verdict(
    counts: &mut Counts,
    verdict: &Result<Verdict, u32>,
    table: &[u8],
    plan: Plan,
    figures: &[i32],
    e: i32,
) -> Result<(), String> {
    counts.add(match verdict {
        Ok(Verdict::Outside(_)) => "outside".to_string(),
        Ok(Verdict::NotBinary(_)) => "not binary".to_string(),
        Ok(Verdict::Broken(..)) => "broken".to_string(),
        Ok(Verdict::Passed(..)) => "passed".to_string(),
        Err(number) => refusal(*number),
    });
    match *verdict {
        Ok(Verdict::Broken(row, _)) => {
            let owner = reference::owner_of_row(table, plan, row);
            let looped = shape::has_wrapped_window(table, plan);
            let windowed = owner.is_some_and(|(kind, _)| kind >= reference::WITHIN);
            counts.note(windowed, "a window's row broken");
            counts.note(windowed && looped, "a window's row broken, and a window that wraps");
            counts.note(owner.is_some_and(|(_, second)| second), "a V row broken");
            counts.note(owner.is_none(), "the goal row broken");
        }
        Ok(Verdict::Passed(_, error)) => {
            let seen = trust::check(table, plan, figures, e)?;
            note_passed(counts, table, plan, e, error, seen);
        }
        _ => {}
    }
    Ok(())
}

fn note_passed(counts: &mut Counts, table: &[u8], plan: Plan, e: i32, error: u32, seen: trust::Seen) {
    let seconds = !shape::with_seconds(table, plan).is_empty();
    counts.note(e > 0, "passed, e above 0");
    counts.note(e > 0 && shape::has_window(table), "passed, e above 0, a window");
    counts.note(e > 0 && shape::has_wrapped_window(table, plan), "passed, e above 0, a window that wraps");
    counts.note(e > 0 && seconds, "passed, e above 0, V slacks");
    counts.note(e > 0 && seconds && error < trust::HALF, "passed, e above 0, V slacks, error below 500,000");
    counts.note(e > 0 && shape::has_same_sides(table), "passed, e above 0, the same part on both sides");
    counts.note(e > 0 && error < trust::HALF, "passed, e above 0, error below 500,000");
    counts.note((trust::HALF..trust::STOP).contains(&error), "passed, error 500,000 to 999,999");
    counts.note(error == trust::STOP, "passed, error at the stop");
    counts.note(seen.reached, "passed, a slack as far off as its error figure, not 0");
    counts.note(seen.second_reached, "passed, a V slack as far off as its error figure, not 0");
    counts.note(!seen.met, "passed, and the rounded run does not satisfy the rule");
}

/// Runs `cases` inputs through each call; true when all agree.
pub fn run(cases: u64, seed: u64) -> bool {
    type Call = fn(u64, &mut Random, &mut Counts) -> Result<(), String>;
    let calls: [(&'static str, Call); 6] = [
        ("read", read),
        ("evaluate", evaluate),
        ("rows", rows),
        ("judge", judge),
        ("mps", mps),
        ("first slot", first_slot),
    ];
    println!("seed {seed}");
    for (number, (name, call)) in calls.into_iter().enumerate() {
        // Each call has inputs of its own, whatever the number of cases.
        let mut random =
            Random::new(seed.wrapping_mul(4).wrapping_add(number as u64).wrapping_mul(0xD134_2543_DE82_EF95));
        let mut counts = Counts::new(name);
        let outcome = call(cases, &mut random, &mut counts);
        counts.print();
        if let Err(difference) = outcome {
            println!("DISAGREEMENT in {name}, {difference}");
            return false;
        }
    }
    println!("all answers and buffers agree");
    true
}

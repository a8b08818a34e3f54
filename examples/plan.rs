// Reads a rule, writes its rows and its MPS page, evaluates a run and judges the figures that the run makes, goes through logged runs for the
// first slot at which the rule holds, and does the same for a weekly plan that comes round. Build and run: examples/run-rust

#[repr(C)]
#[derive(Clone, Copy)]
struct Answer {
    refusal: u32,
    value: u32,
}

#[repr(C)]
#[derive(Clone, Copy)]
struct RawVerdict {
    refusal: u32,
    verdict: u32,
    value: u32,
    error: u32,
    shortfall: i64,
}

#[link(name = "sepia", kind = "static")]
extern "C" {
    fn sepia_version() -> u32;
    fn sepia_read(text: *const u8, text_len: usize, m: usize, out: *mut u8, out_len: usize) -> Answer;
    fn sepia_evaluate(
        table: *const u8, table_len: usize, t: usize, m: usize, l: usize, run: *const u16, run_len: usize, out: *mut u64, out_words: usize,
    ) -> Answer;
    fn sepia_first_slot(word: u64) -> u32;
    fn sepia_rows(table: *const u8, table_len: usize, t: usize, m: usize, l: usize, out: *mut u8, out_len: usize) -> Answer;
    fn sepia_mps(table: *const u8, table_len: usize, t: usize, m: usize, l: usize, out: *mut u8, out_len: usize) -> Answer;
    fn sepia_judge(table: *const u8, table_len: usize, t: usize, m: usize, l: usize, figures: *const i32, figures_len: usize, e: i32)
        -> RawVerdict;
}

// A refusal's number; include/sepia.h says what each means.
#[derive(Debug)]
struct Refused(#[allow(dead_code)] u32);

enum Verdict {
    Outside { variable: u32 },
    NotBinary { variable: u32 },
    Broken { row: u32, shortfall: i64 },
    Passed { rows: u32, error: u32 },
}

// The boundary needs valid pointers and lengths, which slices have; every value is answered, so the wrappers are safe.
fn answer(a: Answer) -> Result<usize, Refused> {
    if a.refusal == 0 { Ok(a.value as usize) } else { Err(Refused(a.refusal)) }
}

fn read(text: &[u8], m: usize, out: &mut [u8]) -> Result<usize, Refused> {
    answer(unsafe { sepia_read(text.as_ptr(), text.len(), m, out.as_mut_ptr(), out.len()) })
}

// Bit s of a node's word is its truth at slot s + 1.
fn evaluate(table: &[u8], t: usize, m: usize, l: usize, run: &[u16], out: &mut [u64]) -> Result<usize, Refused> {
    answer(unsafe { sepia_evaluate(table.as_ptr(), table.len(), t, m, l, run.as_ptr(), run.len(), out.as_mut_ptr(), out.len()) })
}

fn first_slot(word: u64) -> Option<u32> {
    let slot = unsafe { sepia_first_slot(word) };
    (slot != 0).then_some(slot)
}

fn rows(table: &[u8], t: usize, m: usize, l: usize, out: &mut [u8]) -> Result<usize, Refused> {
    answer(unsafe { sepia_rows(table.as_ptr(), table.len(), t, m, l, out.as_mut_ptr(), out.len()) })
}

fn mps(table: &[u8], t: usize, m: usize, l: usize, out: &mut [u8]) -> Result<usize, Refused> {
    answer(unsafe { sepia_mps(table.as_ptr(), table.len(), t, m, l, out.as_mut_ptr(), out.len()) })
}

fn judge(table: &[u8], t: usize, m: usize, l: usize, figures: &[i32], e: i32) -> Result<Verdict, Refused> {
    let v = unsafe { sepia_judge(table.as_ptr(), table.len(), t, m, l, figures.as_ptr(), figures.len(), e) };
    match (v.refusal, v.verdict) {
        (0, 0) => Ok(Verdict::Outside { variable: v.value }),
        (0, 1) => Ok(Verdict::NotBinary { variable: v.value }),
        (0, 2) => Ok(Verdict::Broken { row: v.value, shortfall: v.shortfall }),
        (0, 3) => Ok(Verdict::Passed { rows: v.value, error: v.error }),
        (0, other) => panic!("verdict {other} is not one of version {VERSION}"),
        (refusal, _) => Err(Refused(refusal)),
    }
}

const T: usize = 8;
const M: usize = 2;
const NODES: usize = 128;
const NODE_BYTES: usize = 8;
const ONE: i32 = 1_000_000;

// The loop slot: of a plan that ends the last slot, which then stands for good; of a weekly one slot 2, for slot 1 is the start, once.
const ENDS: usize = T;
const WEEKLY: usize = 2;

const VERSION: u32 = 8; // of the boundary declared above

fn print_sizes(table: &[u8], l: usize) -> Result<(), Refused> {
    let mut records = vec![0u8; 1 << 17]; // enough, as the page below, for every table at this T
    println!("rows {}", rows(table, T, M, l, &mut records)?);
    let mut page = vec![0u8; 1 << 20];
    println!("page {} bytes", mps(table, T, M, l, &mut page)?);
    Ok(())
}

// The second slacks V of a node of kind 6, 7 or 8: its F, G or U over the slots from each to T, from the truth of its parts.
fn second(kind: u8, p: u64, q: u64) -> [i32; T] {
    let mut figures = [0; T];
    let mut holds = kind == 7;
    for s in (0..T).rev() {
        let (left, right) = (p >> s & 1 == 1, q >> s & 1 == 1);
        holds = match kind {
            6 => left || holds,
            7 => left && holds,
            _ => right || left && holds,
        };
        figures[s] = holds as i32 * ONE;
    }
    figures
}

// One figure for each variable: the atoms of the run, then each node's truth, slot by slot, and where the plan loops V.
fn figures_of(table: &[u8], l: usize, run: &[u16], truth: &[u64]) -> Vec<i32> {
    let atoms = (0..M).flat_map(|a| run.iter().map(move |r| (r >> a & 1) as i32 * ONE));
    let slacks = truth.iter().flat_map(|word| (0..T).map(move |s| (word >> s & 1) as i32 * ONE));
    let mut figures: Vec<i32> = atoms.chain(slacks).collect();
    for node in table.chunks(NODE_BYTES).filter(|node| l < T && (6..=8).contains(&node[2])) {
        figures.extend(second(node[2], truth[node[3] as usize], truth[node[4] as usize]));
    }
    figures
}

// A verdict in words. Where figures passed that are nearly right, the error figure tells whether the schedule that they round to meets the rule.
fn print_verdict(table: &[u8], l: usize, figures: &[i32], e: i32) -> Result<(), Refused> {
    match judge(table, T, M, l, figures, e)? {
        Verdict::Outside { variable } => println!("outside: variable {variable} is not within 0 and 1"),
        Verdict::NotBinary { variable } => println!("not binary: atom variable {variable} is neither 0 nor 1"),
        Verdict::Broken { row, shortfall } => println!("broken: row {row} is {shortfall} millionths off"),
        Verdict::Passed { rows, error } => {
            let rounded = if error < ONE as u32 / 2 { "meets the rule" } else { "must be evaluated" };
            println!("passed: {rows} rows, error figure {error}: the rounded schedule {rounded}");
        }
    }
    Ok(())
}

// What a shift lead asks of a log: the first slot at which the rule holds, which is in the root's word, the last. The result is all words.
fn review(table: &[u8], l: usize, run: &[u16]) -> Result<Vec<u64>, Refused> {
    let mut truth = vec![0u64; table.len() / NODE_BYTES];
    let at_1 = evaluate(table, T, M, l, run, &mut truth)?;
    print!("{} at slot 1; ", if at_1 == 1 { "holds" } else { "does not hold" });
    match first_slot(truth[truth.len() - 1]) {
        Some(slot) => println!("holds first at slot {slot}"),
        None => println!("holds at no slot"),
    }
    Ok(truth)
}

fn main() -> Result<(), Refused> {
    assert_eq!(unsafe { sepia_version() }, VERSION, "the library has another version of the boundary");
    let runs: [[u16; T]; 3] = [
        [1, 0, 0, 0, 0, 2, 0, 0], // a0 at slot 1, a1 at slot 6: in time
        [1, 0, 0, 0, 0, 0, 2, 0], // a1 one slot late
        [0, 1, 0, 0, 0, 2, 0, 1], // a0 once more at the end, and no a1 after it
    ];
    let mut table = [0u8; NODE_BYTES * NODES];
    let nodes = read(b"G(a0 > F[0,5] a1)", M, &mut table)?; // read-back within five slots
    let table = &table[..NODE_BYTES * nodes];
    println!("nodes {nodes}");
    print_sizes(table, ENDS)?;

    let truth = review(table, ENDS, &runs[0])?;
    let mut figures = figures_of(table, ENDS, &runs[0], &truth);
    print_verdict(table, ENDS, &figures, 0)?;
    figures[0] = 999_400; // a0 at slot 1, nearly right
    print_verdict(table, ENDS, &figures, 1000)?;
    figures[(M + nodes - 1) * T] = 500_000; // a figure left at one half
    print_verdict(table, ENDS, &figures, 1000)?;

    for run in &runs[1..] {
        review(table, ENDS, run)?;
    }

    // the last plan every week: after slot 8 comes slot 2 again, so the a0 of slot 8 has its a1 five slots later, at slot 6
    println!("each week:");
    print_sizes(table, WEEKLY)?;
    let truth = review(table, WEEKLY, &runs[2])?;
    print_verdict(table, WEEKLY, &figures_of(table, WEEKLY, &runs[2], &truth), 1000)
}

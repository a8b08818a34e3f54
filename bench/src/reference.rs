//! The calls in plain Rust, straight from the papers: what the proved library is compared with, in its
//! answers and in its speed. It shares no code with the library.
//!
//! Each call returns its result or the number of its refusal. The refusals are tested in the papers' order
//! (1, 2, 13, 3 to 5, 12, 6 to 11), so the first wins, and nothing is written before all of them are known.

use std::ops::Range;

pub const MAX_SLOTS: usize = 64;
pub const MAX_ATOMS: usize = 16;
pub const MAX_TEXT: usize = 1024;
pub const MAX_NODES: usize = 128;
pub const MAX_AHEAD: usize = 63;
pub const NODE_BYTES: usize = 8;
pub const ONE: i64 = 1_000_000;

const NODE_MARK: [u8; 2] = [0x4E, 0x44];
/// The place of the height in a node record.
pub const HEIGHT: usize = 7;
const ROW_MARK: [u8; 2] = [0x52, 0x57];
/// What stands before the terms of a row record.
const HEAD_BYTES: usize = 5;
const TERM_BYTES: usize = 3;
const MAX_TOLERANCE: i32 = 1000;

pub const ATOM: u8 = 1;
pub const NOT: u8 = 2;
pub const AND: u8 = 3;
pub const OR: u8 = 4;
pub const IMPLIES: u8 = 5;
pub const EVENTUALLY: u8 = 6;
pub const ALWAYS: u8 = 7;
pub const UNTIL: u8 = 8;
pub const WITHIN: u8 = 9;
pub const THROUGHOUT: u8 = 10;

#[derive(Clone, Copy, Debug, PartialEq, Eq)]
pub enum Verdict {
    Outside(usize),
    NotBinary(usize),
    /// The row, and its shortfall in millionths.
    Broken(usize, i64),
    /// The row count, and the root's error figure at slot 1.
    Passed(usize, u32),
}

/// T slots, M atoms, and the slot L that comes after slot T.
#[derive(Clone, Copy, Debug)]
pub struct Plan {
    pub t: usize,
    pub m: usize,
    pub l: usize,
}

// Of a plan that is not refused. Slots count from 0 here.
impl Plan {
    /// Whether more than the last slot comes round.
    fn loops(&self) -> bool {
        self.l < self.t
    }

    /// The slot that comes after the last.
    fn back(&self) -> usize {
        self.l - 1
    }

    /// The slots that come round.
    fn round(&self) -> usize {
        self.t - self.back()
    }

    /// The slot of a time, which goes on counting after the last slot.
    fn slot(&self, time: usize) -> usize {
        if time < self.t {
            time
        } else {
            self.back() + (time - self.back()) % self.round()
        }
    }

    /// The slot after this one.
    fn next(&self, slot: usize) -> usize {
        if slot + 1 < self.t {
            slot + 1
        } else {
            self.back()
        }
    }

    /// All slots, a bit for each.
    fn all(&self) -> u64 {
        u64::MAX >> (MAX_SLOTS - self.t)
    }
}

fn require(condition: bool, refusal: u32) -> Result<(), u32> {
    if condition {
        Ok(())
    } else {
        Err(refusal)
    }
}

// ---------------------------------------------------------------------------------------------- read

/// Reads a rule into `out` as a node table; the result is the number of nodes.
pub fn read(text: &[u8], m: usize, out: &mut [u8]) -> Result<usize, u32> {
    read_with::<false>(text, m, out)
}

/// The same by a function for each of the paper's five levels, as the proved reader does it: what that form costs.
pub fn read_by_levels(text: &[u8], m: usize, out: &mut [u8]) -> Result<usize, u32> {
    read_with::<true>(text, m, out)
}

fn read_with<const LEVELS: bool>(text: &[u8], m: usize, out: &mut [u8]) -> Result<usize, u32> {
    require((1..=MAX_ATOMS).contains(&m), 2)?;
    require(text.len() <= MAX_TEXT, 3)?;
    let mut parser = Parser::<LEVELS> {
        text,
        at: 0,
        atoms: m,
        atom_too_large: false,
        window_refused: false,
        count: 0,
        records: [[0; NODE_BYTES]; MAX_NODES],
    };
    parser.skip_spaces();
    parser.rule().ok_or(4u32)?;
    require(parser.at == text.len(), 4)?;
    require(!parser.atom_too_large, 5)?;
    require(!parser.window_refused, 12)?;
    require(parser.count <= MAX_NODES, 6)?;
    let written = parser.records[..parser.count].as_flattened();
    require(out.len() >= written.len(), 11)?;
    out[..written.len()].copy_from_slice(written);
    Ok(parser.count)
}

const NO_WINDOW: (usize, usize) = (0, 0);

/// How tightly an operator binds: > | & U, loosest first.
type Binding = u8;
const LOOSEST: Binding = 1;

fn binary_operator(byte: u8) -> Option<(Binding, u8)> {
    match byte {
        b'>' => Some((1, IMPLIES)),
        b'|' => Some((2, OR)),
        b'&' => Some((3, AND)),
        b'U' => Some((4, UNTIL)),
        _ => None,
    }
}

/// A parser that counts the nodes beyond the table's end but does not keep them: the whole text must be
/// seen before it is known which refusal applies.
struct Parser<'a, const LEVELS: bool> {
    text: &'a [u8],
    at: usize,
    atoms: usize,
    atom_too_large: bool,
    window_refused: bool,
    count: usize,
    records: [[u8; NODE_BYTES]; MAX_NODES],
}

impl<const LEVELS: bool> Parser<'_, LEVELS> {
    fn peek(&self) -> Option<u8> {
        self.text.get(self.at).copied()
    }

    fn skip_spaces(&mut self) {
        while self.peek() == Some(b' ') {
            self.at += 1;
        }
    }

    /// Steps over a token of one byte and the spaces behind it.
    fn step(&mut self) {
        self.at += 1;
        self.skip_spaces();
    }

    fn rule(&mut self) -> Option<usize> {
        if LEVELS {
            self.implies()
        } else {
            self.climb(LOOSEST)
        }
    }

    /// Operators that bind at least as tightly as `loosest`; each groups to the right.
    fn climb(&mut self, loosest: Binding) -> Option<usize> {
        let mut left = self.single()?;
        while let Some((binding, kind)) = self.peek().and_then(binary_operator) {
            if binding < loosest {
                break;
            }
            self.step();
            let right = self.climb(binding)?;
            left = self.join(kind, left, right);
        }
        Some(left)
    }

    fn implies(&mut self) -> Option<usize> {
        let left = self.or()?;
        if self.peek() != Some(b'>') {
            return Some(left);
        }
        self.step();
        let right = self.implies()?;
        Some(self.join(IMPLIES, left, right))
    }

    fn or(&mut self) -> Option<usize> {
        let left = self.and()?;
        if self.peek() != Some(b'|') {
            return Some(left);
        }
        self.step();
        let right = self.or()?;
        Some(self.join(OR, left, right))
    }

    fn and(&mut self) -> Option<usize> {
        let left = self.until()?;
        if self.peek() != Some(b'&') {
            return Some(left);
        }
        self.step();
        let right = self.and()?;
        Some(self.join(AND, left, right))
    }

    fn until(&mut self) -> Option<usize> {
        let left = self.single()?;
        if self.peek() != Some(b'U') {
            return Some(left);
        }
        self.step();
        let right = self.until()?;
        Some(self.join(UNTIL, left, right))
    }

    fn single(&mut self) -> Option<usize> {
        match self.peek()? {
            b'!' => self.prefixed(NOT),
            b'F' => self.timed(EVENTUALLY, WITHIN),
            b'G' => self.timed(ALWAYS, THROUGHOUT),
            b'a' => self.atom(),
            b'(' => {
                self.step();
                let inner = self.rule()?;
                self.sign(b')')?;
                Some(inner)
            }
            _ => None,
        }
    }

    /// One byte that must stand here, and the spaces behind it.
    fn sign(&mut self, byte: u8) -> Option<()> {
        if self.peek() != Some(byte) {
            return None;
        }
        self.step();
        Some(())
    }

    fn prefixed(&mut self, kind: u8) -> Option<usize> {
        self.step();
        let child = self.single()?;
        Some(self.cap(kind, child, NO_WINDOW))
    }

    /// A letter that may have a window behind it, and is then of another kind.
    fn timed(&mut self, open: u8, windowed: u8) -> Option<usize> {
        self.step();
        let (kind, window) = if self.peek() == Some(b'[') { (windowed, self.window()?) } else { (open, NO_WINDOW) };
        let child = self.single()?;
        Some(self.cap(kind, child, window))
    }

    fn window(&mut self) -> Option<(usize, usize)> {
        self.step();
        let a = self.number()?;
        self.sign(b',')?;
        let b = self.number()?;
        self.sign(b']')?;
        self.window_refused |= a > b || b > MAX_AHEAD;
        Some((a, b))
    }

    fn atom(&mut self) -> Option<usize> {
        self.at += 1;
        let number = self.number()?;
        self.atom_too_large |= number >= self.atoms;
        Some(self.node(ATOM, number, 0, NO_WINDOW, 0))
    }

    /// All digits that stand here, at least one, without a leading zero, and the spaces behind them.
    fn number(&mut self) -> Option<usize> {
        let start = self.at;
        let mut number = 0;
        while let Some(digit @ b'0'..=b'9') = self.peek() {
            // Kept small: beyond the largest atom and the furthest slot only "too large" matters.
            number = (MAX_AHEAD + 1).min(number * 10 + usize::from(digit - b'0'));
            self.at += 1;
        }
        let digits = &self.text[start..self.at];
        if digits.is_empty() || (digits[0] == b'0' && digits.len() > 1) {
            return None;
        }
        self.skip_spaces();
        Some(number)
    }

    fn join(&mut self, kind: u8, left: usize, right: usize) -> usize {
        let height = self.height(left).max(self.height(right)) + 1;
        self.node(kind, left, right, NO_WINDOW, height)
    }

    fn cap(&mut self, kind: u8, child: usize, window: (usize, usize)) -> usize {
        let height = self.height(child) + 1;
        self.node(kind, child, 0, window, height)
    }

    /// A node's height, from its record; that of a node beyond the table does not matter.
    fn height(&self, node: usize) -> u8 {
        self.records.get(node).map_or(0, |record| record[HEIGHT])
    }

    fn node(&mut self, kind: u8, left: usize, right: usize, (a, b): (usize, usize), height: u8) -> usize {
        let number = self.count;
        if let Some(record) = self.records.get_mut(number) {
            // Within the table all numbers are below 128.
            let [mark, second] = NODE_MARK;
            *record = [mark, second, kind, left as u8, right as u8, a as u8, b as u8, height];
        }
        self.count += 1;
        number
    }
}

// --------------------------------------------------------------------------------------------- tables

/// A table that was found good, and what it is asked for.
struct Table<'a> {
    records: &'a [[u8; NODE_BYTES]],
    plan: Plan,
}

#[derive(Clone, Copy)]
struct Node {
    kind: u8,
    left: usize,
    right: usize,
    a: usize,
    b: usize,
    height: u8,
}

impl Node {
    fn of(&[_, _, kind, left, right, a, b, height]: &[u8; NODE_BYTES]) -> Self {
        Node { kind, left: usize::from(left), right: usize::from(right), a: usize::from(a), b: usize::from(b), height }
    }

    /// Whether the fields may stand behind these records, where those of all of them may.
    fn fits(self, before: &[[u8; NODE_BYTES]], m: usize) -> bool {
        let Node { kind, left, right, a, b, height } = self;
        let under = |child: usize| before[child][HEIGHT];
        let (number, plain) = (before.len(), (a, b) == NO_WINDOW);
        match kind {
            ATOM => left < m && right == 0 && plain && height == 0,
            NOT | EVENTUALLY | ALWAYS => left < number && right == 0 && plain && height == under(left) + 1,
            AND | OR | IMPLIES | UNTIL => {
                left < number && right < number && plain && height == under(left).max(under(right)) + 1
            }
            WITHIN | THROUGHOUT => left < number && right == 0 && a <= b && b <= MAX_AHEAD && height == under(left) + 1,
            _ => false,
        }
    }

    /// F, G and U, which look ahead without end and have V slacks where the plan loops.
    fn endless(&self) -> bool {
        [EVENTUALLY, ALWAYS, UNTIL].contains(&self.kind)
    }

    /// For each of some slots in turn, the slot and the different slots that the node's window looks at from there.
    fn looks(&self, slots: Range<usize>, plan: Plan) -> impl Iterator<Item = (usize, Spans)> {
        let width = self.b - self.a + 1;
        let mut first = plan.slot(slots.start + self.a);
        slots.map(move |slot| {
            let spans = Spans::from(first, width, plan);
            first = plan.next(first);
            (slot, spans)
        })
    }
}

/// Some slots, or the variables of a part at these: two ranges, the lower first, of which the second may be empty.
#[derive(Clone)]
struct Spans {
    low: Range<usize>,
    high: Range<usize>,
}

impl Spans {
    /// The different slots of so many times from a slot on.
    fn from(first: usize, width: usize, Plan { t, l, .. }: Plan) -> Self {
        let (back, end) = (l - 1, first + width);
        if end <= t {
            return Spans { low: first..end, high: end..end };
        }
        let turned = back + (end - t);
        if turned < first {
            Spans { low: back..turned, high: first..t }
        } else {
            Spans { low: first.min(back)..t, high: t..t }
        }
    }

    fn len(&self) -> usize {
        self.low.len() + self.high.len()
    }

    /// The variables of the part whose first one this is.
    fn of(&self, part: usize) -> Self {
        Spans { low: part + self.low.start..part + self.low.end, high: part + self.high.start..part + self.high.end }
    }

    fn both(&self) -> [Range<usize>; 2] {
        [self.low.clone(), self.high.clone()]
    }

    fn iter(&self) -> impl Iterator<Item = usize> + Clone {
        self.low.clone().chain(self.high.clone())
    }
}

impl<'a> Table<'a> {
    fn good(bytes: &'a [u8], plan: Plan) -> Option<Self> {
        let (records, rest) = bytes.as_chunks();
        if !rest.is_empty() || !(1..=MAX_NODES).contains(&records.len()) {
            return None;
        }
        let marked = records.iter().all(|record| record[..2] == NODE_MARK);
        let fitting =
            records.iter().enumerate().all(|(number, record)| Node::of(record).fits(&records[..number], plan.m));
        (marked && fitting).then_some(Table { records, plan })
    }

    fn len(&self) -> usize {
        self.records.len()
    }

    fn nodes(&self) -> impl Iterator<Item = Node> + 'a {
        self.records.iter().map(Node::of)
    }

    fn node(&self, number: usize) -> Option<Node> {
        self.records.get(number).map(Node::of)
    }
}

fn checked_table(table: &[u8], plan: Plan) -> Result<Table<'_>, u32> {
    require((1..=MAX_SLOTS).contains(&plan.t), 1)?;
    require((1..=MAX_ATOMS).contains(&plan.m), 2)?;
    require((1..=plan.t).contains(&plan.l), 13)?;
    Table::good(table, plan).ok_or(7)
}

// --------------------------------------------------------------------------------------------- slacks

/// The slacks of a node, one for each slot: its own, P, or its V.
#[derive(Clone, Copy)]
struct Block {
    number: usize,
    node: Node,
    /// Whether these are V.
    second: bool,
    /// The variables of the first slot: of the slacks, the left part and the right one.
    own: usize,
    left: usize,
    right: usize,
    /// What P' is at the last slot: V at L; or nothing, and the rows there are those of t = T.
    after: Option<usize>,
}

impl<'a> Table<'a> {
    /// The first variable of a node's own slacks.
    fn own(&self, number: usize) -> usize {
        (self.plan.m + number) * self.plan.t
    }

    /// The number of all variables, V among them.
    fn variables(&self) -> usize {
        let seconds = if self.plan.loops() { self.nodes().filter(Node::endless).count() } else { 0 };
        self.own(self.len() + seconds)
    }

    /// All slacks in the order of their rows: a node's V before its own.
    fn blocks(&self) -> Blocks<'_, 'a> {
        // V are numbered on after the nodes.
        Blocks { table: self, number: 0, second: self.own(self.len()), at_own: false }
    }
}

struct Blocks<'t, 'a> {
    table: &'t Table<'a>,
    number: usize,
    /// The first variable of the next V.
    second: usize,
    /// Whether the node's V have been given.
    at_own: bool,
}

impl Iterator for Blocks<'_, '_> {
    type Item = Block;

    #[inline(always)]
    fn next(&mut self) -> Option<Block> {
        let (table, number, plan) = (self.table, self.number, self.table.plan);
        let node = table.node(number)?;
        let left = if node.kind == ATOM { node.left * plan.t } else { table.own(node.left) };
        let (own, right) = (table.own(number), table.own(node.right));
        let block = Block { number, node, second: false, own, left, right, after: None };
        if !plan.loops() || !node.endless() {
            self.number += 1;
            return Some(block);
        }
        self.at_own = !self.at_own;
        if self.at_own {
            return Some(Block { own: self.second, second: true, ..block });
        }
        let after = Some(self.second + plan.back());
        self.second += plan.t;
        self.number += 1;
        Some(Block { after, ..block })
    }
}

// ------------------------------------------------------------------------------------------- evaluate

/// Writes a word for each node to `out`, in node order, bit s − 1 of it the node's truth at slot s; the result is the
/// root's truth at slot 1.
pub fn evaluate(table: &[u8], plan: Plan, run: &[u16], out: &mut [u64]) -> Result<usize, u32> {
    let table = checked_table(table, plan)?;
    require(run_good(run, plan), 8)?;
    require(out.len() >= table.len(), 11)?;
    let atoms = columns(run, plan.m);
    let root = if plan.loops() { fill::<true>(&table, &atoms, out) } else { fill::<false>(&table, &atoms, out) };
    Ok((root & 1) as usize)
}

/// Writes the words, and gives the root's.
fn fill<const LOOPS: bool>(table: &Table, atoms: &[u64; MAX_ATOMS], out: &mut [u64]) -> u64 {
    let plan = table.plan;
    let all = plan.all();
    let mut root = 0;
    for (number, node) in table.nodes().enumerate() {
        let (p, q) = (|| out[node.left], || out[node.right]);
        root = match node.kind {
            ATOM => atoms[node.left],
            NOT => p() ^ all,
            AND => p() & q(),
            OR => p() | q(),
            IMPLIES => p() ^ all | q(),
            EVENTUALLY => eventually::<LOOPS>(p(), plan),
            ALWAYS => eventually::<LOOPS>(p() ^ all, plan) ^ all,
            UNTIL => until::<LOOPS>(p(), q(), plan),
            WITHIN if LOOPS => within_loop(p(), &node, plan),
            WITHIN => within(p(), &node, plan),
            _ if LOOPS => within_loop(p() ^ all, &node, plan) ^ all,
            _ => within(p() ^ all, &node, plan) ^ all,
        };
        out[number] = root;
    }
    root
}

fn run_good(run: &[u16], Plan { t, m, .. }: Plan) -> bool {
    run.len() == t && u32::from(run.iter().fold(0, |all, numbers| all | numbers)) >> m == 0
}

/// The words of all atoms.
fn columns(run: &[u16], m: usize) -> [u64; MAX_ATOMS] {
    match m {
        0..=4 => turned::<4>(run),
        5..=8 => turned::<8>(run),
        _ => turned::<16>(run),
    }
}

/// The words of `SIDE` atoms: squares of `SIDE` slots and atoms stand beside each other in as many rows, and each is
/// turned over by exchanging ever smaller squares within it.
#[inline(always)]
fn turned<const SIDE: usize>(run: &[u16]) -> [u64; MAX_ATOMS] {
    let mut rows = [0; MAX_ATOMS];
    let (squares, rest) = run.as_chunks::<SIDE>();
    let mut place = 0;
    for slots in squares {
        lay(&mut rows, slots, place);
        place += SIDE;
    }
    lay(&mut rows, rest, place);
    let rows_used = &mut rows[..SIDE];
    if SIDE == 16 {
        exchange::<8>(rows_used, 0x00FF_00FF_00FF_00FF);
    }
    if SIDE >= 8 {
        exchange::<4>(rows_used, 0x0F0F_0F0F_0F0F_0F0F);
    }
    exchange::<2>(rows_used, 0x3333_3333_3333_3333);
    exchange::<1>(rows_used, 0x5555_5555_5555_5555);
    rows
}

/// Puts a slot's numbers into each row, from bit `place` on.
#[inline(always)]
fn lay(rows: &mut [u64], slots: &[u16], place: usize) {
    for (row, &numbers) in rows.iter_mut().zip(slots) {
        *row |= u64::from(numbers) << place;
    }
}

/// Exchanges the upper right squares, of `SIDE` rows and bits, with the lower left ones; `mask` has the lower bits.
#[inline(always)]
fn exchange<const SIDE: usize>(rows: &mut [u64], mask: u64) {
    for square in rows.chunks_exact_mut(2 * SIDE) {
        let (upper, lower) = square.split_at_mut(SIDE);
        for (upper, lower) in upper.iter_mut().zip(lower) {
            let different = (*upper >> SIDE ^ *lower) & mask;
            *upper ^= different << SIDE;
            *lower ^= different;
        }
    }
}

/// All slots up to the last one at which p holds.
fn up_to_last(p: u64) -> u64 {
    u64::MAX.checked_shr(p.leading_zeros()).unwrap_or(0)
}

/// What holds at a slot that comes round is met from every slot.
fn eventually<const LOOPS: bool>(p: u64, plan: Plan) -> u64 {
    if LOOPS && p >> plan.back() != 0 {
        plan.all()
    } else {
        up_to_last(p)
    }
}

fn until<const LOOPS: bool>(p: u64, q: u64, plan: Plan) -> u64 {
    // Where q is met within the next k slots, p holding until then, and where p holds throughout them.
    let (mut met, mut held) = (q, p);
    for k in [1, 2, 4, 8, 16, 32] {
        met |= held & met >> k;
        held &= held >> k;
    }
    if LOOPS && met >> plan.back() & 1 == 1 {
        // Also from all slots behind the last one where p does not hold: p holds up to slot T, and L comes next.
        met |= plan.all() ^ up_to_last(p ^ plan.all());
    }
    met
}

/// F[a,b]. With slot T as the sign, shifts repeat it for the slots after it.
fn within(p: u64, node: &Node, plan: Plan) -> u64 {
    let spare = MAX_SLOTS - plan.t;
    let mut met = (p << spare) as i64 >> node.a;
    let width = node.b - node.a + 1;
    let mut k = 1;
    while 2 * k <= width {
        met |= met >> k;
        k *= 2;
    }
    met |= met >> (width - k);
    met as u64 >> spare
}

/// The same where the plan loops: the truth at the times up to the window's last one stands in two words.
fn within_loop(p: u64, node: &Node, plan: Plan) -> u64 {
    let times = unrolled(p, plan, plan.t + node.b) >> node.a;
    let (mut met, mut beyond) = (times as u64, (times >> 64) as u64);
    let width = node.b - node.a + 1;
    let mut k = 1;
    while 2 * k <= width {
        met |= met >> k | beyond << (64 - k);
        beyond |= beyond >> k;
        k *= 2;
    }
    if width > k {
        met |= met >> (width - k) | beyond << (64 - (width - k));
    }
    met & plan.all()
}

/// The truth at some times at least, a bit for each.
fn unrolled(p: u64, plan: Plan, times: usize) -> u128 {
    let (mut word, mut known) = (u128::from(p), plan.t);
    while known < times {
        // All known times from L on are whole rounds, and come again.
        word |= word >> plan.back() << known;
        known += known - plan.back();
    }
    word
}

/// The first slot with a set bit.
pub fn first_slot(word: u64) -> Option<usize> {
    (1..=MAX_SLOTS).find(|slot| word >> (slot - 1) & 1 == 1)
}

// --------------------------------------------------------------------------------------- evaluate bytes

/// The same with a byte for each node and slot, in the scope paper's words: writes the truth of node n at slot s, 0 or
/// 1, to place n·T + s − 1 of `out`.
pub fn evaluate_bytes(table: &[u8], plan: Plan, run: &[u16], out: &mut [u8]) -> Result<usize, u32> {
    let table = checked_table(table, plan)?;
    let Plan { t, m, .. } = plan;
    require(run.len() == t && run.iter().all(|&number| u32::from(number) >> m == 0), 8)?;
    let written = table.len() * t;
    require(out.len() >= written, 11)?;
    for (number, node) in table.nodes().enumerate() {
        let (before, rest) = out.split_at_mut(number * t);
        let truth = &mut rest[..t];
        if node.kind == ATOM {
            for (place, &numbers) in truth.iter_mut().zip(run) {
                *place = (numbers >> node.left & 1) as u8;
            }
            continue;
        }
        let p = &before[node.left * t..][..t];
        let q = &before[node.right * t..][..t];
        match node.kind {
            NOT => each(truth, p, q, |p, _| p ^ 1),
            AND => each(truth, p, q, |p, q| p & q),
            OR => each(truth, p, q, |p, q| p | q),
            IMPLIES => each(truth, p, q, |p, q| p ^ 1 | q),
            EVENTUALLY | ALWAYS | UNTIL => {
                // What slot L has by the slots up to T alone is what comes after T.
                let back = plan.back();
                up_to_end(node.kind, &mut truth[back..], &p[back..], &q[back..], None);
                let after = truth[back];
                up_to_end(node.kind, truth, p, q, Some(after));
            }
            WITHIN => over_window(truth, p, &node, plan, 1),
            _ => over_window(truth, p, &node, plan, 0),
        }
    }
    Ok(usize::from(out[written - t]))
}

/// The truth of all slacks over a run: of the nodes, as above, and then of V, each by its F, G or U with k kept to the
/// slots from its own to T, over the looped truth of its parts.
pub fn slack_truth(table: &[u8], plan: Plan, run: &[u16]) -> Result<Vec<u8>, u32> {
    let good = checked_table(table, plan)?;
    let mut truth = vec![0; good.variables() - good.own(0)];
    evaluate_bytes(table, plan, run, &mut truth)?;
    let (nodes, seconds) = truth.split_at_mut(good.len() * plan.t);
    let of = |node: usize| &nodes[node * plan.t..][..plan.t];
    let endless = good.nodes().filter(Node::endless);
    // There are no V unless the plan loops.
    for (truth, node) in seconds.chunks_exact_mut(plan.t).zip(endless) {
        up_to_end(node.kind, truth, of(node.left), of(node.right), None);
    }
    Ok(truth)
}

fn each(truth: &mut [u8], p: &[u8], q: &[u8], operator: impl Fn(u8, u8) -> u8) {
    for (place, (&p, &q)) in truth.iter_mut().zip(p.iter().zip(q)) {
        *place = operator(p, q);
    }
}

/// F, G and U at slots that end with T, back from there, with the truth of what comes after T, or nothing after it.
#[inline(always)]
fn up_to_end(kind: u8, truth: &mut [u8], p: &[u8], q: &[u8], after: Option<u8>) {
    match kind {
        EVENTUALLY => backwards(truth, p, q, after.unwrap_or(0), |p, _, later| p | later),
        ALWAYS => backwards(truth, p, q, after.unwrap_or(1), |p, _, later| p & later),
        _ => backwards(truth, p, q, after.unwrap_or(0), |p, q, later| q | p & later),
    }
}

fn backwards(truth: &mut [u8], p: &[u8], q: &[u8], mut later: u8, operator: impl Fn(u8, u8, u8) -> u8) {
    for (place, (&p, &q)) in truth.iter_mut().zip(p.iter().zip(q)).rev() {
        later = operator(p, q, later);
        *place = later;
    }
}

/// `sought` at the slots whose window has it, and the opposite elsewhere: F seeks a 1, and G a 0.
fn over_window(truth: &mut [u8], p: &[u8], node: &Node, plan: Plan, sought: u8) {
    let ahead = node.b - node.a;
    let found = |next: usize, time: usize| u8::from(next <= time + ahead) ^ sought ^ 1;
    // From slot T back: the slot of the window's first time, and the next time that has it.
    let last = plan.t - 1 + node.a;
    let mut first = plan.slot(last);
    let mut next = next_time(p, last, first, ahead, plan, sought);
    let (straight, turned) = truth.split_at_mut(plan.t - node.a.min(plan.t));
    for (place, time) in turned.iter_mut().rev().zip((0..=last).rev()) {
        next = if p[first] == sought { time } else { next };
        *place = found(next, time);
        first = if first == plan.back() { plan.t - 1 } else { first - 1 };
    }
    for (slot, place) in straight.iter_mut().enumerate().rev() {
        let time = slot + node.a;
        next = if p[time] == sought { time } else { next };
        *place = found(next, time);
    }
}

/// The next time that has `sought` after a time from slot T on, whose slot this is; at most so many times ahead.
fn next_time(p: &[u8], time: usize, mut slot: usize, ahead: usize, plan: Plan, sought: u8) -> usize {
    // After a round all comes again.
    for time in time + 1..time + ahead.min(plan.round() - 1) + 1 {
        slot = plan.next(slot);
        if p[slot] == sought {
            return time;
        }
    }
    usize::MAX
}

// ----------------------------------------------------------------------------------------------- rows

#[derive(Clone, Copy)]
enum Relation {
    AtLeast = 1,
    Equal = 2,
}

/// Takes the rows in order, until it answers false.
trait Rows {
    fn row<const N: usize>(&mut self, relation: Relation, right: i8, terms: [(i8, usize); N]) -> bool;

    /// The rows of F[a,b] at a slot, where `parts` are the part's variables at the window's slots: P − p(s) ≥ 0 for
    /// each, then the sum of all p(s), less P, ≥ 0.
    fn within(&mut self, big: usize, parts: Spans) -> bool;

    /// Those of G[a,b]: p(s) − P ≥ 0 for each, then P less all p(s) ≥ −(k − 1).
    fn throughout(&mut self, big: usize, parts: Spans) -> bool;
}

/// Hands all rows of a good table to `rows`, or those up to the first at which it answers false.
#[inline(always)]
fn all_rows(table: &Table, rows: &mut impl Rows) -> bool {
    let plan = table.plan;
    for block in table.blocks() {
        if !block_rows(&block, 0..plan.t, plan, rows) {
            return false;
        }
    }
    rows.row(Relation::Equal, 1, [(1, table.own(table.len() - 1))])
}

/// The rows of a node's P or V at some slots.
#[inline(always)]
fn block_rows(block: &Block, slots: Range<usize>, plan: Plan, rows: &mut impl Rows) -> bool {
    match block.node.kind {
        ATOM..=IMPLIES => plain_rows(block, slots, rows),
        EVENTUALLY | ALWAYS => chain_rows::<false>(block, slots, plan, rows),
        UNTIL => chain_rows::<true>(block, slots, plan, rows),
        _ => window_rows(block, slots, plan, rows),
    }
}

/// Those of kinds 1 to 5; `big`, `p` and `q` are the paper's P, p and q.
#[inline(always)]
fn plain_rows(block: &Block, slots: Range<usize>, rows: &mut impl Rows) -> bool {
    use Relation::{AtLeast, Equal};
    for slot in slots {
        let (big, p, q) = (block.own + slot, block.left + slot, block.right + slot);
        let taken = match block.node.kind {
            ATOM => rows.row(Equal, 0, [(1, big), (-1, p)]),
            NOT => rows.row(Equal, 1, [(1, big), (1, p)]),
            AND => {
                rows.row(AtLeast, 0, [(1, p), (-1, big)])
                    && rows.row(AtLeast, 0, [(1, q), (-1, big)])
                    && rows.row(AtLeast, -1, [(1, big), (-1, p), (-1, q)])
            }
            OR => {
                rows.row(AtLeast, 0, [(1, big), (-1, p)])
                    && rows.row(AtLeast, 0, [(1, big), (-1, q)])
                    && rows.row(AtLeast, 0, [(1, p), (1, q), (-1, big)])
            }
            _ => {
                rows.row(AtLeast, 1, [(1, big), (1, p)])
                    && rows.row(AtLeast, 0, [(1, big), (-1, q)])
                    && rows.row(AtLeast, -1, [(1, q), (-1, p), (-1, big)])
            }
        };
        if !taken {
            return false;
        }
    }
    true
}

/// Those of kinds 6 to 8.
#[inline(always)]
fn chain_rows<const UNTILS: bool>(block: &Block, slots: Range<usize>, plan: Plan, rows: &mut impl Rows) -> bool {
    let &Block { node, own, left, right, after, .. } = block;
    let last = plan.t - 1;
    // The slots with a P' end here.
    let chained = if after.is_some() { plan.t } else { last };
    for slot in slots.start..slots.end.min(chained) {
        let (big, p, q) = (own + slot, left + slot, right + slot);
        let next = if slot < last { big + 1 } else { after.unwrap_or(big) };
        let taken = if UNTILS { until_rows(big, p, q, next, rows) } else { ahead_rows(node.kind, big, p, next, rows) };
        if !taken {
            return false;
        }
    }
    let part = if UNTILS { right } else { left };
    slots.end <= chained || rows.row(Relation::Equal, 0, [(1, own + last), (-1, part + last)])
}

/// Those of kinds 6 and 7 for t < T; `next` is P'.
#[inline(always)]
fn ahead_rows(kind: u8, big: usize, p: usize, next: usize, rows: &mut impl Rows) -> bool {
    use Relation::AtLeast;
    if kind == EVENTUALLY {
        rows.row(AtLeast, 0, [(1, big), (-1, p)])
            && rows.row(AtLeast, 0, [(1, big), (-1, next)])
            && rows.row(AtLeast, 0, [(1, p), (1, next), (-1, big)])
    } else {
        rows.row(AtLeast, 0, [(1, p), (-1, big)])
            && rows.row(AtLeast, 0, [(1, next), (-1, big)])
            && rows.row(AtLeast, -1, [(1, big), (-1, p), (-1, next)])
    }
}

/// Those of kind 8 for t < T.
#[inline(always)]
fn until_rows(big: usize, p: usize, q: usize, next: usize, rows: &mut impl Rows) -> bool {
    use Relation::AtLeast;
    rows.row(AtLeast, 0, [(1, big), (-1, q)])
        && rows.row(AtLeast, 0, [(1, p), (1, q), (-1, big)])
        && rows.row(AtLeast, 0, [(1, q), (1, next), (-1, big)])
        && rows.row(AtLeast, -1, [(1, big), (-1, p), (-1, next)])
}

/// Those of a node with a window.
fn window_rows(block: &Block, slots: Range<usize>, plan: Plan, rows: &mut impl Rows) -> bool {
    block.node.looks(slots, plan).all(|(slot, spans)| {
        let (big, parts) = (block.own + slot, spans.of(block.left));
        if block.node.kind == WITHIN {
            rows.within(big, parts)
        } else {
            rows.throughout(big, parts)
        }
    })
}

/// The rows of a node's P or V at all slots, and the terms of all of them together.
fn block_counts(block: &Block, plan: Plan) -> (usize, usize) {
    let t = plan.t;
    // The slots with a P', and those without.
    let (chained, ends) = if block.after.is_some() { (t, 0) } else { (t - 1, 1) };
    match block.node.kind {
        ATOM | NOT => (t, 2 * t),
        AND | OR | IMPLIES => (3 * t, 7 * t),
        EVENTUALLY | ALWAYS => (3 * chained + ends, 7 * chained + 2 * ends),
        UNTIL => (4 * chained + ends, 11 * chained + 2 * ends),
        _ => {
            let looks: usize = block.node.looks(0..t, plan).map(|(_, spans)| spans.len()).sum();
            (looks + t, 3 * looks + t)
        }
    }
}

/// The rows of a table, and the terms of all of them together.
fn row_and_term_count(table: &Table) -> (usize, usize) {
    let counts = table.blocks().map(|block| block_counts(&block, table.plan));
    counts.fold((1, 1), |sum, block| (sum.0 + block.0, sum.1 + block.1))
}

/// Whose row this is, where the table is good: the node's kind, and whether it is of V; none for the goal row.
pub fn owner_of_row(table: &[u8], plan: Plan, row: usize) -> Option<(u8, bool)> {
    let table = checked_table(table, plan).ok()?;
    let mut end = 0;
    let owner = table.blocks().find(|block| {
        end += block_counts(block, plan).0;
        row < end
    })?;
    Some((owner.node.kind, owner.second))
}

/// The bytes that the rows of a table take.
pub fn row_bytes(table: &[u8], plan: Plan) -> Result<usize, u32> {
    let (rows, terms) = row_and_term_count(&checked_table(table, plan)?);
    Ok(HEAD_BYTES * rows + TERM_BYTES * terms)
}

/// Writes the rows of a table to `out` as records; the result is their number.
pub fn rows(table: &[u8], plan: Plan, out: &mut [u8]) -> Result<usize, u32> {
    let table = checked_table(table, plan)?;
    let (rows, terms) = row_and_term_count(&table);
    require(out.len() >= HEAD_BYTES * rows + TERM_BYTES * terms, 11)?;
    all_rows(&table, &mut Writer { rest: out });
    Ok(rows)
}

/// What is still to be written of the output.
struct Writer<'a> {
    rest: &'a mut [u8],
}

impl<'a> Writer<'a> {
    #[inline(always)]
    fn take(&mut self, bytes: usize) -> &'a mut [u8] {
        let (taken, rest) = std::mem::take(&mut self.rest).split_at_mut(bytes);
        self.rest = rest;
        taken
    }

    /// The rows with one part each.
    #[inline(always)]
    fn each_part(&mut self, parts: &Spans, terms: impl Fn(usize) -> [(i8, usize); 2]) {
        const LENGTH: usize = record_bytes(2);
        for parts in parts.both() {
            for (place, part) in self.take(LENGTH * parts.len()).chunks_exact_mut(LENGTH).zip(parts) {
                place.copy_from_slice(&record(Relation::AtLeast, 0, terms(part))[..LENGTH]);
            }
        }
    }

    fn head(&mut self, terms: usize, right: i8) {
        // At most 64 parts and their node.
        let [mark, second] = ROW_MARK;
        self.take(HEAD_BYTES).copy_from_slice(&[mark, second, Relation::AtLeast as u8, terms as u8, right as u8]);
    }

    fn terms(&mut self, coefficient: i8, variables: Range<usize>) {
        let places = self.take(TERM_BYTES * variables.len()).chunks_exact_mut(TERM_BYTES);
        places.zip(variables).for_each(|(place, variable)| place.copy_from_slice(&term(coefficient, variable)));
    }
}

const fn record_bytes(terms: usize) -> usize {
    HEAD_BYTES + TERM_BYTES * terms
}

fn term(coefficient: i8, variable: usize) -> [u8; TERM_BYTES] {
    // At most (16 + 128 + 127)·64 variables.
    let [low, high] = (variable as u16).to_le_bytes();
    [coefficient as u8, low, high]
}

/// A record of at most three terms; what follows them does not count.
#[inline(always)]
fn record<const N: usize>(relation: Relation, right: i8, terms: [(i8, usize); N]) -> [u8; record_bytes(3)] {
    let mut record = [0; record_bytes(3)];
    record[..2].copy_from_slice(&ROW_MARK);
    record[2] = relation as u8;
    record[3] = N as u8;
    record[4] = right as u8;
    for (place, (coefficient, variable)) in record[HEAD_BYTES..].chunks_exact_mut(TERM_BYTES).zip(terms) {
        place.copy_from_slice(&term(coefficient, variable));
    }
    record
}

impl Rows for Writer<'_> {
    #[inline(always)]
    fn row<const N: usize>(&mut self, relation: Relation, right: i8, terms: [(i8, usize); N]) -> bool {
        let length = record_bytes(N);
        self.take(length).copy_from_slice(&record(relation, right, terms)[..length]);
        true
    }

    fn within(&mut self, big: usize, parts: Spans) -> bool {
        self.each_part(&parts, |part| [(1, big), (-1, part)]);
        self.head(parts.len() + 1, 0);
        parts.both().into_iter().for_each(|parts| self.terms(1, parts));
        self.terms(-1, big..big + 1);
        true
    }

    fn throughout(&mut self, big: usize, parts: Spans) -> bool {
        self.each_part(&parts, |part| [(1, part), (-1, big)]);
        self.head(parts.len() + 1, all_but_one(&parts));
        self.terms(1, big..big + 1);
        parts.both().into_iter().for_each(|parts| self.terms(-1, parts));
        true
    }
}

/// The right side −(k − 1) of a window's k slots, of which there are at most 64.
fn all_but_one(parts: &Spans) -> i8 {
    1 - parts.len() as i8
}

// ----------------------------------------------------------------------------------------------- page

/// Writes the rows of a table to `out` as a fixed-column MPS page; the result is its length.
pub fn mps_page(table: &[u8], plan: Plan, out: &mut [u8]) -> Result<usize, u32> {
    let page = whole_page(table, plan)?;
    require(out.len() >= page.len(), 11)?;
    out[..page.len()].copy_from_slice(&page);
    Ok(page.len())
}

/// The page by itself. Fields 2 and 3 are ten columns wide: a name of at most eight characters and two spaces.
pub fn whole_page(table: &[u8], plan: Plan) -> Result<Vec<u8>, u32> {
    let table = checked_table(table, plan)?;
    let Gathered { heads, entries } = Gathered::of(&table);
    let (atoms, variables) = (table.own(0), table.variables());
    let columns = Columns::of(&entries, variables);
    let row_names: Vec<Name> = (0..heads.len()).map(|row| Name::new(b'R', row)).collect();
    let variable_names: Vec<Name> = (0..variables).map(|variable| Name::new(b'X', variable)).collect();
    let rights = heads.iter().filter(|&&(_, right)| right != 0).count();
    let lines = entries.len() + rights + 2 * variables + 7;
    let mut page = Page(Vec::with_capacity(lines * LONGEST_LINE + heads.len() * LONGEST_ROW_LINE));
    page.words(b"NAME\nROWS\n N  COST\n");
    for (&(relation, _), row) in heads.iter().zip(&row_names) {
        page.words(if let Relation::Equal = relation { b" E  " } else { b" G  " });
        page.last(row);
    }
    page.words(b"COLUMNS\n");
    for (number, variable) in variable_names.iter().enumerate() {
        let entries = columns.entries_of(number);
        for entry in entries {
            page.words(b"    ");
            page.wide(variable);
            page.wide(&row_names[entry.row as usize]);
            page.number(entry.coefficient);
        }
        if entries.is_empty() {
            page.words(b"    ");
            page.wide(variable);
            page.words(b"COST      0\n");
        }
    }
    page.words(b"RHS\n");
    for (&(_, right), row) in heads.iter().zip(&row_names).filter(|(&(_, right), _)| right != 0) {
        page.words(b"    RHS       ");
        page.wide(row);
        page.number(right);
    }
    page.words(b"BOUNDS\n");
    for variable in &variable_names[..atoms] {
        page.words(b" BV BND       ");
        page.last(variable);
    }
    for variable in &variable_names[atoms..] {
        page.words(b" UP BND       ");
        page.wide(variable);
        page.number(1);
    }
    page.words(b"ENDATA\n");
    Ok(page.0)
}

/// What one variable has in one row, not 0.
#[derive(Clone, Copy, Default)]
struct Entry {
    variable: u32,
    row: u32,
    coefficient: i8,
}

/// Relation and right side of each row, and the entries of all rows, in row order.
struct Gathered {
    heads: Vec<(Relation, i8)>,
    entries: Vec<Entry>,
}

impl Rows for Gathered {
    #[inline(always)]
    fn row<const N: usize>(&mut self, relation: Relation, right: i8, terms: [(i8, usize); N]) -> bool {
        let row = self.heads.len() as u32;
        self.heads.push((relation, right));
        for (place, &(_, variable)) in terms.iter().enumerate() {
            let first = terms[..place].iter().all(|&(_, other)| other != variable);
            let same = terms[place..].iter().filter(|&&(_, other)| other == variable);
            let coefficient = same.map(|&(coefficient, _)| coefficient).sum();
            if first && coefficient != 0 {
                self.entries.push(Entry { variable: variable as u32, row, coefficient });
            }
        }
        true
    }

    // A window's variables are all different.
    fn within(&mut self, big: usize, parts: Spans) -> bool {
        parts.iter().for_each(|part| self.plain_row(0, [(1, big), (-1, part)]));
        self.plain_row(0, parts.iter().map(|part| (1, part)).chain([(-1, big)]));
        true
    }

    fn throughout(&mut self, big: usize, parts: Spans) -> bool {
        parts.iter().for_each(|part| self.plain_row(0, [(1, part), (-1, big)]));
        let right = all_but_one(&parts);
        self.plain_row(right, [(1, big)].into_iter().chain(parts.iter().map(|part| (-1, part))));
        true
    }
}

impl Gathered {
    #[inline(never)]
    fn of(table: &Table) -> Self {
        let (rows, terms) = row_and_term_count(table);
        let mut gathered = Gathered { heads: Vec::with_capacity(rows), entries: Vec::with_capacity(terms) };
        all_rows(table, &mut gathered);
        gathered
    }

    /// A ≥ row whose variables are all different.
    fn plain_row(&mut self, right: i8, terms: impl IntoIterator<Item = (i8, usize)>) {
        let row = self.heads.len() as u32;
        self.heads.push((Relation::AtLeast, right));
        let entry = |(coefficient, variable)| Entry { variable: variable as u32, row, coefficient };
        self.entries.extend(terms.into_iter().map(entry));
    }
}

/// The entries by variable and then by row, and where those of each variable begin.
struct Columns {
    begins: Vec<usize>,
    entries: Vec<Entry>,
}

impl Columns {
    fn of(in_row_order: &[Entry], variables: usize) -> Self {
        let mut begins = vec![0; variables + 1];
        in_row_order.iter().for_each(|entry| begins[entry.variable as usize + 1] += 1);
        (0..variables).for_each(|variable| begins[variable + 1] += begins[variable]);
        let mut next = begins.clone();
        let mut entries = vec![Entry::default(); in_row_order.len()];
        for &entry in in_row_order {
            let place = &mut next[entry.variable as usize];
            entries[*place] = entry;
            *place += 1;
        }
        Columns { begins, entries }
    }

    fn entries_of(&self, variable: usize) -> &[Entry] {
        &self.entries[self.begins[variable]..self.begins[variable + 1]]
    }
}

/// A letter and a number, with spaces up to the next field.
struct Name {
    bytes: [u8; 10],
    length: usize,
}

impl Name {
    fn new(letter: u8, mut number: usize) -> Self {
        let mut name = Name { bytes: [b' '; 10], length: 2 + number.checked_ilog10().unwrap_or(0) as usize };
        name.bytes[0] = letter;
        for place in name.bytes[1..name.length].iter_mut().rev() {
            *place = b'0' + (number % 10) as u8;
            number /= 10;
        }
        name
    }
}

/// Four spaces, two names, a number of at most three characters, a line feed.
const LONGEST_LINE: usize = 28;
/// A line of ROWS: its type, a name, a line feed.
const LONGEST_ROW_LINE: usize = 13;

struct Page(Vec<u8>);

impl Page {
    fn words<const N: usize>(&mut self, words: &[u8; N]) {
        self.0.extend_from_slice(words);
    }

    /// A name that another field follows.
    fn wide(&mut self, name: &Name) {
        self.0.extend_from_slice(&name.bytes);
    }

    /// A name that ends its line.
    fn last(&mut self, name: &Name) {
        self.0.extend_from_slice(&name.bytes[..name.length]);
        self.0.push(b'\n');
    }

    /// A number of at most two digits, which ends its line.
    fn number(&mut self, number: i8) {
        if number < 0 {
            self.0.push(b'-');
        }
        let size = number.unsigned_abs();
        if size > 9 {
            self.0.push(b'0' + size / 10);
        }
        self.0.extend_from_slice(&[b'0' + size % 10, b'\n']);
    }
}

// ---------------------------------------------------------------------------------------------- judge

/// Holds a solver's figures, in millionths, against the limits, the atoms and the rows of a table.
pub fn judge(table: &[u8], plan: Plan, figures: &[i32], e: i32) -> Result<Verdict, u32> {
    let table = checked_table(table, plan)?;
    require(figures.len() == table.variables(), 9)?;
    require((0..=MAX_TOLERANCE).contains(&e), 10)?;
    let one = ONE as i32;
    if let Some(variable) = figures.iter().position(|figure| !(-e..=one + e).contains(figure)) {
        return Ok(Verdict::Outside(variable));
    }
    // All figures are now from -e to 1,000,000 + e.
    if let Some(variable) = figures[..table.own(0)].iter().position(|figure| (e + 1..one - e).contains(figure)) {
        return Ok(Verdict::NotBinary(variable));
    }
    let mut checker = Checker { figures, e: i64::from(e), count: 0, shortfall: 0 };
    Ok(if all_rows(&table, &mut checker) {
        Verdict::Passed(checker.count, root_error(&table, e as u32))
    } else {
        Verdict::Broken(checker.count, checker.shortfall)
    })
}

struct Checker<'a> {
    figures: &'a [i32],
    e: i64,
    /// The rows that held, which is the number of the first that did not.
    count: usize,
    /// How far off the last row is that was looked at.
    shortfall: i64,
}

impl Checker<'_> {
    /// Takes a row that is so far off.
    #[inline(always)]
    fn takes(&mut self, shortfall: i64) -> bool {
        self.shortfall = shortfall;
        let holds = shortfall <= self.e;
        self.count += usize::from(holds);
        holds
    }
}

impl Rows for Checker<'_> {
    #[inline(always)]
    fn row<const N: usize>(&mut self, relation: Relation, right: i8, terms: [(i8, usize); N]) -> bool {
        let sum: i64 = terms
            .iter()
            .map(|&(coefficient, variable)| i64::from(coefficient) * i64::from(self.figures[variable]))
            .sum();
        let difference = i64::from(right) * ONE - sum;
        self.takes(match relation {
            Relation::AtLeast => difference,
            Relation::Equal => difference.abs(),
        })
    }

    fn within(&mut self, big: usize, parts: Spans) -> bool {
        let (whole, [low, high]) = (i64::from(self.figures[big]), figures_of(self.figures, parts));
        low.iter().chain(high).all(|&part| self.takes(i64::from(part) - whole))
            && self.takes(whole - sum_of(low) - sum_of(high))
    }

    fn throughout(&mut self, big: usize, parts: Spans) -> bool {
        let right = i64::from(all_but_one(&parts)) * ONE;
        let (whole, [low, high]) = (i64::from(self.figures[big]), figures_of(self.figures, parts));
        low.iter().chain(high).all(|&part| self.takes(whole - i64::from(part)))
            && self.takes(right - whole + sum_of(low) + sum_of(high))
    }
}

fn figures_of(figures: &[i32], variables: Spans) -> [&[i32]; 2] {
    variables.both().map(|variables| &figures[variables])
}

fn sum_of(figures: &[i32]) -> i64 {
    figures.iter().map(|&figure| i64::from(figure)).sum()
}

// -------------------------------------------------------------------------------------- error figures

const STOP: u32 = ONE as u32;

/// The error figures of all slacks in the order of their variables, that of node n at slot s at place n·T + s − 1, by
/// the kinds of the nodes.
pub fn error_figures(table: &[u8], plan: Plan, e: i32) -> Result<Vec<u32>, u32> {
    let table = checked_table(table, plan)?;
    require((0..=MAX_TOLERANCE).contains(&e), 10)?;
    Ok(errors_by_kind(&table, e as u32))
}

fn root_error(table: &Table, e: u32) -> u32 {
    errors_by_kind(table, e)[(table.len() - 1) * table.plan.t]
}

fn errors_by_kind(table: &Table, e: u32) -> Vec<u32> {
    let (plan, t) = (table.plan, table.plan.t);
    let (nodes, all) = (table.len() * t, table.variables() - table.own(0));
    let mut errors = vec![0; all];
    let (of_nodes, of_seconds) = errors.split_at_mut(nodes);
    // There are no V unless the plan loops.
    let mut seconds = of_seconds.chunks_exact_mut(t);
    for (number, node) in table.nodes().enumerate() {
        let (before, rest) = of_nodes.split_at_mut(number * t);
        let own = &mut rest[..t];
        if node.kind == ATOM {
            own.fill(2 * e);
            continue;
        }
        let p = &before[node.left * t..][..t];
        let q = &before[node.right * t..][..t];
        let second = if node.endless() { seconds.next() } else { None };
        let after = second.map(|second| {
            add_ahead(node.kind, second, p, q, e, None);
            second[plan.back()]
        });
        match node.kind {
            NOT => own.iter_mut().zip(p).for_each(|(own, p)| *own = STOP.min(e + p)),
            AND | OR | IMPLIES => add_parts(own, p, q, e),
            EVENTUALLY | ALWAYS | UNTIL => add_ahead(node.kind, own, p, q, e, after),
            _ => add_window(own, p, &node, plan, e),
        }
    }
    errors
}

fn add_parts(own: &mut [u32], p: &[u32], q: &[u32], e: u32) {
    for (own, (p, q)) in own.iter_mut().zip(p.iter().zip(q)) {
        *own = STOP.min(e + p + q);
    }
}

// Over 64 slots of figures up to the stop, no sum leaves 32 bits, so that only what is kept needs the stop.

/// P or V of F, G and U, with the figure of P' at the last slot where there is one.
fn add_ahead(kind: u8, own: &mut [u32], p: &[u32], q: &[u32], e: u32, after: Option<u32>) {
    match (kind, after) {
        (UNTIL, None) => {
            // At the last slot the rows have no p.
            let last = own.len() - 1;
            own[last] = STOP.min(e + q[last]);
            add_until(&mut own[..last], p, q, e, e + q[last]);
        }
        (UNTIL, Some(after)) => add_until(own, p, q, e, after),
        _ => add_backwards(own, p, e, after.unwrap_or(0)),
    }
}

fn add_backwards(own: &mut [u32], p: &[u32], e: u32, after: u32) {
    let mut sum = after;
    for (own, p) in own.iter_mut().zip(p).rev() {
        sum += e + p;
        *own = STOP.min(sum);
    }
}

fn add_until(own: &mut [u32], p: &[u32], q: &[u32], e: u32, after: u32) {
    let mut sum = after;
    for (own, (p, q)) in own.iter_mut().zip(p.iter().zip(q)).rev() {
        sum += e + p + q;
        *own = STOP.min(sum);
    }
}

/// The sum over a range is the difference of two sums from the first slot on.
fn add_window(own: &mut [u32], p: &[u32], node: &Node, plan: Plan, e: u32) {
    let mut sums = [0; MAX_SLOTS + 1];
    for (slot, p) in p.iter().enumerate() {
        sums[slot + 1] = sums[slot] + p;
    }
    let over = |slots: Range<usize>| sums[slots.end] - sums[slots.start];
    for (slot, Spans { low, high }) in node.looks(0..plan.t, plan) {
        own[slot] = STOP.min(e + over(low) + over(high));
    }
}

/// The same in the request's own words, from the rows alone: e, and the error figures of all other variables that stand
/// in the slack's rows, each as often as it stands in that one of them where it stands most often.
pub fn error_figures_by_rows(table: &[u8], plan: Plan, e: i32) -> Result<Vec<u32>, u32> {
    let table = checked_table(table, plan)?;
    require((0..=MAX_TOLERANCE).contains(&e), 10)?;
    let (e, atoms) = (e as u32, table.own(0));
    let mut errors = vec![None; table.variables()];
    errors[..atoms].fill(Some(e));
    let mut standing = Standing { in_row: vec![0; errors.len()], most: vec![0; errors.len()], seen: Vec::new() };
    for block in table.blocks() {
        // The rows have the slack of the next slot, and at the last slot perhaps a V, whose block comes before.
        for slot in (0..plan.t).rev() {
            let own = block.own + slot;
            block_rows(&block, slot..slot + 1, plan, &mut standing);
            let others =
                standing.seen.drain(..).map(|variable| (variable, std::mem::take(&mut standing.most[variable])));
            let counted = others.filter(|&(variable, _)| variable != own);
            let sum: u32 = counted.map(|(variable, times)| times * errors[variable].expect("known before")).sum();
            errors[own] = Some(STOP.min(e + sum));
        }
    }
    Ok(errors[atoms..].iter().map(|error| error.expect("all are known")).collect())
}

/// How often each variable stands in the rows taken so far, in that one where it stands most often.
struct Standing {
    /// The same for the row that is being taken; zeros between rows.
    in_row: Vec<u32>,
    most: Vec<u32>,
    /// The variables that stand in a row.
    seen: Vec<usize>,
}

impl Standing {
    fn take(&mut self, row: impl Iterator<Item = usize> + Clone) -> bool {
        row.clone().for_each(|variable| self.in_row[variable] += 1);
        for variable in row {
            // Where a variable stands a second time, it has been taken.
            let times = std::mem::take(&mut self.in_row[variable]);
            let most = &mut self.most[variable];
            if *most == 0 {
                self.seen.push(variable);
            }
            *most = times.max(*most);
        }
        true
    }
}

impl Rows for Standing {
    fn row<const N: usize>(&mut self, _: Relation, _: i8, terms: [(i8, usize); N]) -> bool {
        self.take(terms.iter().map(|&(_, variable)| variable))
    }

    fn within(&mut self, big: usize, parts: Spans) -> bool {
        parts.iter().for_each(|part| {
            self.take([big, part].into_iter());
        });
        self.take(parts.iter().chain([big]))
    }

    fn throughout(&mut self, big: usize, parts: Spans) -> bool {
        parts.iter().for_each(|part| {
            self.take([part, big].into_iter());
        });
        self.take([big].into_iter().chain(parts.iter()))
    }
}

// ------------------------------------------------------------------------------------- allowed figures

/// Gives the slacks new figures, node by node, V before P, and from the last slot back. `choose` has the node, the
/// slack's figure of before and the least and the largest figure that its rows, the limits and the goal allow beside the
/// figures given so far; a slack that nothing is allowed for keeps its figure.
pub fn settle(
    table: &[u8],
    plan: Plan,
    e: i32,
    figures: &mut [i32],
    mut choose: impl FnMut(usize, i32, i32, i32) -> i32,
) -> Result<(), u32> {
    let table = checked_table(table, plan)?;
    require(figures.len() == table.variables(), 9)?;
    let e = i64::from(e);
    let goal = table.own(table.len() - 1);
    for block in table.blocks() {
        for slot in (0..plan.t).rev() {
            let own = block.own + slot;
            let least = if own == goal { ONE - e } else { -e };
            let mut allowed = Allowed { figures, own, e, low: least, high: ONE + e };
            block_rows(&block, slot..slot + 1, plan, &mut allowed);
            let Allowed { low, high, .. } = allowed;
            if low <= high {
                figures[own] = choose(block.number, figures[own], low as i32, high as i32);
            }
        }
    }
    Ok(())
}

/// What the rows taken so far allow a slack, beside the figures of the others.
struct Allowed<'a> {
    figures: &'a [i32],
    own: usize,
    e: i64,
    low: i64,
    high: i64,
}

impl Allowed<'_> {
    fn at_least(&mut self, figure: i64) {
        self.low = self.low.max(figure - self.e);
    }

    fn at_most(&mut self, figure: i64) {
        self.high = self.high.min(figure + self.e);
    }
}

impl Rows for Allowed<'_> {
    fn row<const N: usize>(&mut self, relation: Relation, right: i8, terms: [(i8, usize); N]) -> bool {
        let (own, others): (Vec<_>, Vec<_>) = terms.into_iter().partition(|&(_, variable)| variable == self.own);
        let figure =
            |&(coefficient, variable): &(i8, usize)| i64::from(coefficient) * i64::from(self.figures[variable]);
        let rest = i64::from(right) * ONE - others.iter().map(figure).sum::<i64>();
        // A slack stands once in each of its rows.
        match (relation, own[0].0) {
            (Relation::AtLeast, 1) => self.at_least(rest),
            (Relation::AtLeast, _) => self.at_most(-rest),
            (Relation::Equal, sign) => {
                self.at_least(i64::from(sign) * rest);
                self.at_most(i64::from(sign) * rest);
            }
        }
        true
    }

    fn within(&mut self, _: usize, parts: Spans) -> bool {
        let [low, high] = figures_of(self.figures, parts);
        low.iter().chain(high).for_each(|&part| self.at_least(i64::from(part)));
        self.at_most(sum_of(low) + sum_of(high));
        true
    }

    fn throughout(&mut self, _: usize, parts: Spans) -> bool {
        let right = i64::from(all_but_one(&parts)) * ONE;
        let [low, high] = figures_of(self.figures, parts);
        low.iter().chain(high).for_each(|&part| self.at_most(i64::from(part)));
        self.at_least(right + sum_of(low) + sum_of(high));
        true
    }
}

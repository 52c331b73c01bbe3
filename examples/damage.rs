// Damages a gate's memory and checks what docs/EMBEDDING.md says of it. First the bounds of every figure, case by case (bounds.rs). Then at random: on
// random days, a few of them with 64 groups and 256 units or with eight declarers, with random words of register, book and places overwritten at random points:
//   - memory with a figure out of its range is answered by 1, at every call, listing and row;
//   - every other answer is one of the refusal list, or an accepted call that writes only the memory that is its own;
//   - after every refusal all three slices, and a listing's or a row's buffer, are as they were;
//   - a gate restored from a copy of its bytes goes on as if nothing had happened;
//   - words that are not in use yet decide no answer;
//   - undamaged memory is never answered by 1, and every other number of a call or a load is reached.
// A check that fails stops the program with another status than 0. Own generator, fixed seed: every run does the same.
mod bounds;
mod gate;

use gate::{Answer, Gate, BOOK, DASH, MOST_GROUPS, PLACE, REGISTER, ROW_BYTES, ROW_WORDS, UNSOUND};

const DAYS: usize = 12_000;
const L: u64 = 6_553_599_344_640_000_000;
pub const HEADER: usize = 16;
// Of the header: numerator and denominator of classes 1, 3 and 4, and what stands there before any load (2026-01).
pub const RATIOS: std::ops::Range<usize> = 2..8;
pub const OLD_RATIOS: [u32; 6] = [5, 2, 1, 1, 1, 1];
const FIRST_DECLARER: usize = 16;
const FIRST_FIGURE: usize = 528;
const FIRST_UNIT: usize = 1040;
const FIRST_UNIT_GROUP: usize = 1296;
const FIRST_SCALAR: usize = 1552;
const SCALARS: usize = 7;

// Random numbers by xorshift.
struct Draws(u64);

impl Draws {
    fn next(&mut self) -> u64 {
        self.0 ^= self.0 << 13;
        self.0 ^= self.0 >> 7;
        self.0 ^= self.0 << 17;
        self.0.wrapping_mul(0x2545_f491_4f6c_dd1d)
    }

    fn below(&mut self, n: u64) -> u64 {
        (self.next() >> 16) % n
    }

    fn once_in(&mut self, n: u64) -> bool {
        self.below(n) == 0
    }
}

// ---- which memory is in range: the ranges of "Money and names" over the layout in docs/EMBEDDING.md, written anew. Three of the rules are no ranges of
// the paper but readings of docs/DECISIONS.md, which the gate has as well, so that nothing here can judge them: a group number must be enrolled; a place's
// price keeps its kind's rule; words of figures that do not stand are held to their ranges, and an emergency figure that nobody holds is 0.

// The words of a group: seven scalars, eight declarers, their figures.
fn group_words(register: &[u32], g: usize) -> Vec<u32> {
    let scalars = (0..SCALARS).map(|k| register[FIRST_SCALAR + 64 * k + g]);
    let declarers = register[FIRST_DECLARER + 8 * g..][..8].iter().copied();
    scalars.chain(declarers).chain(register[FIRST_FIGURE + 8 * g..][..8].iter().copied()).collect()
}

fn group_in_range(words: &[u32]) -> bool {
    let most = |j: usize| match j {
        0 | 7..=14 => 99_999,
        1 => 4,
        2 | 3 => 10_000_000,
        4 => 200_000,
        6 => 8,
        _ => 9_999_999,
    };
    words.iter().enumerate().all(|(j, &w)| w <= most(j)) && words[1] >= 1 && (words[4] != 200_000 || words[5] == 0)
}

fn in_range(gate: &Gate) -> bool {
    let (register, book) = (&gate.register, &gate.book);
    if register.len() != REGISTER || book.len() != BOOK || register[0] > 64 || register[1] > 256 {
        return false;
    }
    let (groups, units) = (register[0] as usize, register[1] as usize);
    register[RATIOS].iter().all(|ratio| (1..=100).contains(ratio))
        && (0..groups).all(|g| group_in_range(&group_words(register, g)))
        && (0..units).all(|k| register[FIRST_UNIT + k] <= 99_999 && register[FIRST_UNIT_GROUP + k] < groups as u32)
        && (1..=65_536).contains(&book[0])
        && gate.places.len() as u64 == 4 * book[0]
        && book[1] <= book[0]
        && book[2..2 + 3 * groups].iter().all(|&money| money <= L)
}

// The place of an order, where its number was given.
fn place_in_range(gate: &Gate, order: u64) -> bool {
    if order < 1 || order > gate.book[1] {
        return true;
    }
    let at = 4 * (order as usize - 1);
    let [group, kind, price, open] = [gate.places[at], gate.places[at + 1], gate.places[at + 2], gate.places[at + 3]];
    let priced = match kind {
        1 | 2 | 4 => (1..=9_999_999).contains(&price),
        3 | 6 => price == 100_000,
        5 => price == 0,
        _ => false,
    };
    group < gate.register[0] as u64 && priced && open <= 10_000_000
}

// ---- ratio files, by request 2026-01

pub fn table(numbers: [u32; 6]) -> Vec<u8> {
    let [a, b, c, d, e, f] = numbers;
    format!(" 1{a:4}{b:4}\n 3{c:4}{d:4}\n 4{e:4}{f:4}\n").into_bytes()
}

// The nine numbers of a file that is of its form.
fn file_numbers(text: &[u8]) -> Option<Vec<u32>> {
    let columns = (text.len() == 33).then(|| [0, 11, 22].into_iter().flat_map(|at| [(at, 2), (at + 2, 4), (at + 6, 4)]))?;
    let number = |(at, width): (usize, usize)| {
        let column = std::str::from_utf8(&text[at..at + width]).ok()?;
        let number = column.trim_start_matches(' ').parse::<u32>().ok()?;
        (format!("{number:width$}") == column).then_some(number)
    };
    if [10, 21, 32].iter().any(|&at| text[at] != b'\n') {
        return None;
    }
    columns.map(number).collect()
}

// What a load is answered where no memory is out of its range: 2, then 23.
fn load_due(text: &[u8], groups: u32) -> u64 {
    let Some(numbers) = file_numbers(text) else { return 23 };
    let in_range = numbers.chunks(3).all(|line| (1..=4).contains(&line[0]) && (1..=100).contains(&line[1]) && (1..=100).contains(&line[2]));
    if !in_range {
        2
    } else if [numbers[0], numbers[3], numbers[6]] != [1, 3, 4] || groups > 0 {
        23
    } else {
        0
    }
}

// Most are of their form; of the others a byte, or the length, is another.
fn random_file(draws: &mut Draws) -> Vec<u8> {
    let small = draws.once_in(2);
    let mut text = table(std::array::from_fn(|_| if small { 1 + draws.below(9) as u32 } else { 1 + draws.below(100) as u32 }));
    match draws.below(12) {
        0 => text.truncate(draws.below(34) as usize),
        1 => text.push(draws.next() as u8),
        2 => text[draws.below(33) as usize] = draws.next() as u8,
        3 => text[draws.below(33) as usize] = b'0' + draws.below(10) as u8,
        4 => text = table(std::array::from_fn(|_| [0, 1, 100, 101, 9_999][draws.below(5) as usize])),
        5 => text.swap(1, 12),
        _ => {}
    }
    text
}

// ---- random days

// The quota that the gate's own ratios give for a base, in the class of a group; the base where the group isn't enrolled.
fn quota_by_words(gate: &Gate, group: u64, base: u64) -> u64 {
    if group >= (gate.register[0] as u64).min(64) {
        return base;
    }
    let at = match gate.register[FIRST_SCALAR + 64 + group as usize] {
        1 => 2,
        3 => 4,
        _ => 6,
    };
    let (numerator, denominator) = (gate.register[at] as u64, gate.register[at + 1].max(1) as u64);
    (2 * base * numerator + denominator) / (2 * denominator)
}

fn random_call(gate: &Gate, draws: &mut Draws) -> [u64; 5] {
    let d = draws;
    let (unit, declarer) = (d.below(6), d.below(10));
    let group = if d.once_in(12) { 62 + d.below(4) } else { d.below(4) };
    let amount = if d.once_in(3) { 99_990 + d.below(20) } else { d.below(12) };
    let order = d.below(gate.book[1].min(65_536) + 2);
    let mut call = match d.below(24) {
        0 | 1 => [1, d.below(4), 1 + d.below(4), d.next(), 0],
        2 | 3 => [2, unit, group, 0, d.next()],
        4 => [3, unit, 0, 0, 0],
        5 | 6 | 7 => [4, declarer, group, amount, if d.once_in(4) { amount } else { quota_by_words(gate, group, amount) }],
        8 => [5, declarer, group, amount, d.below(2)],
        9 => [6, declarer, group, 0, 0],
        10 => [7, group, d.below(12), 0, 0],
        11 => [11, 0, 0, 0, 0],
        12..=17 => {
            let kind = 1 + d.below(6);
            let price = [1 + d.below(20_000), 1 + d.below(20_000), 100_000, 1 + d.below(20_000), 0, 100_000][kind as usize - 1];
            [8, unit, kind, price, 1 + d.below(400_000)]
        }
        18..=21 => {
            let at = (4 * order as usize).saturating_sub(4);
            let price = gate.places.get(at + 2).map_or(0, |&p| p.wrapping_add(d.below(3)).wrapping_sub(1));
            [9, order, if d.once_in(4) { 1 + d.below(100_000) } else { price }, 1 + d.below(200_000), 0]
        }
        22 => [10, order, 0, 0, 0],
        _ => [d.below(14), d.below(20), d.below(20), d.below(20), d.below(20)],
    };
    if d.once_in(20) {
        let wild = [0, 1, 64, 65_537, 100_000, 10_000_001, L, u64::MAX, d.next()];
        call[d.below(5) as usize] = wild[d.below(9) as usize];
    }
    call
}

// Three groups with units and maxima, as most days have them from the start. (full_morning fills the gate up.) The quotas are those of the old ratios;
// where a table was loaded they are put right.
const MORNING: [[u64; 5]; 13] = [
    [1, 1, 1, 0, 0],
    [1, 2, 3, 0, 0],
    [1, 3, 4, 0, 0],
    [2, 0, 0, 0, 0],
    [2, 1, 0, 0, 0],
    [2, 2, 1, 0, 0],
    [2, 3, 1, 0, 0],
    [2, 4, 2, 0, 0],
    [4, 1, 0, 3, 8],
    [4, 5, 1, 7, 7],
    [4, 6, 1, 2, 2],
    [4, 7, 2, 9, 9],
    [11, 0, 0, 0, 0],
];

// After that morning: 64 groups and 256 units; or eight declarers of group 1, two of which have figures from the morning. Random calls have ten declarers.
fn full_morning() -> impl Iterator<Item = [u64; 5]> {
    let groups = (3..64).map(|code| [1, 100 + code, 3, 0, 0]);
    groups.chain((5..256).map(|unit| [2, 100 + unit, unit % 64, 0, 0]))
}

fn eight_declarers() -> impl Iterator<Item = [u64; 5]> {
    (0..8).map(|declarer| [4, declarer, 1, 3, 3])
}

fn by_the_table(gate: &Gate, call: [u64; 5]) -> [u64; 5] {
    if call[0] == 4 { [4, call[1], call[2], call[3], quota_by_words(gate, call[2], call[3])] } else { call }
}

// ---- checks

struct Seen {
    calls: u64,
    unsound: u64,
    answers: [u64; 21],
    // to loads: accepted, 1, 2, 23
    loads: [u64; 4],
}

impl Seen {
    fn nothing() -> Seen {
        Seen { calls: 0, unsound: 0, answers: [0; 21], loads: [0; 4] }
    }
}

// A load, with every check of its answer and of the memory after it: the six words of an accepted one, or none.
fn checked_load(gate: &mut Gate, text: &[u8], seen: &mut Seen) -> u64 {
    let mut due = gate.clone();
    let refusal = gate.load(text);
    let expected = if in_range(&due) { load_due(text, due.register[0]) } else { UNSOUND };
    assert_eq!(refusal, expected, "load of {:?}", String::from_utf8_lossy(text));
    if refusal == 0 {
        let numbers = file_numbers(text).unwrap();
        due.register[RATIOS].copy_from_slice(&[numbers[1], numbers[2], numbers[4], numbers[5], numbers[7], numbers[8]]);
    }
    assert!(*gate == due, "load of {:?}, answered by {refusal}", String::from_utf8_lossy(text));
    seen.loads[[0, 1, 2, 23].iter().position(|&number| number == refusal).unwrap()] += 1;
    refusal
}

// One call, with every check of its answer and of the memory after it.
fn checked_call(gate: &mut Gate, call: [u64; 5], seen: &mut Seen) -> Answer {
    let before = gate.clone();
    let sound = in_range(&before);
    let answer = gate.call(call);
    seen.calls += 1;
    assert!(answer.refusal <= 20, "{call:?} answers {answer:?}");
    seen.answers[answer.refusal as usize] += 1;
    if !sound {
        seen.unsound += 1;
        assert_eq!(answer.refusal, UNSOUND, "memory out of range, {call:?}");
    }
    if sound && (9..=10).contains(&call[0]) && !place_in_range(&before, call[1]) {
        assert_eq!(answer.refusal, UNSOUND, "a place out of range, {call:?}");
    }
    if sound && !(8..=10).contains(&call[0]) {
        assert_ne!(answer.refusal, UNSOUND, "memory in range, {call:?}");
    }
    let group = match call[0] {
        2 | 4 | 5 | 6 => Some(call[2]),
        7 => Some(call[1]),
        _ => None,
    };
    if sound && group.is_some_and(|g| g > 63) {
        assert_eq!(answer.refusal, 2, "group number 0 to 63, {call:?}");
    }
    if sound && group.is_some_and(|g| g >= before.register[0] as u64) {
        assert!([2, 4, 5, 6].contains(&answer.refusal), "group not enrolled, {call:?}");
    }
    if !(1..=11).contains(&call[0]) {
        assert_eq!(answer.refusal, if sound { 2 } else { 1 }, "no call has this code, {call:?}");
    }
    if answer.refusal != 0 {
        assert_eq!(answer.number, 0);
        assert!(*gate == before, "{call:?} is refused by {} and changed the memory", answer.refusal);
        return answer;
    }
    let number = match call[0] {
        1 => before.register[0] as u64,
        8 => before.book[1] + 1,
        _ => 0,
    };
    assert_eq!(answer.number, number, "{call:?}");
    if call[0] == 1 {
        // the group enrolled has no money, whatever the memory held
        let mut book = before.book.clone();
        book[2 + 3 * number as usize..][..3].fill(0);
        assert!(gate.book == book, "{call:?} changed the book otherwise");
    } else if call[0] <= 7 {
        assert!(gate.book == before.book, "{call:?} changed the book");
    }
    if (8..=10).contains(&call[0]) {
        assert!(gate.register == before.register, "{call:?} changed the register");
    }
    let own = match call[0] {
        8 => 4 * (number as usize - 1)..4 * number as usize,
        9 | 10 => 4 * call[1] as usize - 1..4 * call[1] as usize,
        _ => 0..0,
    };
    assert!(gate.places[..own.start] == before.places[..own.start], "{call:?} changed another place");
    assert!(gate.places[own.end..] == before.places[own.end..], "{call:?} changed another place");
    answer
}

// A listing and a row of any memory: refused without a byte written, or of the length that is said, the tail kept.
fn check_readers(gate: &Gate, damaged: bool, draws: &mut Draws) {
    let sound = in_range(gate);
    let before = gate.clone();
    let mut buffer = vec![7u8; draws.below(ROW_BYTES as u64 * 6) as usize];
    if draws.once_in(2) {
        buffer.resize(ROW_BYTES * MOST_GROUPS, 7);
    }
    let listed = gate.listing(&mut buffer);
    let due = if buffer.len() < ROW_BYTES * gate.register[0] as usize { 22 } else { 0 };
    assert!(listed.refusal == UNSOUND && damaged || sound && listed.refusal == due);
    let n = listed.number as usize;
    assert!(listed.refusal == 0 || n == 0);
    assert!(listed.refusal != 0 || n == ROW_BYTES * gate.register[0] as usize);
    assert!(buffer[n..].iter().all(|&b| b == 7));
    assert!(buffer[..n].chunks(ROW_BYTES).all(|line| line[ROW_BYTES - 1] == b'\n'));

    let group = if draws.once_in(3) { 62 + draws.below(4) } else { draws.below(6) };
    let mut out = vec![7u64; draws.below(14) as usize];
    let refusal = gate.row(group, &mut out);
    if !sound {
        assert_eq!(refusal, UNSOUND);
    } else if group > 63 {
        assert_eq!(refusal, 2, "row of group {group}");
    } else if group >= gate.register[0] as u64 {
        assert_eq!(refusal, 6, "row of group {group}");
    } else {
        // 1 where the row would break its rules
        let due = if out.len() < ROW_WORDS { 22 } else { 0 };
        assert!(refusal == UNSOUND && damaged || refusal == due, "row of group {group}");
    }
    if refusal != 0 {
        assert!(out.iter().all(|&w| w == 7));
    } else {
        assert!(out[ROW_WORDS..].iter().all(|&w| w == 7));
        assert_eq!(out[2] == DASH, out[3] == DASH);
        if listed.refusal == 0 {
            assert_eq!(row_line(&out), &buffer[ROW_BYTES * group as usize..][..ROW_BYTES]);
        }
    }
    assert!(*gate == before, "a listing or a row changed the memory");
}

fn listing_of(gate: &Gate) -> Vec<u8> {
    let mut buffer = vec![0u8; ROW_BYTES * MOST_GROUPS];
    assert_eq!(gate.listing(&mut buffer).refusal, 0);
    buffer
}

// The listing's line of a row's words.
fn row_line(row: &[u64]) -> Vec<u8> {
    let limit = |w: u64| if w == DASH { "-".to_string() } else { w.to_string() };
    let net = format!("{}{}", if row[4] == 1 { "-" } else { "" }, row[5]);
    format!("{:5}{:2}{:>8}{:>8}{:>21}{:21}{:21}{:21}\n", row[0], row[1], limit(row[2]), limit(row[3]), net, row[6], row[7], row[8]).into_bytes()
}

// ---- copies and damage

fn to_bytes(gate: &Gate) -> Vec<u8> {
    let words = [&gate.book, &gate.places].into_iter().flatten().flat_map(|w| w.to_ne_bytes());
    gate.register.iter().flat_map(|w| w.to_ne_bytes()).chain(words).collect()
}

fn from_bytes(bytes: &[u8]) -> Gate {
    let (register, rest) = bytes.split_at(4 * REGISTER);
    let words: Vec<u64> = rest.chunks_exact(8).map(|b| u64::from_ne_bytes(b.try_into().unwrap())).collect();
    Gate { register: register.chunks_exact(4).map(|b| u32::from_ne_bytes(b.try_into().unwrap())).collect(), book: words[..BOOK].to_vec(), places: words[BOOK..].to_vec() }
}

// Ends of ranges, and what lies behind them.
const EDGES: [u64; 20] = [0, 4, 5, 8, 9, 63, 64, 65, 100, 101, 256, 257, 65_536, 65_537, 99_999, 100_000, 200_000, 200_001, L, L + 1];
const QUOTAS: [u64; 4] = [9_999_999, 10_000_000, 10_000_001, 9_999_998];

// A word of a register that is in use: a count, a ratio's number, a unit or its group, a word of a group.
fn used_word(groups: u64, units: u64, draws: &mut Draws) -> usize {
    if units > 0 && draws.once_in(4) {
        return [FIRST_UNIT, FIRST_UNIT_GROUP][draws.below(2) as usize] + draws.below(units) as usize;
    }
    if groups == 0 || draws.once_in(6) {
        return draws.below(RATIOS.end as u64) as usize;
    }
    match draws.below(23) {
        k @ 0..=6 => FIRST_SCALAR + 64 * k as usize + draws.below(groups) as usize,
        7..=14 => FIRST_DECLARER + draws.below(8 * groups) as usize,
        _ => FIRST_FIGURE + draws.below(8 * groups) as usize,
    }
}

// Another value for a word.
fn other(word: u64, draws: &mut Draws) -> u64 {
    match draws.below(8) {
        0 => draws.next(),
        1 => u64::MAX,
        2 => word.wrapping_add(1),
        3 => word.wrapping_sub(1),
        4 => word ^ 1 << draws.below(64),
        5 => EDGES[draws.below(EDGES.len() as u64) as usize],
        6 => QUOTAS[draws.below(4) as usize],
        _ => draws.below(12),
    }
}

// One to three words overwritten, half of them such as are in use.
fn damage(gate: &mut Gate, draws: &mut Draws) {
    for _ in 0..1 + draws.below(3) {
        let used = draws.once_in(2);
        let (groups, units, orders) = (gate.register[0].min(64) as u64, gate.register[1].min(256) as u64, gate.book[1].min(gate.places.len() as u64 / 4));
        match draws.below(3) {
            0 => {
                let at = if used { used_word(groups, units, draws) } else { draws.below(REGISTER as u64) as usize };
                gate.register[at] = other(gate.register[at] as u64, draws) as u32;
            }
            1 => {
                let at = draws.below(if used { 2 + 3 * groups } else { BOOK as u64 }) as usize;
                gate.book[at] = other(gate.book[at], draws);
            }
            _ => {
                let n = if used && orders > 0 { 4 * orders } else { gate.places.len() as u64 };
                let at = draws.below(n) as usize;
                gate.places[at] = other(gate.places[at], draws);
            }
        }
    }
}

// Anything in the words of the header behind the ratios, of groups, their money and units above the counts, and of places above the last number given.
fn fill_unused(gate: &mut Gate, draws: &mut Draws) {
    let (groups, units, orders) = (gate.register[0] as usize, gate.register[1] as usize, gate.book[1] as usize);
    let columns = (0..SCALARS).map(|k| FIRST_SCALAR + 64 * k + groups..FIRST_SCALAR + 64 * (k + 1));
    let rest = [RATIOS.end..HEADER, FIRST_DECLARER + 8 * groups..FIRST_FIGURE, FIRST_FIGURE + 8 * groups..FIRST_UNIT, FIRST_UNIT + units..FIRST_UNIT_GROUP, FIRST_UNIT_GROUP + units..FIRST_SCALAR];
    for part in rest.into_iter().chain(columns) {
        gate.register[part].fill_with(|| draws.next() as u32);
    }
    gate.book[2 + 3 * groups..].fill_with(|| draws.next());
    gate.places[4 * orders..].fill_with(|| draws.next());
}

// ---- lengths

fn check_lengths(draws: &mut Draws) {
    for (register, book, places) in [(0, 0, 0), (REGISTER - 1, BOOK, 8), (REGISTER + 1, BOOK, 8), (REGISTER, BOOK - 1, 8), (REGISTER, BOOK + 1, 8), (REGISTER, BOOK, 0), (REGISTER, BOOK, 3), (REGISTER, BOOK, 7), (REGISTER, BOOK, 4 * 65_537)] {
        let mut gate = Gate::lent(register, book, places, 7);
        let before = gate.clone();
        assert_eq!(gate.open(), UNSOUND);
        assert!(gate == before);
        assert_eq!(gate.call([11, 0, 0, 0, 0]).refusal, UNSOUND);
        assert!(gate == before);
        assert_eq!(gate.listing(&mut [0; 200]).refusal, UNSOUND);
        assert_eq!(gate.row(0, &mut [0; 9]), UNSOUND);
        assert_eq!(gate.load(&table(OLD_RATIOS)), UNSOUND);
        assert_eq!(gate.load(&[]), UNSOUND);
        assert!(gate == before);
    }
    // a gate that is handed other slices than at its opening
    let mut gate = Gate::lent(REGISTER, BOOK, 4 * 5, 0);
    assert_eq!(gate.open(), 0);
    for (register, book, places) in [(REGISTER, BOOK, 4 * 4), (REGISTER, BOOK, 4 * 6), (REGISTER, BOOK, 4 * 5 + 1), (REGISTER + 1, BOOK, 4 * 5), (REGISTER, BOOK + 1, 4 * 5), (1, BOOK, 4 * 5), (REGISTER, 1, 4 * 5)] {
        let mut other = gate.clone();
        other.register.resize(register, 0);
        other.book.resize(book, 0);
        other.places.resize(places, 0);
        for code in 1..=11 {
            let before = other.clone();
            assert_eq!(other.call([code, draws.below(3), 1, 1, 1]).refusal, UNSOUND);
            assert_eq!(other.load(&table(OLD_RATIOS)), UNSOUND);
            assert!(other == before);
        }
    }
    // the largest gate
    let mut gate = Gate::lent(REGISTER, BOOK, 4 * 65_536, u64::MAX);
    assert_eq!(gate.open(), 0);
    assert!(gate.places.iter().all(|&w| w == u64::MAX));
}

fn main() {
    let mut draws = Draws(0x9e37_79b9_7f4a_7c15);
    let (mut whole, mut hurt) = (Seen::nothing(), Seen::nothing());
    check_lengths(&mut draws);
    bounds::check();
    for day in 0..DAYS {
        let n = [1, 3, 20, 64][draws.below(4) as usize];
        let mut gate = Gate::lent(REGISTER, BOOK, PLACE * n, draws.next());
        assert_eq!(gate.open(), 0);
        for _ in 0..draws.below(4) {
            checked_load(&mut gate, &random_file(&mut draws), &mut whole);
        }
        if !draws.once_in(4) {
            for call in MORNING {
                let call = by_the_table(&gate, call);
                assert_eq!(checked_call(&mut gate, call, &mut whole).refusal, 0);
            }
            if day % 50 == 0 {
                for call in full_morning() {
                    assert_eq!(checked_call(&mut gate, call, &mut whole).refusal, 0);
                }
            } else if day % 8 == 0 {
                for call in eight_declarers() {
                    let call = by_the_table(&gate, call);
                    assert_eq!(checked_call(&mut gate, call, &mut whole).refusal, 0);
                }
            }
        }
        for _ in 0..draws.below(90) {
            let call = random_call(&gate, &mut draws);
            checked_call(&mut gate, call, &mut whole);
            if draws.once_in(30) {
                checked_load(&mut gate, &random_file(&mut draws), &mut whole);
            }
        }
        check_readers(&gate, false, &mut draws);

        let copy = to_bytes(&gate);
        damage(&mut gate, &mut draws);
        let damaged = gate.clone();
        let mut touched = false;
        for _ in 0..1 + draws.below(12) {
            let call = random_call(&gate, &mut draws);
            touched |= checked_call(&mut gate, call, &mut hurt).refusal == 0;
            touched |= draws.once_in(4) && checked_load(&mut gate, &random_file(&mut draws), &mut hurt) == 0;
        }
        assert!(touched || gate == damaged);
        check_readers(&gate, true, &mut draws);

        // restored, it answers as a gate that was never damaged, and as one with anything in the unused words
        gate = from_bytes(&copy);
        let mut twin = from_bytes(&copy);
        let mut noisy = from_bytes(&copy);
        fill_unused(&mut noisy, &mut draws);
        for _ in 0..draws.below(12) {
            let call = random_call(&gate, &mut draws);
            let answer = checked_call(&mut gate, call, &mut whole);
            assert_eq!(answer, twin.call(call));
            assert_eq!(answer, noisy.call(call));
            if draws.once_in(8) {
                let text = random_file(&mut draws);
                let refusal = checked_load(&mut gate, &text, &mut whole);
                assert_eq!(refusal, twin.load(&text));
                assert_eq!(refusal, noisy.load(&text));
            }
        }
        assert!(gate == twin);
        assert!(listing_of(&gate) == listing_of(&noisy));
    }
    assert_eq!(whole.answers[UNSOUND as usize], 0, "undamaged memory was answered by 1");
    assert!((2..=20).all(|number| whole.answers[number] > 0), "a number was never reached: {:?}", whole.answers);
    assert!(whole.loads[1] == 0 && [0, 2, 3].iter().all(|&k| whole.loads[k] > 100), "loads: {:?}", whole.loads);
    assert!(hurt.loads.iter().all(|&count| count > 100), "loads of damaged gates: {:?}", hurt.loads);
    assert!(hurt.unsound > 10_000 && hurt.answers[0] > 1_000, "too little was tried");
    println!("{DAYS} days; undamaged: {} calls, answers {:?}; loads by 0, 1, 2, 23: {:?}", whole.calls, whole.answers, whole.loads);
    println!("damaged: {} calls, {} with a figure out of range, answers {:?}; loads {:?}", hurt.calls, hurt.unsound, hurt.answers, hurt.loads);
}

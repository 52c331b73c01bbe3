// Random days for `gateday`: `days SEED` prints a call file, the same for the same number. What kind of day it is (KINDS) goes by the
// number's remainder; the rest is drawn. The generator keeps a rough idea of the gate (`Day`), only to aim: at a net one mil below a
// quota, at the fill that empties an order, at the ninth declarer. Where its idea is wrong the day is aimed worse, and still a day.
//
//   days SEED                  the day
//   days --ratios SEED         the day's ratio file; nothing where the day has none
//   days --entries SEED DIR    a day with loads in the middle (`tests/entries`); its ratio files go to DIR
//   days --kinds               the kinds of days, a line each
//
// Every other dozen of days has a ratio file (request 2026-01), one in four of these is refused (REFUSED_FILES). What a ratio file brings is
// drawn apart (`Ratios`), so that the days without one are those from before the request, byte for byte.

use std::io::Write;

const KINDS: [&str; 12] = [
    "all calls mixed",
    "busy days near the quota: net brought to the own quota, one below, one above, and down again",
    "declarations: declarers, emergencies, filings and closes, own quotas",
    "malformed lines of every kind among good ones",
    "full capacities: 64 groups and 256 units, and on from there",
    "2,048 orders, and on from there",
    "largest prices, quantities and quotas",
    "several refusals at once: fields drawn from good, conflicting and outside",
    "repos and market orders",
    "many closes: yesterday's order numbers, quotas that come and go",
    "units that move between groups while their orders live",
    "sums and raises around the threshold",
];

// splitmix64
struct Draws(u64);

impl Draws {
    fn next(&mut self) -> u64 {
        self.0 = self.0.wrapping_add(0x9e37_79b9_7f4a_7c15);
        let mut z = self.0;
        z = (z ^ (z >> 30)).wrapping_mul(0xbf58_476d_1ce4_e5b9);
        z = (z ^ (z >> 27)).wrapping_mul(0x94d0_49bb_1331_11eb);
        z ^ (z >> 31)
    }

    // 0 to n − 1
    fn below(&mut self, n: usize) -> usize {
        (self.next() % n.max(1) as u64) as usize
    }

    fn within(&mut self, least: i128, greatest: i128) -> i128 {
        least + (self.next() as i128) % (greatest - least + 1).max(1)
    }

    fn one_in(&mut self, n: usize) -> bool {
        self.below(n) == 0
    }

    fn of<T: Copy>(&mut self, choices: &[T]) -> T {
        choices[self.below(choices.len())]
    }

    // an index, by weight
    fn weighed(&mut self, weights: &[usize]) -> usize {
        let mut left = self.below(weights.iter().sum());
        for (i, weight) in weights.iter().enumerate() {
            if left < *weight { return i; }
            left -= weight;
        }
        0
    }
}

const MILLION: i128 = 1_000_000_000; // mils
const TOP_PRICE: i128 = 9_999_999;
const TOP_QUANTITY: i128 = 10_000_000;
const TOP_QUOTA: i128 = 9_999_999;
const THRESHOLD: i128 = 100_000;

#[derive(Default)]
struct Group {
    code: i128,
    class: i128,
    figures: Vec<(i128, i128)>,
    maximum: Option<i128>,
    own: Option<i128>,
    emergency: Option<(i128, i128, bool)>,
    net: i128,
}

struct Order {
    group: usize,
    kind: i128,
    price: i128,
    open: i128,
}

// ---------------------------------------------------------------- Ratio files

type Table = [(i128, i128); 3]; // numerator and denominator, for classes 1, 3 and 4

const OLD: Table = [(5, 2), (1, 1), (1, 1)];
const BELOW_ONE: [(i128, i128); 7] = [(1, 100), (1, 100), (1, 50), (1, 10), (1, 3), (2, 5), (3, 100)];
const HALVES: [(i128, i128); 9] = [(7, 2), (3, 2), (7, 4), (5, 2), (1, 2), (3, 4), (9, 8), (99, 2), (5, 6)];
const NO_HALVES: [(i128, i128); 6] = [(7, 3), (2, 3), (5, 3), (17, 7), (100, 3), (4, 5)];
const GREAT: [(i128, i128); 5] = [(100, 1), (100, 1), (99, 1), (100, 99), (100, 100)];

// What is wrong with a refused file, by number
const REFUSED_FILES: usize = 36;

// A day's ratio file, and what it means for those who aim by it.
struct Ratios {
    draws: Draws,
    text: Vec<u8>,
    table: Table,  // as the file says, or as it would without its fault
    accepted: bool,
}

fn line_of(class: i128) -> usize {
    match class { 1 => 0, 3 => 1, _ => 2 }
}

// half up
fn by_ratio((numerator, denominator): (i128, i128), base: i128) -> i128 {
    (2 * base * numerator + denominator) / (2 * denominator)
}

fn drawn_table(draws: &mut Draws) -> Table {
    let any = |draws: &mut Draws| match draws.below(5) {
        0 => draws.of(&BELOW_ONE),
        1 => draws.of(&HALVES),
        2 => draws.of(&NO_HALVES),
        3 => draws.of(&GREAT),
        _ => (draws.within(1, 100), draws.within(1, 100)),
    };
    match draws.weighed(&[1, 4, 4, 2, 1, 5]) {
        0 => OLD,
        1 => [0; 3].map(|_| draws.of(&BELOW_ONE)),
        2 => [0; 3].map(|_| draws.of(&HALVES)),
        3 => [0; 3].map(|_| draws.of(&NO_HALVES)),
        4 => [0; 3].map(|_| draws.of(&GREAT)),
        _ => [0; 3].map(|_| any(draws)),
    }
}

fn ratio_text(lines: [(i128, i128, i128); 3]) -> Vec<u8> {
    lines.iter().flat_map(|(class, n, d)| format!("{class:>2}{n:>4}{d:>4}\n").into_bytes()).collect()
}

impl Ratios {
    fn drawn(mut draws: Draws, fault: Option<usize>) -> Ratios {
        let table = drawn_table(&mut draws);
        let [one, three, four] = table;
        let mut lines = [(1, one.0, one.1), (3, three.0, three.1), (4, four.0, four.1)];
        let i = draws.below(3);
        // faults of the numbers
        match fault.unwrap_or(REFUSED_FILES) {
            0 => lines[i].1 = 0,
            1 => lines[i].1 = 101,
            2 => lines[i].2 = 0,
            3 => lines[i].2 = 101,
            4 => lines[i].0 = 0,
            5 => lines[i].0 = 5,
            6 => lines[i].0 = draws.of(&[9, 99]),
            7 => if draws.one_in(2) { lines[i].1 = 9_999 } else { lines[i].2 = 9_999 },
            // 2 and 23
            8 => { lines[0].0 = 2; lines[i].1 = draws.of(&[0, 101]); }
            9 => { lines.swap(0, 2); lines[i].2 = draws.of(&[0, 101]); }
            // 23: formed
            10 => lines[0].0 = 2,
            11 => lines[1].0 = 2,
            12 => lines[2].0 = 2,
            13 => lines.swap(1, 2),
            14 => lines.swap(0, 1),
            15 => lines.rotate_left(1),
            16 => lines[i].0 = lines[(i + 1) % 3].0,
            // not formed, and a number out of its range
            31 | 32 => lines[0].1 = draws.of(&[0, 101]),
            _ => {}
        }
        let mut text = ratio_text(lines);
        let line = 11 * i; // where a line begins
        let (class, numerator, denominator) = (line + 1, line + 5, line + 9); // their last columns
        let free = |column: usize, width: usize, text: &[u8]| (column + 1 - width..column).rev().find(|j| text[*j] == b' ');
        match fault.unwrap_or(REFUSED_FILES) {
            17 | 31 => { text.pop(); }
            18 => text.push(b'\n'),
            19 => text.push(draws.of(b" \0\x1a")),
            20 => text = String::from_utf8(text).unwrap().replace('\n', "\r\n").into_bytes(),
            21 => text[32] = b'\r',
            22 => text[line + 10] = draws.of(b" \0"),
            23 => text[class - 1] = b'0',
            24 => if let Some(j) = free(numerator, 4, &text) { text[j] = b'0' },
            25 => if let Some(j) = free(denominator, 4, &text) { text[j] = b'0' },
            26 => if let Some(j) = free(numerator, 4, &text) { text[j] = b'+' },
            27 => if let Some(j) = free(denominator, 4, &text) { text[j] = b'-' },
            28 => if let Some(j) = free(numerator, 4, &text) { text[numerator - 3..=numerator].rotate_left(j + 4 - numerator) },
            29 => text[numerator - 3..=numerator].fill(b' '),
            30 => text[numerator - 3] = draws.of(b"\tx."),
            32 => if let Some(j) = free(denominator, 4, &text) { text[j] = b'0' },
            33 => { text.remove(line); }
            34 => text[class - 1] = 0,
            35 => { let kept = draws.of(&[0, 11, 22]); text.extend_from_within(..11); if kept > 0 { text.truncate(kept); } }
            _ => {}
        }
        Ratios { draws, text, table, accepted: fault.is_none() }
    }

    // the ratio file of a day
    fn of_day(seed: u64) -> Option<Ratios> {
        if (seed / 12) % 2 == 0 { return None; }
        let (kind, dozen) = (seed % 12, seed / 24);
        let refused = (kind + dozen) % 4 == 3;
        let fault = ((3 * dozen + kind / 4) % REFUSED_FILES as u64) as usize;
        Some(Ratios::drawn(Draws(seed ^ 0x7261_7469_6f73), refused.then_some(fault)))
    }
}

struct Day {
    ratios: Option<Ratios>,
    loads: Vec<Vec<u8>>, // ratio files named in the text, of a day with loads in the middle
    draws: Draws,
    text: Vec<u8>,
    groups: Vec<Group>,
    units: Vec<(i128, usize)>,
    orders: Vec<Order>,
    // how this day draws
    bases: i128,      // greatest base drawn
    declarers: usize, // how many declarers there are
    unit_codes: i128,
    group_codes: i128,
    repo: bool,
    large: bool,
}

impl Day {
    fn line(&mut self, code: i128, field: [i128; 4]) {
        let line = written(code, field);
        self.text.extend_from_slice(line.as_bytes());
        self.text.push(b'\n');
    }

    // A line that loads a drawn ratio file, where lines may.
    fn load(&mut self, dir: &str, draws: &mut Draws) {
        let fault = draws.one_in(3).then(|| draws.below(REFUSED_FILES));
        let ratios = Ratios::drawn(Draws(draws.next()), fault);
        self.text.extend_from_slice(format!("L {dir}/{}\n", self.loads.len()).as_bytes());
        self.loads.push(ratios.text.clone());
        if ratios.accepted && self.groups.is_empty() { self.ratios = Some(ratios); }
    }

    // ------------------------------------------------------------ fields

    fn group(&mut self) -> usize {
        if self.groups.is_empty() { 0 } else { self.draws.below(self.groups.len()) }
    }

    fn unit(&mut self) -> i128 {
        if self.units.is_empty() || self.draws.one_in(25) { self.draws.within(0, self.unit_codes) } else {
            let i = self.draws.below(self.units.len());
            self.units[i].0
        }
    }

    fn declarer(&mut self, group: usize) -> i128 {
        let (class, code) = self.groups.get(group).map_or((4, 0), |g| (g.class, g.code));
        if class == 1 && !self.draws.one_in(12) { return code; }
        if self.draws.one_in(40) { return code; }
        // some declarers at the ends of their range
        let i = self.draws.below(self.declarers) as i128;
        match i { 0 => 0, 1 => 99_999, _ => 500 + i }
    }

    fn due(&self, group: usize, base: i128) -> i128 {
        if let (Some(ratios), Some(g)) = (&self.ratios, self.groups.get(group)) {
            if ratios.accepted { return by_ratio(ratios.table[line_of(g.class)], base); }
        }
        if self.groups.get(group).is_some_and(|g| g.class == 1) { (5 * base + 1) / 2 } else { base }
    }

    // ------------------------------------------------------------ calls, each with what it should change

    fn enrol(&mut self, code: i128, class: i128) {
        self.line(1, [code, class, 0, 0]);
        let new = !self.groups.iter().any(|g| g.code == code && g.class == class);
        if code <= 99_999 && matches!(class, 1 | 3 | 4) && new && self.groups.len() < 64 {
            self.groups.push(Group { code, class, ..Group::default() });
        }
    }

    fn attach(&mut self, unit: i128, group: usize) {
        self.line(2, [unit, group as i128, 0, 0]);
        let new = !self.units.iter().any(|u| u.0 == unit);
        if unit <= 99_999 && group < self.groups.len() && new && self.units.len() < 256 { self.units.push((unit, group)); }
    }

    fn detach(&mut self, unit: i128) {
        self.line(3, [unit, 0, 0, 0]);
        self.units.retain(|u| u.0 != unit);
    }

    fn regular(&mut self, declarer: i128, group: usize, base: i128, quota: i128) {
        self.line(4, [declarer, group as i128, base, quota]);
        let due = self.due(group, base);
        let Some(g) = self.groups.get_mut(group) else { return };
        let stands = g.figures.iter().any(|f| f.0 == declarer);
        if quota != due || quota > TOP_QUOTA || (g.class == 1 && declarer != g.code) || (!stands && g.figures.len() >= 8) { return; }
        g.figures.retain(|f| f.0 != declarer);
        if base > 0 { g.figures.push((declarer, quota)); }
    }

    fn raise(&mut self, declarer: i128, group: usize, quota: i128, flag: i128) {
        self.line(5, [declarer, group as i128, quota, flag]);
        let Some(g) = self.groups.get_mut(group) else { return };
        let barred = g.emergency.is_some_and(|e| e.0 != declarer && !e.2);
        let right = quota > 0 && quota <= TOP_QUOTA && flag == (quota > THRESHOLD) as i128;
        if (g.class == 1 && declarer != g.code) || barred || !right || g.maximum.is_some_and(|m| quota <= m) { return; }
        g.maximum = Some(quota);
        g.emergency = Some((declarer, quota, false));
    }

    fn file(&mut self, declarer: i128, group: usize) {
        self.line(6, [declarer, group as i128, 0, 0]);
        let Some(g) = self.groups.get_mut(group) else { return };
        if let Some(e) = &mut g.emergency { if e.0 == declarer { e.2 = true; } }
    }

    fn own(&mut self, group: usize, quota: i128) {
        self.line(7, [group as i128, quota, 0, 0]);
        let Some(g) = self.groups.get_mut(group) else { return };
        if g.maximum.is_some_and(|m| quota <= m) { g.own = Some(quota); }
    }

    fn order(&mut self, unit: i128, kind: i128, price: i128, quantity: i128) {
        self.line(8, [unit, kind, price, quantity]);
        let fits = match kind { 3 | 6 => price == 100_000, 5 => price == 0, 1 | 2 | 4 => (1..=TOP_PRICE).contains(&price), _ => false };
        let Some(&(_, group)) = self.units.iter().find(|u| u.0 == unit) else { return };
        if !fits || !(1..=TOP_QUANTITY).contains(&quantity) || self.orders.len() >= 2_048 { return; }
        let g = &mut self.groups[group];
        if kind <= 3 {
            let Some(maximum) = g.maximum else { return };
            if g.net >= g.own.unwrap_or(maximum) * MILLION { return; }
            g.net += price * quantity;
        }
        self.orders.push(Order { group, kind, price, open: quantity });
    }

    fn fill(&mut self, number: usize, price: i128, quantity: i128) {
        self.line(9, [number as i128, price, quantity, 0]);
        if number < 1 || number > self.orders.len() || !(1..=TOP_PRICE).contains(&price) || quantity < 1 { return; }
        let o = &mut self.orders[number - 1];
        let worse = match o.kind { 1 | 2 => price > o.price, 4 => price < o.price, 5 => false, _ => price != 100_000 };
        if quantity > o.open || worse { return; }
        o.open -= quantity;
        self.groups[o.group].net -= if o.kind <= 3 { (o.price - price) * quantity } else { price * quantity };
    }

    fn cancel(&mut self, number: usize) {
        self.line(10, [number as i128, 0, 0, 0]);
        if number < 1 || number > self.orders.len() { return; }
        let o = &mut self.orders[number - 1];
        if o.kind <= 3 { self.groups[o.group].net -= o.price * o.open; }
        o.open = 0;
    }

    fn close(&mut self) {
        self.line(11, [0; 4]);
        self.orders.clear();
        for g in &mut self.groups {
            g.net = 0;
            let sum: i128 = g.figures.iter().map(|f| f.1).sum();
            let of_figures = if g.figures.is_empty() { None } else { Some(sum.min(THRESHOLD)) };
            match g.emergency {
                Some((_, figure, false)) => g.maximum = Some(figure),
                _ => { g.maximum = of_figures; g.emergency = None; }
            }
            g.own = match (g.own, g.maximum) { (Some(own), Some(maximum)) => Some(own.min(maximum)), _ => None };
        }
    }

    // ------------------------------------------------------------ acts: calls with drawn fields

    fn act_enrol(&mut self) {
        let odd = self.draws.of(&[0, 99_999, 100_000, 999_999_999]);
        let code = if self.draws.one_in(20) { odd } else { self.draws.within(0, self.group_codes) };
        let class = self.draws.of(&[1, 1, 1, 3, 3, 3, 4, 4, 4, 4, 2, 0, 5]);
        self.enrol(code, class);
    }

    fn act_attach(&mut self) {
        let unit = if self.draws.one_in(20) { self.draws.of(&[0, 99_999, 100_000]) } else { self.draws.within(0, self.unit_codes) };
        let group = if self.draws.one_in(20) { self.draws.of(&[self.groups.len(), 63, 64, 999_999_999]) } else { self.group() };
        self.attach(unit, group);
    }

    fn act_detach(&mut self) {
        let unit = self.unit();
        self.detach(unit);
    }

    fn act_regular(&mut self) {
        let group = if self.draws.one_in(40) { self.draws.of(&[self.groups.len(), 63, 64]) } else { self.group() };
        let declarer = self.declarer(group);
        let standing = self.groups.get(group).map_or(0, |g| g.figures.len());
        let sum: i128 = self.groups.get(group).map_or(0, |g| g.figures.iter().filter(|f| f.0 != declarer).map(|f| f.1).sum());
        let base = match self.draws.weighed(&[6, if standing > 5 { 1 } else { 3 }, 3, 1, 1]) {
            0 => self.draws.within(1, self.bases),
            1 => 0,
            // together with the others about the threshold
            2 if self.bases > 1_000 && sum < THRESHOLD => THRESHOLD - sum + self.draws.within(-1, 1),
            2 => self.draws.within(1, 9),
            3 => self.draws.of(&[3_999_998, 3_999_999, 4_000_000, 9_999_999, 10_000_000]),
            _ => self.draws.within(1, TOP_QUOTA),
        }.max(0);
        let due = self.due(group, base);
        let quota = match self.draws.weighed(&[30, 1, 1, 1, 1]) {
            0 => due,
            1 => due + 1,
            2 => (due - 1).max(0),
            3 => base * 5 / 2,
            _ => self.draws.of(&[0, base, 9_999_999, 10_000_000]),
        };
        let (base, quota) = self.aimed(group, base, quota);
        self.regular(declarer, group, base, quota);
    }

    // On a day with a ratio file: bases that give 0 or 1, something next to a half, or a quota at the top of its range; and quotas by the
    // ratios of others.
    fn aimed(&mut self, group: usize, base: i128, quota: i128) -> (i128, i128) {
        let class = self.groups.get(group).map_or(4, |g| g.class);
        let Some(ratios) = &mut self.ratios else { return (base, quota) };
        let (table, draws) = (ratios.table, &mut ratios.draws);
        let (n, d) = table[line_of(class)];
        let drawn = match draws.weighed(&[6, 3, 4, 1, 1]) {
            0 => base,
            1 => d / (2 * n) + draws.within(-1, 1),
            2 => {
                let bases: Vec<i128> = (0..30).map(|_| draws.within(1, 300)).collect();
                bases.iter().copied().find(|b| (2 * (b * n % d) - d).abs() <= 2).unwrap_or(bases[0])
            }
            3 => (TOP_QUOTA * d / n + draws.within(-1, 2)).min(TOP_QUOTA + 1),
            _ => draws.within(1, 2 * d),
        }.max(0);
        let base = if base == 0 { 0 } else { drawn };
        let due = self.due(group, base);
        let draws = &mut self.ratios.as_mut().unwrap().draws;
        let quota = match draws.weighed(&[40, 3, 3, 2, 2, 1, 1, 1, 1]) {
            // no quota in range follows: it, or the greatest there is
            0 if due > TOP_QUOTA => draws.of(&[due, TOP_QUOTA, TOP_QUOTA]),
            0 => due,
            1 => due + 1,
            2 => (due - 1).max(0),
            3 => by_ratio(OLD[line_of(class)], base),
            4 => by_ratio(table[line_of(class)], base),
            5 => by_ratio(table[draws.below(3)], base),
            6 => base * d / n,
            7 => draws.of(&[0, 0, base]),
            _ => draws.of(&[TOP_QUOTA, TOP_QUOTA + 1]),
        }.min(999_999_999);
        (base, quota)
    }

    // A maximum of 0 for a group whose ratio allows it: its figures made 0 or withdrawn, a close, and then own quotas, buys and raises.
    fn act_zero(&mut self) {
        let Some(ratios) = &self.ratios else { return };
        let (table, accepted) = (ratios.table, ratios.accepted);
        let small = |class| { let (n, d) = table[line_of(class)]; accepted && 2 * n < d };
        let fitting: Vec<usize> = (0..self.groups.len()).filter(|g| small(self.groups[*g].class)).collect();
        if fitting.is_empty() { return; }
        let mut draws = Draws(self.ratios.as_mut().unwrap().draws.next());
        let group = draws.of(&fitting);
        let (n, d) = table[line_of(self.groups[group].class)];
        let greatest = (d - 1) / (2 * n); // that gives 0
        let code = self.groups[group].code;
        let newcomer = if self.groups[group].class == 1 { code } else { 500 + draws.within(2, 12) };
        if draws.one_in(2) { let own = self.groups[group].maximum.map_or(0, |m| draws.of(&[0, 1, m])); self.own(group, own); }
        if let Some((holder, _, false)) = self.groups[group].emergency { self.file(holder, group); }
        let base = draws.of(&[1, greatest]);
        self.regular(newcomer, group, base, 0);
        for (declarer, _) in self.groups[group].figures.clone() {
            let base = draws.of(&[0, 0, 1, greatest]);
            if declarer != newcomer { self.regular(declarer, group, base, 0); }
        }
        if draws.one_in(5) { self.regular(newcomer, group, 0, 0); }
        self.close();
        let unit = self.units.iter().find(|u| u.1 == group).map_or(77_777, |u| u.0);
        for _ in 0..draws.below(6) + 2 {
            match draws.below(8) {
                0 => self.own(group, draws.of(&[0, 0, 1])),
                1 | 2 => self.order(unit, draws.of(&[1, 2]), 1, draws.within(1, 3)),
                3 => self.order(unit, 3, 100_000, 1),
                4 => {
                    let (orders, price) = (self.orders.len(), draws.within(1, 4));
                    self.order(unit, 4, 1, 3);
                    if self.orders.len() > orders { self.fill(orders + 1, price, 1); }
                }
                5 => self.regular(newcomer, group, greatest + draws.within(0, 1), draws.within(0, 1)),
                6 => { let (quota, flag) = (draws.of(&[0, 1, 1, 2]), draws.of(&[0, 0, 0, 1])); self.raise(newcomer, group, quota, flag); }
                _ => self.regular(newcomer, group, 0, 0),
            }
        }
        if draws.one_in(3) { self.regular(newcomer, group, d, n); self.close(); }
    }

    fn act_raise(&mut self) {
        let group = if self.draws.one_in(40) { self.draws.of(&[self.groups.len(), 64]) } else { self.group() };
        let (maximum, holder) = self.groups.get(group).map_or((None, None), |g| (g.maximum, g.emergency.map(|e| e.0)));
        let drawn = self.declarer(group);
        let declarer = if self.draws.one_in(3) { holder.unwrap_or(drawn) } else { drawn };
        let step = self.draws.within(-1, 2);
        let small = self.draws.within(1, self.bases);
        let quota = match self.draws.weighed(&[6, 3, 2, 1]) {
            0 => maximum.unwrap_or(small) + step,
            1 => maximum.unwrap_or(0) + small,
            2 => THRESHOLD + self.draws.within(-1, 1),
            _ => self.draws.of(&[0, 1, 9_999_998, 9_999_999, 10_000_000]),
        }.max(0);
        let right = (quota > THRESHOLD) as i128;
        let flag = match self.draws.weighed(&[12, 2, 1]) { 0 => right, 1 => 1 - right, _ => 2 };
        self.raise(declarer, group, quota, flag);
    }

    fn act_file(&mut self) {
        let group = self.group();
        let holder = self.groups.get(group).and_then(|g| g.emergency).map(|e| e.0);
        let drawn = self.declarer(group);
        let declarer = if self.draws.one_in(4) { drawn } else { holder.unwrap_or(drawn) };
        self.file(declarer, group);
    }

    fn act_own(&mut self) {
        let group = if self.draws.one_in(40) { self.draws.of(&[self.groups.len(), 64]) } else { self.group() };
        let (maximum, net) = self.groups.get(group).map_or((None, 0), |g| (g.maximum, g.net));
        let drawn = self.draws.within(0, self.bases);
        let quota = match self.draws.weighed(&[3, 3, 2, 4]) {
            0 => maximum.unwrap_or(drawn) + self.draws.within(-1, 1),
            1 => net.div_euclid(MILLION) + self.draws.within(0, 1),
            2 => self.draws.of(&[0, 0, 1, 9_999_999, 10_000_000]),
            _ => drawn.min(maximum.unwrap_or(drawn)),
        }.max(0);
        self.own(group, quota);
    }

    fn drawn_kind(&mut self) -> i128 {
        if self.repo { self.draws.of(&[2, 2, 3, 3, 5, 5, 6, 6, 1, 4]) } else { self.draws.of(&[1, 1, 1, 1, 1, 2, 2, 3, 4, 4, 4, 5, 6]) }
    }

    fn drawn_price(&mut self, kind: i128) -> i128 {
        match kind {
            3 | 6 => if self.draws.one_in(15) { self.draws.of(&[0, 99_999, 100_001, 1]) } else { 100_000 },
            5 => if self.draws.one_in(15) { self.draws.of(&[1, 100, 9_999_999]) } else { 0 },
            _ if self.large => TOP_PRICE - self.draws.of(&[0, 0, 0, 1]),
            _ => match self.draws.weighed(&[10, 3, 1, 1]) {
                0 => self.draws.within(1_000, 50_000),
                1 => self.draws.within(1, 9),
                2 => 100_000,
                _ => self.draws.of(&[0, 1, 9_999_999, 10_000_000]),
            },
        }
    }

    fn drawn_quantity(&mut self) -> i128 {
        if self.large { return TOP_QUANTITY - self.draws.of(&[0, 0, 0, 1]); }
        match self.draws.weighed(&[8, 4, 1]) {
            0 => self.draws.within(1, 300_000),
            1 => self.draws.within(1, 20),
            _ => self.draws.of(&[0, 1, 10_000_000, 10_000_001]),
        }
    }

    fn act_order(&mut self) {
        let unit = self.unit();
        let kind = if self.draws.one_in(60) { self.draws.of(&[0, 7, 999_999_999]) } else { self.drawn_kind() };
        let price = self.drawn_price(kind);
        let quantity = self.drawn_quantity();
        self.order(unit, kind, price, quantity);
    }

    // Buys that bring net to the own quota less one, to it, or past it, and a buy after them.
    fn act_approach(&mut self) {
        let unit = self.unit();
        let Some(&(_, group)) = self.units.iter().find(|u| u.0 == unit) else { return };
        let Some(maximum) = self.groups[group].maximum else { return };
        let gap = self.groups[group].own.unwrap_or(maximum) * MILLION - self.groups[group].net - self.draws.within(0, 1);
        if gap > 0 && gap <= 3 * TOP_PRICE * TOP_QUANTITY {
            let mut left = gap;
            while left > TOP_PRICE * TOP_QUANTITY {
                self.order(unit, 1, TOP_PRICE, TOP_QUANTITY);
                left -= TOP_PRICE * TOP_QUANTITY;
            }
            let price = self.draws.within((left / TOP_QUANTITY + 1).max(1_000), TOP_PRICE);
            let kind = self.draws.of(&[1, 2]);
            if left / price > 0 { self.order(unit, kind, price, left / price); }
            if left % price > 0 { self.order(unit, kind, 1, left % price); }
        }
        match self.draws.below(4) {
            0 => self.order(unit, 1, 1, 1),
            1 => self.order(unit, 2, 1, 1),
            2 => self.order(unit, 3, 100_000, 1),
            _ => self.act_order(),
        }
        // a small step down, and a buy again
        if self.draws.one_in(2) { self.act_step_down(unit); }
    }

    fn act_step_down(&mut self, unit: i128) {
        let price = self.draws.within(1, 2);
        match self.draws.below(3) {
            0 => {
                self.order(unit, 4, 1, 3);
                self.fill(self.orders.len(), price, 1);
            }
            1 => {
                self.order(unit, 5, 0, 3);
                self.fill(self.orders.len(), price, 1);
            }
            _ => if let Some(i) = self.orders.iter().rposition(|o| o.kind <= 2 && o.open > 0 && o.price > 1) {
                let price = self.orders[i].price - 1;
                self.fill(i + 1, price, 1);
            },
        }
        self.order(unit, 1, 1, 1);
        self.order(unit, 1, 1, 1);
    }

    fn order_number(&mut self) -> usize {
        if self.orders.is_empty() || self.draws.one_in(25) {
            return self.draws.of(&[0, 1, self.orders.len() + 1, 2_048, 2_049, 65_535, 65_536, 65_537, 999_999_999]);
        }
        // mostly one with something open, mostly late ones
        for _ in 0..6 {
            let i = if self.draws.one_in(2) { self.draws.below(self.orders.len()) } else {
                self.orders.len() - 1 - self.draws.below(self.orders.len().min(8))
            };
            if self.orders[i].open > 0 { return i + 1; }
        }
        self.draws.below(self.orders.len()) + 1
    }

    fn act_fill(&mut self) {
        let number = self.order_number();
        let (kind, price, open) = if number >= 1 && number <= self.orders.len() {
            let o = &self.orders[number - 1];
            (o.kind, o.price, o.open)
        } else {
            (1, 10_000, 100)
        };
        let better = if kind <= 2 { -1 } else { 1 };
        let price = match self.draws.weighed(&[5, 5, 2, 3, 1]) {
            0 => if kind == 5 { self.draws.within(1, TOP_PRICE) } else { price },
            1 if kind == 3 || kind == 6 => 100_000,
            1 => price + better * self.draws.within(1, 500),
            2 => price - better,
            3 => price + better,
            _ => self.draws.of(&[0, 1, 100_000, 9_999_999, 10_000_000]),
        }.max(0);
        let quantity = match self.draws.weighed(&[4, 4, 2, 2, 1]) {
            0 => self.draws.within(1, open.max(1)),
            1 => open,
            2 => 1,
            3 => open + 1,
            _ => self.draws.of(&[0, 1, 10_000_000, 10_000_001]),
        };
        self.fill(number, price, quantity);
    }

    fn act_cancel(&mut self) {
        let number = self.order_number();
        self.cancel(number);
    }

    // A declarer more for a group of class 3 or 4, so that eight stand and a ninth comes.
    fn act_crowd(&mut self) {
        let of_institutions: Vec<usize> = (0..self.groups.len()).filter(|g| self.groups[*g].class != 1).collect();
        if of_institutions.is_empty() { return self.act_enrol(); }
        let group = self.draws.of(&of_institutions[..of_institutions.len().min(2)]);
        for _ in 0..self.draws.below(5) + 1 {
            let (declarer, base) = (self.declarer(group), self.draws.within(1, self.bases));
            self.regular(declarer, group, base, self.due(group, base));
        }
    }

    // An emergency's life: raise, raise again, file, raise by another, close; in drawn order.
    fn act_emergency(&mut self) {
        let group = self.group();
        if self.groups.is_empty() { return self.act_enrol(); }
        for _ in 0..self.draws.below(4) + 2 {
            let holder = self.groups[group].emergency.map(|e| e.0);
            let drawn = self.declarer(group);
            let maximum = self.groups[group].maximum.unwrap_or(0);
            match self.draws.below(10) {
                0..=2 => {
                    let quota = maximum + self.draws.within(0, 3);
                    let who = if self.draws.one_in(2) { drawn } else { holder.unwrap_or(drawn) };
                    self.raise(who, group, quota, (quota > THRESHOLD) as i128);
                }
                3..=5 => self.file(holder.unwrap_or(drawn), group),
                6 => self.file(drawn, group),
                7 => self.act_regular(),
                8 => self.own(group, maximum),
                _ => self.close(),
            }
        }
    }

    // Maximum down and up again under a declared own quota, and away.
    fn act_own_quota(&mut self) {
        let Some(group) = (0..self.groups.len()).find(|g| self.groups[*g].emergency.is_none()) else { return self.act_enrol() };
        let declarer = if self.groups[group].class == 1 { self.groups[group].code } else { self.declarer(group) };
        let own = self.groups[group].maximum.unwrap_or(0) - self.draws.of(&[0, 0, 1]);
        if own >= 0 { self.own(group, own); }
        for _ in 0..self.draws.below(3) + 1 {
            let base = self.draws.of(&[0, 2, 4, 9, 20]);
            self.regular(declarer, group, base, self.due(group, base));
            self.close();
        }
    }

    // Every field drawn alone: good, conflicting, or outside.
    fn act_confused(&mut self) {
        let code = self.draws.within(1, 11);
        let group = self.group() as i128;
        let unit = self.unit();
        let known = self.groups.get(group as usize).map_or((0, 1), |g| (g.code, g.class));
        let maximum = self.groups.get(group as usize).and_then(|g| g.maximum).unwrap_or(5);
        let declarer = self.declarer(group as usize);
        let number = self.order_number() as i128;
        let kind = self.draws.of(&[1, 2, 3, 4, 5, 6, 6, 0, 7]);
        let drawn_price = self.drawn_price(kind);
        let base = self.draws.of(&[0, 0, 1, 3, 9_999_999]);
        let groups = self.groups.len() as i128;
        let group = self.draws.of(&[group, group, group, group, groups, 63, 64, 100_000]);
        let unit = self.draws.of(&[unit, unit, unit, 77_777, 99_999, 100_000]);
        let declarer = self.draws.of(&[declarer, declarer, declarer, known.0, 99_999, 100_000]);
        let due = self.due(group as usize, base);
        let field = match code {
            1 => [self.draws.of(&[known.0, known.0, 99_998, 100_000]), self.draws.of(&[known.1, 1, 2, 3, 4, 0, 5]), 0, 0],
            2 => [unit, group, 0, 0],
            3 => [unit, 0, 0, 0],
            4 => [declarer, group, base, self.draws.of(&[due, due, base, due + 1, 0, 10_000_000])],
            5 => {
                let quota = self.draws.of(&[0, maximum, maximum, maximum + 1, 100_000, 100_001, 10_000_000]);
                [declarer, group, quota, self.draws.of(&[0, 0, 1, 1, 2])]
            }
            6 => [declarer, group, 0, 0],
            7 => [group, self.draws.of(&[0, maximum, maximum + 1, 9_999_999, 10_000_000]), 0, 0],
            8 => [unit, kind, drawn_price, self.draws.of(&[1, 1, 1, 10_000_000, 0, 10_000_001])],
            9 => {
                let o = self.orders.get((number - 1).max(0) as usize);
                let (price, open) = o.map_or((10, 10), |o| (o.price, o.open));
                let price = self.draws.of(&[0, price, price + 1, (price - 1).max(0), 10_000_000]);
                [number, price, self.draws.of(&[0, 1, open, open + 1, open + 1, 10_000_001]), 0]
            }
            10 => [number, 0, 0, 0],
            _ => [0; 4],
        };
        // tell what is expected by the same calls as elsewhere
        let [a, b, c, d] = field;
        match code {
            1 => self.enrol(a, b),
            2 => self.attach(a, b as usize),
            3 => self.detach(a),
            4 => self.regular(a, b as usize, c, d),
            5 => self.raise(a, b as usize, c, d),
            6 => self.file(a, b as usize),
            7 => self.own(a as usize, b),
            8 => self.order(a, b, c, d),
            9 => self.fill(a as usize, b, c),
            10 => self.cancel(a as usize),
            _ => if self.draws.one_in(4) { self.close() } else { self.line(12, [0; 4]) },
        }
    }

    // A malformed line, mostly a good one with one fault, so that a reader that overlooks the fault changes the day.
    fn act_malformed(&mut self) {
        let mut line = self.good_line().into_bytes();
        let at = self.draws.below(line.len());
        let column = 2 + 9 * self.draws.below(4); // where a field begins
        let digits = line[column..column + 9].iter().position(|b| *b != b' ').unwrap_or(8) + column;
        match self.draws.below(24) {
            0 => line.clear(),
            1 => line.truncate(at),
            2 => line.insert(at, b' '),
            3 => line.push(self.draws.of(&[b' ', b'\r', b'0', 0])),
            4 => { line.remove(at); }
            5 => line[at] = self.draws.of(b"\t\r\0\x0b\x7f\xff\x80xX+-.,_"),
            6 | 7 if digits > column => line[digits - 1] = b'0',
            8 if digits > column => line[digits - 1] = b'+',
            9 if digits > column => line[digits - 1] = b'-',
            10 | 11 if digits > column => line[column..column + 9].rotate_left(digits - column), // left-justified
            12 | 13 => line[column..column + 9].fill(b' '),
            14 => line[..2].copy_from_slice(self.draws.of(&[b"0 ", b"1 ", b"01", b"08", b"  ", b" 0", b"12", b"13", b"99", b"-1", b"+3"])),
            15 | 16 => line.push(b'\r'),
            17 => line[column] = b'0',
            18 | 19 => {
                // an unused field that is not 0
                let used = [0, 2, 2, 1, 4, 4, 2, 2, 4, 3, 1, 0];
                let code: usize = std::str::from_utf8(&line[..2]).unwrap().trim().parse().unwrap();
                if used[code] < 4 {
                    let last = 2 + 9 * self.draws.within(used[code] as i128 + 1, 4) as usize - 1;
                    line[last] = self.draws.of(b"19");
                } else {
                    line.extend_from_slice(b"        0");
                }
            }
            20 => {
                let length = self.draws.of(&[40, 5_000, 5_000, 200_000]);
                line.extend(std::iter::repeat(self.draws.of(b" 0\0")).take(self.draws.below(length) + 1));
            }
            21 => line = (0..self.draws.below(90)).map(|_| (self.draws.next() % 256) as u8).filter(|b| *b != b'\n').collect(),
            22 => line = line.iter().flat_map(|b| [*b, 0]).collect(),
            _ => line = line.repeat(2),
        }
        self.text.extend_from_slice(&line);
        self.text.push(b'\n');
    }

    // A call that would be accepted, or nearly so, as text.
    fn good_line(&mut self) -> String {
        let group = self.group() as i128;
        let (code, maximum) = self.groups.get(group as usize).map_or((0, 5), |g| (g.code, g.maximum.unwrap_or(5)));
        let unit = self.unit();
        let number = self.order_number() as i128;
        let holder = self.groups.get(group as usize).and_then(|g| g.emergency).map_or(code, |e| e.0);
        match self.draws.below(11) {
            0 => written(1, [self.draws.within(0, 99_999), 4, 0, 0]),
            1 => written(2, [self.draws.within(0, 99_999), group, 0, 0]),
            2 => written(3, [unit, 0, 0, 0]),
            3 => written(7, [group, maximum, 0, 0]),
            4 => written(8, [unit, 4, 100, 10]),
            5 => written(9, [number, 10, 1, 0]),
            6 => written(10, [number, 0, 0, 0]),
            7 => written(4, [code, group, 2, self.due(group as usize, 2)]),
            8 => written(5, [holder, group, maximum + 1, (maximum + 1 > THRESHOLD) as i128]),
            9 => written(6, [holder, group, 0, 0]),
            _ => written(11, [0; 4]),
        }
    }

    // Groups with a unit each and, mostly, a maximum in force.
    fn morning(&mut self, groups: usize) {
        for i in 0..groups {
            let code = self.draws.within(0, self.group_codes);
            let class = self.draws.of(&[1, 3, 4]);
            self.enrol(code, class);
            let group = self.groups.len() - 1;
            self.attach(20_000 + i as i128, group);
            if self.draws.one_in(2) { self.attach(30_000 + i as i128, group); }
            if self.draws.one_in(8) { continue; }
            let base = self.draws.within(1, self.bases);
            let declarer = if self.groups[group].class == 1 { self.groups[group].code } else { self.declarer(group) };
            self.regular(declarer, group, base, self.due(group, base));
        }
        self.close();
    }

    fn act(&mut self, i: usize) {
        match i {
            0 => self.act_enrol(),
            1 => self.act_attach(),
            2 => self.act_detach(),
            3 => self.act_regular(),
            4 => self.act_raise(),
            5 => self.act_file(),
            6 => self.act_own(),
            7 => self.act_order(),
            8 => self.act_fill(),
            9 => self.act_cancel(),
            10 => self.close(),
            11 => self.act_malformed(),
            12 => self.act_approach(),
            13 => self.act_crowd(),
            14 => self.act_emergency(),
            15 => self.act_own_quota(),
            _ => self.act_confused(),
        }
    }

    fn acts(&mut self, count: usize, weights: &[usize; 17]) {
        for _ in 0..count {
            let i = self.draws.weighed(weights);
            self.act(i);
            if self.ratios.as_mut().is_some_and(|ratios| ratios.draws.one_in(25)) { self.act_zero(); }
        }
    }
}

fn written(code: i128, f: [i128; 4]) -> String {
    format!("{:>2}{:>9}{:>9}{:>9}{:>9}", code, f[0], f[1], f[2], f[3])
}

// A day with loads in the middle: some before the first enrolment, among calls that are accepted and refused, and some after it.
fn day_of_loads(seed: u64, dir: &str) -> Day {
    let mut day = new_day(seed);
    let mut draws = Draws(seed ^ 0x6c6f_6164_73);
    let loads = draws.below(5);
    for i in 0..loads {
        day.load(dir, &mut draws);
        if i + 1 == loads { break; }
        match draws.below(7) {
            0 => day.close(),
            1 => day.enrol(draws.within(0, 99_999), draws.of(&[2, 0, 5])),
            2 => day.enrol(100_000, 1),
            3 => day.attach(7, 0),
            4 => day.regular(7, 0, 3, 8),
            5 => day.line(12, [0; 4]),
            _ => {}
        }
    }
    day.bases = draws.of(&[9, 200]);
    day.morning(draws.below(4) + 1);
    for _ in 0..12 {
        day.acts(6, &[1, 1, 0, 12, 2, 1, 2, 4, 2, 1, 2, 0, 1, 2, 0, 1, 0]);
        if draws.one_in(4) { day.load(dir, &mut draws); }
    }
    day
}

fn new_day(seed: u64) -> Day {
    Day {
        ratios: None,
        loads: Vec::new(),
        draws: Draws(seed),
        text: Vec::new(),
        groups: Vec::new(),
        units: Vec::new(),
        orders: Vec::new(),
        bases: 9,
        declarers: 12,
        unit_codes: 40,
        group_codes: 30,
        repo: false,
        large: false,
    }
}

fn day(seed: u64) -> Vec<u8> {
    let kind = (seed % KINDS.len() as u64) as usize;
    let mut day = new_day(seed);
    day.ratios = Ratios::of_day(seed);
    // weights: enrol attach detach regular raise file own, order fill cancel close malformed, approach crowd emergency own-quota confused
    match kind {
        0 => {
            day.bases = day.draws.of(&[9, 50, 3_000]);
            day.acts(500, &[6, 8, 2, 8, 3, 2, 6, 20, 20, 5, 2, 3, 5, 2, 2, 2, 4]);
        }
        1 => {
            let groups = day.draws.below(3) + 1;
            day.morning(groups);
            day.acts(400, &[0, 0, 0, 2, 1, 1, 6, 12, 16, 8, 1, 0, 20, 0, 0, 0, 1]);
        }
        2 => {
            day.morning(3);
            day.acts(300, &[1, 1, 0, 12, 10, 8, 6, 6, 3, 1, 6, 0, 2, 8, 12, 8, 1]);
        }
        3 => {
            day.morning(3);
            day.acts(300, &[1, 1, 0, 2, 1, 1, 2, 6, 6, 1, 1, 40, 1, 0, 0, 0, 1]);
        }
        4 => {
            day.unit_codes = 400;
            day.group_codes = 99_999;
            let (groups, units) = (day.draws.of(&[20, 62, 63, 64, 65]), 250 + day.draws.below(9));
            for _ in 0..groups {
                let (code, class) = (day.draws.within(0, 99_999), day.draws.of(&[1, 3, 4]));
                day.enrol(code, class);
                if day.draws.one_in(9) { day.act_regular(); }
            }
            for i in 0..units {
                let group = day.group();
                day.attach(i as i128, group);
            }
            day.close();
            day.acts(300, &[12, 25, 8, 6, 2, 1, 4, 10, 6, 2, 1, 1, 2, 1, 0, 1, 12]);
        }
        5 => {
            day.bases = 9_999;
            day.morning(3);
            // one day up to the last place or near it, with fills and cancels between, then over it, then the next day
            let before = 2_040 + day.draws.below(8);
            while day.orders.len() < before {
                let unit = day.unit();
                let (kind, price) = day.draws.of(&[(1, 10), (1, 7), (2, 30), (3, 100_000), (4, 9), (5, 0), (6, 100_000)]);
                let quantity = day.draws.within(1, 50);
                day.order(unit, kind, price, quantity);
                if day.draws.one_in(8) { day.act_fill(); }
                if day.draws.one_in(30) { day.act_cancel(); }
                if day.draws.one_in(400) { day.act_own(); }
                if day.text.len() > 39 * 6_000 { break; }
            }
            day.acts(120, &[1, 1, 1, 1, 1, 0, 6, 40, 12, 6, 0, 0, 8, 0, 0, 0, 4]);
            day.fill(2_048, 10, 1);
            day.cancel(2_048);
            day.cancel(2_049);
            day.close();
            day.acts(40, &[1, 1, 1, 1, 1, 0, 2, 20, 12, 6, 1, 0, 2, 0, 0, 0, 4]);
        }
        6 => {
            day.large = true;
            day.bases = 3_999_999;
            day.morning(2);
            for group in 0..day.groups.len() {
                let declarer = day.groups[group].code;
                day.raise(declarer, group, TOP_QUOTA, 1);
            }
            day.acts(500, &[0, 1, 0, 2, 1, 0, 1, 60, 30, 3, 0, 0, 2, 0, 0, 0, 1]);
            // every place with the largest amount, all filled: the most that gateday can list
            if day.draws.one_in(2) {
                day.close();
                let share = day.draws.of(&[1, 2, 2, 1_000]); // one order in so many is a sell
                let (unit, group) = day.units[0];
                let declarer = day.groups[group].emergency.map_or(day.groups[group].code, |e| e.0);
                day.raise(declarer, group, TOP_QUOTA, 1);
                day.own(group, TOP_QUOTA);
                for _ in 0..2_048 {
                    let kind = if day.draws.one_in(share) { 4 } else { 1 };
                    let quantity = TOP_QUANTITY - day.draws.of(&[0, 0, 1]);
                    let orders = day.orders.len();
                    day.order(unit, kind, TOP_PRICE, quantity);
                    if day.orders.len() > orders { day.fill(orders + 1, TOP_PRICE, quantity); }
                }
                day.acts(20, &[0, 0, 0, 0, 0, 0, 1, 60, 30, 3, 0, 0, 2, 0, 0, 0, 1]);
            }
        }
        7 => {
            day.morning(2);
            day.acts(500, &[2, 2, 1, 3, 2, 2, 2, 8, 3, 1, 1, 1, 2, 2, 2, 0, 50]);
        }
        8 => {
            day.repo = true;
            day.bases = day.draws.of(&[9, 40]);
            day.morning(2);
            day.acts(400, &[0, 1, 0, 1, 1, 0, 4, 30, 40, 6, 1, 0, 5, 0, 0, 0, 2]);
        }
        9 => {
            day.morning(4);
            day.acts(350, &[1, 1, 1, 10, 3, 3, 8, 14, 12, 4, 14, 1, 6, 1, 3, 8, 1]);
        }
        10 => {
            day.unit_codes = 12;
            day.morning(4);
            for unit in 0..12 {
                let group = day.group();
                day.attach(unit, group);
            }
            day.acts(400, &[1, 20, 14, 2, 1, 0, 3, 25, 20, 6, 1, 0, 3, 0, 0, 0, 1]);
        }
        _ => {
            day.bases = day.draws.of(&[60_000, 100_002]);
            day.declarers = day.draws.of(&[3, 6, 12]);
            day.morning(4);
            day.acts(300, &[1, 1, 0, 25, 14, 6, 6, 3, 1, 1, 12, 0, 1, 2, 6, 2, 1]);
        }
    }
    // some days end without a line feed, on a call or on the part of one
    match day.draws.below(6) {
        0 => {
            let line = day.good_line();
            day.text.extend_from_slice(line.as_bytes());
        }
        1 => {
            let line = day.good_line();
            let length = day.draws.below(37) + 1;
            day.text.extend_from_slice(&line.as_bytes()[..length]);
        }
        _ => {}
    }
    day.text
}

fn main() {
    let arguments: Vec<String> = std::env::args().skip(1).collect();
    let number = |seed: &str| seed.parse::<u64>().expect("SEED: a number");
    let text = match arguments.iter().map(String::as_str).collect::<Vec<_>>()[..] {
        ["--kinds"] => return KINDS.iter().enumerate().for_each(|(i, says)| println!("{i} {says}")),
        ["--ratios", seed] => Ratios::of_day(number(seed)).map_or(Vec::new(), |ratios| ratios.text),
        ["--entries", seed, dir] => {
            let day = day_of_loads(number(seed), dir);
            for (i, text) in day.loads.iter().enumerate() { std::fs::write(format!("{dir}/{i}"), text).unwrap(); }
            day.text
        }
        [seed] => day(number(seed)),
        _ => panic!("days SEED | --ratios SEED | --entries SEED DIR | --kinds"),
    };
    std::io::stdout().write_all(&text).unwrap();
}

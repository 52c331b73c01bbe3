//! Writes a bench day to standard output: `days GROUPS UNITS LINES`. The same arguments give the same bytes.
//!
//! First the groups, their units, declarations and own quotas, and a close that brings them into force; then orders, fills and cancels over all
//! groups and units, with a declaration, an own quota, an emergency, a unit moved or a faulty line in between. A close comes after every 2,000
//! accepted orders, so that N = 2,048 places never run out. The writer keeps orders and money itself, to name orders that are there and to keep
//! buys near their quotas.

use std::io::{self, BufWriter, Write};

/// splitmix64.
struct Draws(u64);

impl Draws {
    fn next(&mut self) -> u64 {
        self.0 = self.0.wrapping_add(0x9e37_79b9_7f4a_7c15);
        let mut z = self.0;
        z = (z ^ (z >> 30)).wrapping_mul(0xbf58_476d_1ce4_e5b9);
        z = (z ^ (z >> 27)).wrapping_mul(0x94d0_49bb_1331_11eb);
        z ^ (z >> 31)
    }

    /// From low to high, both included.
    fn within(&mut self, low: u64, high: u64) -> u64 {
        low + self.next() % (high - low + 1)
    }
}

#[derive(Clone)]
struct Group {
    code: u64,
    class: u64,
    own: u64,
    net: i64,
    raised: bool,
}

struct Order {
    group: usize,
    kind: u64,
    price: u64,
    open: u64,
}

struct Day<W: Write> {
    out: W,
    lines: usize,
    draws: Draws,
    groups: Vec<Group>,
    units: Vec<(u64, usize)>,
    orders: Vec<Order>,
}

impl<W: Write> Day<W> {
    fn line(&mut self, code: u64, a: u64, b: u64, c: u64, d: u64) {
        writeln!(self.out, "{code:2}{a:9}{b:9}{c:9}{d:9}").unwrap();
        self.lines += 1;
    }

    /// A declaration of a group, with the quota that follows from the base.
    fn declare(&mut self, group: usize, place: u64, base: u64) {
        let Group { code, class, .. } = self.groups[group];
        if class == 1 {
            self.line(4, code, group as u64, base, (base * 5 + 1) / 2);
        } else {
            self.line(4, 70_000 + place, group as u64, base, base);
        }
    }

    fn setup(&mut self, groups: usize, units: usize) {
        for i in 0..groups {
            let class = [1, 3, 4][i % 3];
            let code = 1_000 + 37 * i as u64;
            self.groups.push(Group { code, class, own: 0, net: 0, raised: false });
            self.line(1, code, class, 0, 0);
        }
        for k in 0..units {
            let unit = 20_000 + 113 * k as u64;
            self.units.push((unit, k % groups));
            self.line(2, unit, (k % groups) as u64, 0, 0);
        }
        for i in 0..groups {
            for place in 0..if self.groups[i].class == 1 { 1 } else { 1 + i as u64 % 8 } {
                let base = self.draws.within(200, 400);
                self.declare(i, place, base);
            }
        }
        self.close();
        for i in 0..groups {
            let own = self.draws.within(50, 200);
            self.groups[i].own = own;
            self.line(7, i as u64, own, 0, 0);
        }
    }

    fn close(&mut self) {
        self.line(11, 0, 0, 0, 0);
        self.orders.clear();
        for group in &mut self.groups {
            group.net = 0;
            group.raised = false;
        }
    }

    fn order(&mut self) {
        let (unit, group) = self.units[self.draws.next() as usize % self.units.len()];
        let kind = [1, 1, 1, 2, 3, 4, 4, 4, 5, 6][self.draws.next() as usize % 10];
        let price = match kind {
            3 | 6 => 100_000,
            5 => 0,
            _ => self.draws.within(8_000, 30_000),
        };
        let quantity = 100 * self.draws.within(1, 5_000);
        self.line(8, unit, kind, price, quantity);
        if kind <= 3 {
            let of = &mut self.groups[group];
            if of.net >= of.own as i64 * 1_000_000_000 {
                return;
            }
            of.net += (price * quantity) as i64;
        }
        self.orders.push(Order { group, kind, price, open: quantity });
    }

    fn fill(&mut self) {
        let k = self.draws.next() as usize % self.orders.len();
        let better = self.draws.within(0, 200);
        let part = self.draws.next();
        let Order { group, kind, price: asked, open } = self.orders[k];
        let price = match kind {
            1 | 2 => asked - better,
            4 => asked + better,
            5 => 9_000 + better,
            _ => 100_000,
        };
        let quantity = if part % 4 == 0 { open } else { 100 * (1 + part % 300) };
        self.line(9, k as u64 + 1, price, quantity.max(1), 0);
        if 1 <= quantity && quantity <= open {
            self.orders[k].open -= quantity;
            let change = if kind <= 3 { -((asked - price) as i64) } else { -(price as i64) };
            self.groups[group].net += change * quantity as i64;
        }
    }

    fn cancel(&mut self) {
        let k = self.draws.next() as usize % self.orders.len();
        self.line(10, k as u64 + 1, 0, 0, 0);
        let order = &mut self.orders[k];
        if order.kind <= 3 {
            self.groups[order.group].net -= (order.price * order.open) as i64;
        }
        order.open = 0;
    }

    /// A declaration, an own quota, an emergency, a unit moved to the end of the list, or a faulty line.
    fn other(&mut self) {
        let group = self.draws.next() as usize % self.groups.len();
        let Group { code, class, raised, .. } = self.groups[group];
        let declarer = if class == 1 { code } else { 70_000 };
        match self.draws.next() % 8 {
            0 | 1 => {
                let base = self.draws.within(200, 400);
                self.declare(group, 0, base);
            }
            2 | 3 => {
                let own = self.draws.within(50, 200);
                self.groups[group].own = own;
                self.line(7, group as u64, own, 0, 0);
            }
            4 if raised => {
                self.line(6, declarer, group as u64, 0, 0);
                self.groups[group].raised = false;
            }
            4 => {
                self.line(5, declarer, group as u64, 5_000, 0);
                self.groups[group].raised = true;
            }
            5 => {
                let k = self.draws.next() as usize % self.units.len();
                let (unit, of) = self.units.remove(k);
                self.line(3, unit, 0, 0, 0);
                self.line(2, unit, of as u64, 0, 0);
                self.units.push((unit, of));
            }
            6 => self.line(8, 99_999, 1, 10_000, 100),
            _ => {
                writeln!(self.out, " 8 no call line").unwrap();
                self.lines += 1;
            }
        }
    }
}

fn main() {
    let args: Vec<usize> = std::env::args().skip(1).map(|a| a.parse().expect("a number")).collect();
    let [groups, units, lines] = args[..] else {
        eprintln!("days GROUPS UNITS LINES");
        std::process::exit(2);
    };
    let out = BufWriter::new(io::stdout().lock());
    let mut day = Day { out, lines: 0, draws: Draws(2_017_168), groups: vec![], units: vec![], orders: vec![] };
    day.setup(groups, units);
    // A unit that is moved takes two lines, so the last line is left for a close or an order.
    while day.lines + 2 <= lines {
        if day.orders.len() >= 2_000 {
            day.close();
            continue;
        }
        match day.draws.next() % 100 {
            _ if day.orders.is_empty() => day.order(),
            0..=47 => day.order(),
            48..=81 => day.fill(),
            82..=94 => day.cancel(),
            _ => day.other(),
        }
    }
    while day.lines < lines {
        day.order();
    }
}

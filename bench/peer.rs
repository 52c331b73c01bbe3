//! The peer of gateday in plain Rust: the same input, the same answers and listing, byte for byte. State stands in place in plain structs, and
//! before each call the same figures are checked as the gate checks, since a host's memory may be foreign. std only, no unsafe.
//!
//! `--cfg wide` makes every figure a u64, as the gate's words were at first; without it figures are u32, as an engineer would choose them.

use std::io::{self, BufRead, BufReader, BufWriter, Write};

#[cfg(not(wide))]
type Figure = u32;
#[cfg(wide)]
type Figure = u64;

const TOP_CODE: Figure = 99_999;
const TOP_GROUP: Figure = 63;
const TOP_CLASS: Figure = 4;
const TOP_QUOTA: Figure = 9_999_999;
const TOP_PRICE: Figure = 9_999_999;
const TOP_QUANTITY: Figure = 10_000_000;
const TOP_ORDER: Figure = 65_536;
const TOP_MONEY: u64 = 6_553_599_344_640_000_000;
const THRESHOLD: Figure = 100_000;
const REPO_PRICE: Figure = 100_000;
const MILS_A_MILLION: u64 = 1_000_000_000;
const PROPRIETARY: Figure = 1;
const BROKERAGE: Figure = 2;

/// A maximum or an own quota that is not there.
const NONE: Figure = TOP_QUOTA + 1;
/// A holder is a declarer; with this added it has filed its withdrawal; twice this, nobody holds.
const FILED: Figure = TOP_CODE + 1;
const NOBODY: Figure = 2 * FILED;

const GROUPS: usize = 64;
const UNITS: usize = 256;
const DECLARERS: usize = 8;
const N: usize = 2_048;

/// The refusal number.
type Refusal = u8;
/// The number given, or 0.
type Answer = Result<Figure, Refusal>;

#[derive(Clone, Copy, Default)]
struct Group {
    code: Figure,
    class: Figure,
    maximum: Figure,
    own: Figure,
    holder: Figure,
    emergency: Figure,
    standing: Figure,
    declarers: [Figure; DECLARERS],
    figures: [Figure; DECLARERS],
}

impl Group {
    fn enrolled(code: Figure, class: Figure) -> Group {
        Group {
            code,
            class,
            maximum: NONE,
            own: NONE,
            holder: NOBODY,
            ..Group::default()
        }
    }

    /// Every figure is in its range. No test stops the others, so that the compiler may take several at a time.
    fn is_sound(&self) -> bool {
        let mut ok = (self.code <= TOP_CODE)
            & (self.class >= 1)
            & (self.class <= TOP_CLASS)
            & (self.maximum <= NONE)
            & (self.own <= NONE)
            & (self.holder <= NOBODY)
            & (self.emergency <= TOP_QUOTA)
            & ((self.holder != NOBODY) | (self.emergency == 0))
            & (self.standing <= DECLARERS as Figure);
        for declarer in &self.declarers {
            ok &= *declarer <= TOP_CODE;
        }
        for figure in &self.figures {
            ok &= *figure <= TOP_QUOTA;
        }
        ok
    }

    fn standing(&self) -> usize {
        self.standing as usize
    }

    fn place_of(&self, declarer: Figure) -> Option<usize> {
        self.declarers[..self.standing()].iter().position(|d| *d == declarer)
    }

    fn is_foreign(&self, declarer: Figure) -> bool {
        self.class == PROPRIETARY && declarer != self.code
    }

    fn is_held_by_another(&self, declarer: Figure) -> bool {
        self.holder < FILED && self.holder != declarer
    }

    fn quota_due(&self, base: Figure) -> Figure {
        if self.class == PROPRIETARY { (base * 5 + 1) / 2 } else { base }
    }

    fn own_in_force(&self) -> Option<Figure> {
        match (self.maximum, self.own) {
            (NONE, _) => None,
            (maximum, NONE) => Some(maximum),
            (_, own) => Some(own),
        }
    }

    fn withdraw_figure(&mut self, place: usize) {
        let n = self.standing();
        self.declarers.copy_within(place + 1..n, place);
        self.figures.copy_within(place + 1..n, place);
        self.declarers[n - 1] = 0;
        self.figures[n - 1] = 0;
        self.standing -= 1;
    }

    fn close(&mut self) {
        if self.holder < FILED {
            self.maximum = self.emergency;
        } else {
            self.holder = NOBODY;
            self.emergency = 0;
            let sum: Figure = self.figures[..self.standing()].iter().sum();
            self.maximum = if self.standing == 0 { NONE } else { sum.min(THRESHOLD) };
        }
        if self.maximum == NONE {
            self.own = NONE;
        } else if self.own != NONE {
            self.own = self.own.min(self.maximum);
        }
    }
}

#[derive(Clone, Copy, Default)]
struct Unit {
    code: Figure,
    group: Figure,
}

#[derive(Clone, Copy, Default)]
struct Money {
    open: u64,
    bought: u64,
    sold: u64,
}

impl Money {
    /// Each, and all together, at most L.
    fn fits(&self) -> bool {
        self.open <= TOP_MONEY
            && self.bought <= TOP_MONEY - self.open
            && self.sold <= TOP_MONEY - self.open - self.bought
    }
}

#[derive(Clone, Copy, Default)]
struct Place {
    group: Figure,
    kind: Figure,
    price: Figure,
    open: Figure,
}

fn is_buy(kind: Figure) -> bool {
    matches!(kind, 1..=3)
}

fn price_obeys(kind: Figure, price: Figure) -> bool {
    match kind {
        1 | 2 | 4 => (1..=TOP_PRICE).contains(&price),
        3 | 6 => price == REPO_PRICE,
        5 => price == 0,
        _ => false,
    }
}

fn is_worse(kind: Figure, price: Figure, fill: Figure) -> bool {
    match kind {
        1 | 2 => fill > price,
        4 => fill < price,
        3 | 6 => fill != REPO_PRICE,
        _ => false,
    }
}

impl Place {
    fn is_sound(&self, groups: usize) -> bool {
        (self.group as usize) < groups && price_obeys(self.kind, self.price) && self.open <= TOP_QUANTITY
    }
}

fn amount(price: Figure, quantity: Figure) -> u64 {
    price as u64 * quantity as u64
}

enum Call {
    Enrol { code: Figure, class: Figure },
    Attach { unit: Figure, group: Figure },
    Detach { unit: Figure },
    Regular { declarer: Figure, group: Figure, base: Figure, quota: Figure },
    Raise { declarer: Figure, group: Figure, quota: Figure, flag: Figure },
    Withdraw { declarer: Figure, group: Figure },
    OwnQuota { group: Figure, quota: Figure },
    Order { unit: Figure, kind: Figure, price: Figure, quantity: Figure },
    Fill { order: Figure, price: Figure, quantity: Figure },
    Cancel { order: Figure },
    Close,
}

/// A number right-justified with blanks, without leading zeros.
fn column(text: &[u8]) -> Option<Figure> {
    let start = text.iter().position(|b| *b != b' ')?;
    let digits = &text[start..];
    if digits.len() > 1 && digits[0] == b'0' {
        return None;
    }
    let mut number = 0;
    for b in digits {
        if !b.is_ascii_digit() {
            return None;
        }
        number = number * 10 + (b - b'0') as Figure;
    }
    Some(number)
}

impl Call {
    /// The call of a line, given without its line feed.
    fn read(line: &[u8]) -> Option<Call> {
        let line: &[u8; 38] = line.try_into().ok()?;
        let code = column(&line[0..2])?;
        let fields = (column(&line[2..11])?, column(&line[11..20])?, column(&line[20..29])?, column(&line[29..38])?);
        Some(match (code, fields) {
            (1, (code, class, 0, 0)) => Call::Enrol { code, class },
            (2, (unit, group, 0, 0)) => Call::Attach { unit, group },
            (3, (unit, 0, 0, 0)) => Call::Detach { unit },
            (4, (declarer, group, base, quota)) => Call::Regular { declarer, group, base, quota },
            (5, (declarer, group, quota, flag)) => Call::Raise { declarer, group, quota, flag },
            (6, (declarer, group, 0, 0)) => Call::Withdraw { declarer, group },
            (7, (group, quota, 0, 0)) => Call::OwnQuota { group, quota },
            (8, (unit, kind, price, quantity)) => Call::Order { unit, kind, price, quantity },
            (9, (order, price, quantity, 0)) => Call::Fill { order, price, quantity },
            (10, (order, 0, 0, 0)) => Call::Cancel { order },
            (11, (0, 0, 0, 0)) => Call::Close,
            _ => return None,
        })
    }
}

struct Gate {
    groups: [Group; GROUPS],
    units: [Unit; UNITS],
    money: [Money; GROUPS],
    enrolled: usize,
    attached: usize,
    accepted: usize,
    capacity: usize,
    places: Vec<Place>,
}

impl Gate {
    fn open(capacity: usize) -> Gate {
        Gate {
            groups: [Group::default(); GROUPS],
            units: [Unit::default(); UNITS],
            money: [Money::default(); GROUPS],
            enrolled: 0,
            attached: 0,
            accepted: 0,
            capacity,
            places: vec![Place::default(); capacity],
        }
    }

    /// Every figure of the enrolled groups, of the attached units and of the book is in its range, and N is as at opening.
    fn is_sound(&self) -> bool {
        if self.enrolled > GROUPS || self.attached > UNITS {
            return false;
        }
        if !(1..=TOP_ORDER as usize).contains(&self.capacity)
            || self.places.len() != self.capacity
            || self.accepted > self.capacity
        {
            return false;
        }
        let enrolled = self.enrolled as Figure;
        let mut ok = true;
        for group in &self.groups[..self.enrolled] {
            ok &= group.is_sound();
        }
        for unit in &self.units[..self.attached] {
            ok &= (unit.code <= TOP_CODE) & (unit.group < enrolled);
        }
        for money in &self.money[..self.enrolled] {
            ok &= (money.open <= TOP_MONEY) & (money.bought <= TOP_MONEY) & (money.sold <= TOP_MONEY);
        }
        ok
    }

    fn unit_at(&self, unit: Figure) -> Option<usize> {
        self.units[..self.attached].iter().position(|u| u.code == unit)
    }

    fn group_mut(&mut self, group: Figure) -> Result<&mut Group, Refusal> {
        self.groups[..self.enrolled].get_mut(group as usize).ok_or(6)
    }

    /// The place of an order that was given since the close.
    fn place_at(&self, order: Figure) -> Option<&Place> {
        self.places[..self.accepted].get((order as usize).wrapping_sub(1))
    }

    fn call(&mut self, call: Call) -> Answer {
        if !self.is_sound() {
            return Err(1);
        }
        match call {
            Call::Enrol { code, class } => self.enrol(code, class),
            Call::Attach { unit, group } => self.attach(unit, group),
            Call::Detach { unit } => self.detach(unit),
            Call::Regular { declarer, group, base, quota } => self.regular(declarer, group, base, quota),
            Call::Raise { declarer, group, quota, flag } => self.raise(declarer, group, quota, flag),
            Call::Withdraw { declarer, group } => self.withdraw(declarer, group),
            Call::OwnQuota { group, quota } => self.own_quota(group, quota),
            Call::Order { unit, kind, price, quantity } => self.order(unit, kind, price, quantity),
            Call::Fill { order, price, quantity } => self.fill(order, price, quantity),
            Call::Cancel { order } => self.cancel(order),
            Call::Close => self.close(),
        }
    }

    fn enrol(&mut self, code: Figure, class: Figure) -> Answer {
        if code > TOP_CODE || !(1..=TOP_CLASS).contains(&class) {
            return Err(2);
        }
        if class == BROKERAGE {
            return Err(3);
        }
        if self.groups[..self.enrolled].iter().any(|g| g.code == code && g.class == class) {
            return Err(4);
        }
        let number = self.enrolled;
        if number == GROUPS {
            return Err(5);
        }
        self.groups[number] = Group::enrolled(code, class);
        self.enrolled += 1;
        Ok(number as Figure)
    }

    fn attach(&mut self, unit: Figure, group: Figure) -> Answer {
        if unit > TOP_CODE || group > TOP_GROUP {
            return Err(2);
        }
        if self.unit_at(unit).is_some() {
            return Err(4);
        }
        if self.attached == UNITS {
            return Err(5);
        }
        if group as usize >= self.enrolled {
            return Err(6);
        }
        self.units[self.attached] = Unit { code: unit, group };
        self.attached += 1;
        Ok(0)
    }

    fn detach(&mut self, unit: Figure) -> Answer {
        if unit > TOP_CODE {
            return Err(2);
        }
        let at = self.unit_at(unit).ok_or(6)?;
        self.units.copy_within(at + 1..self.attached, at);
        self.attached -= 1;
        Ok(0)
    }

    fn regular(&mut self, declarer: Figure, group: Figure, base: Figure, quota: Figure) -> Answer {
        if declarer > TOP_CODE || group > TOP_GROUP || base > TOP_QUOTA || quota > TOP_QUOTA {
            return Err(2);
        }
        let group = self.group_mut(group)?;
        if group.is_foreign(declarer) {
            return Err(7);
        }
        if quota != group.quota_due(base) {
            return Err(8);
        }
        match group.place_of(declarer) {
            None if base == 0 => return Err(9),
            None if group.standing() == DECLARERS => return Err(10),
            None => {
                let at = group.standing();
                group.declarers[at] = declarer;
                group.figures[at] = quota;
                group.standing += 1;
            }
            Some(at) if base == 0 => group.withdraw_figure(at),
            Some(at) => group.figures[at] = quota,
        }
        Ok(0)
    }

    fn raise(&mut self, declarer: Figure, group: Figure, quota: Figure, flag: Figure) -> Answer {
        if declarer > TOP_CODE || group > TOP_GROUP || !(1..=TOP_QUOTA).contains(&quota) || flag > 1 {
            return Err(2);
        }
        let group = self.group_mut(group)?;
        if group.is_foreign(declarer) {
            return Err(7);
        }
        if group.is_held_by_another(declarer) {
            return Err(11);
        }
        if group.maximum != NONE && quota <= group.maximum {
            return Err(12);
        }
        if flag != Figure::from(quota > THRESHOLD) {
            return Err(13);
        }
        group.maximum = quota;
        group.emergency = quota;
        group.holder = declarer;
        Ok(0)
    }

    fn withdraw(&mut self, declarer: Figure, group: Figure) -> Answer {
        if declarer > TOP_CODE || group > TOP_GROUP {
            return Err(2);
        }
        let group = self.group_mut(group)?;
        if group.is_foreign(declarer) {
            return Err(7);
        }
        if group.holder >= FILED {
            return Err(9);
        }
        if group.is_held_by_another(declarer) {
            return Err(11);
        }
        group.holder += FILED;
        Ok(0)
    }

    fn own_quota(&mut self, group: Figure, quota: Figure) -> Answer {
        if group > TOP_GROUP || quota > TOP_QUOTA {
            return Err(2);
        }
        let group = self.group_mut(group)?;
        if group.maximum == NONE {
            return Err(15);
        }
        if quota > group.maximum {
            return Err(14);
        }
        group.own = quota;
        Ok(0)
    }

    fn order(&mut self, unit: Figure, kind: Figure, price: Figure, quantity: Figure) -> Answer {
        if unit > TOP_CODE || !price_obeys(kind, price) || !(1..=TOP_QUANTITY).contains(&quantity) {
            return Err(2);
        }
        let at = self.unit_at(unit).ok_or(6)?;
        let group = self.units[at].group;
        let mut money = self.money[group as usize];
        if is_buy(kind) {
            let own = self.groups[group as usize].own_in_force().ok_or(15)?;
            if money.open + money.bought >= own as u64 * MILS_A_MILLION + money.sold {
                return Err(16);
            }
            money.open += amount(price, quantity);
        }
        if self.accepted == self.capacity {
            return Err(17);
        }
        if !money.fits() {
            return Err(1);
        }
        self.money[group as usize] = money;
        self.places[self.accepted] = Place { group, kind, price, open: quantity };
        self.accepted += 1;
        Ok(self.accepted as Figure)
    }

    fn fill(&mut self, order: Figure, price: Figure, quantity: Figure) -> Answer {
        let named = self.place_at(order).copied();
        if named.is_some_and(|place| !place.is_sound(self.enrolled)) {
            return Err(1);
        }
        if !(1..=TOP_ORDER).contains(&order)
            || !(1..=TOP_PRICE).contains(&price)
            || !(1..=TOP_QUANTITY).contains(&quantity)
        {
            return Err(2);
        }
        let place = named.ok_or(18)?;
        if quantity > place.open {
            return Err(19);
        }
        if is_worse(place.kind, place.price, price) {
            return Err(20);
        }
        let mut money = self.money[place.group as usize];
        if is_buy(place.kind) {
            money.open = money.open.checked_sub(amount(place.price, quantity)).ok_or(1)?;
            money.bought += amount(price, quantity);
        } else {
            money.sold += amount(price, quantity);
        }
        self.book(order, money, place.open - quantity)
    }

    fn cancel(&mut self, order: Figure) -> Answer {
        let named = self.place_at(order).copied();
        if named.is_some_and(|place| !place.is_sound(self.enrolled)) {
            return Err(1);
        }
        if !(1..=TOP_ORDER).contains(&order) {
            return Err(2);
        }
        let place = named.ok_or(18)?;
        if place.open == 0 {
            return Err(19);
        }
        let mut money = self.money[place.group as usize];
        if is_buy(place.kind) {
            money.open = money.open.checked_sub(amount(place.price, place.open)).ok_or(1)?;
        }
        self.book(order, money, 0)
    }

    /// The money of an order's group and its open quantity, where the money fits.
    fn book(&mut self, order: Figure, money: Money, open: Figure) -> Answer {
        if !money.fits() {
            return Err(1);
        }
        let place = &mut self.places[order as usize - 1];
        place.open = open;
        self.money[place.group as usize] = money;
        Ok(0)
    }

    fn close(&mut self) -> Answer {
        for group in &mut self.groups[..self.enrolled] {
            group.close();
        }
        self.money = [Money::default(); GROUPS];
        self.accepted = 0;
        Ok(0)
    }

    /// Whether every row keeps its rules, and no code stands twice with one class.
    fn is_listable(&self) -> bool {
        let groups = &self.groups[..self.enrolled];
        self.is_sound()
            && groups.iter().zip(&self.money).enumerate().all(|(i, (group, money))| {
                group.class != BROKERAGE
                    && money.fits()
                    && (group.maximum == NONE
                        || (group.maximum >= 1 && group.own_in_force().is_some_and(|own| own <= group.maximum)))
                    && groups[i + 1..].iter().all(|g| (g.code, g.class) != (group.code, group.class))
            })
    }

    fn list(&self, out: &mut impl Write) -> io::Result<()> {
        if !self.is_listable() {
            return Ok(());
        }
        for (group, money) in self.groups[..self.enrolled].iter().zip(&self.money) {
            write!(out, "{:5}{:2}", group.code, group.class)?;
            match group.own_in_force() {
                Some(own) => write!(out, "{:8}{:8}", group.maximum, own)?,
                None => write!(out, "{:>8}{:>8}", "-", "-")?,
            }
            let net = (money.open + money.bought) as i64 - money.sold as i64;
            writeln!(out, "{:21}{:21}{:21}{:21}", net, money.open, money.bought, money.sold)?;
        }
        Ok(())
    }
}

/// The refusal number in 3 columns, the number given in 6, line feed.
fn answer_line(answer: Answer) -> [u8; 10] {
    let (refusal, number) = match answer {
        Ok(number) => (0, number),
        Err(refusal) => (refusal as Figure, 0),
    };
    let mut line = *b"         \n";
    right_justify(&mut line[0..3], refusal);
    right_justify(&mut line[3..9], number);
    line
}

fn right_justify(column: &mut [u8], mut number: Figure) {
    for b in column.iter_mut().rev() {
        *b = b'0' + (number % 10) as u8;
        number /= 10;
        if number == 0 {
            break;
        }
    }
}

fn main() -> io::Result<()> {
    let mut input = BufReader::with_capacity(1 << 16, io::stdin().lock());
    let mut out = BufWriter::with_capacity(1 << 16, io::stdout().lock());
    let mut gate = Gate::open(N);
    let mut line = Vec::with_capacity(64);
    while input.read_until(b'\n', &mut line)? > 0 {
        let answer = match line.strip_suffix(b"\n").and_then(Call::read) {
            Some(call) => gate.call(call),
            None => Err(21),
        };
        out.write_all(&answer_line(answer))?;
        line.clear();
    }
    gate.list(&mut out)?;
    out.flush()
}

// An independent model of `gateday`: call file in, gateday's output out. It is written from document 01 and request 2026-01 alone. It
// keeps the list of accepted calls and loads (an order with its group, a load with its table) and nothing else; for every answer and
// every row it works out again, from that list, what the papers speak of. Net is Article 16's own sum, never open + bought − sold, so
// that a listing compares the two.
//
//   model [--wrong K] [--ratios TABLE] < FILE   the model; the ratio file TABLE is loaded before the first call, as gateday does
//   model [--wrong K] --entries FILE            lines `L TABLE` load a ratio file where they stand, others are call lines (`tests/entries`)
//   model --slips                               the changed rules, a line each: number K and sentence; `tests/compare-wrong` tries them
//   model --entry-slips                         those that loads in the middle of a day alone can tell (`tests/compare-entries`)
//   model --rooms [--ratios TABLE] < FILE       the rooms of the groups after the last line, as `readlisting` prints them (`tests/rooms`)
//
// With `--wrong K` one rule is changed. Changed rules are the slips of `slips!` below, two refusals in the wrong order (SWAPS), a
// range one too short or too long at one end, and a call's unused fields left unread. `but(right, Slip, wrong)` is `right`, unless
// the model runs with that slip: read the first argument and pass over the others.

use std::io::{Read, Write};
use std::sync::OnceLock;
use End::*;
use Slip::*;

type Int = i128;

// ---------------------------------------------------------------- Money and names

const PLACES: Int = 2_048; // "Program gateday has N = 2,048"
const THRESHOLD: Int = 100_000; // "The threshold is 100,000 million yuan."
const MILS_IN_A_MILLION: Int = 1_000_000_000; // "1 million yuan is 1,000,000,000 mils."

// "Ranges: price 1 to 9,999,999; quantity 1 to 10,000,000; institution code, trading unit and declarer 0 to 99,999; group number 0 to
// 63; control class 1 to 4; order number 1 to 65,536; asset base and quota 0 to 9,999,999 millions"
const PRICE: (Int, Int) = (1, 9_999_999);
const QUANTITY: (Int, Int) = (1, 10_000_000);
const CODE: (Int, Int) = (0, 99_999);
const UNIT: (Int, Int) = (0, 99_999);
const DECLARER: (Int, Int) = (0, 99_999);
const GROUP: (Int, Int) = (0, 63);
const CLASS: (Int, Int) = (1, 4);
const ORDER: (Int, Int) = (1, 65_536);
const QUOTA: (Int, Int) = (0, 9_999_999);
const RAISE: (Int, Int) = (1, 9_999_999); // "emergency quota 0"
const FLAG: (Int, Int) = (0, 1); // "flag above 1"
const KIND: (Int, Int) = (1, 6);
const RATIO: (Int, Int) = (1, 100); // 2026-01: "numerator and denominator (both 1 to 100)"

const LOAD: usize = 0; // stands for a load where calls have their code

// "Codes, with fields"; each used field has its range here.
fn ranges(code: usize) -> &'static [(Int, Int)] {
    match code {
        LOAD => &[CLASS, RATIO, RATIO],                 // each line of a ratio file (class, numerator, denominator)
        1 => &[CODE, CLASS],                            // enrol group
        2 => &[UNIT, GROUP],                            // attach unit
        3 => &[UNIT],                                   // detach unit
        4 => &[DECLARER, GROUP, QUOTA, QUOTA],          // regular (declarer, group, base, quota)
        5 => &[DECLARER, GROUP, RAISE, FLAG],           // emergency
        6 => &[DECLARER, GROUP],                        // withdraw emergency
        7 => &[GROUP, QUOTA],                           // own quota
        8 => &[UNIT, KIND, PRICE, QUANTITY],            // order
        9 => &[ORDER, PRICE, QUANTITY],                 // fill
        10 => &[ORDER],                                 // cancel
        _ => &[],                                       // close
    }
}

fn in_range(code: usize, field: usize, x: Int) -> bool {
    let (least, greatest) = ranges(code)[field];
    let slip = |end| WRONG.get() == Some(&Wrong::Range(code, field, end));
    let least = least - slip(BelowLeastPasses) as Int + slip(LeastRefused) as Int;
    let greatest = greatest - slip(GreatestRefused) as Int + slip(AboveGreatestPasses) as Int;
    least <= x && x <= greatest
}

// "2: a field outside its range or its kind's price rule"
fn out_of_range(call: &Call) -> bool {
    let is_order = call.code == 8;
    let outside = |field: usize| !(is_order && field == 2) && !in_range(call.code, field, call.field[field]);
    (0..ranges(call.code).len()).any(outside) || (is_order && !keeps_price_rule(call.field[1], call.field[2]))
}

// "Kinds: 1 limit buy; 2 market buy; 3 repo lending; 4 limit sell; 5 market sell; 6 repo borrowing. Kinds 1, 2, 3 are buys."
fn is_buy(kind: Int) -> bool {
    match kind {
        1 | 2 => true,
        3 => but(true, LendingIsASell, false),
        6 => but(false, BorrowingIsABuy, true),
        _ => false,
    }
}

// "5 market sell (price 0, the one exception to the range) ... Kinds 3 and 6 bear price 100,000."
fn keeps_price_rule(kind: Int, price: Int) -> bool {
    match kind {
        3 | 6 => price == 100_000 || (wrong(RepoPriceFree) && in_range(8, 2, price)),
        5 => price == 0 || (wrong(MarketSellPriced) && in_range(8, 2, price)),
        _ => in_range(8, 2, price),
    }
}

// "20: fill price above the order's (kinds 1, 2), below it (4), other than 100,000 (3, 6)."
fn is_worse(order: &Order, price: Int) -> bool {
    if wrong(EqualFillIsWorse) && order.kind != 3 && order.kind != 6 && price == order.price { return true; }
    match order.kind {
        2 if wrong(MarketBuyFillFree) => false,
        1 | 2 => but(price > order.price, BuyFillTurned, price < order.price),
        4 => but(price < order.price, SellFillTurned, price > order.price),
        3 | 6 => but(price != 100_000, RepoFillFree, false),
        _ => false,
    }
}

// "In a regular declaration the quota equals the asset base for classes 3 and 4, and base × 2.5 rounded half up for class 1."
// 2026-01: "refusal 8 and the history's quotas go by the table loaded last, by the old ratios before any"
fn quota_due(history: &[Accepted], class: Int, base: Int) -> Int {
    let ours = but(true, ClassOneAlone, class == 1);
    if let Some(table) = table(history).filter(|_| ours) { return quota_by(table, class, base); }
    let two_and_a_half = (base * 25 + but(5, RoundHalfDown, 4)) / 10;
    match class {
        1 => but(two_and_a_half, ClassOneOnce, base),
        3 => but(base, ClassThreeTimes, two_and_a_half),
        _ => base,
    }
}

type Table = [(Int, Int); 3]; // numerator and denominator, for classes 1, 3 and 4

// 2026-01: "The quota is then base × numerator ÷ denominator, rounded half up."
fn quota_by(table: Table, class: Int, base: Int) -> Int {
    let line = match class {
        1 => 0,
        3 => but(but(1, ThreeByFour, 2), AllByOne, 0),
        _ => but(but(2, FourByThree, 1), AllByOne, 0),
    };
    let (numerator, denominator) = but(table[line], RatioTurned, (table[line].1, table[line].0));
    if denominator == 0 { return 0; } // with a slip alone
    let product = base * numerator;
    let (whole, rest) = (product / denominator, product % denominator);
    let more = match () {
        _ if wrong(RatioDown) => false,
        _ if wrong(RatioUp) => rest > 0,
        _ if wrong(RatioHalfDown) => 2 * rest > denominator,
        _ if wrong(RatioHalfEven) => 2 * rest > denominator || (2 * rest == denominator && whole % 2 == 1),
        _ => 2 * rest >= denominator,
    };
    let due = whole + more as Int;
    let due = but(due, DividedFirst, (2 * base + denominator) / (2 * denominator) * numerator);
    let due = but(due, RatioInHundredths, ((200 * numerator + denominator) / (2 * denominator) * base + 50) / 100);
    but(due, QuotaHeld, due.min(QUOTA.1))
}

// ---------------------------------------------------------------- The history: accepted calls and loads, first to last

#[derive(Clone, Copy)]
struct Call {
    code: usize,
    field: [Int; 4],
}

struct Accepted {
    call: Call,
    group: usize,         // of an order: "belongs to the group its unit is attached to then"
    table: Option<Table>, // of a load
}

// "the table loaded last"; none before any load
fn table(history: &[Accepted]) -> Option<Table> {
    let kept = if wrong(TableLostAtClose) { since_close(history) } else { history };
    let mut loads = kept.iter().filter_map(|a| a.table);
    if wrong(FirstTableStays) { loads.next() } else { loads.last() }
}

// "1 adds the group under the number given" ... "the next group number from 0"
fn groups(history: &[Accepted]) -> Vec<(Int, Int)> {
    history.iter().filter(|a| a.call.code == 1).map(|a| (a.call.field[0], a.call.field[1])).collect()
}

// "2 ties the unit to the group, 3 frees it"
fn group_of_unit(history: &[Accepted], unit: Int) -> Option<usize> {
    let last = history.iter().rev().find(|a| matches!(a.call.code, 2 | 3) && a.call.field[0] == unit)?;
    if last.call.code == 2 { Some(last.call.field[1] as usize) } else { None }
}

fn units_attached(history: &[Accepted]) -> usize {
    let of_code = |code| history.iter().filter(|a| a.call.code == code).count();
    of_code(2) - but(of_code(3), DetachKeepsSeat, 0)
}

// ---------------------------------------------------------------- Quotas of a group, from its accepted calls and the closes

#[derive(Default)]
struct Quotas {
    figures: Vec<(Int, Int)>, // declarer and quota of each figure standing
    seats: Vec<Int>,          // declarers that ever had a figure, for one slip
    maximum: Option<Int>,
    emergency: Option<Emergency>,
    declared: Option<Int>, // the own quota, where one is declared
    peak: Option<Int>,     // the own quota as it was declared, for one slip
}

struct Emergency {
    holder: Int,
    figure: Int,
    filed: bool,
}

impl Quotas {
    // "else the smaller of the threshold and the sum of standing figures, else (none standing) none"
    fn of_figures(&self) -> Option<Int> {
        if self.figures.is_empty() { return None; }
        let sum: Int = self.figures.iter().map(|f| f.1).sum();
        if wrong(ZeroSumIsNone) && sum == 0 { return None; }
        let sum = but(sum, ZeroSumIsOne, sum.max(1));
        Some(but(sum.min(THRESHOLD), SumNotCapped, sum))
    }

    // "Base 0 with quota 0 withdraws the declarer's figure. The last figure of each declarer stands"
    // 2026-01: "A quota that rounds to 0 from a base above 0 is a standing figure of 0"
    fn regular(&mut self, declarer: Int, base: Int, quota: Int) {
        if wrong(ZeroKeepsOldFigure) && base != 0 && quota == 0 && self.figures.iter().any(|f| f.0 == declarer) { return; }
        let base = but(base, QuotaZeroWithdraws, quota);
        let before = self.figures.iter().find(|f| f.0 == declarer).map_or(0, |f| f.1);
        if wrong(NinthReplaces) && self.figures.len() == 8 && self.figures.iter().all(|f| f.0 != declarer) { self.figures.remove(0); }
        self.figures.retain(|f| f.0 != declarer);
        if !self.seats.contains(&declarer) { self.seats.push(declarer); }
        let quota = but(quota, BaseStands, base);
        if base != 0 || wrong(WithdrawnStaysZero) { self.figures.push((declarer, but(quota, FiguresAdd, quota + before))); }
        if wrong(RegularAtOnce) && self.emergency.is_none() { self.maximum = self.of_figures(); }
    }

    // "An accepted emergency raise becomes the maximum immediately and is held by its declarer" ... "which voids the filing"
    fn raise(&mut self, declarer: Int, quota: Int) {
        let (holder, filed) = self.emergency.as_ref().map_or((declarer, false), |e| (e.holder, e.filed));
        if wrong(OwnStaysAtRaise) && self.declared.is_none() { self.declared = self.maximum; }
        self.maximum = Some(quota);
        self.emergency = Some(Emergency {
            holder: but(declarer, HolderStays, holder),
            figure: quota,
            filed: but(false, FilingNotVoided, filed),
        });
    }

    // "Its withdrawal is filed by that declarer and takes effect at the close"
    fn file(&mut self) {
        if let Some(emergency) = &mut self.emergency { emergency.filed = true; }
        if wrong(FilingAtOnce) { self.close(); }
    }

    // "The own quota is 0 to the maximum and holds immediately."
    fn declare(&mut self, quota: Int) {
        self.declared = Some(quota);
        self.peak = Some(quota);
        if wrong(OwnEqualFollows) && self.maximum == Some(quota) { self.declared = None; }
        if wrong(OwnZeroUndeclared) && quota == 0 { self.declared = None; }
    }

    // "At the close the maximum becomes the emergency figure if held and not filed for withdrawal, else ..."
    fn close(&mut self) {
        let of_figures = self.of_figures();
        if wrong(CloseDropsZeros) { self.figures.retain(|f| f.1 != 0); }
        self.maximum = match &self.emergency {
            Some(e) if !e.filed && wrong(EmergencyForOneDay) => of_figures,
            Some(e) if !e.filed && wrong(RegularOverEmergency) => of_figures.or(Some(e.figure)),
            Some(e) if !e.filed && wrong(GreaterAtClose) => of_figures.max(Some(e.figure)),
            Some(e) if !e.filed => Some(but(e.figure, EmergencyCapped, e.figure.min(THRESHOLD))),
            _ => of_figures,
        };
        // "takes effect at the close, when nobody holds it any longer"
        if self.emergency.as_ref().is_some_and(|e| e.filed || wrong(EmergencyForOneDay)) {
            if wrong(CloseForgetsFiling) {
                self.emergency.as_mut().unwrap().filed = false;
            } else {
                self.emergency = None;
            }
        }
        // "When the close brings a maximum below a declared own quota, the own quota is set to that maximum and doesn't rise again by
        // itself. A maximum of none erases the declaration."
        if wrong(OwnRestored) && self.declared.is_some() { self.declared = self.peak; }
        self.declared = match (self.maximum, self.declared) {
            (Some(0), _) if wrong(ZeroErasesOwn) => None,
            (Some(maximum), Some(own)) => Some(but(own.min(maximum), OwnNotLowered, own)),
            (None, declared) if wrong(OwnSurvivesNone) => declared,
            _ => None,
        };
    }

    // "An own quota is in force unless the maximum is none." "Undeclared, it equals the maximum."
    fn own_in_force(&self) -> Option<Int> {
        self.maximum.map(|maximum| self.declared.unwrap_or(maximum))
    }

    fn holds(&self, declarer: Int) -> bool {
        self.emergency.as_ref().is_some_and(|e| e.holder == declarer)
    }

    fn filed(&self) -> bool {
        self.emergency.as_ref().is_some_and(|e| e.filed)
    }
}

fn quotas(history: &[Accepted], group: Int) -> Quotas {
    let mut quotas = Quotas::default();
    for Accepted { call: Call { code, field: f }, .. } in history {
        match code {
            4 if f[1] == group => quotas.regular(f[0], f[2], f[3]),
            5 if f[1] == group => quotas.raise(f[0], f[2]),
            6 if f[1] == group => quotas.file(),
            7 if f[0] == group => quotas.declare(f[1]),
            11 => quotas.close(),
            _ => {}
        }
    }
    quotas
}

// ---------------------------------------------------------------- Orders of the day, from the accepted calls since the last close

struct Order {
    group: usize,
    unit: Int,
    kind: Int,
    price: Int,
    quantity: Int,
    fills: Vec<(Int, Int)>, // price and quantity
    cancelled: Int,         // quantity
}

impl Order {
    fn filled(&self) -> Int {
        self.fills.iter().map(|fill| fill.1).sum()
    }

    // "9 keeps the fill and takes its quantity off its order's open quantity; 10 sets its order's to 0"
    fn open(&self) -> Int {
        self.quantity - self.filled() - self.cancelled
    }
}

// "The close zeroes every total and forgets every order."
fn since_close(history: &[Accepted]) -> &[Accepted] {
    let after_close = history.iter().rposition(|a| a.call.code == 11).map_or(0, |i| i + 1);
    &history[after_close..]
}

fn orders_in(calls: &[Accepted], history: &[Accepted]) -> Vec<Order> {
    let mut orders: Vec<Order> = Vec::new();
    let mut first = 0; // where the current day's orders begin
    for Accepted { call: Call { code, field: f }, group, .. } in calls {
        let named = |number: Int| (number - 1 - numbers_before(history)) as usize + first;
        match code {
            3 if wrong(DetachEndsOrders) => {
                for order in &mut orders { if order.unit == f[0] { order.cancelled += order.open(); } }
            }
            8 => orders.push(Order { group: *group, unit: f[0], kind: f[1], price: f[2], quantity: f[3], fills: vec![], cancelled: 0 }),
            9 => orders[named(f[0])].fills.push((f[1], f[2])),
            // "A cancel takes the whole open quantity"
            10 => { let open = orders[named(f[0])].open(); orders[named(f[0])].cancelled += open; }
            11 => first = orders.len(),
            _ => {}
        }
    }
    orders
}

fn orders(history: &[Accepted]) -> Vec<Order> {
    orders_in(since_close(history), history)
}

// "An accepted order takes the next number k from 1": none were given before, since the close forgets them.
fn numbers_before(history: &[Accepted]) -> Int {
    if !wrong(NumbersContinue) { return 0; }
    let before = &history[..history.len() - since_close(history).len()];
    before.iter().filter(|a| a.call.code == 8).count() as Int
}

struct Money {
    net: Int,
    open: Int,
    bought: Int,
    sold: Int,
}

fn money(history: &[Accepted], group: usize) -> Money {
    let mut orders = if wrong(CloseKeepsMoney) { orders_in(history, history) } else { orders(history) };
    if wrong(OrdersFollowUnit) {
        for order in &mut orders { order.group = group_of_unit(history, order.unit).unwrap_or(order.group); }
    }
    let mut money = Money { net: 0, open: 0, bought: 0, sold: 0 };
    for order in orders.iter().filter(|order| order.group == group) {
        let fills = if wrong(LaterFillsDropped) { &order.fills[..order.fills.len().min(1)] } else { &order.fills[..] };
        if is_buy(order.kind) {
            // "open buys are order price × open quantity over a group's buys; money bought and money sold are price × quantity over the
            // accepted fills of its buys and of its other orders"
            money.open += order.price * order.open();
            money.bought += fills.iter().map(|(price, quantity)| price * quantity).sum::<Int>();
            // "Article 16: net = buys submitted − sold in fills − buys cancelled − (order price − fill price) × quantity over buy
            // fills. A cancel takes the whole open quantity, valued at the order price."
            let last_price = order.fills.last().map_or(order.price, |fill| fill.0);
            let cancelled = but(order.cancelled, CancelTakesWhole, if order.cancelled > 0 { order.quantity } else { 0 });
            let improved: Int = fills.iter().map(|(price, quantity)| (order.price - price) * quantity).sum();
            money.net += order.price * order.quantity;
            money.net -= but(order.price, CancelAtFillPrice, last_price) * cancelled;
            money.net -= but(improved, ImprovementIgnored, 0);
        } else {
            // "A sell counts only when filled."
            let sold: Int = fills.iter().map(|(price, quantity)| price * quantity).sum();
            money.sold += sold;
            let entered = order.price * (order.quantity - order.cancelled);
            money.net -= but(but(sold, SoldLeftOut, 0), SellCountedEntered, entered);
        }
    }
    if wrong(NetInexact) { money.net = money.net as f64 as Int; }
    money
}

// ---------------------------------------------------------------- Refusal list

// "Of several that apply the smallest is returned." Those that apply, in any order. (A condition that speaks of a group, unit or order
// is read only where there is one; where there is none, a smaller number applies.)
#[derive(Default)]
struct Refusals(Vec<Int>);

impl Refusals {
    fn when(&mut self, number: Int, applies: bool) {
        if applies { self.0.push(number); }
    }

    fn smallest(&self, code: usize) -> Int {
        if let Some(Wrong::Swap(call, small, great)) = WRONG.get() {
            if *call == code && self.0.contains(small) && self.0.contains(great) { return *great; }
        }
        self.0.iter().copied().min().unwrap_or(0)
    }
}

fn refusal(history: &[Accepted], call: &Call) -> Int {
    let f = call.field;
    let groups = groups(history);
    let enrolled = |group: Int| group >= 0 && group < groups.len() as Int;
    let code_and_class = |group: Int| if enrolled(group) { groups[group as usize] } else { (0, 0) };
    let mut r = Refusals::default();
    r.when(2, out_of_range(call));
    match call.code {
        // enrol group (code, class)
        1 => {
            r.when(2, wrong(ClassTwoOutOfRange) && f[1] == 2);
            r.when(3, f[1] == 2 && !wrong(ClassTwoEnrols));
            r.when(4, groups.iter().any(|g| g.0 == f[0] && (g.1 == f[1] || wrong(GroupByCodeAlone))));
            r.when(5, groups.len() >= but(64, GroupsShort, 63));
        }
        // attach unit (unit, group)
        2 => {
            r.when(4, group_of_unit(history, f[0]).is_some() && !wrong(AttachMoves));
            r.when(5, units_attached(history) >= but(256, UnitsShort, 255));
            r.when(6, !enrolled(f[1]));
        }
        // detach unit (unit)
        3 => {
            r.when(6, group_of_unit(history, f[0]).is_none());
        }
        // regular (declarer, group, base, quota)
        4 => {
            let (code, class) = code_and_class(f[1]);
            let q = quotas(history, f[1]);
            let stands = q.figures.iter().any(|figure| figure.0 == f[0]);
            let stands_above_zero = q.figures.iter().any(|figure| figure.0 == f[0] && figure.1 != 0);
            let standing = but(q.figures.len(), PlaceNotFreed, q.seats.len());
            let standing = but(standing, ZeroUncounted, q.figures.iter().filter(|figure| figure.1 != 0).count());
            let known = but(stands, PlaceNotFreed, q.seats.contains(&f[0]));
            let known = but(known, ZeroIsNew, stands_above_zero);
            let withdraws = f[2] == 0;
            let due = quota_due(history, class, f[2]);
            r.when(6, !enrolled(f[1]));
            r.when(7, (class == 1 || (class == 4 && wrong(SevenForClassFour))) && f[0] != code);
            r.when(8, f[3] != due && !(withdraws && wrong(ZeroWithdrawsWithQuota)));
            r.when(8, wrong(ZeroFigureRefused) && !withdraws && f[3] == 0);
            r.when(9, but(withdraws, NineByQuota, f[3] == 0) && !but(stands, ZeroNotWithdrawn, stands_above_zero));
            let new = !known || wrong(StandingRefused);
            let full = standing >= but(8, EighthRefused, 7);
            r.when(10, new && full && !wrong(NinthReplaces));
        }
        // emergency (declarer, group, quota, flag: 1 above the threshold, else 0)
        5 => {
            let (code, class) = code_and_class(f[1]);
            let q = quotas(history, f[1]);
            let another = q.emergency.is_some() && !q.holds(f[0]);
            let above = but(f[2] > THRESHOLD, FlagAtThreshold, f[2] >= THRESHOLD);
            r.when(6, !enrolled(f[1]));
            r.when(7, class == 1 && f[0] != code && !wrong(AnyFirmRaises));
            r.when(11, another && (!q.filed() || wrong(OnlyHolderRaises)) && !wrong(OthersMayRaise));
            r.when(11, wrong(HolderNoSecondRaise) && q.emergency.is_some() && !q.filed());
            r.when(12, q.maximum.is_some_and(|m| but(f[2] <= m, EqualRaisePasses, f[2] < m)));
            r.when(12, wrong(RaiseNeedsMaximum) && q.maximum.is_none());
            r.when(12, wrong(OneNotAboveZero) && q.maximum == Some(0) && f[2] <= 1);
            r.when(13, (f[3] == 1) != above && !wrong(FlagUnread));
        }
        // withdraw emergency (declarer, group)
        6 => {
            let (code, class) = code_and_class(f[1]);
            let q = quotas(history, f[1]);
            let another = q.emergency.is_some() && !q.holds(f[0]);
            r.when(6, !enrolled(f[1]));
            r.when(7, class == 1 && f[0] != code && !wrong(AnyFirmRaises));
            r.when(9, q.emergency.is_none() || (q.filed() && !wrong(FiledTwice) && !(another && wrong(LateFilingIsEleven))));
            r.when(11, another && (!q.filed() || wrong(LateFilingIsEleven)) && !wrong(OthersMayFile));
        }
        // own quota (group, quota)
        7 => {
            let q = quotas(history, f[0]);
            r.when(6, !enrolled(f[0]));
            r.when(14, q.maximum.is_some_and(|m| but(f[1] > m, OwnAtMaximumRefused, f[1] >= m)));
            r.when(14, wrong(OwnWithoutMaximum) && q.maximum.is_none());
            r.when(15, q.maximum.is_none() || (wrong(OwnAtZeroIsFifteen) && q.maximum == Some(0)));
        }
        // order (unit, kind, price, quantity)
        8 => {
            let group = group_of_unit(history, f[0]);
            r.when(6, group.is_none());
            if let Some(group) = group {
                let q = quotas(history, group as Int);
                r.when(15, (is_buy(f[1]) || wrong(SellsNeedMaximum)) && q.maximum.is_none());
                r.when(15, wrong(BuyAtZeroIsFifteen) && is_buy(f[1]) && q.maximum == Some(0));
                // "A buy is accepted only if net, before it, is below the own quota; the order that crosses passes (Article 19)."
                if let Some(own) = q.own_in_force() {
                    let (net, own) = (money(history, group).net, own * MILS_IN_A_MILLION);
                    let reached = but(but(net >= own, CrossingRefused, net >= own || net + f[2] * f[3] > own), ExactPasses, net > own);
                    let reached = but(reached, ZeroLetsBuy, reached && q.maximum != Some(0));
                    let reached = but(reached, ZeroStopsEveryBuy, reached || q.maximum == Some(0));
                    r.when(16, (is_buy(f[1]) || wrong(SellsStopped)) && reached);
                }
            }
            // "a place is free while fewer than N orders are accepted"
            let places = but(but(PLACES, SeventeenEarly, PLACES - 1), SeventeenLate, PLACES + 1);
            let accepted = since_close(history).iter().filter(|a| a.call.code == 8).count() as Int;
            r.when(17, accepted >= places && (is_buy(f[1]) || !wrong(SellsTakeNoPlace)));
        }
        // fill (order, price, quantity)
        9 => {
            let orders = orders(history);
            let place = f[0] - 1 - numbers_before(history);
            let order = if place >= 0 { orders.get(place as usize) } else { None };
            let repo = order.is_some_and(|order| order.kind == 3 || order.kind == 6);
            r.when(2, wrong(RepoFillOutOfRange) && repo && f[1] != 100_000);
            r.when(2, wrong(NumberAbovePlaces) && f[0] > PLACES);
            r.when(18, order.is_none());
            if let Some(order) = order {
                let open = but(order.open(), CancelledMayFill, order.quantity - order.filled());
                let open = but(open, WholeQuantityFills, order.quantity);
                r.when(19, but(f[2] > open, ExactFillRefused, f[2] >= open));
                r.when(20, is_worse(order, f[1]));
            }
        }
        // cancel (order)
        10 => {
            let orders = orders(history);
            let place = f[0] - 1 - numbers_before(history);
            let order = if place >= 0 { orders.get(place as usize) } else { None };
            r.when(18, order.is_none());
            r.when(19, order.is_some_and(|order| order.open() == 0) && !wrong(EmptyCancelPasses));
        }
        // close
        _ => {}
    }
    r.smallest(call.code)
}

// "The history's answer is the refusal list's number, 1 left aside, read over the history before the call ... else 0, with the next
// number at calls 1 and 8." "A call that it answers 0 is accepted; a refused one leaves the history as it was."
fn answer(history: &mut Vec<Accepted>, call: Call) -> (Int, Int) {
    let refusal = refusal(history, &call);
    if refusal != 0 {
        return (refusal, 0);
    }
    let number = match call.code {
        1 => groups(history).len() as Int,
        8 => orders(history).len() as Int + 1 + numbers_before(history),
        _ => 0,
    };
    let group = if call.code == 8 { group_of_unit(history, call.field[0]).unwrap() } else { 0 };
    history.push(Accepted { call, group, table: None });
    (0, number)
}

// 2026-01: "23, and not 21, when the file isn't of this form or a group is already enrolled, after 2." What isn't of the form has no
// fields that could be out of their range.
fn load_refusal(history: &[Accepted], text: &[u8]) -> Int {
    let mut r = Refusals::default();
    let outside = |field: usize, x: Int| !in_range(LOAD, field, x);
    let line_outside = |line: &[Int; 3]| (0..3).any(|field| outside(field, line[field]));
    if let Some(lines) = ratio_lines(text) {
        let mut classes = lines.map(|line| line[0]);
        if wrong(ClassesInAnyOrder) { classes.sort(); }
        let in_order = classes == [1, 3, 4] || wrong(ClassesUnread) || (wrong(ClassTwoForThree) && classes == [1, 2, 4]);
        let class_alone = lines.iter().all(|line| !outside(1, line[1]) && !outside(2, line[2]));
        let is_form = wrong(RangeIsForm) || (wrong(ClassRangeIsForm) && class_alone);
        r.when(if is_form { 23 } else { 2 }, lines.iter().any(line_outside));
        r.when(3, wrong(ClassTwoIsThree) && classes.contains(&2));
        r.when(but(23, OrderIsTwo, 2), !in_order);
    } else {
        r.when(but(23, FormIsTwo, 2), true);
        r.when(2, wrong(RangesBeforeForm) && numbers_found(text).iter().any(line_outside));
    }
    let enrolled = match () {
        _ if wrong(EnrolledMayLoad) => false,
        _ if wrong(CloseOpensLoads) => !groups(since_close(history)).is_empty(),
        _ if wrong(SecondLoadRefused) => history.iter().any(|a| a.call.code == 1 || a.call.code == LOAD),
        _ if wrong(AnyCallEndsLoads) => history.iter().any(|a| a.call.code != LOAD),
        _ => !groups(history).is_empty(),
    };
    r.when(23, enrolled);
    but(r.smallest(LOAD), LoadIsMalformed, if r.smallest(LOAD) == 23 { 21 } else { r.smallest(LOAD) })
}

// A load: "The history takes loads". A file that can't be read counts as not formed.
fn load(history: &mut Vec<Accepted>, file: &str) -> Int {
    let text = std::fs::read(file).unwrap_or_default(); // no bytes, which is not formed
    let refusal = load_refusal(history, &text);
    let taken = (refusal == 0 && !wrong(LoadForgotten)) || wrong(RefusedLoadTakes);
    if let (Some(mut lines), true) = (ratio_lines(&text), taken) {
        if wrong(ClassesInAnyOrder) { lines.sort(); }
        let call = Call { code: LOAD, field: [0; 4] };
        history.push(Accepted { call, group: 0, table: Some(lines.map(|line| (line[1], line[2]))) });
    }
    if refusal != 0 && wrong(RefusedLoadRestores) { history.retain(|a| a.call.code != LOAD); }
    refusal
}

// ---------------------------------------------------------------- Lines and columns

// "All numbers are right-justified with blanks, no leading zeros, no plus"
fn number(column: &[u8]) -> Option<Int> {
    number_but(column, [LeftJustified, PlusAccepted, LeadingZeros, BlankIsZero])
}

// the same, with the slips of its place
fn number_but(column: &[u8], [left_justified, plus_accepted, leading_zeros, blank_is_zero]: [Slip; 4]) -> Option<Int> {
    let mut text = std::str::from_utf8(column).ok()?.trim_start_matches(' ');
    if wrong(left_justified) { text = text.trim_end_matches(' '); }
    if wrong(plus_accepted) { text = text.strip_prefix('+').unwrap_or(text); }
    while wrong(leading_zeros) && text.len() > 1 && text.starts_with('0') { text = &text[1..]; }
    if wrong(blank_is_zero) && text.is_empty() { return Some(0); }
    let plain = !text.is_empty() && text.bytes().all(|b| b.is_ascii_digit()) && (text == "0" || !text.starts_with('0'));
    if plain { text.parse().ok() } else { None }
}

// "A call line is the code, 1 to 11, in 2 columns, four fields of 9, line feed; unused fields are 0. Any other line is malformed."
fn call_of(line: &[u8]) -> Option<Call> {
    let line = if wrong(CarriageReturn) { line.strip_suffix(b"\r").unwrap_or(line) } else { line };
    let line = if wrong(TailIgnored) { &line[..line.len().min(38)] } else { line };
    if line.len() != 2 + 4 * 9 { return None; }
    let code = number(&line[..2])?;
    let mut field = [0; 4];
    for (i, column) in line[2..].chunks(9).enumerate() { field[i] = number(column)?; }
    if wrong(UnknownCode) && code > 11 { return Some(Call { code: 3, field: [100_000, 0, 0, 0] }); }
    if !(1..=11).contains(&code) { return None; }
    let unused = &field[ranges(code as usize).len()..];
    let overlooked = WRONG.get() == Some(&Wrong::Unused(code as usize));
    if unused.iter().any(|x| *x != 0) && !overlooked { return None; }
    Some(Call { code: code as usize, field })
}

// 2026-01: "The file is three lines, for classes 1, 3 and 4 in that order: class, numerator and denominator .. in columns of 2, 4 and 4,
// line feed." The nine numbers of a file of three such lines, whatever they are.
fn ratio_lines(text: &[u8]) -> Option<[[Int; 3]; 3]> {
    let mut text = text.to_vec();
    if wrong(RatioTailIgnored) { text.truncate(33); }
    if wrong(RatioLastLineFeed) && text.len() == 32 { text.push(b'\n'); }
    if wrong(RatioCarriageReturn) { text = String::from_utf8_lossy(&text).replace("\r\n", "\n").into_bytes(); }
    let number = |column| number_but(column, [RatioLeftJustified, RatioPlus, RatioLeadingZeros, RatioBlankIsZero]);
    if text.len() != 33 { return None; }
    let mut lines = [[0; 3]; 3];
    for (line, numbers) in text.chunks(11).zip(&mut lines) {
        if line[10] != b'\n' && !wrong(RatioLineFeedUnread) { return None; }
        *numbers = [number(&line[..2])?, number(&line[2..6])?, number(&line[6..10])?];
    }
    Some(lines)
}

// The lines that have a number in each of their columns, wherever they stand, for one slip
fn numbers_found(text: &[u8]) -> Vec<[Int; 3]> {
    let numbers = |line: &[u8]| Some([number(line.get(..2)?)?, number(line.get(2..6)?)?, number(line.get(6..10)?)?]);
    text.split(|b| *b == b'\n').filter_map(numbers).collect()
}

// "A listing line is one group in enrolment order: code 5 columns, class 2, maximum 8, own quota 8, net 21, open buys 21, bought 21,
// sold 21, line feed. "-" stands for a maximum of none, and then for own quota"
fn listing(history: &[Accepted]) -> String {
    let or_dash = |quota: Option<Int>| quota.map_or("-".to_string(), |q| q.to_string());
    // 2026-01: "listing rows, written or read, may show maximum 0 from now on"
    let shown = |quota: Option<Int>, maximum: Option<Int>| or_dash(but(quota, ZeroShownAsDash, quota.filter(|_| maximum != Some(0))));
    let mut rows: Vec<(Int, String)> = Vec::new();
    for (group, (code, class)) in groups(history).into_iter().enumerate() {
        let q = quotas(history, group as Int);
        let m = money(history, group);
        let own = but(shown(q.own_in_force(), q.maximum), OwnNoneZero, q.own_in_force().unwrap_or(0).to_string());
        let net = if wrong(MinusZero) && m.net == 0 { "-0".to_string() } else { but(m.net, NetUnsigned, m.net.max(0)).to_string() };
        let maximum = shown(q.maximum, q.maximum);
        rows.push((code, format!("{code:>5}{class:>2}{maximum:>8}{own:>8}{net:>21}{:>21}{:>21}{:>21}\n", m.open, m.bought, m.sold)));
    }
    if wrong(ZeroNotListed) && (0..rows.len()).any(|group| quotas(history, group as Int).maximum == Some(0)) { rows.clear(); }
    if wrong(ListedByCode) { rows.sort_by_key(|row| row.0); }
    rows.into_iter().map(|row| row.1).collect()
}

// Issue 15: "code (5 columns), class (2) and the room left, own quota − net in mils, signed, 21 columns ("-" where the maximum is none)"
fn rooms(history: &[Accepted]) -> String {
    let room = |group| quotas(history, group as Int).own_in_force().map(|own| own * MILS_IN_A_MILLION - money(history, group).net);
    let line = |(group, (code, class))| format!("{code:>5}{class:>2}{:>21}\n", room(group).map_or("-".to_string(), |room| room.to_string()));
    groups(history).into_iter().enumerate().map(line).collect()
}

fn main() {
    let arguments: Vec<String> = std::env::args().skip(1).collect();
    let mut rest = arguments.iter().map(String::as_str);
    let (mut rooms_alone, mut ratios, mut entries) = (false, None, None);
    while let Some(argument) = rest.next() {
        match argument {
            "--rooms" => rooms_alone = true,
            "--slips" => return said(|wrong| !told_by_entries(wrong)),
            "--entry-slips" => return said(told_by_entries),
            "--ratios" => ratios = Some(rest.next().expect("--ratios TABLE")),
            "--entries" => entries = Some(rest.next().expect("--entries FILE")),
            "--wrong" => {
                let k = rest.next().and_then(|k| k.parse::<usize>().ok());
                let variant = k.and_then(|k| variants().into_iter().nth(k.wrapping_sub(1)));
                let _ = WRONG.set(variant.expect("--wrong K: a number of --slips or --entry-slips").0);
            }
            _ => panic!("model [--wrong K] [--rooms] [--ratios TABLE | --entries FILE] | --slips | --entry-slips"),
        }
    }
    let mut input = Vec::new();
    match entries {
        Some(file) => input = std::fs::read(file).expect("--entries FILE: a file that can be read"),
        None => { std::io::stdin().read_to_end(&mut input).unwrap(); }
    }
    let mut output = String::new();
    let mut history = Vec::new();
    // The load's answer is the first line; a refused one leaves the old ratios, and the day goes on.
    if let Some(file) = ratios {
        let refusal = load(&mut history, file);
        if refusal != 0 || !wrong(LoadSilent) { output += &format!("{refusal:>3}{:>6}\n", 0); }
        if refusal != 0 && wrong(RefusedLoadEndsDay) { input.clear(); }
    }
    // "prints for each the refusal number or 0 in 3 columns and the group or order number given (else 0) in 6, line feed ... A malformed
    // line, or a last one without line feed, prints 21 with 0 and is skipped."
    for line in input.split_inclusive(|b| *b == b'\n') {
        let table = line.strip_suffix(b"\n").and_then(|text| text.strip_prefix(b"L ")).filter(|_| entries.is_some());
        if let Some(file) = table {
            let refusal = load(&mut history, std::str::from_utf8(file).expect("L TABLE"));
            output += &format!("{refusal:>3}{:>6}\n", 0);
            continue;
        }
        let call = match line.strip_suffix(b"\n") {
            Some(b"") if wrong(EmptyLineSilent) => continue,
            Some(text) => call_of(text),
            None if wrong(LastLineSilent) => continue,
            None => if wrong(LastLineCarried) { call_of(line) } else { None },
        };
        let (refusal, number) = call.map_or((21, 0), |call| answer(&mut history, call));
        output += &format!("{refusal:>3}{number:>6}\n");
    }
    // "and at the end the listing"
    output += &listing(&history);
    if rooms_alone { output = rooms(&history); }
    std::io::stdout().write_all(output.as_bytes()).unwrap();
}

// ---------------------------------------------------------------- Wrong variants, each by one changed rule

macro_rules! slips {
    ($($name:ident: $says:literal;)*) => {
        #[derive(Clone, Copy, PartialEq)]
        enum Slip { $($name),* }
        const SLIPS: &[(Slip, &str)] = &[$((Slip::$name, $says)),*];
    };
}

slips! {
    // net, orders, fills and cancels
    CrossingRefused: "16 when net plus the order's amount is above the own quota";
    ExactPasses: "16 only when net is above the own quota";
    SellCountedEntered: "a sell counts when entered";
    CancelAtFillPrice: "a cancelled rest is valued at the last fill's price";
    ImprovementIgnored: "a better fill price gives nothing back to net";
    SoldLeftOut: "net doesn't fall by what is sold";
    SellsStopped: "16 stops sells as well";
    SellsNeedMaximum: "15 stops sells as well";
    LendingIsASell: "repo lending is no buy";
    BorrowingIsABuy: "repo borrowing is a buy";
    RepoPriceFree: "a repo order may bear any price";
    RepoFillFree: "a repo fill may bear any price";
    RepoFillOutOfRange: "a repo fill at another price gets 2";
    MarketSellPriced: "a market sell may bear a price";
    SellFillTurned: "20 for a limit sell filled above its price";
    BuyFillTurned: "20 for a buy filled below its price";
    MarketBuyFillFree: "a market buy may fill at any price";
    EqualFillIsWorse: "20 for a fill at the order's own price";
    SeventeenEarly: "17 one order too early";
    SeventeenLate: "17 one order too late";
    SellsTakeNoPlace: "17 doesn't stop sells";
    NumbersContinue: "order numbers continue after the close";
    NumberAbovePlaces: "an order number above N gets 2";
    EmptyCancelPasses: "a cancel with nothing open passes";
    CancelledMayFill: "a cancelled order may still be filled";
    WholeQuantityFills: "19 compares with the order's whole quantity";
    ExactFillRefused: "19 for a fill of all that is open";
    LaterFillsDropped: "only an order's first fill is booked";
    CancelTakesWhole: "a cancel takes the whole order, fills included, off net";
    DetachEndsOrders: "detaching a unit ends its orders";
    OrdersFollowUnit: "an order belongs to the group its unit is attached to now";
    CloseKeepsMoney: "the close leaves the totals";
    NetInexact: "net above 2^53 mils loses its last digits";
    // groups, units and quotas
    RoundHalfDown: "base × 2.5 is rounded half down";
    ClassThreeTimes: "base × 2.5 for class 3";
    ClassOneOnce: "class 1: the quota equals the base";
    FlagAtThreshold: "flag 1 is due at the threshold itself";
    FlagUnread: "13 never";
    WithdrawnStaysZero: "a withdrawn figure stays as 0";
    FilingAtOnce: "a filed withdrawal takes effect at once";
    RegularAtOnce: "a regular figure takes effect at once";
    RegularOverEmergency: "at the close the standing figures replace a held emergency maximum";
    GreaterAtClose: "at the close the greater of emergency figure and standing figures";
    SumNotCapped: "the sum of figures is not held to the threshold";
    EmergencyCapped: "the close holds an emergency maximum to the threshold";
    CloseForgetsFiling: "the close forgets the filing and the emergency stays held";
    EmergencyForOneDay: "the close ends an emergency without a filing";
    OwnRestored: "a lowered own quota rises again with the maximum";
    OwnNotLowered: "the close doesn't lower an own quota";
    OwnSurvivesNone: "a maximum of none leaves the declared own quota";
    OwnEqualFollows: "an own quota declared equal to the maximum counts as undeclared";
    OwnZeroUndeclared: "own quota 0 withdraws the declaration";
    OwnStaysAtRaise: "an undeclared own quota doesn't follow an emergency raise";
    OwnAtMaximumRefused: "14 for an own quota equal to the maximum";
    OwnWithoutMaximum: "14, and not 15, where the maximum is none";
    NinthReplaces: "a ninth declarer replaces the first";
    EighthRefused: "10 while seven stand";
    StandingRefused: "10 for a declarer that stands, too";
    PlaceNotFreed: "a withdrawn declarer's place is not used again";
    FiguresAdd: "a declarer's new figure is added to the old one";
    OthersMayRaise: "another declarer may raise with no withdrawal filed";
    OthersMayFile: "another declarer may file the withdrawal";
    FilingNotVoided: "a raise after a filing doesn't void it";
    OnlyHolderRaises: "after a filing only the holder may raise again";
    HolderNoSecondRaise: "11 for the holder's own second raise";
    HolderStays: "a raise by another declarer leaves the first as holder";
    FiledTwice: "a withdrawal may be filed twice";
    EqualRaisePasses: "12 only for a raise below the maximum in force";
    RaiseNeedsMaximum: "12 where the maximum is none";
    LateFilingIsEleven: "another declarer after a filing gets 11 at call 6";
    AnyFirmRaises: "7 for regular figures alone";
    ZeroWithdrawsWithQuota: "base 0 with any quota withdraws";
    SevenForClassFour: "7 for class 4 as well";
    ClassTwoEnrols: "class 2 is enrolled";
    ClassTwoOutOfRange: "class 2 gets 2";
    GroupByCodeAlone: "4 for the same code with another class";
    UnitsShort: "5 at 255 units";
    GroupsShort: "5 at 63 groups";
    DetachKeepsSeat: "a detached unit still counts among the 256";
    AttachMoves: "attaching an attached unit moves it";
    // lines and columns
    LastLineCarried: "a last line without line feed is carried out";
    LastLineSilent: "a last line without line feed prints nothing";
    LeadingZeros: "leading zeros are accepted";
    PlusAccepted: "a plus is accepted";
    LeftJustified: "numbers may stand anywhere in their columns";
    BlankIsZero: "a blank field is 0";
    TailIgnored: "what stands behind the 38th byte of a line is overlooked";
    CarriageReturn: "a carriage return before the line feed is accepted";
    UnknownCode: "a code above 11 gets 2";
    EmptyLineSilent: "an empty line prints nothing";
    OwnNoneZero: "an own quota is shown as 0 where the maximum is none";
    MinusZero: "a net of 0 is shown as -0";
    NetUnsigned: "a net below 0 is shown as 0";
    ListedByCode: "the listing is in the order of codes";
    // ratio tables: the quota
    RatioDown: "a loaded ratio's quota is rounded down";
    RatioUp: "a loaded ratio's quota is rounded up";
    RatioHalfDown: "a loaded ratio's quota is rounded half down";
    RatioHalfEven: "a loaded ratio's quota is rounded half to even";
    RatioTurned: "base × denominator ÷ numerator";
    DividedFirst: "base ÷ denominator is rounded, then multiplied";
    RatioInHundredths: "a ratio is rounded to hundredths before it is used";
    QuotaHeld: "a quota above 9,999,999 is held to it";
    BaseStands: "the base stands as a figure, not the quota";
    ClassOneAlone: "the table serves class 1 alone";
    AllByOne: "the line of class 1 serves every class";
    ThreeByFour: "the line of class 4 serves class 3";
    FourByThree: "the line of class 3 serves class 4";
    LoadForgotten: "the old ratios go on after an accepted load";
    TableLostAtClose: "the close brings the old ratios back";
    RefusedLoadTakes: "a refused load, if formed, changes the table";
    // ratio tables: figures of 0, maximum 0
    ZeroFigureRefused: "8 for a base above 0 that gives 0";
    QuotaZeroWithdraws: "a quota of 0 withdraws, whatever its base";
    NineByQuota: "9 for a quota of 0, whatever its base, where no figure of that declarer stands";
    ZeroNotWithdrawn: "9 for the withdrawal of a figure of 0";
    ZeroKeepsOldFigure: "a quota of 0 with a base above 0 leaves the declarer's old figure";
    ZeroUncounted: "a figure of 0 is not counted among the eight";
    ZeroIsNew: "10 for a declarer whose figure of 0 stands";
    CloseDropsZeros: "the close drops figures of 0";
    ZeroSumIsNone: "figures of 0 alone give a maximum of none";
    ZeroSumIsOne: "figures of 0 alone give a maximum of 1";
    ZeroShownAsDash: "a maximum of 0 is shown as -";
    ZeroNotListed: "no listing is printed where a maximum is 0";
    ZeroErasesOwn: "a maximum of 0 erases the declared own quota";
    OwnAtZeroIsFifteen: "15 at call 7 where the maximum is 0";
    BuyAtZeroIsFifteen: "15, and not 16, for a buy where the maximum is 0";
    ZeroLetsBuy: "buys pass under a maximum of 0";
    ZeroStopsEveryBuy: "16 for every buy under a maximum of 0, net below 0 too";
    OneNotAboveZero: "12 for a raise to 1 where the maximum is 0";
    // ratio files
    LoadIsMalformed: "21, and not 23, for a ratio file";
    FormIsTwo: "2 for a ratio file that isn't formed";
    RangesBeforeForm: "2 for a number out of its range in a ratio file that isn't formed";
    RangeIsForm: "23 for a ratio file's number out of its range";
    ClassRangeIsForm: "23 for a class outside 1 to 4 in a ratio file";
    OrderIsTwo: "2 for other classes than 1, 3 and 4 in that order";
    ClassTwoIsThree: "3 for class 2 in a ratio file";
    ClassTwoForThree: "class 2 may stand for 3 in a ratio file";
    ClassesInAnyOrder: "the three lines may come in any order";
    ClassesUnread: "the classes of a ratio file are not compared";
    RatioLeadingZeros: "leading zeros are accepted in a ratio file";
    RatioPlus: "a plus is accepted in a ratio file";
    RatioLeftJustified: "numbers may stand anywhere in their columns of a ratio file";
    RatioBlankIsZero: "a blank column of a ratio file is 0";
    RatioLastLineFeed: "a ratio file's last line needs no line feed";
    RatioTailIgnored: "what stands behind the 33rd byte of a ratio file is overlooked";
    RatioCarriageReturn: "carriage returns before the line feeds of a ratio file are accepted";
    RatioLineFeedUnread: "any byte may stand for a ratio file's line feeds";
    RefusedLoadEndsDay: "a refused load ends the day";
    LoadSilent: "an accepted load prints nothing";
    // loads in the middle of a day (ENTRY_SLIPS)
    EnrolledMayLoad: "a load after an enrolment is accepted";
    SecondLoadRefused: "23 for a load after an accepted one";
    FirstTableStays: "the table loaded first stays";
    RefusedLoadRestores: "a refused load brings the old ratios back";
    CloseOpensLoads: "23 only where a group was enrolled since the close";
    AnyCallEndsLoads: "23 after any accepted call";
}

// What a load before the first call can't show: gateday's days don't tell these.
const ENTRY_SLIPS: &[Slip] = &[EnrolledMayLoad, SecondLoadRefused, FirstTableStays, RefusedLoadRestores, CloseOpensLoads, AnyCallEndsLoads];

fn told_by_entries(wrong: &Wrong) -> bool {
    matches!(wrong, Wrong::Rule(slip) if ENTRY_SLIPS.contains(slip))
}

fn said(asked: impl Fn(&Wrong) -> bool) {
    for (i, (wrong, says)) in variants().iter().enumerate() {
        if asked(wrong) { println!("{} {}", i + 1, says); }
    }
}

// Two refusals of a call that may apply together: the call, the smaller, the greater. A variant returns the greater.
const SWAPS: &[(usize, Int, Int)] = &[
    (LOAD, 2, 23),
    (1, 2, 3), (1, 2, 5), (1, 3, 5), (1, 4, 5),
    (2, 2, 4), (2, 2, 5), (2, 2, 6), (2, 4, 5), (2, 4, 6), (2, 5, 6),
    (3, 2, 6),
    (4, 2, 6), (4, 2, 7), (4, 2, 8), (4, 2, 9), (4, 2, 10), (4, 6, 9), (4, 7, 8), (4, 7, 9), (4, 8, 9), (4, 8, 10), (4, 9, 10),
    (5, 2, 6), (5, 2, 7), (5, 2, 11), (5, 2, 12), (5, 2, 13), (5, 6, 13), (5, 7, 11), (5, 7, 12), (5, 7, 13), (5, 11, 12), (5, 11, 13),
    (5, 12, 13),
    (6, 2, 6), (6, 2, 7), (6, 2, 9), (6, 2, 11), (6, 6, 9), (6, 7, 9), (6, 7, 11),
    (7, 2, 6), (7, 2, 14), (7, 2, 15), (7, 6, 15),
    (8, 2, 6), (8, 2, 15), (8, 2, 16), (8, 2, 17), (8, 6, 17), (8, 15, 17), (8, 16, 17),
    (9, 2, 18), (9, 2, 19), (9, 2, 20), (9, 19, 20),
    (10, 2, 18),
];

// The wrong ends of a range.
#[derive(Clone, Copy, PartialEq)]
enum End {
    BelowLeastPasses,
    LeastRefused,
    GreatestRefused,
    AboveGreatestPasses,
}

#[derive(Clone, Copy, PartialEq)]
enum Wrong {
    Rule(Slip),
    Swap(usize, Int, Int),    // call, smaller and greater refusal
    Range(usize, usize, End), // call, field from 0
    Unused(usize),            // call
}

fn named(call: usize) -> String {
    if call == LOAD { "a ratio file".to_string() } else { format!("call {call}") }
}

// Every variant with its sentence; `--wrong K` is the K-th from 1.
fn variants() -> Vec<(Wrong, String)> {
    let mut all: Vec<(Wrong, String)> = SLIPS.iter().map(|(slip, says)| (Wrong::Rule(*slip), says.to_string())).collect();
    for (call, small, great) in SWAPS {
        all.push((Wrong::Swap(*call, *small, *great), format!("{}: {great} comes before {small}", named(*call))));
    }
    for call in LOAD..=11 {
        if call != LOAD && ranges(call).len() < 4 { all.push((Wrong::Unused(call), format!("call {call}: an unused field may hold any number"))); }
        for (field, (least, greatest)) in ranges(call).iter().enumerate() {
            let at = format!("{}, field {}", named(call), field + 1);
            if *least > 0 { all.push((Wrong::Range(call, field, BelowLeastPasses), format!("{at}: {} is in the range", least - 1))); }
            all.push((Wrong::Range(call, field, LeastRefused), format!("{at}: {least} is out of the range")));
            all.push((Wrong::Range(call, field, GreatestRefused), format!("{at}: {greatest} is out of the range")));
            all.push((Wrong::Range(call, field, AboveGreatestPasses), format!("{at}: {} is in the range", greatest + 1)));
        }
    }
    all
}

static WRONG: OnceLock<Wrong> = OnceLock::new();

fn wrong(slip: Slip) -> bool {
    WRONG.get() == Some(&Wrong::Rule(slip))
}

fn but<T>(right: T, slip: Slip, wrong_one: T) -> T {
    if wrong(slip) { wrong_one } else { right }
}

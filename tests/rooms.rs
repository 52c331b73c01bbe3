// An independent reader of listings: what `readlisting` must print for a text. It is written from document 01 ("Lines and columns"), from
// request 2026-01 (a maximum of 0) and from the program's description (issue 15), and shares nothing with the gate's code. Money is i128, so
// that no sum here has an edge of its own.
//
//   rooms < TEXT             the rooms, or ` 21`
//   rooms --wrong K < TEXT   the reader with one rule changed
//   rooms --slips            the changed rules, a line each: number K and sentence
//
// and, for `tests/rooms`, over a folder with texts NAME.in and what the tried program printed for each, NAME.printed:
//
//   rooms --compare DIR      a line for each text whose NAME.printed is not what it must be
//   rooms --told DIR         for each changed rule, number, the first text that tells it from the program (`-`: none does), sentence
//   rooms --one-rule DIR     for each text, its name and a changed rule with which it is accepted: number and sentence (`-`: none)
//
// `but(right, Slip, wrong)` is `right`, unless the reader runs with that slip: read the first argument and pass over the others.

use std::io::{Read, Write};
use std::path::PathBuf;
use std::sync::atomic::{AtomicUsize, Ordering::Relaxed};
use Slip::*;

type Int = i128;

// "1 million yuan is 1,000,000,000 mils."
const MILS_IN_A_MILLION: Int = 1_000_000_000;
// "L is 6,553,599,344,640,000,000 mils: no group's total passes it."
const L: Int = 6_553_599_344_640_000_000;
// "asset base and quota 0 to 9,999,999 millions"
const TOP_QUOTA: Int = 9_999_999;
// "institution code .. 0 to 99,999"
const TOP_CODE: Int = 99_999;
// "at most 64 rows"
const TOP_ROWS: usize = 64;
// "code 5 columns, class 2, maximum 8, own quota 8, net 21, open buys 21, bought 21, sold 21, line feed"
const COLUMNS: [usize; 8] = [5, 2, 8, 8, 21, 21, 21, 21];
const LINE: usize = 107; // without its line feed

// ---------------------------------------------------------------- Numbers in columns

// "All numbers are right-justified with blanks, no leading zeros, no plus, a minus only in net, no "-0"."
fn number(column: &[u8], is_net: bool) -> Option<Int> {
    let text = justified(column);
    if text.is_empty() && wrong(BlankIsZero) { return Some(0); }
    let text = if wrong(PlusAccepted) { text.strip_prefix(b"+").unwrap_or(text) } else { text };
    let (digits, negative) = match text.strip_prefix(b"-") {
        Some(rest) => (if wrong(MinusApart) { justified(rest) } else { rest }, true),
        None => (text, false),
    };
    if negative && !is_net && !wrong(MinusAnywhere) && !wrong(MinusZero) { return None; }
    if digits.is_empty() || !digits.iter().all(is_digit) { return None; }
    if digits.len() > 1 && digits[0] == b'0' && !wrong(LeadingZeros) { return None; }
    let size = digits.iter().fold(0, |size, digit| size * 10 + (*digit as Int - b'0' as Int));
    if negative && (if wrong(MinusZero) { !is_net && size != 0 } else { size == 0 }) { return None; }
    let size = but(size, Modulo64, size % (1 << 64));
    Some(if negative && !wrong(SignLost) { -size } else { size })
}

// the column without the blanks before its figure
fn justified(column: &[u8]) -> &[u8] {
    let is_blank = |b: &u8| *b == b' ' || (*b == b'\t' && wrong(TabIsBlank)) || (*b == 0 && wrong(NulIsBlank));
    let first = column.iter().position(|b| !is_blank(b)).unwrap_or(column.len());
    let mut text = &column[first..];
    while wrong(LeftJustified) && text.last() == Some(&b' ') { text = &text[..text.len() - 1]; }
    text
}

fn is_digit(b: &u8) -> bool {
    b.is_ascii_digit() || (*b == b':' && wrong(ColonIsDigit)) || (*b == b'/' && wrong(SlashIsDigit))
}

// ""-" stands for a maximum of none, and then for own quota"; the other columns have numbers alone.
fn quota(column: &[u8]) -> Option<Option<Int>> {
    let text = justified(column);
    let dash = text == b"-" || (wrong(DashAnywhere) && column.iter().filter(|b| **b != b' ').eq(b"-"));
    if dash || (wrong(DashBlank) && text.is_empty()) || (wrong(DashDouble) && text == b"--") { return Some(None); }
    number(column, false).map(Some)
}

fn money(column: &[u8]) -> Option<Int> {
    if wrong(DashIsZero) && justified(column) == b"-" { return Some(0); }
    number(column, false)
}

// ---------------------------------------------------------------- Rows

struct Row {
    code: Int,
    class: Int,
    maximum: Option<Int>, // millions
    own: Option<Int>,     // millions
    net: Int,             // mils, as the three below
    open: Int,
    bought: Int,
    sold: Int,
}

// The row of a line without its line feed, by its columns alone.
fn row_of(line: &[u8]) -> Option<Row> {
    if line.len() != LINE { return None; }
    let mut rest = line;
    let column = COLUMNS.map(|width| { let (column, behind) = rest.split_at(width); rest = behind; column });
    Some(Row {
        code: number(column[0], false)?,
        class: number(column[1], false)?,
        maximum: quota(column[2])?,
        own: quota(column[3])?,
        net: if wrong(DashIsZero) && justified(column[4]) == b"-" { 0 } else { number(column[4], true)? },
        open: money(column[5])?,
        bought: money(column[6])?,
        sold: money(column[7])?,
    })
}

// "A row obeys: each field in its range; class 1, 3 or 4; [..] own quota at most maximum; open + bought + sold at most L; net = open +
// bought − sold". 2026-01, where document 01 has "maximum 1 or more": "listing rows, written or read, may show maximum 0 from now on".
fn obeys(row: &Row) -> bool {
    let within = |least: Int, greatest: Int, x: Int| least <= x && x <= greatest;
    let code = within(but(0, CodeZero, 1), but(TOP_CODE, CodeTop, TOP_CODE - 1), row.code);
    let class = match row.class {
        1 => !wrong(ClassOne),
        3 => !wrong(ClassThree),
        4 => !wrong(ClassFour),
        0 => wrong(ClassZero),
        2 => wrong(ClassTwo),
        _ => wrong(ClassFive) && row.class == 5,
    };
    let least_total = but(0, MinusAnywhere, -L);
    let total = |x: Int| within(least_total, but(L, TotalUnbounded, Int::MAX), x) && !(wrong(TotalAtL) && x == L);
    let sum = row.open + row.bought + but(row.sold, SumWithoutSold, 0);
    let greatest_sum = match () {
        _ if wrong(SumOneMore) => L + 1,
        _ if wrong(SumOneLess) => L - 1,
        _ if wrong(SumUnread) || wrong(TotalUnbounded) => Int::MAX,
        _ => L,
    };
    code && class && quotas_agree(row) && total(row.open) && total(row.bought) && total(row.sold) && sum <= greatest_sum && net_agrees(row)
}

fn net_agrees(row: &Row) -> bool {
    let due = row.open + row.bought - but(row.sold, NetWithoutSold, 0);
    if wrong(NoneIsZeroNet) && row.maximum.is_none() && row.net != 0 { return false; }
    if wrong(NetBelowZeroRefused) && row.net < 0 { return false; }
    let size_alone = wrong(NetSizeAlone) && row.net.abs() == due.abs();
    let inexact = wrong(NetInexact) && row.net as f64 == due as f64;
    let near = wrong(NetOneOff) && (row.net - due).abs() <= 1;
    row.net == due || wrong(NetUnread) || size_alone || inexact || near || (wrong(SignLost) && row.net == due.abs())
}

fn quotas_agree(row: &Row) -> bool {
    match (row.maximum, row.own) {
        (Some(maximum), Some(own)) => {
            let least = but(0, MaximumZeroRefused, 1);
            if wrong(MaximumOneRefused) && maximum == 1 { return false; }
            if wrong(OwnUnreadAtZero) && maximum == 0 { return own <= TOP_QUOTA; }
            if wrong(NetAtZeroRefused) && maximum == 0 && row.net > 0 { return false; }
            let greatest = match () { _ if wrong(MaximumTopMore) => TOP_QUOTA + 1, _ if wrong(MaximumTopLess) => TOP_QUOTA - 1, _ => TOP_QUOTA };
            let in_range = least <= maximum && maximum <= greatest && own >= but(0, OwnZeroRefused, 1);
            let at_most = own <= but(maximum, OwnOneMore, maximum + 1) && !(wrong(OwnAtMaximum) && own == maximum);
            in_range && (at_most || wrong(OwnUnread))
        }
        (None, None) => !wrong(NoneRefused),
        (None, Some(own)) => wrong(MaximumDashAlone) || (wrong(OwnZeroAtNone) && own == 0),
        (Some(maximum), None) => wrong(OwnDashAlone) || (wrong(OwnDashAtZero) && maximum == 0),
    }
}

// ---------------------------------------------------------------- The listing

// The lines without their line feeds; nothing where some line has none.
fn lines(text: &[u8]) -> Option<Vec<&[u8]>> {
    if wrong(LineFeedUnread) {
        return text.chunks(LINE + 1).map(|line| if line.len() == LINE + 1 { Some(&line[..LINE]) } else { None }).collect();
    }
    let text = if wrong(TextCut) { &text[..text.len().min(TOP_ROWS * (LINE + 1))] } else { text };
    let mut lines = Vec::new();
    for line in text.split_inclusive(|b| *b == b'\n') {
        let Some(line) = line.strip_suffix(b"\n") else {
            if wrong(LastLineFeed) { lines.push(line); } else if !wrong(RestIgnored) { return None; }
            continue;
        };
        if line.is_empty() && wrong(EmptyLineIgnored) { continue; }
        let line = if wrong(CarriageReturn) { line.strip_suffix(b"\r").unwrap_or(line) } else { line };
        lines.push(if wrong(TailIgnored) { &line[..line.len().min(LINE)] } else { line });
    }
    Some(lines)
}

// "code with class not repeated"
fn repeats(rows: &[Row], i: usize) -> bool {
    if wrong(RepeatedAccepted) { return false; }
    let first = if wrong(RepeatedNextAlone) { i.saturating_sub(1) } else { 0 };
    rows[first..i].iter().any(|row| row.code == rows[i].code && (row.class == rows[i].class || wrong(RepeatedByCode)))
}

// "The reader checks the whole text": the rows of a listing, or how many rows stand before the first fault.
fn listing(text: &[u8]) -> Result<Vec<Row>, Vec<Row>> {
    if text.is_empty() && wrong(EmptyRefused) { return Err(Vec::new()); }
    let Some(lines) = lines(text) else { return Err(Vec::new()) };
    let mut rows = Vec::new();
    for line in &lines {
        let Some(row) = row_of(line) else { return Err(rows) };
        if !obeys(&row) && !(wrong(FirstRowAlone) && !rows.is_empty()) { return Err(rows); }
        rows.push(row);
        let i = rows.len() - 1;
        if repeats(&rows, i) || (wrong(CodesRise) && i > 0 && rows[i - 1].code > rows[i].code) { return Err(rows); }
    }
    let greatest = match () { _ if wrong(RowsOneMore) => TOP_ROWS + 1, _ if wrong(RowsOneLess) => TOP_ROWS - 1, _ => TOP_ROWS };
    if rows.len() > greatest && !wrong(RowsUncounted) { return Err(rows); }
    if wrong(RowsByCode) { rows.sort_by_key(|row| row.code); }
    if wrong(RowsTurned) { rows.reverse(); }
    Ok(rows)
}

// ---------------------------------------------------------------- What is printed

// "the room left, own quota − net in mils, signed"; none where the maximum is none
fn room(row: &Row) -> Option<Int> {
    if wrong(ZeroHasNoRoom) && row.maximum == Some(0) { return None; }
    let own = but(row.own, RoomOfMaximum, row.maximum)? * match () {
        _ if wrong(RoomUnconverted) => 1,
        _ if wrong(RoomInThousands) => 1_000_000,
        _ => MILS_IN_A_MILLION,
    };
    let net = match () {
        _ if wrong(RoomOfSize) => row.net.abs(),
        _ if wrong(RoomTurned) => -row.net,
        _ if wrong(RoomOfBuys) => row.open + row.bought,
        _ if wrong(RoomOfFills) => row.bought - row.sold,
        _ if wrong(RoomOfNetAboveZero) => row.net.max(0),
        _ => row.net,
    };
    let room = own - net;
    Some(match () {
        _ if wrong(RoomNotBelowZero) => room.max(0),
        _ if wrong(RoomUnsigned) => room.abs(),
        _ if wrong(RoomInexact) => (own as f64 - net as f64) as Int,
        _ if wrong(RoomOneLess) => room - 1,
        _ => room,
    })
}

// "code (5 columns), class (2), the room .. in 21 columns ("-" where the maximum is none), line feed"
fn room_line(row: &Row) -> String {
    let room = match room(row) {
        Some(0) if wrong(RoomMinusZero) => "-0".to_string(),
        Some(room) => room.to_string(),
        None if wrong(NoneOmitted) => return String::new(),
        None => but("-", NoneIsZero, "0").to_string(),
    };
    if wrong(NoneLeft) && room == "-" { return format!("{:>5}{:>2}-{:20}\n", row.code, row.class, ""); }
    if wrong(ZerosPrinted) { return format!("{:05}{:>2}{room:>21}\n", row.code, row.class); }
    format!("{:>5}{:>2}{room:>21}\n", row.code, row.class)
}

// "where it is refused ` 21` and a line feed; else for each row .."
fn printed(text: &[u8]) -> String {
    let all = |rows: &[Row]| rows.iter().map(room_line).collect::<String>();
    match listing(text) {
        Ok(rows) => all(&rows),
        Err(rows) if wrong(RowsBeforeFault) => all(&rows) + " 21\n",
        Err(_) if wrong(RefusedWithNumber) => " 21     0\n".to_string(),
        Err(_) if wrong(RefusedSilent) => String::new(),
        Err(_) => " 21\n".to_string(),
    }
}

// ---------------------------------------------------------------- Over a folder

// the texts of a folder by name: path and contents
fn texts(dir: &str) -> Vec<(PathBuf, Vec<u8>)> {
    let mut paths: Vec<PathBuf> = std::fs::read_dir(dir).unwrap().map(|entry| entry.unwrap().path()).collect();
    paths.retain(|path| path.extension().is_some_and(|end| end == "in"));
    paths.sort();
    paths.into_iter().map(|path| { let text = std::fs::read(&path).unwrap(); (path, text) }).collect()
}

fn name(path: &PathBuf) -> String {
    path.file_stem().unwrap().to_string_lossy().into_owned()
}

fn by_program(path: &PathBuf) -> Vec<u8> {
    std::fs::read(path.with_extension("printed")).expect("NAME.printed")
}

// the first line that differs; with an end mark neither text is the beginning of the other
fn first_difference(due: &[u8], got: &[u8]) -> String {
    let marked = |text: &[u8]| String::from_utf8_lossy(text).into_owned() + "<end>";
    let (due, got) = (marked(due), marked(got));
    let (i, (a, b)) = due.lines().zip(got.lines()).enumerate().find(|(_, (a, b))| a != b).unwrap_or((0, ("", "")));
    format!("line {}: due [{}], printed [{}]", i + 1, a.escape_debug(), b.chars().take(200).collect::<String>().escape_debug())
}

fn compare(dir: &str) {
    for (path, text) in texts(dir) {
        let (due, got) = (printed(&text), by_program(&path));
        if due.as_bytes() != got { println!("{}: {}", name(&path), first_difference(due.as_bytes(), &got)); }
    }
}

fn told(dir: &str) {
    let texts: Vec<_> = texts(dir).into_iter().map(|(path, text)| { let got = by_program(&path); (name(&path), text, got) }).collect();
    for (k, (_, says)) in SLIPS.iter().enumerate() {
        WRONG.store(k + 1, Relaxed);
        let teller = texts.iter().find(|(_, text, got)| printed(text).as_bytes() != *got);
        println!("{} {} {says}", k + 1, teller.map_or("-", |(name, ..)| name.as_str()));
    }
}

fn one_rule(dir: &str) {
    for (path, text) in texts(dir) {
        let accepts = |k: &usize| { WRONG.store(*k, Relaxed); listing(&text).is_ok() };
        match (1..=SLIPS.len()).find(accepts) {
            Some(k) => println!("{} {k} {}", name(&path), SLIPS[k - 1].1),
            None => println!("{} -", name(&path)),
        }
    }
}

fn main() {
    let arguments: Vec<String> = std::env::args().skip(1).collect();
    match arguments.iter().map(String::as_str).collect::<Vec<_>>()[..] {
        [] => {}
        ["--slips"] => return SLIPS.iter().enumerate().for_each(|(k, (_, says))| println!("{} {says}", k + 1)),
        ["--compare", dir] => return compare(dir),
        ["--told", dir] => return told(dir),
        ["--one-rule", dir] => return one_rule(dir),
        ["--wrong", k] => {
            let k = k.parse().ok().filter(|k| (1..=SLIPS.len()).contains(k));
            WRONG.store(k.expect("--wrong K: a number of --slips"), Relaxed);
        }
        _ => panic!("rooms [--wrong K | --slips | --compare DIR | --told DIR | --one-rule DIR]"),
    }
    let mut text = Vec::new();
    std::io::stdin().read_to_end(&mut text).unwrap();
    std::io::stdout().write_all(printed(&text).as_bytes()).unwrap();
}

// ---------------------------------------------------------------- Wrong readers, each by one changed rule

macro_rules! slips {
    ($($name:ident: $says:literal;)*) => {
        #[derive(Clone, Copy, PartialEq)]
        enum Slip { $($name),* }
        const SLIPS: &[(Slip, &str)] = &[$((Slip::$name, $says)),*];
    };
}

slips! {
    // numbers in columns
    LeadingZeros: "leading zeros are accepted";
    PlusAccepted: "a plus is accepted";
    MinusZero: "-0 is accepted";
    MinusApart: "blanks between the minus and its digits are accepted";
    MinusAnywhere: "open, bought and sold may be below 0";
    SignLost: "net's minus is overlooked";
    LeftJustified: "blanks behind a figure are accepted";
    BlankIsZero: "a blank column is 0";
    TabIsBlank: "a tab is a blank";
    NulIsBlank: "a NUL is a blank";
    ColonIsDigit: "the byte behind 9 is a digit";
    SlashIsDigit: "the byte before 0 is a digit";
    Modulo64: "figures are taken modulo 2^64";
    DashAnywhere: "a quota's dash may stand anywhere in its columns";
    DashBlank: "a blank quota column is a dash";
    DashDouble: "two dashes are a dash";
    DashIsZero: "a dash is accepted in the four money columns";
    // lines
    LastLineFeed: "the last line needs no line feed";
    RestIgnored: "a last line without line feed is overlooked";
    LineFeedUnread: "the 108th byte may be any byte";
    EmptyLineIgnored: "empty lines are overlooked";
    CarriageReturn: "a carriage return before the line feed is accepted";
    TailIgnored: "what stands behind the 107th byte of a line is overlooked";
    TextCut: "what stands behind the 6,912th byte is overlooked";
    EmptyRefused: "an empty text is refused";
    // rows
    CodeZero: "code 0 is refused";
    CodeTop: "code 99,999 is refused";
    ClassZero: "class 0 is accepted";
    ClassTwo: "class 2 is accepted";
    ClassFive: "class 5 is accepted";
    ClassOne: "class 1 is refused";
    ClassThree: "class 3 is refused";
    ClassFour: "class 4 is refused";
    MaximumZeroRefused: "a maximum of 0 is refused";
    MaximumOneRefused: "a maximum of 1 is refused";
    MaximumTopMore: "a maximum of 10,000,000 is accepted";
    MaximumTopLess: "a maximum of 9,999,999 is refused";
    OwnOneMore: "an own quota one above the maximum is accepted";
    OwnUnread: "any own quota is accepted";
    OwnAtMaximum: "an own quota equal to the maximum is refused";
    OwnZeroRefused: "an own quota of 0 is refused";
    OwnZeroAtNone: "an own quota of 0 is accepted where the maximum is none";
    MaximumDashAlone: "a dash for the maximum alone is accepted";
    OwnDashAlone: "a dash for the own quota alone is accepted";
    OwnUnreadAtZero: "any own quota is accepted where the maximum is 0";
    OwnDashAtZero: "a dash for the own quota is accepted where the maximum is 0";
    NetAtZeroRefused: "a net above 0 is refused where the maximum is 0";
    NoneRefused: "a maximum of none is refused";
    NoneIsZeroNet: "a net other than 0 is refused where the maximum is none";
    SumOneMore: "open + bought + sold may be L + 1";
    SumOneLess: "open + bought + sold must be below L";
    SumUnread: "open, bought and sold are held to L one by one, not their sum";
    SumWithoutSold: "open + bought are held to L, without sold";
    TotalUnbounded: "totals and their sum may be anything";
    TotalAtL: "a total of L is refused";
    NetUnread: "net may be anything";
    NetOneOff: "net may be one mil off";
    NetSizeAlone: "net may have the other sign";
    NetWithoutSold: "net = open + bought";
    NetInexact: "net is compared in doubles";
    NetBelowZeroRefused: "a net below 0 is refused";
    // the table
    RepeatedAccepted: "a code may be repeated with its class";
    RepeatedNextAlone: "a code repeated with its class is seen in the next row alone";
    RepeatedByCode: "a code may not be repeated with another class";
    CodesRise: "codes must rise";
    RowsOneMore: "65 rows are accepted";
    RowsOneLess: "64 rows are refused";
    RowsUncounted: "any number of rows is accepted";
    FirstRowAlone: "the rules of a row are checked in the first row alone";
    RowsBeforeFault: "the rows before the first fault are printed";
    RowsByCode: "rooms are printed in the order of codes";
    RowsTurned: "rooms are printed last row first";
    // the room
    RoomOfMaximum: "room = maximum − net";
    RoomOfSize: "room = own quota − the size of net";
    RoomTurned: "room = own quota + net";
    RoomOfBuys: "room = own quota − open − bought";
    RoomOfFills: "room = own quota − bought + sold";
    RoomOfNetAboveZero: "a net below 0 gives no room";
    RoomNotBelowZero: "a room below 0 is shown as 0";
    RoomUnsigned: "the room's sign is lost";
    RoomUnconverted: "millions less mils";
    RoomInThousands: "a million yuan is 1,000,000 mils";
    RoomInexact: "the room is worked out in doubles";
    RoomOneLess: "the room is one mil short";
    RoomMinusZero: "a room of 0 is shown as -0";
    NoneIsZero: "the room is 0 where the maximum is none";
    ZeroHasNoRoom: "a dash is printed where the maximum is 0";
    NoneLeft: "the dash stands at the left of its columns";
    NoneOmitted: "rows with a maximum of none are left out";
    ZerosPrinted: "codes are printed with leading zeros";
    RefusedWithNumber: "refused is ` 21     0`, as in gateday's answers";
    RefusedSilent: "nothing is printed for a refused text";
}

// 0: the right reader; K: the K-th slip from 1
static WRONG: AtomicUsize = AtomicUsize::new(0);

fn wrong(slip: Slip) -> bool {
    WRONG.load(Relaxed) == slip as usize + 1
}

fn but<T>(right: T, slip: Slip, wrong_one: T) -> T {
    if wrong(slip) { wrong_one } else { right }
}

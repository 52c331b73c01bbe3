// Rooms, listings read back and call lines, from outside: each refusal of ekhurtza_room, ekhurtza_read_row and ekhurtza_call_line with its neighbours in
// the order in which they are asked, bytes and words behind what is written, and document 01's numbers. Expected answers are worked out from the
// paper; its sentence, or the sum, stands beside them. A random day then ties the room to the row and to the next buy.
mod gate;

use gate::{call_line, read_row, Gate, BOOK, DASH, CALL_BYTES, MOST_GROUPS, PLACE, REGISTER, ROW_BYTES, ROW_WORDS};

// document 01's input, and its listing
const LINES: &str = include_str!("../crates/gateday/stdin");
const LISTING: &str = "    1 1       8       5           3740000000           2500000000           1240000000                    0\n";
const DAY: [[u64; 5]; 11] = [
    [1, 1, 1, 0, 0],
    [2, 20001, 0, 0, 0],
    [4, 1, 0, 3, 8],
    [11, 0, 0, 0, 0],
    [7, 0, 5, 0, 0],
    [8, 20001, 1, 12500, 300000],
    [8, 20001, 1, 10000, 200000],
    [8, 20001, 1, 10000, 200000],
    [9, 1, 12400, 100000, 0],
    [10, 2, 0, 0, 0],
    [9, 1, 12600, 1, 0],
];

fn opened() -> Gate {
    let mut gate = Gate::lent(REGISTER, BOOK, PLACE * 64, 7);
    assert_eq!(gate.open(), 0);
    gate
}

// ---- call lines

// The refusal, with a buffer of so many bytes; a refused one keeps every byte, an accepted one those behind the line.
fn line_of(call: [u64; 5], bytes: usize) -> (u64, Vec<u8>) {
    let mut line = vec![7; bytes];
    let refusal = call_line(call, &mut line);
    let kept = if refusal == 0 { CALL_BYTES } else { 0 };
    assert!(line[kept..].iter().all(|&byte| byte == 7), "{call:?} wrote behind its line, or is refused and wrote");
    line.truncate(CALL_BYTES);
    (refusal, line)
}

fn check_lines() {
    for (call, line) in DAY.into_iter().zip(LINES.split_inclusive('\n')) {
        for bytes in [39, 40, 100] {
            assert_eq!(line_of(call, bytes), (0, line.as_bytes().to_vec()));
        }
        assert_eq!(line_of(call, 38).0, 22, "38 bytes and a line feed");
        assert_eq!(line_of(call, 0).0, 22);
    }
    assert_eq!(LINES.lines().count(), DAY.len());
    // "the code, 1 to 11"
    for code in [0, 12, 99, u64::MAX] {
        assert_eq!(line_of([code, 0, 0, 0, 0], 39).0, 2, "code {code}");
        assert_eq!(line_of([code, 0, 0, 0, 0], 38).0, 2, "2 before 22");
    }
    // "four fields of 9": nine digits fit, ten do not; a field that the call does not use is not looked at and written 0
    let used = [2, 2, 1, 4, 4, 2, 2, 4, 3, 1, 0];
    for (code, used) in (1..).zip(used) {
        for field in 0..4 {
            let mut call = [code, 0, 0, 0, 0];
            let mut columns = ["0"; 4];
            call[1 + field] = 999_999_999;
            if field < used {
                columns[field] = "999999999";
            }
            let line = format!("{code:2}{:>9}{:>9}{:>9}{:>9}\n", columns[0], columns[1], columns[2], columns[3]);
            assert_eq!(line_of(call, 39), (0, line.into_bytes()), "{call:?}");
            for wide in [1_000_000_000, 1 << 32, u64::MAX] {
                call[1 + field] = wide;
                assert_eq!(line_of(call, 39).0, if field < used { 2 } else { 0 }, "{call:?}");
                assert_eq!(line_of(call, 38).0, if field < used { 2 } else { 22 }, "{call:?}: 2 before 22");
            }
        }
    }
}

// ---- rooms

// The room of a group, or its refusal, with so many words lent.
fn room_of(gate: &Gate, group: u64, words: usize) -> Result<i64, u64> {
    let mut out = vec![7; words];
    let refusal = gate.room(group, &mut out);
    let kept = if refusal == 0 { 2 } else { 0 };
    assert!(out[kept..].iter().all(|&word| word == 7), "a word was written that is no room's");
    if refusal != 0 {
        return Err(refusal);
    }
    assert!(out[0] < 2 && out[1] < 1 << 63 && (out[0] == 0 || out[1] > 0), "sign and size, no -0");
    Ok(if out[0] == 1 { -(out[1] as i64) } else { out[1] as i64 })
}

fn check_rooms() {
    let mut gate = opened();
    // own quota 5 million from the fifth call on; net after each call: "Article 16"
    let rooms = [Err(15), Err(15), Err(15), Ok(8_000_000_000), Ok(5_000_000_000), Ok(1_250_000_000), Ok(-750_000_000), Ok(-750_000_000), Ok(-740_000_000), Ok(1_260_000_000), Ok(1_260_000_000)];
    for (call, room) in DAY.into_iter().zip(rooms) {
        gate.call(call);
        assert_eq!(room_of(&gate, 0, 2), room, "after {call:?}");
        assert_eq!(room_of(&gate, 0, 3), room);
        // 15 before 22
        assert_eq!(room_of(&gate, 0, 1), Err(if room == Err(15) { 15 } else { 22 }));
        assert_eq!(room_of(&gate, 0, 0), Err(if room == Err(15) { 15 } else { 22 }));
    }
    for (group, refusal) in [(1, 6), (63, 6), (64, 2), (u64::MAX, 2)] {
        assert_eq!(room_of(&gate, group, 2), Err(refusal));
        assert_eq!(room_of(&gate, group, 0), Err(refusal), "2 and 6 before 22");
    }
    // "N .. other than at opening"
    gate.book[0] += 1;
    for group in [0, 1, 64] {
        assert_eq!(room_of(&gate, group, 0), Err(1));
    }
    // edge E6: own 0; net 0 gets 16, net -1 passes
    let mut gate = opened();
    for call in [[1, 9, 4, 0, 0], [2, 1, 0, 0, 0], [4, 9, 0, 7, 7], [11, 0, 0, 0, 0], [7, 0, 0, 0, 0], [8, 1, 4, 1, 1, ]] {
        assert_eq!(gate.call(call).refusal, 0);
    }
    assert_eq!((room_of(&gate, 0, 2), gate.clone().call([8, 1, 1, 1, 1]).refusal), (Ok(0), 16));
    assert_eq!(gate.call([9, 1, 1, 1, 0]).refusal, 0);
    assert_eq!((room_of(&gate, 0, 2), gate.clone().call([8, 1, 1, 1, 1]).refusal), (Ok(1), 0));
}

// ---- listings

// Row k of a text, or its refusal, with so many words lent.
fn row_in(text: &[u8], k: u64, words: usize) -> Result<Vec<u64>, u64> {
    let mut out = vec![7; words];
    let refusal = read_row(text, k, &mut out);
    let kept = if refusal == 0 { ROW_WORDS } else { 0 };
    assert!(out[kept..].iter().all(|&word| word == 7), "a word was written that is no row's");
    out.truncate(ROW_WORDS);
    if refusal == 0 { Ok(out) } else { Err(refusal) }
}

fn line(fields: [&str; 8]) -> String {
    let [code, class, maximum, own, net, open, bought, sold] = fields;
    format!("{code:>5}{class:>2}{maximum:>8}{own:>8}{net:>21}{open:>21}{bought:>21}{sold:>21}\n")
}

fn check_texts() {
    assert_eq!(line(["1", "1", "8", "5", "3740000000", "2500000000", "1240000000", "0"]), LISTING);
    let none = line(["1", "3", "-", "-", "0", "0", "0", "0"]);
    let below = line(["99999", "4", "9999999", "0", "-6553599344640000000", "0", "0", "6553599344640000000"]);
    let zero = line(["2", "3", "0", "0", "-1", "0", "0", "1"]);
    let text = [LISTING, &none, &below, &zero].concat();
    let rows = [
        vec![1, 1, 8, 5, 0, 3_740_000_000, 2_500_000_000, 1_240_000_000, 0],
        vec![1, 3, DASH, DASH, 0, 0, 0, 0, 0],
        vec![99_999, 4, 9_999_999, 0, 1, 6_553_599_344_640_000_000, 0, 0, 6_553_599_344_640_000_000],
        vec![2, 3, 0, 0, 1, 1, 0, 0, 1],
    ];
    for (k, row) in (0..).zip(&rows) {
        for words in [9, 10, 20] {
            assert_eq!(row_in(text.as_bytes(), k, words).as_ref(), Ok(row));
        }
        assert_eq!(row_in(text.as_bytes(), k, 8), Err(22));
    }
    // no row 4; 108 * k must not come round to a row that is there: 108 * 2^62 is 0 modulo 2^64
    for k in [4, 63, 64, 1 << 62, (1 << 62) + 1, u64::MAX] {
        assert_eq!(row_in(text.as_bytes(), k, 9), Err(6));
        assert_eq!(row_in(text.as_bytes(), k, 0), Err(6), "6 before 22");
    }
    assert_eq!(row_in(b"", 0, 9), Err(6), "no groups, no bytes");
    let many = |count: usize| (0..count).map(|code| line([&code.to_string(), "3", "1", "1", "0", "0", "0", "0"])).collect::<String>();
    assert_eq!(row_in(many(64).as_bytes(), 63, 9), Ok(vec![63, 3, 1, 1, 0, 0, 0, 0, 0]));
    assert_eq!(row_in(many(65).as_bytes(), 0, 9), Err(21), "at most 64 rows");
}

// Texts that are no listing, by a byte or by a rule of a row ("Lines and columns"); a proper row stands before each.
fn check_damaged_texts() {
    let good = LISTING.to_string();
    let mut texts = vec![good[..107].to_string(), good.replace('\n', "\r\n"), good.replace('\n', " "), good.replace('\n', "0"), good.clone() + "\n", good.clone() + " ", good.replace("       8", "\t      8"), good[1..].to_string()];
    for (fields, _rule) in [
        (["0", "2", "8", "5", "0", "0", "0", "0"], "class 1, 3 or 4"),
        (["0", "5", "8", "5", "0", "0", "0", "0"], "class 1, 3 or 4"),
        (["02", "3", "8", "5", "0", "0", "0", "0"], "no leading zeros"),
        (["+2", "3", "8", "5", "0", "0", "0", "0"], "no plus"),
        (["2 ", "3", "8", "5", "0", "0", "0", "0"], "right-justified"),
        (["", "3", "8", "5", "0", "0", "0", "0"], "no other field may be missing"),
        (["-", "3", "8", "5", "0", "0", "0", "0"], "no other field may be missing"),
        (["2", "3", "0", "1", "0", "0", "0", "0"], "own quota at most maximum, which is 0"),
        (["2", "3", "0", "-", "0", "0", "0", "0"], "- stands for a maximum of none, and then for own quota"),
        (["2", "3", "-", "0", "0", "0", "0", "0"], "- stands for a maximum of none, and then for own quota"),
        (["2", "3", "-0", "0", "0", "0", "0", "0"], "a minus only in net"),
        (["2", "3", "00", "0", "0", "0", "0", "0"], "no leading zeros"),
        (["2", "3", "10000000", "5", "0", "0", "0", "0"], "quota 0 to 9,999,999"),
        (["2", "3", "8", "9", "0", "0", "0", "0"], "own quota at most maximum"),
        (["2", "3", "8", "-", "0", "0", "0", "0"], "- stands for a maximum of none, and then for own quota"),
        (["2", "3", "-", "8", "0", "0", "0", "0"], "- stands for a maximum of none, and then for own quota"),
        (["2", "3", "8", "5", "-0", "0", "0", "0"], "no -0"),
        (["2", "3", "8", "5", "1", "0", "0", "0"], "net = open + bought - sold"),
        (["2", "3", "8", "5", "1", "0", "0", "1"], "net = open + bought - sold"),
        (["2", "3", "8", "5", "1", "1", "1", "-1"], "a minus only in net"),
        (["2", "3", "8", "5", "6553599344640000001", "6553599344640000001", "0", "0"], "no group's total passes L"),
        (["2", "3", "8", "5", "6553599344640000001", "6553599344640000000", "1", "0"], "open + bought + sold at most L"),
        (["1", "1", "8", "5", "0", "0", "0", "0"], "code with class not repeated"),
    ] {
        texts.push(good.clone() + &line(fields));
    }
    for text in texts {
        for (k, words) in [(0, 9), (0, 0), (1, 9), (99, 0)] {
            assert_eq!(row_in(text.as_bytes(), k, words), Err(21), "21 before 6 and 22: {text:?}");
        }
    }
}

// ---- maximum 0 (2026-01): "listing rows, written or read, may show maximum 0 from now on"

// By 1/100 a base of 49 gives 0.49, which is 0: a standing figure, and at the close a maximum of 0 and not none.
fn check_maximum_zero() {
    let mut gate = opened();
    assert_eq!(gate.load(b" 1   1 100\n 3   1 100\n 4   1 100\n"), 0);
    for call in [[1, 2, 3, 0, 0], [2, 10, 0, 0, 0], [4, 5, 0, 49, 0]] {
        assert_eq!(gate.call(call).refusal, 0);
    }
    assert_eq!(room_of(&gate, 0, 2), Err(15), "no maximum before the close");
    assert_eq!(gate.call([11, 0, 0, 0, 0]).refusal, 0);
    for (calls, net, room, buy) in [
        (&[][..], ("0", 0), 0, 16),
        // one mil sold: net -1 is below the own quota of 0
        (&[[8, 10, 4, 1, 1], [9, 1, 1, 1, 0]][..], ("-1", 1), 1, 0),
    ] {
        for &call in calls {
            assert_eq!(gate.call(call).refusal, 0);
        }
        let sold = net.1.to_string();
        let mut buffer = [0; ROW_BYTES * MOST_GROUPS];
        let listed = gate.listing(&mut buffer).number as usize;
        assert_eq!(std::str::from_utf8(&buffer[..listed]).unwrap(), line(["2", "3", "0", "0", net.0, "0", "0", &sold]));
        assert_eq!(row_in(&buffer[..listed], 0, ROW_WORDS), Ok(vec![2, 3, 0, 0, net.1, net.1, 0, 0, net.1]));
        assert_eq!(room_of(&gate, 0, 2), Ok(room));
        assert_eq!(gate.clone().call([8, 10, 1, 1, 1]).refusal, buy);
    }
    // call 7: 0 is the maximum, 1 is above it; a raise to 1 is above it, to 0 is out of its range
    for (call, refusal) in [([7, 0, 0, 0, 0], 0), ([7, 0, 1, 0, 0], 14), ([5, 5, 0, 1, 0], 0), ([5, 5, 0, 0, 0], 2)] {
        assert_eq!(gate.clone().call(call).refusal, refusal, "{call:?}");
    }
    // base 0 with quota 0 withdraws the figure of 0, once
    assert_eq!(gate.call([4, 5, 0, 0, 0]).refusal, 0);
    assert_eq!(gate.call([4, 5, 0, 0, 0]).refusal, 9);
    assert_eq!(gate.call([11, 0, 0, 0, 0]).refusal, 0);
    assert_eq!(room_of(&gate, 0, 2), Err(15), "none stands: none");
}

// ---- a random day: room and row, row and text, room and the next buy

fn check_random_day() {
    let mut seed: u64 = 20_261_116;
    let mut draw = |below: u64| {
        seed = seed.wrapping_mul(6_364_136_223_846_793_005).wrapping_add(1_442_695_040_888_963_407);
        (seed >> 33) % below
    };
    let mut gate = opened();
    for call in [[1, 1, 1, 0, 0], [1, 2, 3, 0, 0], [1, 3, 4, 0, 0], [2, 10, 0, 0, 0], [2, 11, 1, 0, 0], [4, 1, 0, 3, 8], [4, 5, 1, 2, 2], [11, 0, 0, 0, 0]] {
        assert_eq!(gate.call(call).refusal, 0);
    }
    let (mut passed, mut stopped) = (0, 0);
    for _ in 0..4000 {
        let (unit, order) = (10 + draw(2), 1 + draw(64));
        let call = match draw(60) {
            0 => [11, 0, 0, 0, 0],
            1 => [7, unit - 10, draw(9), 0, 0],
            2..=25 => [8, unit, [1, 2, 4][draw(3) as usize], 10_000 + draw(3), 50_000 + draw(50_000)],
            26..=45 => [9, order, 9_999 + draw(4), 1 + draw(60_000), 0],
            _ => [10, order, 0, 0, 0],
        };
        gate.call(call);
        let mut buffer = [0; ROW_BYTES * MOST_GROUPS];
        let listed = gate.listing(&mut buffer).number as usize;
        for group in 0..3 {
            let mut row = vec![0; ROW_WORDS];
            assert_eq!(gate.row(group, &mut row), 0);
            assert_eq!(row_in(&buffer[..listed], group, ROW_WORDS).as_ref(), Ok(&row));
            let net = if row[4] == 1 { -(row[5] as i64) } else { row[5] as i64 };
            let room = room_of(&gate, group, 2);
            assert_eq!(room, if row[2] == DASH { Err(15) } else { Ok(row[3] as i64 * 1_000_000_000 - net) });
            if group < 2 {
                let buy = gate.clone().call([8, 10 + group, 1, 1, 1]).refusal;
                assert_eq!(room.unwrap() >= 1, buy != 16, "a buy passes exactly where the room is 1 or more: {room:?}, {buy}");
                if buy == 16 { stopped += 1 } else { passed += 1 }
            }
        }
    }
    assert!(passed > 500 && stopped > 500, "too little was tried: {passed} passed, {stopped} stopped");
}

fn main() {
    check_lines();
    check_rooms();
    check_texts();
    check_damaged_texts();
    check_maximum_zero();
    check_random_day();
}

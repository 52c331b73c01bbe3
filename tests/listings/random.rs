// Random listings for `tests/rooms`, good ones and damaged ones, the same for the same seed: `random DIR SEED COUNT` writes COUNT texts
// DIR/random-SEED-NNN.in. It knows how a row is written, and aims at the edges; whether a text is a listing is for the readers to say. About a
// third is left undamaged; the others get one damage, sometimes a second.

const L: i128 = 6_553_599_344_640_000_000; // mils
const TOP_QUOTA: i128 = 9_999_999; // millions
const MILLION: i128 = 1_000_000_000; // mils

// splitmix64
struct Draws(u64);

impl Draws {
    fn next(&mut self) -> u64 {
        self.0 = self.0.wrapping_add(0x9e37_79b9_7f4a_7c15);
        let mut z = self.0;
        z = (z ^ (z >> 30)).wrapping_mul(0xbf58_476d_1ce4_e5b9);
        z = (z ^ (z >> 27)).wrapping_mul(0x94d0_49bb_1331_11eb);
        z ^ (z >> 31)
    }

    // 0 to n − 1
    fn below(&mut self, n: usize) -> usize {
        (self.next() % n.max(1) as u64) as usize
    }

    fn within(&mut self, least: i128, greatest: i128) -> i128 {
        least + (self.next() as i128) % (greatest - least + 1).max(1)
    }

    fn one_in(&mut self, n: usize) -> bool {
        self.below(n) == 0
    }

    fn of<T: Copy>(&mut self, choices: &[T]) -> T {
        choices[self.below(choices.len())]
    }

    // a number of 0 to `greatest`: an end, near one, or of any count of digits
    fn figure(&mut self, greatest: i128) -> i128 {
        match self.below(6) {
            0 => 0,
            1 => self.within(0, 3.min(greatest)),
            2 => greatest,
            3 => self.within((greatest - 3).max(0), greatest),
            4 => self.within(0, greatest),
            _ => { let digits = self.below(20) as u32; self.within(0, greatest.min(10_i128.pow(digits))) }
        }
    }
}

// ---------------------------------------------------------------- Good listings

// code, class, maximum, own quota, net, open, bought, sold; -1 stands for a quota of none
type Figures = [i128; 8];

fn quotas(draws: &mut Draws) -> (i128, i128) {
    if draws.one_in(5) { return (-1, -1); }
    let maximum = draws.figure(TOP_QUOTA);
    (maximum, draws.figure(maximum))
}

// open, bought and sold, together at most L, often L itself, and often with a net near the own quota
fn totals(draws: &mut Draws, own: i128) -> [i128; 3] {
    let sum = draws.figure(L);
    let first = draws.figure(sum);
    let second = draws.figure(sum - first);
    let mut totals = match draws.below(4) {
        0 => [0, 0, 0],
        1 => { let net = own.max(0) * MILLION + draws.within(-2, 2); [net.max(0), 0, (-net).max(0)] }
        _ => [first, second, if draws.one_in(2) { sum - first - second } else { 0 }],
    };
    let places = if totals[2] == 0 { draws.of(&[0, 2]) } else { draws.below(3) };
    totals.rotate_left(places);
    totals
}

fn listing(draws: &mut Draws) -> Vec<Figures> {
    let count = match draws.below(12) { 0 => 64, 1 => 63, 2 => 0, 3 => draws.below(65), _ => 1 + draws.below(5) };
    let codes = draws.of(&[count as i128, 99_999, 3 * count as i128]); // few codes: the same ones with other classes
    let mut rows: Vec<Figures> = Vec::new();
    while rows.len() < count {
        let (code, class) = (draws.figure(codes), draws.of(&[1, 3, 4]));
        if rows.iter().any(|row| row[0] == code && row[1] == class) {
            if rows.iter().filter(|row| row[0] == code).count() == 3 && codes < 64 { break; }
            continue;
        }
        let (maximum, own) = quotas(draws);
        let [open, bought, sold] = totals(draws, own);
        rows.push([code, class, maximum, own, open + bought - sold, open, bought, sold]);
    }
    rows
}

// ---------------------------------------------------------------- How rows are written

const WIDTHS: [usize; 8] = [5, 2, 8, 8, 21, 21, 21, 21];

fn written(rows: &[Figures]) -> Vec<u8> {
    let mut text = String::new();
    for row in rows {
        for (i, (x, width)) in row.iter().zip(WIDTHS).enumerate() {
            let shown = if *x == -1 && (i == 2 || i == 3) { "-".to_string() } else { x.to_string() };
            text += &format!("{shown:>width$}");
        }
        text.push('\n');
    }
    text.into_bytes()
}

// ---------------------------------------------------------------- Damage

// to the figures: the text is written as if they were right
fn damage_figures(draws: &mut Draws, rows: &mut Vec<Figures>) {
    if rows.is_empty() { return; }
    let (i, j) = (draws.below(rows.len()), draws.below(rows.len()));
    match draws.below(9) {
        0 => { rows.remove(i); }
        1 => { let row = rows[i]; rows.insert(j, row); }
        2 => rows.swap(i, j),
        3 => { let field = draws.below(8); rows[i][field] = (rows[i][field] + draws.of(&[1, -1])).max(0); }
        4 => rows[i][4] = -rows[i][4],
        5 => rows[i][1] = draws.of(&[0, 1, 2, 3, 4, 5]),
        6 => { let field = draws.of(&[2, 3]); rows[i][field] = draws.of(&[-1, 0, 1, rows[i][2] + 1, TOP_QUOTA + 1]); }
        // totals that pass L with a net that fits
        7 => {
            let field = 5 + draws.below(3);
            let more = L - rows[i][5] - rows[i][6] - rows[i][7] + draws.within(0, 1);
            rows[i][field] += more;
            rows[i][4] += if field == 7 { -more } else { more };
        }
        _ => { rows[i][0] = rows[j][0]; }
    }
}

// to the bytes
fn damage_bytes(draws: &mut Draws, text: &mut Vec<u8>) {
    if text.is_empty() { text.push(draws.of(b" \n0-x")); return; }
    let at = draws.below(text.len());
    let digit = text.iter().cycle().skip(at).take(text.len()).position(u8::is_ascii_digit).map_or(at, |i| (at + i) % text.len());
    match draws.below(10) {
        0 => text[at] = draws.of(b" 0123456789-+\n\r\t\0/:.,x\xa0\xb0\xff"),
        1 => text[at] = draws.below(256) as u8,
        2 | 3 => text[digit] = draws.of(b"0123456789"),
        4 => { text.remove(at); }
        5 => text.insert(at, draws.of(b" 0-\n")),
        // a figure moved one column to the left or to the right, across the end of its columns
        6 => { let behind = (digit + 1).min(text.len() - 1); text.swap(digit, behind); }
        7 => text.swap(digit, digit.saturating_sub(1)),
        8 => { let kept = text.len() - 1 - draws.below(text.len().min(109)); text.truncate(kept); }
        _ => { let more = draws.of(&[&b"\n"[..], b" ", b"\r\n", b"\0"]); text.extend_from_slice(more); }
    }
}

// a digit in front of a figure, or a sign
fn damage_front(draws: &mut Draws, text: &mut [u8]) {
    let fronts: Vec<usize> = (1..text.len()).filter(|i| text[i - 1] == b' ' && text[*i] != b' ').collect();
    if !fronts.is_empty() { text[draws.of(&fronts) - 1] = draws.of(b"000-+1"); }
}

fn damaged(draws: &mut Draws, rows: &mut Vec<Figures>) -> Vec<u8> {
    match draws.below(5) {
        0 | 1 => { damage_figures(draws, rows); written(rows) }
        2 => { let mut text = written(rows); damage_front(draws, &mut text); text }
        _ => {
            let mut text = written(rows);
            damage_bytes(draws, &mut text);
            if draws.one_in(10) { damage_bytes(draws, &mut text); }
            text
        }
    }
}

fn main() {
    let arguments: Vec<String> = std::env::args().skip(1).collect();
    let [dir, seed, count] = &arguments[..] else { panic!("random DIR SEED COUNT") };
    let mut draws = Draws(seed.parse().unwrap());
    for i in 0..count.parse::<usize>().unwrap() {
        let mut rows = listing(&mut draws);
        let text = if draws.one_in(3) { written(&rows) } else { damaged(&mut draws, &mut rows) };
        std::fs::write(format!("{dir}/random-{seed}-{i:03}.in"), text).unwrap();
    }
}

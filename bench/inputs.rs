//! Random inputs of the counter program: registers and slips of all kinds, whole and damaged.

use crate::paper::{LIST_ROOM, Replica};

/// Random numbers from a seed (splitmix64).
pub struct Dice(pub u64);

impl Dice {
    fn next(&mut self) -> u64 {
        self.0 = self.0.wrapping_add(0x9e37_79b9_7f4a_7c15);
        let mixed = (self.0 ^ (self.0 >> 30)).wrapping_mul(0xbf58_476d_1ce4_e5b9);
        let mixed = (mixed ^ (mixed >> 27)).wrapping_mul(0x94d0_49bb_1331_11eb);
        mixed ^ (mixed >> 31)
    }

    pub fn below(&mut self, bound: usize) -> usize {
        (self.next() % bound as u64) as usize
    }

    pub fn one_in(&mut self, n: usize) -> bool {
        self.below(n) == 0
    }

    fn pick<T: Copy>(&mut self, of: &[T]) -> T {
        of[self.below(of.len())]
    }

    fn number(&mut self, of: &[u32]) -> u32 {
        self.pick(of)
    }
}

/// Bytes that do harm where they stand.
const HARM: [u8; 12] = [b'\n', b'\r', 0, b' ', b'0', b'9', b'/', b':', b'=', b'x', 127, 255];

// ---------------------------------------------------------------------------------------------- registers

/// Codes that look alike: few digits, many leading zeros.
fn code(dice: &mut Dice, len: usize) -> String {
    (0..len).map(|_| dice.pick(&['0', '0', '1', '7'])).collect()
}

/// Different codes for 1 to 16 shops; in some registers all are of eight digits.
fn codes(dice: &mut Dice) -> Vec<String> {
    let count = dice.pick(&[1, 2, 3, 3, 4, 5, 8, 15, 16, 16]);
    let longest = dice.one_in(4);
    let mut codes: Vec<String> = Vec::new();
    while codes.len() < count {
        let len = if longest { 8 } else { 1 + dice.below(8) };
        let code = code(dice, len);
        if !codes.contains(&code) {
            codes.push(code);
        }
    }
    codes
}

fn register(dice: &mut Dice, codes: &[String]) -> Vec<u8> {
    let mut text = format!("shops={:02}\n", codes.len());
    for code in codes {
        let opening = dice.below(1000) as u32;
        text += &format!("shop={code}:{:06}\n", dice.number(&[0, opening, opening, opening, 999_999]));
    }
    (text + &format!("own={}\n", codes[dice.below(codes.len())])).into_bytes()
}

/// A register that is refused for its shops: 12, 2, or both.
fn spoiled_register(dice: &mut Dice, codes: &[String]) -> Vec<u8> {
    let mut codes = codes.to_vec();
    let fault = dice.below(3);
    if fault > 0 {
        let twin = codes[0].clone();
        codes.truncate(15);
        codes.push(twin);
    }
    let text = String::from_utf8(register(dice, &codes)).expect("ASCII");
    // With one digit more the own code may be listed all the same, or have nine.
    if fault < 2 { text.replace("own=", "own=1") } else { text }.into_bytes()
}

// ---------------------------------------------------------------------------------------------- slips

/// What slips are made of: the codes, and a replica that tells which numbers and amounts will do.
struct Maker<'a> {
    dice: &'a mut Dice,
    codes: Vec<String>,
    replica: Replica,
    /// How rare faults are; where they are frequent, all lines are soon stuck.
    calm: usize,
    /// What was made after the last empty line.
    left: Vec<u8>,
}

impl Maker<'_> {
    fn fault(&mut self, one_in: usize) -> bool {
        self.dice.one_in(one_in * self.calm)
    }

    fn shop(&mut self) -> usize {
        self.dice.below(self.codes.len())
    }

    /// The code of a shop, or now and then another.
    fn code(&mut self, place: usize) -> String {
        if self.fault(50) {
            let len = self.dice.below(10);
            return code(self.dice, len);
        }
        self.codes[place].clone()
    }

    fn number(&mut self, payer: usize) -> u32 {
        let taken = self.replica.shops[payer].taken;
        if self.fault(12) { self.dice.number(&[0, 1, taken, taken + 2, 999_999]) } else { taken + 1 }
    }

    /// Small ones, all that the shop has, one more, far too much, none.
    fn amount(&mut self, payer: usize) -> u32 {
        let balance = self.replica.shops[payer].balance.min(999_998);
        let small = 1 + self.dice.below(balance as usize / 4 + 1) as u32;
        if self.fault(20) {
            return self.dice.number(&[0, balance + 1, balance + 1, 999_999]);
        }
        self.dice.number(&[small, small, small, balance.max(1)])
    }

    /// A number of that shop that is done, or comes next where none is; now and then one that is some way off.
    fn need(&mut self, place: usize) -> u32 {
        let applied = self.replica.shops[place].applied;
        if self.fault(40) {
            return self.dice.number(&[0, applied + 1, applied + 2, 999_999]);
        }
        applied.max(1)
    }

    /// Dependencies in register order and without the payer, or now and then against the rules.
    fn deps(&mut self, payer: usize) -> Vec<String> {
        let share = self.dice.pick(&[0, 0, 1, 3, 10]);
        let mut places: Vec<usize> = (0..self.codes.len()).filter(|_| self.dice.below(10) < share).collect();
        // A number of a shop that has none applied makes a slip wait, and so it is a fault.
        places.retain(|&place| self.replica.shops[place].applied > 0 || self.fault(10));
        if !self.fault(30) {
            places.retain(|&place| place != payer);
        }
        if self.fault(30) && !places.is_empty() {
            let twice = self.dice.pick(&places);
            let at = self.dice.below(places.len() + 1);
            places.insert(at, twice);
        }
        if self.fault(30) {
            places.reverse();
        }
        places.into_iter().map(|place| format!("dep={}:{:06}\n", self.code(place), self.need(place))).collect()
    }

    fn slip(&mut self) -> Vec<u8> {
        let payer = self.shop();
        let others = self.shop();
        let payee = if others == payer && !self.fault(10) { (payer + 1) % self.codes.len() } else { others };
        let deps = self.deps(payer);
        let (payer_code, payee_code) = (self.code(payer), self.code(payee));
        let (number, amount) = (self.number(payer), self.amount(payer));
        let count = deps.len();
        let text = format!(
            "payer={payer_code}\nnumber={number:06}\npayee={payee_code}\namount={amount:06}\ndeps={count:02}\n"
        );
        (text + &deps.concat()).into_bytes()
    }

    /// The next slip chunk, whole or damaged.
    fn chunk(&mut self) -> Vec<u8> {
        let whole = self.slip();
        if self.fault(6) { damaged(self.dice, whole) } else { whole }
    }

    /// The replica takes the chunks that these bytes close, as the program should.
    fn take(&mut self, bytes: &[u8]) {
        self.left.extend(bytes);
        let ends = |left: &[u8]| (0..left.len()).find(|&at| left[at] == b'\n' && (at == 0 || left[at - 1] == b'\n'));
        while let Some(end) = ends(&self.left) {
            let chunk: Vec<u8> = self.left.drain(..=end).collect();
            let _ = self.replica.take_owned(&chunk[..end], &mut [0; LIST_ROOM]);
        }
    }

    /// Two slips that depend on each other, for the next numbers of two shops.
    fn circle(&mut self) -> [Vec<u8>; 2] {
        let (one, other) = (self.shop(), self.shop());
        [(one, other), (other, one)].map(|(payer, of)| {
            let (number, need) = (self.replica.shops[payer].taken + 1, self.replica.shops[of].taken + 1);
            let text = format!("payer={}\nnumber={number:06}\npayee={}\n", self.codes[payer], self.codes[of]);
            (text + &format!("amount=000001\ndeps=01\ndep={}:{need:06}\n", self.codes[of])).into_bytes()
        })
    }
}

// ---------------------------------------------------------------------------------------------- damage

/// A text with some harm done to it.
fn damaged(dice: &mut Dice, mut text: Vec<u8>) -> Vec<u8> {
    let at = dice.below(text.len());
    let byte = dice.pick(&HARM);
    match dice.below(10) {
        0 => text[at] = byte,
        1 => text.insert(at, byte),
        2 => drop(text.remove(at)),
        3 => text.truncate(at),
        4 => text.push(byte),
        5 => text.extend(text.clone()),
        6 => text = text.iter().flat_map(|&byte| if byte == b'\n' { vec![13, 10] } else { vec![byte] }).collect(),
        7 => text = Vec::new(),
        8 => text = (0..dice.below(80)).map(|_| dice.pick(&HARM)).collect(),
        _ => lengthened(dice, &mut text, at),
    }
    text
}

/// A text made longer than any: at its end or in a line, in short lines or without any, to about a given length.
fn lengthened(dice: &mut Dice, text: &mut Vec<u8>, at: usize) {
    let longer = dice.pick(&[358, 359, 366, 367, 368, 1000, 5000, 9000, 70_000]) + dice.below(3);
    let at = if dice.one_in(2) { text.len() } else { at };
    let word: &[u8] = dice.pick(&[&b"x\n"[..], b"0", b"\0", b"dep=1:000001\n"]);
    let more: Vec<u8> = word.iter().copied().cycle().take(longer.saturating_sub(text.len())).collect();
    text.splice(at..at, more);
}

// ---------------------------------------------------------------------------------------------- inputs

/// Inputs that hardly have a register.
fn strange(dice: &mut Dice) -> Vec<u8> {
    match dice.below(5) {
        0 => Vec::new(),
        1 => b"\n".repeat(1 + dice.below(4)),
        2 => [b"\n", &register(dice, &["1".to_string()])[..]].concat(),
        3 => vec![0; 1 + dice.below(9)],
        _ => (0..dice.below(9000)).map(|_| dice.pick(&HARM)).collect(),
    }
}

/// More slip chunks than are read: empty ones, and the last few not empty.
fn too_many(dice: &mut Dice) -> Vec<u8> {
    let register = b"shops=02\nshop=1:000009\nshop=2:000000\nown=1\n\n";
    let empty = b"\n".repeat(999_990 + dice.below(12));
    let slips = (1..9).map(|number| format!("payer=1\nnumber={number:06}\npayee=2\namount=000001\ndeps=00\n\n"));
    [&register[..], &empty, slips.collect::<String>().as_bytes()].concat()
}

/// The longest register and the longest slips, as they are and with a little or much behind them.
fn longest(dice: &mut Dice) -> Vec<u8> {
    let codes: Vec<String> = (0..16).map(|i| format!("{:08}", 7 * i)).collect();
    let mut input = register(dice, &codes);
    for number in 1..=1 + dice.below(6) {
        input.extend(dice.pick(&[&b""[..], b"", b"0", b"x\n", b"dep=1:000001\n"]).repeat(dice.pick(&[1, 1, 500])));
        let head = format!("\npayer={}\nnumber={number:06}\npayee={}\namount=000001\ndeps=15\n", codes[15], codes[0]);
        let deps: String = codes[..15].iter().map(|code| format!("dep={code}:000001\n")).collect();
        input.extend((head + &deps).into_bytes());
    }
    input
}

/// The input's end: with its last empty line, without, with more of them, or cut.
fn ended(dice: &mut Dice, mut input: Vec<u8>) -> Vec<u8> {
    match dice.below(5) {
        0 => {}
        1 => drop(input.pop()),
        2 => input.truncate(input.len().saturating_sub(2)),
        3 => input.extend(b"\n".repeat(1 + dice.below(4))),
        _ => input.extend(b"payer=1"),
    }
    input
}

/// The slips of an input, each with the empty line after it; that may be missing, or be one of many.
fn slips(maker: &mut Maker) -> Vec<u8> {
    let count = if maker.dice.one_in(8) { 200 + maker.dice.below(400) } else { maker.dice.below(16) };
    let mut input = Vec::new();
    for _ in 0..count {
        let chunks = if maker.fault(40) { maker.circle().to_vec() } else { vec![maker.chunk()] };
        for chunk in chunks {
            let empty = if maker.fault(25) { maker.dice.below(5) } else { 1 };
            let bytes = [chunk, b"\n".repeat(empty)].concat();
            maker.take(&bytes);
            input.extend(bytes);
        }
    }
    input
}

/// A random input of the counter program.
pub fn input(dice: &mut Dice) -> Vec<u8> {
    if dice.one_in(25) {
        return strange(dice);
    }
    if dice.one_in(250) {
        return too_many(dice);
    }
    if dice.one_in(30) {
        let input = longest(dice);
        return ended(dice, input);
    }
    let codes = codes(dice);
    let whole = register(dice, &codes);
    let replica = Replica::open(&whole).expect("a register that is whole");
    let register = match dice.below(16) {
        0 => damaged(dice, whole),
        1 => spoiled_register(dice, &codes),
        _ => whole,
    };
    let calm = dice.pick(&[1, 2, 10, 50]);
    let slips = slips(&mut Maker { dice, codes, replica, calm, left: Vec::new() });
    ended(dice, [register, b"\n".to_vec(), slips].concat())
}

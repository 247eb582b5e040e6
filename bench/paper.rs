//! The rules of paper 01 in plain Rust: registers and slips as texts, and the replica that takes, issues and tells balances.
//! Written from the paper alone; a replica changes its state in place.

use std::io::Write;

/// The most shops, the most slips that wait for a shop, the most digits of a code, the most dependencies of a slip.
pub const SHOPS: usize = 16;
pub const PLACES: usize = 8;
pub const DIGITS: usize = 8;
pub const DEPS: usize = 15;
/// The largest opening credit, amount and slip number.
pub const MOST: u32 = 999_999;
/// What a lent buffer for a register, a lent buffer for a slip and a lent list must hold at least.
pub const REGISTER_ROOM: usize = 358;
pub const SLIP_ROOM: usize = 366;
pub const LIST_ROOM: usize = 128;

/// "Numbers of the answers": answer 0 is `Ok`.
#[derive(Clone, Copy, Debug, PartialEq, Eq)]
pub enum Refusal {
    Form = 1,
    Shop,
    Oneself,
    Range,
    Deps,
    Number,
    Full,
    Busy,
    Short,
    UsedUp,
    Room,
    Twin,
    State,
}

/// The `why` of each answer, by its number.
pub const WHY: [&str; 14] = [
    "ok", "form", "shop", "self", "range", "deps", "number", "full", "busy", "short", "usedup", "room", "twin", "state",
];

/// The number of an answer.
pub fn number_of<T>(answer: &Result<T, Refusal>) -> usize {
    answer.as_ref().err().map_or(0, |&refusal| refusal as usize)
}

/// The refusal where the condition holds.
fn refuse_if(holds: bool, refusal: Refusal) -> Result<(), Refusal> {
    if holds { Err(refusal) } else { Ok(()) }
}

// ---------------------------------------------------------------------------------------------- values

/// A shop's code; the places after its length are zero.
#[derive(Clone, Copy, Debug, Default, PartialEq, Eq)]
pub struct Code {
    pub digits: [u8; DIGITS],
    pub len: usize,
}

impl Code {
    /// The code of 1 to 8 decimal digits.
    pub fn new(bytes: &[u8]) -> Option<Code> {
        if bytes.is_empty() || bytes.len() > DIGITS || !bytes.iter().all(u8::is_ascii_digit) {
            return None;
        }
        let mut digits = [0; DIGITS];
        digits[..bytes.len()].copy_from_slice(bytes);
        Some(Code { digits, len: bytes.len() })
    }

    /// The digits of a code that fits.
    pub fn bytes(&self) -> &[u8] {
        &self.digits[..self.len]
    }

    fn fits(&self) -> bool {
        self.digits.get(..self.len).and_then(Code::new) == Some(*self)
    }
}

#[derive(Clone, Copy, Debug, Default, PartialEq, Eq)]
pub struct Shop {
    pub code: Code,
    pub opening: u32,
}

#[derive(Clone, Copy, Debug, Default, PartialEq, Eq)]
pub struct Register {
    pub count: usize,
    pub shops: [Shop; SHOPS],
    pub own: Code,
}

impl Register {
    /// A shop's place in the register.
    pub fn position(&self, code: &Code) -> Option<usize> {
        self.shops[..self.count].iter().position(|shop| shop.code == *code)
    }

    /// The place of the shop with this code, where it comes in as bytes.
    pub fn position_of_bytes(&self, bytes: &[u8]) -> Option<usize> {
        self.position(&Code::new(bytes)?)
    }

    /// Can a text of the layout carry it?
    fn fits(&self) -> bool {
        if !(1..=SHOPS).contains(&self.count) {
            return false;
        }
        let (listed, unused) = self.shops.split_at(self.count);
        listed.iter().all(|shop| shop.code.fits() && shop.opening <= MOST)
            && unused.iter().all(|shop| *shop == Shop::default())
            && self.own.fits()
    }

    /// Checks 1, 12 and 2 of a register.
    fn check(&self) -> Result<(), Refusal> {
        refuse_if(!self.fits(), Refusal::Form)?;
        let listed = &self.shops[..self.count];
        let twin = (1..listed.len()).any(|i| listed[..i].iter().any(|shop| shop.code == listed[i].code));
        refuse_if(twin, Refusal::Twin)?;
        refuse_if(self.position(&self.own).is_none(), Refusal::Shop)
    }

    /// Checks 4, 2, 3 and 5 of a slip, which then has positions in place of codes.
    fn locate(&self, slip: &Slip) -> Result<Waiting, Refusal> {
        let deps = &slip.deps[..slip.count];
        let zero = slip.number == 0 || slip.amount == 0 || deps.iter().any(|dep| dep.number == 0);
        refuse_if(zero, Refusal::Range)?;
        let position = |code: &Code| self.position(code).ok_or(Refusal::Shop);
        let (payer, payee) = (position(&slip.payer)?, position(&slip.payee)?);
        let mut positions = [0; DEPS];
        for (place, dep) in positions.iter_mut().zip(deps) {
            *place = position(&dep.code)?;
        }
        let positions = &positions[..slip.count];
        refuse_if(payee == payer, Refusal::Oneself)?;
        let rising = positions.windows(2).all(|pair| pair[0] < pair[1]);
        refuse_if(!rising || positions.contains(&payer), Refusal::Deps)?;
        let mut needs = [0; SHOPS];
        for (&place, dep) in positions.iter().zip(deps) {
            needs[place] = dep.number;
        }
        Ok(Waiting { payer, number: slip.number, payee, amount: slip.amount, needs })
    }
}

#[derive(Clone, Copy, Debug, Default, PartialEq, Eq)]
pub struct Dep {
    pub code: Code,
    pub number: u32,
}

#[derive(Clone, Copy, Debug, Default, PartialEq, Eq)]
pub struct Slip {
    pub payer: Code,
    pub number: u32,
    pub payee: Code,
    pub amount: u32,
    pub count: usize,
    pub deps: [Dep; DEPS],
}

impl Slip {
    /// Can a text of the layout carry it?
    fn fits(&self) -> bool {
        if self.count > DEPS {
            return false;
        }
        let (named, unused) = self.deps.split_at(self.count);
        self.payer.fits()
            && self.payee.fits()
            && self.number <= MOST
            && self.amount <= MOST
            && named.iter().all(|dep| dep.code.fits() && dep.number <= MOST)
            && unused.iter().all(|dep| *dep == Dep::default())
    }
}

// ---------------------------------------------------------------------------------------------- texts

/// What is left of a text that is read from its front.
struct Reader<'a>(&'a [u8]);

impl Reader<'_> {
    fn word(&mut self, word: &[u8]) -> Option<()> {
        self.0 = self.0.strip_prefix(word)?;
        Some(())
    }

    /// A line `key=value`; the key comes with its `=`.
    fn line<T>(&mut self, key: &[u8], value: fn(&mut Self) -> Option<T>) -> Option<T> {
        self.word(key)?;
        let found = value(self)?;
        self.word(b"\n")?;
        Some(found)
    }

    /// A number of exactly this many digits.
    fn number<const WIDTH: usize>(&mut self) -> Option<u32> {
        let (digits, rest) = self.0.split_first_chunk::<WIDTH>()?;
        if !digits.iter().all(u8::is_ascii_digit) {
            return None;
        }
        self.0 = rest;
        Some(digits.iter().fold(0, |value, digit| value * 10 + u32::from(digit - b'0')))
    }

    fn code(&mut self) -> Option<Code> {
        let end = self.0.iter().position(|byte| !byte.is_ascii_digit())?;
        let (digits, rest) = self.0.split_at(end);
        self.0 = rest;
        Code::new(digits)
    }

    /// `CODE:NUMBER`.
    fn pair(&mut self) -> Option<(Code, u32)> {
        let code = self.code()?;
        self.word(b":")?;
        Some((code, self.number::<6>()?))
    }
}

/// The register of a text that fits the layout.
fn register_layout(text: &[u8]) -> Option<Register> {
    let mut reader = Reader(text);
    let count = reader.line(b"shops=", Reader::number::<2>)? as usize;
    let mut register = Register { count, ..Register::default() };
    // None of no shops, and none of more than there are places.
    for shop in register.shops.get_mut(..count).filter(|shops| !shops.is_empty())? {
        let (code, opening) = reader.line(b"shop=", Reader::pair)?;
        *shop = Shop { code, opening };
    }
    register.own = reader.line(b"own=", Reader::code)?;
    reader.0.is_empty().then_some(register)
}

/// The slip of a text that fits the layout.
fn slip_layout(text: &[u8]) -> Option<Slip> {
    let mut reader = Reader(text);
    let mut slip = Slip {
        payer: reader.line(b"payer=", Reader::code)?,
        number: reader.line(b"number=", Reader::number::<6>)?,
        payee: reader.line(b"payee=", Reader::code)?,
        amount: reader.line(b"amount=", Reader::number::<6>)?,
        count: reader.line(b"deps=", Reader::number::<2>)? as usize,
        deps: [Dep::default(); DEPS],
    };
    for dep in slip.deps.get_mut(..slip.count)? {
        let (code, number) = reader.line(b"dep=", Reader::pair)?;
        *dep = Dep { code, number };
    }
    reader.0.is_empty().then_some(slip)
}

/// Reading a register: 1, 12, 2.
pub fn read_register(text: &[u8]) -> Result<Register, Refusal> {
    let register = register_layout(text).ok_or(Refusal::Form)?;
    register.check()?;
    Ok(register)
}

/// Reading a slip: 1.
pub fn read_slip(text: &[u8]) -> Result<Slip, Refusal> {
    slip_layout(text).ok_or(Refusal::Form)
}

fn show(code: &Code) -> &str {
    std::str::from_utf8(code.bytes()).expect("a code has digits only")
}

fn register_text(register: &Register) -> String {
    let mut text = format!("shops={:02}\n", register.count);
    for shop in &register.shops[..register.count] {
        text += &format!("shop={}:{:06}\n", show(&shop.code), shop.opening);
    }
    text + &format!("own={}\n", show(&register.own))
}

fn slip_text(slip: &Slip) -> String {
    let mut text = format!("payer={}\nnumber={:06}\n", show(&slip.payer), slip.number);
    text += &format!("payee={}\namount={:06}\n", show(&slip.payee), slip.amount);
    text += &format!("deps={:02}\n", slip.count);
    for dep in &slip.deps[..slip.count] {
        text += &format!("dep={}:{:06}\n", show(&dep.code), dep.number);
    }
    text
}

/// Puts a text at the front of a lent buffer; its length.
fn put(text: &str, mut buffer: &mut [u8]) -> usize {
    buffer.write_all(text.as_bytes()).expect("a text is never longer than the room that is asked for");
    text.len()
}

/// Writing a register: 11, 1, 12, 2.
pub fn write_register(register: &Register, buffer: &mut [u8]) -> Result<usize, Refusal> {
    refuse_if(buffer.len() < REGISTER_ROOM, Refusal::Room)?;
    register.check()?;
    Ok(put(&register_text(register), buffer))
}

/// Writing a slip: 11, 1.
pub fn write_slip(slip: &Slip, buffer: &mut [u8]) -> Result<usize, Refusal> {
    refuse_if(buffer.len() < SLIP_ROOM, Refusal::Room)?;
    refuse_if(!slip.fits(), Refusal::Form)?;
    Ok(put(&slip_text(slip), buffer))
}

/// The values of the lines with this key, from the key's `=` up to the line's end.
fn values<'a>(text: &'a [u8], key: &'static [u8]) -> impl Iterator<Item = &'a [u8]> {
    text.split(|&byte| byte == b'\n').filter_map(move |line| line.strip_prefix(key))
}

/// Showing a payee: the register's part where that shop is listed, otherwise the slip's; empty where the slip has answer 1.
pub fn payee<'a>(register: &'a [u8], slip: &'a [u8]) -> &'a [u8] {
    let shown = values(slip, b"payee=").next().filter(|_| read_slip(slip).is_ok());
    let Some(shown) = shown else {
        return &slip[..0];
    };
    if read_register(register).is_err() {
        return shown;
    }
    let mut codes = values(register, b"shop=").filter_map(|value| value.split(|&byte| byte == b':').next());
    codes.find(|&code| code == shown).unwrap_or(shown)
}

// ---------------------------------------------------------------------------------------------- the replica

/// A slip that waits: its shops are positions, and each shop has the number that the slip depends on, 0 for none.
#[derive(Clone, Copy, Debug, Default, PartialEq, Eq)]
pub struct Waiting {
    pub payer: usize,
    pub number: u32,
    pub payee: usize,
    pub amount: u32,
    pub needs: [u32; SHOPS],
}

/// The slips that wait for one shop as payer, in number order.
#[derive(Clone, Copy, Debug, Default, PartialEq, Eq)]
pub struct Line {
    pub count: usize,
    pub slips: [Waiting; PLACES],
}

#[derive(Clone, Copy, Debug, Default, PartialEq, Eq)]
pub struct Account {
    pub balance: u32,
    pub taken: u32,
    pub applied: u32,
    pub mark: u32,
}

/// One replica, as it is kept and handed in.
#[derive(Clone, Debug, Default, PartialEq, Eq)]
pub struct Replica {
    pub register: Register,
    pub issued: u32,
    pub shops: [Account; SHOPS],
    pub lines: [Line; SHOPS],
}

/// "Open", "Take", "Issue" and "Balance".
impl Replica {
    pub fn open(text: &[u8]) -> Result<Replica, Refusal> {
        let mut replica = Replica { register: read_register(text)?, ..Replica::default() };
        for (account, shop) in replica.shops.iter_mut().zip(&replica.register.shops) {
            account.balance = shop.opening;
        }
        Ok(replica)
    }

    /// Take: 13, 11, 1, 4, 2, 3, 5, 6, 7; otherwise how many slips were applied, their payers in the list.
    pub fn take(&mut self, text: &[u8], list: &mut [u8]) -> Result<usize, Refusal> {
        refuse_if(!self.is_lawful(), Refusal::State)?;
        self.take_owned(text, list)
    }

    /// Take for a caller whose replica was never anywhere else: the state rule holds and is not looked at.
    pub fn take_owned(&mut self, text: &[u8], list: &mut [u8]) -> Result<usize, Refusal> {
        refuse_if(list.len() < LIST_ROOM, Refusal::Room)?;
        let slip = self.register.locate(&read_slip(text)?)?;
        let shop = &mut self.shops[slip.payer];
        let line = &mut self.lines[slip.payer];
        refuse_if(slip.number != shop.taken + 1, Refusal::Number)?;
        refuse_if(line.count == PLACES, Refusal::Full)?;
        line.slips[line.count] = slip;
        line.count += 1;
        shop.taken += 1;
        Ok(self.settle(list))
    }

    /// Issue: 13, 11, 2, 3, 4, 8, 10, 9; otherwise the length of the slip's text.
    pub fn issue(&mut self, payee: &[u8], amount: u32, buffer: &mut [u8]) -> Result<usize, Refusal> {
        refuse_if(!self.is_lawful(), Refusal::State)?;
        refuse_if(buffer.len() < SLIP_ROOM, Refusal::Room)?;
        let payee = self.register.position_of_bytes(payee).ok_or(Refusal::Shop)?;
        let own = self.own();
        refuse_if(payee == own, Refusal::Oneself)?;
        refuse_if(amount == 0 || amount > MOST, Refusal::Range)?;
        let Account { balance, applied, .. } = self.shops[own];
        refuse_if(self.issued > applied || self.lines[own].count > 0, Refusal::Busy)?;
        refuse_if(applied == MOST, Refusal::UsedUp)?;
        refuse_if(balance < amount, Refusal::Short)?;
        let count = write_slip(&self.next_slip(payee, amount), buffer)?;
        self.issued = applied + 1;
        for shop in &mut self.shops {
            shop.mark = 0;
        }
        Ok(count)
    }

    /// Balance: 13, 2.
    pub fn balance(&self, code: &[u8]) -> Result<u32, Refusal> {
        refuse_if(!self.is_lawful(), Refusal::State)?;
        let place = self.register.position_of_bytes(code).ok_or(Refusal::Shop)?;
        Ok(self.shops[place].balance)
    }
}

/// "Ready", "Apply", "Settle".
impl Replica {
    fn own(&self) -> usize {
        self.register.position(&self.register.own).expect("a lawful register lists the own shop")
    }

    /// Is this shop's first waiting slip ready?
    fn is_ready(&self, place: usize) -> bool {
        let Some(slip) = self.lines[place].slips[..self.lines[place].count].first() else {
            return false;
        };
        let payer = &self.shops[place];
        slip.number == payer.applied + 1
            && payer.balance >= slip.amount
            && self.shops.iter().zip(slip.needs).all(|(shop, need)| shop.applied >= need)
    }

    /// Applies this shop's first waiting slip, and frees its place.
    fn apply(&mut self, place: usize) {
        let line = &mut self.lines[place];
        let slip = line.slips[0];
        line.slips.copy_within(1..line.count, 0);
        line.count -= 1;
        line.slips[line.count] = Waiting::default();
        self.shops[place].balance -= slip.amount;
        self.shops[place].applied += 1;
        self.shops[slip.payee].balance += slip.amount;
        if self.register.shops[slip.payee].code == self.register.own {
            self.shops[place].mark = slip.number;
        }
    }

    /// Applies ready slips, the first shop's first, until there is none; how many, and their payers in the list.
    fn settle(&mut self, list: &mut [u8]) -> usize {
        let mut applied = 0;
        while let Some(place) = (0..self.register.count).find(|&place| self.is_ready(place)) {
            self.apply(place);
            list[applied] = place as u8;
            applied += 1;
        }
        applied
    }

    /// The slip that the own shop issues next, with one dependency for each mark.
    fn next_slip(&self, payee: usize, amount: u32) -> Slip {
        let code = |place: usize| self.register.shops[place].code;
        let number = self.shops[self.own()].applied + 1;
        let mut slip = Slip { payer: self.register.own, number, payee: code(payee), amount, ..Slip::default() };
        for (place, shop) in self.shops.iter().enumerate().filter(|(_, shop)| shop.mark > 0) {
            slip.deps[slip.count] = Dep { code: code(place), number: shop.mark };
            slip.count += 1;
        }
        slip
    }
}

/// "State rule".
impl Replica {
    pub fn is_lawful(&self) -> bool {
        self.register.check().is_ok()
            && self.unused_places_are_zero()
            && self.balances_add_up()
            && (0..self.register.count).all(|place| self.shop_is_lawful(place))
            && self.own_shop_is_lawful()
    }

    fn unused_places_are_zero(&self) -> bool {
        let count = self.register.count;
        self.shops[count..].iter().all(|shop| *shop == Account::default())
            && self.lines[count..].iter().all(|line| *line == Line::default())
    }

    fn balances_add_up(&self) -> bool {
        let balances: u64 = self.shops.iter().map(|shop| u64::from(shop.balance)).sum();
        let openings: u64 = self.register.shops.iter().map(|shop| u64::from(shop.opening)).sum();
        balances == openings
    }

    /// A shop's numbers, its mark and its line.
    fn shop_is_lawful(&self, place: usize) -> bool {
        let Account { taken, applied, mark, .. } = self.shops[place];
        let line = &self.lines[place];
        if line.count > PLACES || taken > MOST || taken.checked_sub(applied) != Some(line.count as u32) {
            return false;
        }
        let (waiting, unused) = line.slips.split_at(line.count);
        mark <= applied
            && waiting.iter().zip(applied + 1..).all(|(slip, number)| self.slip_is_lawful(slip, place, number))
            && unused.iter().all(|slip| *slip == Waiting::default())
    }

    /// A slip that waits for this shop and has this number: what else checks 1, 4, 2, 3 and 5 ask for.
    fn slip_is_lawful(&self, slip: &Waiting, payer: usize, number: u32) -> bool {
        let (named, unlisted) = slip.needs.split_at(self.register.count);
        slip.payer == payer
            && slip.number == number
            && slip.payee < self.register.count
            && slip.payee != payer
            && (1..=MOST).contains(&slip.amount)
            && named.iter().all(|&need| need <= MOST)
            && unlisted.iter().all(|&need| need == 0)
            && slip.needs[payer] == 0
    }

    fn own_shop_is_lawful(&self) -> bool {
        let own = &self.shops[self.own()];
        own.mark == 0 && self.issued <= MOST && self.issued <= own.applied + 1
    }
}

//! The script of calls for the program `trials`: how it is written, how it is read, and what each call must print.

use std::collections::BTreeSet;

use crate::paper::{
    Code, PLACES, REGISTER_ROOM, Refusal, Replica, SHOPS, SLIP_ROOM, WHY, Waiting, number_of, payee, read_register,
    read_slip, write_register, write_slip,
};

/// The bytes of a header line without its byte 10: the word in 8, ` room=` and four digits, ` text=` and four digits.
const HEADER: usize = 28;
/// The largest list or buffer that a call may lend, and the most calls.
const MOST_ROOM: usize = 512;
const MOST_CALLS: usize = 9999;
/// What lent bytes are before a call.
const LENT: u8 = b'#';

pub struct Call<'a> {
    pub word: &'a str,
    pub room: usize,
    pub raw: &'a [u8],
}

// ---------------------------------------------------------------------------------------------- reading a script

/// A number of exactly this many digits.
fn number(text: &str, width: usize) -> Option<u64> {
    let digits = text.len() == width && text.bytes().all(|byte| byte.is_ascii_digit());
    digits.then(|| text.parse().expect("at most ten digits"))
}

/// The first call of a script, and what is left after it.
fn next_call(script: &[u8]) -> Option<(Call<'_>, &[u8])> {
    let end = script.iter().position(|&byte| byte == b'\n').filter(|&end| end == HEADER)?;
    let line = std::str::from_utf8(&script[..end]).ok().filter(|line| line.is_ascii())?;
    let (word, numbers) = line.split_at(8);
    let room = number(numbers.strip_prefix(" room=")?.get(..4)?, 4)? as usize;
    let text = number(numbers.get(10..)?.strip_prefix(" text=")?, 4)? as usize;
    let word = word.trim_end_matches(' ');
    let size = if word == "payee" { room + text } else { text };
    let rest = &script[HEADER + 1..];
    if room > MOST_ROOM || rest.get(size) != Some(&b'\n') {
        return None;
    }
    Some((Call { word, room, raw: &rest[..size] }, &rest[size + 1..]))
}

/// What the program must print for a script.
pub fn expected(script: &[u8]) -> String {
    let mut out = String::new();
    let mut bench = Bench::default();
    let mut left = script;
    let mut trial = 0;
    while !left.is_empty() {
        trial += 1;
        let found = next_call(left).filter(|_| trial <= MOST_CALLS);
        let Some((lines, rest)) = found.and_then(|(call, rest)| Some((bench.answer(&call)?, rest))) else {
            return out + "script=bad\n";
        };
        out += &format!("trial={trial:04}\n{lines}");
        left = rest;
    }
    out
}

// ---------------------------------------------------------------------------------------------- answering a call

/// `rest=kept` where these lent bytes are as they were.
fn rest(bytes: &[u8]) -> &'static str {
    if bytes.iter().all(|&byte| byte == LENT) { "rest=kept\n" } else { "rest=lost\n" }
}

fn ascii(bytes: &[u8]) -> &str {
    std::str::from_utf8(bytes).expect("what is written has ASCII bytes only")
}

/// The answer line of a call that has a count or a balance to give, or neither.
fn answer_line<T>(answer: &Result<T, Refusal>, count: usize, balance: u32) -> String {
    let number = number_of(answer);
    format!("answer={number:02} why={} count={count:03} balance={balance:08}\n", WHY[number])
}

/// What was read, written again to a lent buffer of so many bytes.
fn read_and_write<T>(
    read: Result<T, Refusal>,
    write: impl Fn(&T, &mut [u8]) -> Result<usize, Refusal>,
    room: usize,
) -> String {
    let number = number_of(&read);
    let head = format!("read={number:02} why={}\n", WHY[number]);
    let Ok(value) = read else { return head };
    let mut buffer = vec![LENT; room];
    let written = write(&value, &mut buffer);
    let (text, kept) = buffer.split_at(written.unwrap_or(0));
    let number = number_of(&written);
    let line = format!("write={number:02} why={} count={:03}\n", WHY[number], text.len());
    head + &line + ascii(text) + rest(kept)
}

/// The code with a byte in its first unused place; one of eight digits has none, and stays as it is.
fn spoil(code: &mut Code) {
    if let Some(place) = code.digits.get_mut(code.len) {
        *place = 1;
    }
}

/// The bench that makes the calls: it keeps the current record.
#[derive(Default)]
pub struct Bench {
    record: Replica,
}

impl Bench {
    /// What a call prints after its `trial=` line; none for a call that does not fit.
    pub fn answer(&mut self, call: &Call) -> Option<String> {
        let (room, raw) = (call.room, call.raw);
        let bad = call.word.starts_with("bad");
        match call.word {
            "register" | "badreg" => {
                let mut read = read_register(raw);
                if bad && let Ok(register) = &mut read {
                    spoil(&mut register.own);
                }
                Some(read_and_write(read, write_register, room))
            }
            "slip" | "badslip" => {
                let mut read = read_slip(raw);
                if bad && let Ok(slip) = &mut read {
                    spoil(&mut slip.payer);
                }
                Some(read_and_write(read, write_slip, room))
            }
            "payee" => Some(format!("payee={}\n", ascii(payee(&raw[..room], &raw[room..])))),
            _ => self.answer_by_record(call),
        }
    }

    /// The calls that have to do with the current record.
    fn answer_by_record(&mut self, call: &Call) -> Option<String> {
        match call.word {
            "open" => Some(self.open(call.raw)),
            "take" => Some(self.take(call.raw, call.room)),
            "issue" => self.issue(call.raw, call.room),
            "balance" => Some(self.balance(call.raw)),
            "lawful" if call.raw.is_empty() => {
                Some(format!("lawful={}\n", if self.record.is_lawful() { "yes" } else { "no" }))
            }
            "state" if call.raw.is_empty() => Some(self.state()),
            "poke" => self.poke(&Poke::read(call.raw)?).map(|()| String::new()),
            _ => None,
        }
    }

    fn open(&mut self, text: &[u8]) -> String {
        let opened = Replica::open(text);
        let line = answer_line(&opened, 0, 0);
        self.record = opened.unwrap_or_default();
        line
    }

    fn take(&mut self, text: &[u8], room: usize) -> String {
        let mut list = vec![LENT; room];
        let answer = self.record.take(text, &mut list);
        let (listed, kept) = list.split_at(answer.unwrap_or(0));
        let places: String = listed.iter().map(|place| format!("{place:02}")).collect();
        answer_line(&answer, listed.len(), 0) + "list=" + &places + "\n" + rest(kept)
    }

    fn issue(&mut self, raw: &[u8], room: usize) -> Option<String> {
        let (amount, payee) = raw.split_at_checked(10)?;
        let amount = number(std::str::from_utf8(amount).ok()?, 10)?.try_into().ok()?;
        let mut buffer = vec![LENT; room];
        let answer = self.record.issue(payee, amount, &mut buffer);
        let (text, kept) = buffer.split_at(answer.unwrap_or(0));
        Some(answer_line(&answer, text.len(), 0) + ascii(text) + rest(kept))
    }

    fn balance(&self, code: &[u8]) -> String {
        let answer = self.record.balance(code);
        answer_line(&answer, 0, answer.unwrap_or(0))
    }

    fn state(&self) -> String {
        let record = &self.record;
        let mut out = format!("shops={:010} issued={:010}\n", record.register.count, record.issued);
        for (i, (shop, line)) in record.shops.iter().zip(&record.lines).enumerate() {
            out += &format!("at={i:02} balance={:010} taken={:010} ", shop.balance, shop.taken);
            out += &format!("applied={:010} mark={:010} waits={:010}\n", shop.applied, shop.mark, line.count);
        }
        for (i, line) in record.lines.iter().enumerate() {
            for (k, slip) in line.slips.iter().enumerate().filter(|(_, slip)| **slip != Waiting::default()) {
                let needs = slip.needs.map(|need| format!("{need:010}")).join(",");
                out += &format!("slip={i:02}:{k} payer={:010} number={:010} ", slip.payer, slip.number);
                out += &format!("payee={:010} amount={:010} needs={needs}\n", slip.payee, slip.amount);
            }
        }
        out
    }

    /// Changes one field; a value is cut to the field's type.
    fn poke(&mut self, poke: &Poke) -> Option<()> {
        let Poke { i, k, j, .. } = *poke;
        let (byte, number, place) = (poke.value as u8, poke.value as u32, poke.value as usize);
        let Replica { register, issued, shops, lines } = &mut self.record;
        let slip = &mut lines[i].slips[k];
        match poke.field {
            "count" => register.count = place,
            "listed" => register.shops[i].code.len = place,
            "digit" => register.shops[i].code.digits[k] = byte,
            "opening" => register.shops[i].opening = number,
            "ownlen" => register.own.len = place,
            "owndigit" => register.own.digits[k] = byte,
            "issued" => *issued = number,
            "balance" => shops[i].balance = number,
            "taken" => shops[i].taken = number,
            "applied" => shops[i].applied = number,
            "mark" => shops[i].mark = number,
            "payer" => slip.payer = place,
            "number" => slip.number = number,
            "payee" => slip.payee = place,
            "amount" => slip.amount = number,
            "need" => slip.needs[j] = number,
            "waits" => lines[i].count = place,
            _ => return None,
        }
        Some(())
    }
}

/// A field of the record and its new value.
struct Poke<'a> {
    field: &'a str,
    i: usize,
    k: usize,
    j: usize,
    value: u64,
}

impl Poke<'_> {
    /// The name in 8 bytes, two digits each for i, k and j, ten digits for the value, with a blank before each number.
    fn read(raw: &[u8]) -> Option<Poke<'_>> {
        let text = std::str::from_utf8(raw).ok().filter(|text| text.len() == 28 && text.is_ascii())?;
        let (field, numbers) = text.split_at(8);
        let mut numbers = numbers.strip_prefix(' ')?.split(' ');
        let mut place = |most: usize| {
            let place = number(numbers.next()?, 2)? as usize;
            (place < most).then_some(place)
        };
        let (i, k, j) = (place(SHOPS)?, place(PLACES)?, place(SHOPS)?);
        let value = number(numbers.next()?, 10)?;
        Some(Poke { field: field.trim_end_matches(' '), i, k, j, value })
    }
}

// ---------------------------------------------------------------------------------------------- writing a script

/// A script in the making. Each call is made at once, so that its maker can say what it must print.
#[derive(Default)]
pub struct Script {
    pub bytes: Vec<u8>,
    pub calls: usize,
    bench: Bench,
    /// Which call has given which answer.
    given: BTreeSet<(String, usize)>,
}

impl Script {
    /// Adds a call; what it prints.
    fn add(&mut self, word: &str, room: usize, text: usize, raw: &[u8]) -> String {
        self.bytes.extend(format!("{word:<8} room={room:04} text={text:04}\n").bytes());
        self.bytes.extend(raw);
        self.bytes.push(b'\n');
        self.calls += 1;
        self.bench.answer(&Call { word, room, raw }).expect("a call that fits")
    }

    pub fn call(&mut self, word: &str, room: usize, text: &[u8]) -> String {
        self.add(word, room, text.len(), text)
    }

    pub fn register(&mut self, text: &[u8]) {
        self.call("register", REGISTER_ROOM, text);
    }

    pub fn slip(&mut self, text: &[u8]) {
        self.call("slip", SLIP_ROOM, text);
    }

    pub fn payee(&mut self, register: &[u8], slip: &[u8]) {
        self.add("payee", register.len(), slip.len(), &[register, slip].concat());
    }

    /// A call with an answer line, which must be this number; what it prints after that line.
    #[track_caller]
    fn answered(&mut self, word: &str, room: usize, text: &[u8], answer: usize) -> String {
        let printed = self.call(word, room, text);
        let (line, rest) = printed.split_once('\n').expect("an answer line");
        assert!(line.starts_with(&format!("answer={answer:02} ")), "{word} gave {line}, not {answer}");
        self.given.insert((word.to_string(), answer));
        rest.to_string()
    }

    #[track_caller]
    pub fn open(&mut self, text: &[u8], answer: usize) {
        self.answered("open", 0, text, answer);
    }

    /// A slip that is taken: the payers of the slips that are applied, two digits each.
    #[track_caller]
    pub fn takes(&mut self, text: &[u8], list: &str) {
        self.takes_to(128, text, list);
    }

    #[track_caller]
    pub fn takes_to(&mut self, room: usize, text: &[u8], list: &str) {
        assert_eq!(self.answered("take", room, text, 0), format!("list={list}\nrest=kept\n"));
    }

    /// A slip that is refused.
    #[track_caller]
    pub fn refuses(&mut self, text: &[u8], answer: usize) {
        self.refuses_to(128, text, answer);
    }

    #[track_caller]
    pub fn refuses_to(&mut self, room: usize, text: &[u8], answer: usize) {
        assert_eq!(self.answered("take", room, text, answer), "list=\nrest=kept\n");
    }

    /// Issue, with this answer; the slip's text.
    #[track_caller]
    pub fn issue(&mut self, payee: &[u8], amount: u32, answer: usize) -> Vec<u8> {
        self.issue_to(SLIP_ROOM, payee, amount, answer)
    }

    #[track_caller]
    pub fn issue_to(&mut self, room: usize, payee: &[u8], amount: u32, answer: usize) -> Vec<u8> {
        let raw = [format!("{amount:010}").as_bytes(), payee].concat();
        let printed = self.answered("issue", room, &raw, answer);
        printed.strip_suffix("rest=kept\n").expect("what was lent is kept").into()
    }

    /// A code's balance.
    #[track_caller]
    pub fn balance(&mut self, code: &[u8], balance: u32) {
        let printed = self.call("balance", 0, code);
        assert_eq!(printed, format!("answer=00 why=ok count=000 balance={balance:08}\n"));
    }

    /// A balance that is refused.
    #[track_caller]
    pub fn no_balance(&mut self, code: &[u8], answer: usize) {
        self.answered("balance", 0, code, answer);
    }

    #[track_caller]
    pub fn lawful(&mut self, lawful: bool) {
        assert_eq!(self.call("lawful", 0, b""), if lawful { "lawful=yes\n" } else { "lawful=no\n" });
    }

    pub fn state(&mut self) -> String {
        self.call("state", 0, b"")
    }

    /// Changes one field of the record, at shop or line i, place k, shop j.
    pub fn poke(&mut self, field: &str, [i, k, j]: [usize; 3], value: u64) {
        self.call("poke", 0, format!("{field:<8} {i:02} {k:02} {j:02} {value:010}").as_bytes());
    }

    /// Every answer that a call can give, as the paper lists them, was given; balances that are told are not kept in mind.
    pub fn assert_every_answer(&self) {
        let can: [(&str, &[usize]); 4] = [
            ("open", &[0, 1, 12, 2]),
            ("take", &[0, 13, 11, 1, 4, 2, 3, 5, 6, 7]),
            ("issue", &[0, 13, 11, 2, 3, 4, 8, 10, 9]),
            ("balance", &[13, 2]),
        ];
        let all = can.iter().flat_map(|(word, answers)| answers.iter().map(|&answer| (word.to_string(), answer)));
        assert_eq!(self.given, all.collect());
    }
}

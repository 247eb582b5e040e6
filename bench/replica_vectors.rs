//! The script's vectors for the replica: open, take, issue, balance and the state rule. Each says what it must be answered.

use crate::script::Script;
use crate::state_vectors::{TOO_MUCH, clause, refused};
use crate::text_vectors::{EXAMPLE, SLIP_A, SLIP_B, closed, damaged, longest_register, owned, swapped};

/// The text of a slip.
pub fn slip(payer: &str, number: u32, payee: &str, amount: u32, deps: &[(&str, u32)]) -> Vec<u8> {
    let mut text =
        format!("payer={payer}\nnumber={number:06}\npayee={payee}\namount={amount:06}\ndeps={:02}\n", deps.len());
    for (code, number) in deps {
        text += &format!("dep={code}:{number:06}\n");
    }
    text.into_bytes()
}

/// The text of a register.
pub fn register(shops: &[(&str, u32)], own: &str) -> Vec<u8> {
    let mut text = format!("shops={:02}\n", shops.len());
    for (code, opening) in shops {
        text += &format!("shop={code}:{opening:06}\n");
    }
    (text + &format!("own={own}\n")).into_bytes()
}

/// The register of the paper's example.
pub fn example() -> Vec<u8> {
    closed(&owned(&EXAMPLE))
}

/// The example with another own shop.
fn example_of(own: &str) -> Vec<u8> {
    swapped(&EXAMPLE, "own=71", &format!("own={own}"))
}

/// The paper's slips A and B.
fn a() -> Vec<u8> {
    closed(&owned(&SLIP_A))
}

fn b() -> Vec<u8> {
    closed(&owned(&SLIP_B))
}

/// The bench trials 1 to 7, each from a fresh replica.
fn bench_trials(s: &mut Script) {
    // 1: A is taken, nothing is applied
    s.open(&example(), 0);
    s.takes(&a(), "");
    // 2: A, then B: 71 first, then 071
    s.open(&example(), 0);
    s.takes(&a(), "");
    s.takes(&b(), "0001");
    // 3: B twice
    s.open(&example(), 0);
    s.takes(&b(), "00");
    s.refuses(&b(), 6);
    // 4: 71 pays all it has
    s.open(&example(), 0);
    s.takes(&slip("71", 1, "071", 500, &[]), "00");
    s.balance(b"71", 0);
    // 5: 71 pays one more than it has
    s.open(&example(), 0);
    s.takes(&slip("71", 1, "071", 501, &[]), "");
    s.balance(b"71", 500);
    // 6: a first slip with number 2
    s.open(&example(), 0);
    s.refuses(&slip("71", 2, "071", 300, &[]), 6);
    // 7: a payee that is not listed
    s.open(&example(), 0);
    s.refuses(&slip("71", 1, "00071", 300, &[]), 2);
}

/// The bench trials 8 to 14.
fn later_bench_trials(s: &mut Script) {
    // 8: 71 pays 71
    s.open(&example(), 0);
    s.refuses(&slip("71", 1, "71", 300, &[]), 3);
    // 9: amount 000000
    s.open(&example(), 0);
    s.refuses(&slip("71", 1, "071", 0, &[]), 4);
    // 10: a dependency on the payer
    s.open(&example(), 0);
    s.refuses(&slip("71", 1, "071", 300, &[("71", 1)]), 5);
    // 11: nine slips of 501: the eighth is taken, the ninth is not
    s.open(&example(), 0);
    for number in 1..=8 {
        s.takes(&slip("71", number, "071", 501, &[]), "");
    }
    s.refuses(&slip("71", 9, "071", 501, &[]), 7);
    // 12: two slips that depend on each other wait for ever; 0071 still pays
    s.open(&example(), 0);
    s.takes(&slip("71", 1, "0071", 10, &[("071", 1)]), "");
    s.takes(&slip("071", 1, "0071", 10, &[("71", 1)]), "");
    s.takes(&slip("0071", 1, "71", 100, &[]), "02");
    // 13: own 071 has nothing to issue
    s.open(&example_of("071"), 0);
    s.issue(b"71", 1, 9);
    // 14: a list of 127 bytes, a buffer of 365
    s.open(&example(), 0);
    s.refuses_to(127, &b(), 11);
    s.issue_to(365, b"071", 1, 11);
}

/// Opening: each answer, and the record of zeros that a refusal leaves.
fn opening(s: &mut Script) {
    // the register turned round: A, which stands before B now, is looked at again after B
    s.open(&register(&[("0071", 100), ("071", 0), ("71", 500)], "71"), 0);
    s.takes(&a(), "");
    s.takes(&b(), "0201");
    // each refusal leaves the record of zeros, which every call refuses with 13, before 11, 1 and 2
    let twins = register(&[("71", 1), ("71", 2)], "71");
    for (text, answer) in [(b"shops=00\nown=71\n".to_vec(), 1), (twins, 12), (example_of("72"), 2)] {
        s.open(&text, answer);
        s.no_balance(b"71", 13);
    }
    s.refuses(&b(), 13);
    s.issue(b"071", 1, 13);
    s.refuses_to(0, b"", 13);
    s.issue_to(0, b"", 0, 13);
    s.no_balance(b"", 13);
    s.lawful(false);
    s.state();
    // 1 comes before 12, and 12 before 2
    s.open(&register(&[("71", 1), ("71x", 2), ("71", 3)], "71"), 1);
    s.open(&register(&[("71", 1), ("71", 2)], "72"), 12);
    // after a refusal a register can be opened again; balances are the openings
    s.open(&example(), 0);
    s.lawful(true);
    s.state();
}

/// All orders of arrival in which each shop's slips keep their own order.
fn arrivals(lines: &[Vec<Vec<u8>>]) -> Vec<Vec<Vec<u8>>> {
    if lines.iter().all(Vec::is_empty) {
        return vec![Vec::new()];
    }
    let mut orders = Vec::new();
    for i in (0..lines.len()).filter(|&i| !lines[i].is_empty()) {
        let mut later = lines.to_vec();
        let first = later[i].remove(0);
        orders.extend(arrivals(&later).into_iter().map(|order| [vec![first.clone()], order].concat()));
    }
    orders
}

/// One set of slips in many orders of arrival: the same state in the end.
fn orders(s: &mut Script) {
    // some are short until others are applied, and the second of 071 is never covered
    let of_71 = vec![b(), slip("71", 2, "0071", 400, &[])];
    let of_071 = vec![a(), slip("071", 2, "71", 999, &[])];
    let of_0071 = vec![slip("0071", 1, "71", 250, &[])];
    let all = arrivals(&[of_71, of_071, of_0071]);
    assert_eq!(all.len(), 30);
    let mut states = Vec::new();
    for order in all.iter().step_by(5) {
        s.open(&example(), 0);
        for text in order {
            let printed = s.call("take", 128, text);
            assert!(printed.starts_with("answer=00 "));
        }
        states.push(s.state());
    }
    assert!(states.windows(2).all(|pair| pair[0] == pair[1]));
}

/// 71, 071 and 0071 are three shops; what is no code is not listed.
fn look_alikes(s: &mut Script) {
    s.open(&example(), 0);
    s.takes(&slip("71", 1, "0071", 1, &[]), "00");
    s.takes(&slip("0071", 1, "071", 20, &[("71", 1)]), "02");
    s.takes(&slip("071", 1, "71", 3, &[("71", 1), ("0071", 1)]), "01");
    s.balance(b"71", 502);
    s.balance(b"071", 17);
    s.balance(b"0071", 81);
    // other zeros, nothing, nine digits, a byte beside the digits, a zero, a line's end, a long one
    for code in ["00071", "", "000000071", "7:", "71\0", "71\n", "71717171717171717171"] {
        s.no_balance(code.as_bytes(), 2);
    }
    // nor can it be paid
    for code in ["00071", "", "000000071"] {
        s.issue(code.as_bytes(), 1, 2);
    }
    s.refuses(&slip("00071", 1, "71", 1, &[]), 2);
    s.refuses(&slip("71", 2, "071", 1, &[("00071", 1)]), 2);
}

/// Full lines: filled, drained and filled again, and no hindrance to others.
fn full_lines(s: &mut Script) {
    s.open(&register(&[("1", 10), ("2", 900), ("3", 5)], "3"), 0);
    for number in 1..=8 {
        s.takes(&slip("1", number, "3", 11, &[]), "");
    }
    s.refuses(&slip("1", 9, "3", 11, &[]), 7);
    // a ready amount makes no difference; a wrong number to a full line is 6
    s.refuses(&slip("1", 9, "3", 1, &[]), 7);
    s.refuses(&slip("1", 8, "3", 11, &[]), 6);
    s.refuses(&slip("1", 10, "3", 11, &[]), 6);
    // another shop's slips are taken and applied
    s.takes(&slip("3", 1, "2", 5, &[]), "02");
    // one of the eight is covered: its place is free again, for one
    s.takes(&slip("2", 1, "1", 1, &[]), "0100");
    s.takes(&slip("1", 9, "3", 11, &[]), "");
    s.refuses(&slip("1", 10, "3", 11, &[]), 7);
    s.state();
    // all eight are covered at once, and the line is filled again
    s.takes(&slip("2", 2, "1", 88, &[]), "010000000000000000");
    for number in 10..=17 {
        s.takes(&slip("1", number, "3", 11, &[]), "");
    }
    s.refuses(&slip("1", 18, "3", 11, &[]), 7);
    s.state();
    // nine waiting are more than a record may have
    let waits = |count| [("waits", [0, 0, 0], count), ("taken", [0, 0, 0], count + 9)];
    clause(s, &waits(9), &waits(8));
    // 7 is judged on the line as it was handed in, though all of it is ready in this saved state
    s.poke("opening", [0, 0, 0], 98);
    s.poke("balance", [0, 0, 0], 88);
    s.refuses(&slip("1", 18, "3", 1, &[]), 7);
    s.takes(&slip("3", 2, "2", 1, &[]), "000000000000000002");
    s.takes(&slip("1", 18, "3", 1, &[]), "");
    s.state();
}

/// Sixteen full lines, 128 slips, and one credit that goes round among them eight times in one take.
fn fullest(s: &mut Script) {
    let codes: Vec<String> = (0..16).map(|i| i.to_string()).collect();
    let shops: Vec<(&str, u32)> = codes.iter().map(|code| (code.as_str(), 0)).collect();
    let of = |place: usize, number| slip(&codes[place], number, &codes[(place + 1) % 16], 1, &[]);
    s.open(&register(&shops, "0"), 0);
    for number in 1..=8 {
        for place in 0..if number < 8 { 16 } else { 15 } {
            s.takes(&of(place, number), "");
        }
    }
    s.refuses(&of(14, 9), 7);
    // the credit is put into the record by hand: no shop has any to begin with
    s.poke("opening", [0, 0, 0], 1);
    s.poke("balance", [0, 0, 0], 1);
    let round: String = (0..16).map(|place| format!("{place:02}")).collect();
    s.takes(&of(15, 8), &round.repeat(8));
    s.state();
}

/// Slips that wait: for a number, for an amount, behind another, in a circle.
fn waiting(s: &mut Script) {
    // a later slip of a shop does not pass its stuck first one, though it is covered
    s.open(&example(), 0);
    s.takes(&slip("71", 1, "071", 501, &[]), "");
    s.takes(&slip("71", 2, "071", 1, &[]), "");
    // one more and both go, after the one that covered them
    s.takes(&slip("0071", 1, "71", 2, &[]), "020000");
    // three shops in a circle wait for ever; the circle's second slips wait behind
    s.open(&example(), 0);
    s.takes(&slip("71", 1, "071", 1, &[("071", 1)]), "");
    s.takes(&slip("071", 1, "0071", 1, &[("0071", 1)]), "");
    s.takes(&slip("0071", 1, "71", 1, &[("71", 1)]), "");
    s.takes(&slip("71", 2, "071", 1, &[]), "");
    // a dependency on the payee, on a number not taken in yet, on one far away
    s.open(&example(), 0);
    s.takes(&slip("71", 1, "071", 100, &[("0071", 2)]), "");
    s.takes(&slip("0071", 1, "071", 1, &[]), "02");
    s.takes(&slip("0071", 2, "071", 1, &[]), "0200");
    s.takes(&slip("071", 1, "71", 1, &[("71", 1), ("0071", 2)]), "01");
    s.takes(&slip("071", 2, "71", 1, &[("71", 999999)]), "");
    // a chain that goes back up the register: each start finds the next one
    s.open(&example(), 0);
    s.takes(&slip("71", 1, "071", 1, &[("071", 1)]), "");
    s.takes(&slip("071", 1, "71", 100, &[("0071", 1)]), "");
    s.takes(&slip("0071", 1, "071", 100, &[]), "020100");
    s.state();
}

/// Take: every answer, and pairs of faults that show which comes first.
fn take_answers(s: &mut Script) {
    s.open(&example(), 0);
    // 11 before 1; a list of 128 is enough, and of 127 never
    s.refuses_to(127, b"", 11);
    s.refuses_to(0, &b(), 11);
    // 1 before 4 and 2
    s.refuses(&swapped(&SLIP_B, "000300", "00000x"), 1);
    s.refuses(b"payer=9\nnumber=000000\npayee=9\namount=000000\ndeps=16\n", 1);
    // 4 before 2, 3, 5 and 6, for the number, the amount and a dependency's number
    s.refuses(&slip("9", 0, "8", 1, &[]), 4);
    s.refuses(&slip("71", 1, "9", 0, &[]), 4);
    s.refuses(&slip("71", 1, "71", 1, &[("9", 0)]), 4);
    s.refuses(&slip("71", 7, "071", 1, &[("0071", 1), ("071", 0)]), 4);
    // 2 before 3: both unlisted and equal; before 5: a dependency's code; before 6
    s.refuses(&slip("9", 1, "9", 1, &[]), 2);
    s.refuses(&slip("71", 1, "71", 1, &[("9", 1)]), 2);
    s.refuses(&slip("71", 1, "071", 1, &[("71", 1), ("9", 1)]), 2);
    s.refuses(&slip("71", 1, "071", 1, &[("9", 1), ("9", 1)]), 2);
    s.refuses(&slip("71", 2, "9", 1, &[]), 2);
    // 3 before 5 and 6
    s.refuses(&slip("71", 1, "71", 1, &[("71", 1)]), 3);
    s.refuses(&slip("71", 2, "71", 1, &[]), 3);
    // 5: the payer, twice, falling; before 6
    s.refuses(&slip("071", 1, "71", 1, &[("71", 1), ("071", 1)]), 5);
    s.refuses(&slip("071", 1, "71", 1, &[("0071", 1), ("0071", 1)]), 5);
    s.refuses(&slip("071", 1, "71", 1, &[("0071", 1), ("71", 1)]), 5);
    s.refuses(&slip("071", 2, "71", 1, &[("071", 1)]), 5);
    // 6: the next but one, the largest; none of all this is taken in
    s.refuses(&slip("071", 2, "71", 1, &[]), 6);
    s.refuses(&slip("071", 999999, "71", 1, &[]), 6);
    // 0: the largest amount is taken and waits
    s.takes_to(129, &slip("071", 1, "71", 999999, &[("0071", 999999)]), "");
    s.takes_to(512, &b(), "00");
    s.state();
}

/// Damaged slips that come in: 1, or 2 where a code has lost a digit; then the slip itself.
fn damaged_slips(s: &mut Script) {
    s.open(&example(), 0);
    for text in damaged(&SLIP_A).iter().step_by(4) {
        let printed = s.call("take", 128, text);
        assert!(printed.starts_with("answer=01 ") || printed.starts_with("answer=02 "));
    }
    // another digit is another slip: one byte of the amount, of the number, of the payee
    s.refuses(&swapped(&SLIP_B, "=000001", "=000011"), 6);
    s.refuses(&swapped(&SLIP_B, "payee=071", "payee=171"), 2);
    s.takes(&swapped(&SLIP_B, "000300", "000301"), "00");
    s.takes(&a(), "01");
}

/// Issue: every answer but 10 and 13, and pairs of faults that show which comes first.
fn issue_answers(s: &mut Script) {
    s.open(&example(), 0);
    // 11 before 2, 2 before 4 (2 and 3 exclude each other), 3 before 4 and 9, 4 before 9
    s.issue_to(365, b"9", 0, 11);
    s.issue(b"9", 0, 2);
    s.issue(b"71", 0, 3);
    s.issue(b"71", 501, 3);
    s.issue(b"071", 0, 4);
    s.issue(b"071", 1_000_000, 4);
    // 9: one more than it has
    s.issue(b"071", 501, 9);
    // 0: all it has; 8 until it is brought back, after 4 and before 9
    let text = s.issue(b"071", 500, 0);
    assert_eq!(text, slip("71", 1, "071", 500, &[]));
    s.issue(b"071", 1, 8);
    s.issue(b"071", 501, 8);
    s.issue(b"071", u32::MAX, 4);
    s.issue(b"71", 1, 3);
    s.takes(&text, "00");
    s.issue(b"071", 1, 9);
    // 8 for own slips that wait, though this terminal has issued none of them
    s.open(&example(), 0);
    s.takes(&slip("71", 1, "071", 501, &[]), "");
    s.issue(b"071", 1, 8);
    // a slip of another shop that waits hinders nothing; longer buffers are kept behind the text
    s.open(&example(), 0);
    s.takes(&a(), "");
    assert_eq!(s.issue_to(512, b"0071", 7, 0), slip("71", 1, "0071", 7, &[]));
    s.state();
}

/// Issue after being paid: marks become dependencies, once.
fn marks(s: &mut Script) {
    s.open(&example(), 0);
    // paid twice by 0071: the later number; a payment to another shop leaves no mark
    s.takes(&slip("0071", 1, "71", 10, &[]), "02");
    s.takes(&slip("0071", 2, "71", 10, &[]), "02");
    s.takes(&slip("0071", 3, "071", 10, &[]), "02");
    s.takes(&slip("071", 1, "71", 10, &[]), "01");
    let text = s.issue(b"071", 530, 0);
    assert_eq!(text, slip("71", 1, "071", 530, &[("071", 1), ("0071", 2)]));
    s.state();
    s.issue(b"071", 1, 8);
    // paid again before it comes back: the mark is for the slip after
    s.takes(&slip("0071", 4, "71", 5, &[]), "02");
    s.takes(&text, "00");
    s.refuses(&text, 6);
    assert_eq!(s.issue(b"0071", 5, 0), slip("71", 2, "0071", 5, &[("0071", 4)]));
    // nothing marked: no dependency; another slip of the same number may come back in its place
    s.takes(&slip("71", 2, "071", 1, &[]), "00");
    assert_eq!(s.issue(b"071", 1, 0), slip("71", 3, "071", 1, &[]));
    s.state();
    // a waiting payment leaves no mark before it is applied
    s.open(&example(), 0);
    s.takes(&slip("0071", 1, "71", 101, &[]), "");
    let text = s.issue(b"0071", 1, 0);
    assert_eq!(text, slip("71", 1, "0071", 1, &[]));
    s.takes(&text, "0002");
    assert_eq!(s.issue(b"0071", 1, 0), slip("71", 2, "0071", 1, &[("0071", 1)]));
}

/// The longest slip that can be issued, 366 bytes, and its way back.
fn longest_issue(s: &mut Script) {
    let code = |i: usize| format!("{:08}", 90_000_000 + i);
    s.open(&closed(&longest_register(16)), 0);
    for i in 1..16 {
        s.takes(&slip(&code(i), 1, &code(0), 1, &[]), &format!("{i:02}"));
    }
    s.issue_to(365, code(1).as_bytes(), 999_999, 11);
    let text = s.issue_to(366, code(1).as_bytes(), 999_999, 0);
    assert_eq!(text.len(), 366);
    s.takes(&text, "00");
    s.balance(code(0).as_bytes(), 15);
}

/// Records of other own shops: the same slips, another shop's marks and issues.
fn other_own_shops(s: &mut Script) {
    s.open(&example_of("0071"), 0);
    s.takes(&a(), "");
    s.takes(&b(), "0001");
    s.state();
    assert_eq!(s.issue(b"71", 300, 0), slip("0071", 1, "71", 300, &[("071", 1)]));
    s.issue(b"0071", 1, 3);
    s.open(&example_of("071"), 0);
    s.takes(&b(), "00");
    assert_eq!(s.issue(b"0071", 200, 0), slip("071", 1, "0071", 200, &[("71", 1)]));
    // A is just what was issued
    s.takes(&a(), "01");
    s.state();
}

/// Numbers at their end, in saved states.
fn last_numbers(s: &mut Script) {
    // own applied number 999998: one slip more can be issued
    s.open(&example(), 0);
    s.poke("applied", [0, 0, 0], 999_998);
    s.poke("taken", [0, 0, 0], 999_998);
    s.refuses(&slip("71", 999_998, "071", 1, &[]), 6);
    let text = s.issue(b"071", 1, 0);
    assert_eq!(text, slip("71", 999_999, "071", 1, &[]));
    s.takes(&text, "00");
    // then 10, before 9 and after 11, 2, 3 and 4 (8 and 10 exclude each other); every number is 6, also before 7
    s.issue(b"071", 1, 10);
    s.issue(b"071", 999_999, 10);
    s.issue(b"071", 0, 4);
    s.issue(b"71", 1, 3);
    s.issue(b"9", 1, 2);
    s.issue_to(365, b"071", 1, 11);
    for number in [1, 999_998, 999_999] {
        s.refuses(&slip("71", number, "071", 1, &[]), 6);
    }
    s.state();
    // the last number of another shop, taken in and waiting: no number is left, and the own shop issues on
    s.open(&example(), 0);
    s.poke("applied", [1, 0, 0], 999_998);
    s.poke("taken", [1, 0, 0], 999_998);
    s.takes(&slip("071", 999_999, "71", 1, &[("71", 1)]), "");
    s.refuses(&slip("071", 999_999, "71", 1, &[]), 6);
    s.takes(&slip("71", 1, "071", 1, &[]), "0001");
    assert_eq!(s.issue(b"071", 1, 0), slip("71", 2, "071", 1, &[("071", 999_999)]));
    // the record as saved with 999999 in it
    s.open(&example(), 0);
    s.poke("applied", [0, 0, 0], 999_999);
    s.poke("taken", [0, 0, 0], 999_999);
    s.poke("issued", [0, 0, 0], 999_999);
    s.issue(b"071", 501, 10);
    refused(s, &[("issued", [0, 0, 0], TOO_MUCH)]);
}

/// Saved states that are not settled: what was ready before is applied and listed too, by the next slip that is taken.
fn unsettled(s: &mut Script) {
    s.open(&example(), 0);
    s.takes(&slip("71", 1, "071", 501, &[]), "");
    s.takes(&slip("71", 2, "071", 1, &[]), "");
    s.poke("opening", [0, 0, 0], 502);
    s.poke("balance", [0, 0, 0], 502);
    // neither a refused slip nor another call settles
    s.refuses(b"", 1);
    s.refuses(&slip("71", 2, "071", 1, &[]), 6);
    s.issue(b"071", 1, 8);
    s.balance(b"71", 502);
    s.takes(&slip("0071", 1, "71", 1, &[]), "000002");
    s.state();
}

pub fn add_to(script: &mut Script) {
    bench_trials(script);
    later_bench_trials(script);
    opening(script);
    orders(script);
    look_alikes(script);
    full_lines(script);
    fullest(script);
    waiting(script);
    take_answers(script);
    damaged_slips(script);
    issue_answers(script);
    marks(script);
    longest_issue(script);
    other_own_shops(script);
    last_numbers(script);
    unsettled(script);
}

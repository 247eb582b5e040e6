//! The script's vectors for the state rule: for each clause a record that breaks it alone, and its lawful neighbour.

use crate::replica_vectors::{register, slip};
use crate::script::Script;

/// A field of the record at shop or line i, place k, shop j, and its new value.
type Poke = (&'static str, [usize; 3], u64);

/// A number that is too large by one.
pub const TOO_MUCH: u64 = 1_000_000;

/// A value that has these low 32 bits and is none of them.
const fn beyond(low: u64) -> u64 {
    (1 << 32) + low
}

fn poke(s: &mut Script, pokes: &[Poke]) {
    for &(field, place, value) in pokes {
        s.poke(field, place, value);
    }
}

/// The record that the pokes make is refused by take, issue and balance.
#[track_caller]
pub fn refused(s: &mut Script, pokes: &[Poke]) {
    poke(s, pokes);
    s.refuses(b"", 13);
    s.issue(b"", 0, 13);
    s.no_balance(b"71", 13);
}

/// The first pokes break a clause; the second ones make the lawful neighbour of that record.
#[track_caller]
pub fn clause(s: &mut Script, broken: &[Poke], lawful: &[Poke]) {
    refused(s, broken);
    poke(s, lawful);
    s.lawful(true);
}

/// The same, seen by the state rule alone.
#[track_caller]
fn neighbours(s: &mut Script, broken: &[Poke], lawful: &[Poke]) {
    poke(s, broken);
    s.lawful(false);
    poke(s, lawful);
    s.lawful(true);
}

/// Other values of a field that break its clause, then the lawful one.
#[track_caller]
fn unlawful(s: &mut Script, field: &'static str, place: [usize; 3], values: &[u64], lawful: u64) {
    for &value in values {
        s.poke(field, place, value);
        s.lawful(false);
    }
    s.poke(field, place, lawful);
}

/// The record that is spoiled below: 71 is own and marked by 0071, two slips of 07100000 wait, 7 has done nothing.
fn saved(s: &mut Script) -> String {
    s.open(&register(&[("71", 500), ("07100000", 0), ("0071", 100), ("7", 0)], "71"), 0);
    s.takes(&slip("0071", 1, "71", 30, &[]), "02");
    s.takes(&slip("07100000", 1, "0071", 200, &[("71", 1)]), "");
    s.takes(&slip("07100000", 2, "71", 5, &[]), "");
    s.state()
}

/// A legal register of 1 to 16 shops.
fn of_the_register(s: &mut Script) {
    // a count of one more than there are codes, of more than there are places, of none
    unlawful(s, "count", [0, 0, 0], &[0, 17, beyond(4)], 4);
    clause(s, &[("count", [0, 0, 0], 5)], &[("count", [0, 0, 0], 4)]);
    // a code of nine digits, of none
    unlawful(s, "listed", [1, 0, 0], &[beyond(8)], 8);
    clause(s, &[("listed", [1, 0, 0], 9)], &[("listed", [1, 0, 0], 8)]);
    let seven = u64::from(b'7');
    let none = [("listed", [3, 0, 0], 0), ("digit", [3, 0, 0], 0)];
    neighbours(s, &none, &[("listed", [3, 0, 0], 1), ("digit", [3, 0, 0], seven)]);
    // the bytes beside the digits
    clause(s, &[("digit", [1, 7, 0], 58)], &[("digit", [1, 7, 0], 57)]);
    neighbours(s, &[("digit", [1, 7, 0], 47)], &[("digit", [1, 7, 0], 48)]);
    // an opening above 999999, with the balance that it gives
    let opened = |opening| [("opening", [3, 0, 0], opening), ("balance", [3, 0, 0], opening)];
    clause(s, &opened(TOO_MUCH), &opened(999_999));
    poke(s, &opened(0));
    // twins: 7 becomes 71; 72 is none
    let second = |digit: u8| ("digit", [3, 1, 0], u64::from(digit));
    clause(s, &[("listed", [3, 0, 0], 2), second(b'1')], &[second(b'2')]);
    poke(s, &[("listed", [3, 0, 0], 1), second(0)]);
    // own not listed, by its digit, its length, a byte after it
    unlawful(s, "ownlen", [0, 0, 0], &[0, 3, beyond(2)], 2);
    unlawful(s, "owndigit", [0, 2, 0], &[1], 0);
    let digit = |digit: u8| ("owndigit", [0, 1, 0], u64::from(digit));
    clause(s, &[digit(b'2')], &[digit(b'1')]);
}

/// Unused places are zero.
fn of_unused_places(s: &mut Script) {
    // after a code's digits
    clause(s, &[("digit", [2, 4, 0], 48)], &[("digit", [2, 4, 0], 0)]);
    // of a shop that is not there: its code, its opening, its numbers; balances add up over all sixteen
    unlawful(s, "listed", [4, 0, 0], &[1], 0);
    unlawful(s, "digit", [15, 7, 0], &[1], 0);
    unlawful(s, "opening", [4, 0, 0], &[1], 0);
    let moved = |credit| [("balance", [4, 0, 0], credit), ("balance", [0, 0, 0], 530 - credit)];
    clause(s, &moved(1), &moved(0));
    unlawful(s, "taken", [4, 0, 0], &[1], 0);
    unlawful(s, "applied", [4, 0, 0], &[1], 0);
    unlawful(s, "mark", [15, 0, 0], &[1], 0);
    // of its line
    unlawful(s, "waits", [4, 0, 0], &[1], 0);
    unlawful(s, "payer", [4, 0, 0], &[4], 0);
    unlawful(s, "number", [15, 7, 0], &[1], 0);
    // behind a line's waiting slips, and in an empty line
    clause(s, &[("payer", [1, 2, 0], 1)], &[("payer", [1, 2, 0], 0)]);
    unlawful(s, "number", [1, 2, 0], &[3], 0);
    unlawful(s, "payee", [1, 7, 0], &[1], 0);
    unlawful(s, "amount", [1, 2, 0], &[1], 0);
    unlawful(s, "need", [0, 0, 15], &[1], 0);
}

/// Balances, and the numbers of shops.
fn of_shops(s: &mut Script) {
    // balances add up to the openings, also where 32 bits would run over
    unlawful(s, "balance", [0, 0, 0], &[529], 530);
    clause(s, &[("balance", [0, 0, 0], 531)], &[("balance", [0, 0, 0], 530)]);
    let half = 1 << 31;
    poke(s, &[("balance", [0, 0, 0], 530 + half), ("balance", [1, 0, 0], half)]);
    s.lawful(false);
    poke(s, &[("balance", [0, 0, 0], 529), ("balance", [1, 0, 0], 1)]);
    s.lawful(true);
    poke(s, &[("balance", [0, 0, 0], 530), ("balance", [1, 0, 0], 0)]);
    // taken is applied and waiting
    unlawful(s, "taken", [1, 0, 0], &[1], 2);
    unlawful(s, "waits", [1, 0, 0], &[1, beyond(2)], 2);
    clause(s, &[("taken", [1, 0, 0], 3)], &[("taken", [1, 0, 0], 2)]);
    // and at most 999999
    let done = |number| [("taken", [2, 0, 0], number), ("applied", [2, 0, 0], number)];
    clause(s, &done(TOO_MUCH), &done(999_999));
    poke(s, &done(1));
    // a mark is at most the applied number
    unlawful(s, "mark", [1, 0, 0], &[1], 0);
    clause(s, &[("mark", [2, 0, 0], 2)], &[("mark", [2, 0, 0], 1)]);
    // the own shop has none, and has issued at most one more than is applied
    poke(s, &[("taken", [0, 0, 0], 1), ("applied", [0, 0, 0], 1)]);
    clause(s, &[("mark", [0, 0, 0], 1)], &[("mark", [0, 0, 0], 0)]);
    clause(s, &[("issued", [0, 0, 0], 3)], &[("issued", [0, 0, 0], 2)]);
    poke(s, &[("issued", [0, 0, 0], 0), ("taken", [0, 0, 0], 0), ("applied", [0, 0, 0], 0)]);
}

/// Waiting slips.
fn of_slips(s: &mut Script) {
    // numbered on from applied + 1
    unlawful(s, "number", [1, 1, 0], &[1, 3], 2);
    clause(s, &[("number", [1, 0, 0], 2)], &[("number", [1, 0, 0], 1)]);
    // paid by that shop
    unlawful(s, "payer", [1, 0, 0], &[beyond(1)], 1);
    clause(s, &[("payer", [1, 1, 0], 0)], &[("payer", [1, 1, 0], 1)]);
    // check 2 and check 3: to a shop that is listed and another
    unlawful(s, "payee", [1, 0, 0], &[16, beyond(2)], 2);
    clause(s, &[("payee", [1, 0, 0], 4)], &[("payee", [1, 0, 0], 3)]);
    clause(s, &[("payee", [1, 0, 0], 1)], &[("payee", [1, 0, 0], 2)]);
    // check 4 and check 1: amounts 1 to 999999
    clause(s, &[("amount", [1, 0, 0], 0)], &[("amount", [1, 0, 0], 1)]);
    clause(s, &[("amount", [1, 0, 0], TOO_MUCH)], &[("amount", [1, 0, 0], 999_999)]);
    s.poke("amount", [1, 0, 0], 200);
    // check 1: a dependency's number; check 5: none on the payer; check 2: none on a shop that is not listed
    clause(s, &[("need", [1, 0, 0], TOO_MUCH)], &[("need", [1, 0, 0], 999_999)]);
    s.poke("need", [1, 0, 0], 1);
    clause(s, &[("need", [1, 0, 1], 1)], &[("need", [1, 0, 1], 0)]);
    clause(s, &[("need", [1, 1, 4], 1)], &[("need", [1, 1, 4], 0)]);
}

/// A refusal gives an unlawful record back as it was; 13 comes before 11 and all others.
fn given_back(s: &mut Script) {
    s.poke("issued", [0, 0, 0], 4_294_967_295);
    s.poke("need", [1, 7, 15], 4_294_967_295);
    let before = s.state();
    s.refuses(&slip("7", 1, "71", 1, &[]), 13);
    s.refuses_to(0, b"", 13);
    s.issue(b"7", 1, 13);
    s.issue_to(0, b"71", 0, 13);
    s.no_balance(b"9", 13);
    assert_eq!(s.state(), before);
}

pub fn add_to(script: &mut Script) {
    let before = saved(script);
    of_the_register(script);
    of_unused_places(script);
    of_shops(script);
    of_slips(script);
    // all pokes are taken back, and no refusal has changed anything
    assert_eq!(script.state(), before);
    given_back(script);
}

//! The script's vectors for texts: registers and slips that are read and written, damaged ones, and payees that are shown.

use crate::paper::{REGISTER_ROOM, SLIP_ROOM};
use crate::script::Script;

/// The paper's own example: its register, and its slips A and B.
pub const EXAMPLE: [&str; 5] = ["shops=03", "shop=71:000500", "shop=071:000000", "shop=0071:000100", "own=71"];
pub const SLIP_A: [&str; 6] = ["payer=071", "number=000001", "payee=0071", "amount=000200", "deps=01", "dep=71:000001"];
pub const SLIP_B: [&str; 5] = ["payer=71", "number=000001", "payee=071", "amount=000300", "deps=00"];
/// A slip with two dependencies, to be damaged.
const SLIP_TWO: [&str; 7] =
    ["payer=0071", "number=000012", "payee=071", "amount=000345", "deps=02", "dep=71:000006", "dep=071:000078"];

pub type Lines = Vec<String>;

pub fn owned(lines: &[&str]) -> Lines {
    lines.iter().map(|line| line.to_string()).collect()
}

/// A text of lines, each closed by byte 10.
pub fn closed(lines: &[String]) -> Vec<u8> {
    lines.iter().flat_map(|line| format!("{line}\n").into_bytes()).collect()
}

/// The lines with one of them replaced.
fn with(lines: &[String], i: usize, line: String) -> Vec<u8> {
    let mut changed = lines.to_vec();
    changed[i] = line;
    closed(&changed)
}

/// The lines with one text in place of another, which must be there.
pub fn swapped(lines: &[&str], from: &str, to: &str) -> Vec<u8> {
    let text = closed(&owned(lines));
    let text = String::from_utf8(text).unwrap();
    assert!(text.contains(from), "{from} is not in the text");
    text.replacen(from, to, 1).into_bytes()
}

/// Where a line's number stands, if it has one.
fn number_at(line: &str) -> Option<usize> {
    match line.split_once('=')?.0 {
        "shop" | "dep" => line.find(':').map(|i| i + 1),
        "own" | "payer" | "payee" => None,
        _ => line.find('=').map(|i| i + 1),
    }
}

/// A line with another code in it, if it has one.
fn with_code(line: &str, code: &str) -> Option<String> {
    let (key, value) = line.split_once('=')?;
    match key {
        "shop" | "dep" => Some(format!("{key}={code}:{}", value.split_once(':')?.1)),
        "own" | "payer" | "payee" => Some(format!("{key}={code}")),
        _ => None,
    }
}

/// A register with n shops of 8 digits, the longest that n shops can have.
pub fn longest_register(n: usize) -> Lines {
    let mut lines = vec![format!("shops={n:02}")];
    lines.extend((0..n).map(|i| format!("shop={:08}:{:06}", 90000000 + i, 999999 - i)));
    lines.push("own=90000000".to_string());
    lines
}

/// A slip with n dependencies of 8 digits.
fn longest_slip(n: usize) -> Lines {
    let mut lines = owned(&["payer=90000015", "number=999999", "payee=90000000", "amount=999999"]);
    lines.push(format!("deps={n:02}"));
    lines.extend((0..n).map(|i| format!("dep={:08}:{:06}", 90000000 + i, 999999 - i)));
    lines
}

/// What every text can suffer, in any of its lines and bytes.
pub fn damaged(lines: &[&str]) -> Vec<Vec<u8>> {
    let lines = owned(lines);
    [damaged_lines(&lines), damaged_values(&lines), damaged_bytes(&closed(&lines))].concat()
}

/// Lines that are cut, missing, exchanged or misspelt.
fn damaged_lines(lines: &[String]) -> Vec<Vec<u8>> {
    let mut made = Vec::new();
    // each line cut short by its last byte (a code of one digit less is a code: then the answer is 0, or 2 for own)
    for (i, line) in lines.iter().enumerate() {
        made.push(with(lines, i, line[..line.len() - 1].to_string()));
    }
    // each line missing
    for i in 0..lines.len() {
        let mut fewer = lines.to_vec();
        fewer.remove(i);
        made.push(closed(&fewer));
    }
    // each line exchanged with the next (two shops, or two dependencies, exchanged are of the layout)
    for i in 1..lines.len() {
        let mut turned = lines.to_vec();
        turned.swap(i - 1, i);
        made.push(closed(&turned));
    }
    // each key misspelt in its last letter
    for (i, line) in lines.iter().enumerate() {
        let at = line.find('=').unwrap();
        made.push(with(lines, i, format!("{}x{}", &line[..at - 1], &line[at..])));
    }
    made
}

/// Numbers and codes of a wrong length.
fn damaged_values(lines: &[String]) -> Vec<Vec<u8>> {
    let mut made = Vec::new();
    // each number with one leading zero more, and with its leading digit less: the value is the same, the width is not
    for (i, line) in lines.iter().enumerate() {
        if let Some(at) = number_at(line) {
            made.push(with(lines, i, format!("{}0{}", &line[..at], &line[at..])));
            made.push(with(lines, i, format!("{}{}", &line[..at], &line[at + 1..])));
        }
    }
    // each code with 9 digits, and empty
    for (i, line) in lines.iter().enumerate() {
        if let Some(long) = with_code(line, "123456789") {
            made.push(with(lines, i, long));
            made.push(with(lines, i, with_code(line, "").unwrap()));
        }
    }
    made
}

/// Bytes that are missing, too many or others.
fn damaged_bytes(whole: &[u8]) -> Vec<Vec<u8>> {
    let mut made = Vec::new();
    // the last byte 10 missing
    made.push(whole[..whole.len() - 1].to_vec());
    // one byte more at the end: an empty line, a digit, a zero
    for more in [10, 48, 0] {
        made.push([whole, &[more]].concat());
    }
    // a zero, 255, a carriage return, a blank in place of one byte at the front, in the middle, at the end
    for at in [0, whole.len() / 2, whole.len() - 1] {
        for byte in [0, 255, 13, 32] {
            let mut text = whole.to_vec();
            text[at] = byte;
            made.push(text);
        }
    }
    // carriage returns before every byte 10
    made.push(String::from_utf8(whole.to_vec()).unwrap().replace('\n', "\r\n").into_bytes());
    // the text twice over, the empty text, a lone byte 10
    made.push(whole.repeat(2));
    made.push(Vec::new());
    made.push(vec![10]);
    made
}

/// Registers that are read and written.
fn good_registers(script: &mut Script) {
    let example = closed(&owned(&EXAMPLE));
    // the paper's example: the codes 71, 071, 0071 side by side
    script.register(&example);
    // the same with more room than a register needs, and with less: 11 however short the text is
    for room in [512, 357, 64, 0] {
        script.call("register", room, &example);
    }
    // the longest register, 358 bytes, with just enough room and with one byte less
    let longest = closed(&longest_register(16));
    assert_eq!(longest.len(), REGISTER_ROOM);
    script.register(&longest);
    script.call("register", REGISTER_ROOM - 1, &longest);
    // 16 shops of one to eight digits, own the last
    let mut mixed = owned(&["shops=16"]);
    mixed.extend((1..=16).map(|i| format!("shop={}:{i:06}", "0".repeat(i % 8) + &(i % 10).to_string())));
    mixed.push("own=6".to_string());
    script.register(&closed(&mixed));
    // one shop, with a code of one digit: the shortest register
    script.register(b"shops=01\nshop=0:000000\nown=0\n");
    // openings 000000 and 999999
    script.register(b"shops=02\nshop=1:000000\nshop=2:999999\nown=2\n");
    // own is the last shop, and differs from the first only in its length
    script.register(b"shops=02\nshop=0:000001\nshop=00:000002\nown=00\n");
}

/// Registers that are refused for their shops or for their counts.
fn refused_registers(script: &mut Script) {
    // two equal codes, next to each other, then first and last of 16: 12
    script.register(&swapped(&EXAMPLE, "shop=071:", "shop=71:"));
    let mut twins = longest_register(16);
    twins[16] = twins[1].clone();
    script.register(&closed(&twins));
    // the twins alone differ in their openings: still 12
    script.register(b"shops=02\nshop=5:000001\nshop=5:000002\nown=5\n");
    // own not listed: 2; listed but for a leading zero: 2
    script.register(&swapped(&EXAMPLE, "own=71", "own=72"));
    script.register(&swapped(&EXAMPLE, "own=71", "own=00071"));
    // twins and own not listed: 12 comes first
    script.register(b"shops=02\nshop=5:000001\nshop=5:000002\nown=6\n");
    // a form that does not fit and twins: 1 comes first
    script.register(b"shops=02\nshop=5:000001\nshop=5:00002\nown=5\n");
    // a form that does not fit and own not listed: 1 comes first
    script.register(b"shops=02\nshop=5:000001\nshop=4:000002\nown=6x\n");
    // no shops, with no shop and with three; own would not be listed: 1
    script.register(b"shops=00\nown=71\n");
    script.register(&swapped(&EXAMPLE, "shops=03", "shops=00"));
    // 17 shops, and 17 said of three
    script.register(&closed(&longest_register(17)));
    script.register(&swapped(&EXAMPLE, "shops=03", "shops=17"));
    // a count of one digit with two shops, one shop said of two, one more and one less said than there are
    script.register(b"shops=1\nshop=1:000001\nshop=2:000002\nown=1\n");
    script.register(b"shops=01\nshop=1:000001\nshop=2:000002\nown=1\n");
    script.register(&swapped(&EXAMPLE, "shops=03", "shops=04"));
    script.register(&swapped(&EXAMPLE, "shops=03", "shops=02"));
    // a count of 99, and one whose first digit alone is too large
    script.register(&swapped(&EXAMPLE, "shops=03", "shops=99"));
    script.register(&swapped(&EXAMPLE, "shops=03", "shops=30"));
}

/// Registers that are refused for a byte of a code or of a number.
fn registers_with_others_than_digits(script: &mut Script) {
    // a letter inside a code, and the bytes beside the digits, 47 and 58
    script.register(&swapped(&EXAMPLE, "shop=71:", "shop=7a:"));
    script.register(&swapped(&EXAMPLE, "shop=71:", "shop=7/:"));
    script.register(&swapped(&EXAMPLE, "own=71", "own=7:"));
    // a sign in a number, a blank in a number, the bytes beside the digits
    for opening in ["-00500", "+00500", "   500", "00050/", "00050:"] {
        script.register(&swapped(&EXAMPLE, "000500", opening));
    }
    // a slip where a register is asked for
    script.register(&closed(&owned(&SLIP_B)));
}

/// Slips that are read and written.
fn good_slips(script: &mut Script) {
    let b = closed(&owned(&SLIP_B));
    assert_eq!(b.len(), 55);
    // the paper's slips A and B
    script.slip(&closed(&owned(&SLIP_A)));
    script.slip(&b);
    // B with more room than a slip needs, and with less: 11 however short the text is; 358 is enough for registers alone
    for room in [512, 365, 358, 55, 0] {
        script.call("slip", room, &b);
    }
    // the longest slip, 366 bytes with 15 dependencies, with just enough room and with one byte less
    let longest = closed(&longest_slip(15));
    assert_eq!(longest.len(), SLIP_ROOM);
    script.slip(&longest);
    script.call("slip", SLIP_ROOM - 1, &longest);
    // the slip with two dependencies that is damaged below
    script.slip(&closed(&owned(&SLIP_TWO)));
    // 71, 071 and 0071 are three codes
    script.slip(&swapped(&SLIP_TWO, "payee=071", "payee=00000071"));
    // number, amount and a dependency's number 000000 are of the layout, and so is 999999
    for number in ["000000", "999999"] {
        script.slip(&swapped(&SLIP_TWO, "000012", number));
        script.slip(&swapped(&SLIP_TWO, "000345", number));
        script.slip(&swapped(&SLIP_TWO, "000078", number));
    }
    // a dependency on the payer, dependencies out of order, one twice, one on the payee, payee is payer: of the layout, not answer 1
    script.slip(&swapped(&SLIP_TWO, "dep=071:", "dep=0071:"));
    script.slip(&swapped(&SLIP_TWO, "dep=71:000006\ndep=071:000078", "dep=071:000078\ndep=71:000006"));
    script.slip(&swapped(&SLIP_TWO, "dep=071:000078", "dep=71:000006"));
    script.slip(&swapped(&SLIP_TWO, "dep=71:000006", "dep=0:000006"));
    script.slip(&swapped(&SLIP_TWO, "payee=071", "payee=0071"));
}

/// Slips that are refused for their counts, codes or numbers.
fn refused_slips(script: &mut Script) {
    // 16 dependencies, and 16 said of two
    script.slip(&closed(&longest_slip(16)));
    script.slip(&swapped(&SLIP_TWO, "deps=02", "deps=16"));
    // one dependency more and one less said than there are, none said of two, two said of none
    script.slip(&swapped(&SLIP_TWO, "deps=02", "deps=03"));
    script.slip(&swapped(&SLIP_TWO, "deps=02", "deps=01"));
    script.slip(&swapped(&SLIP_TWO, "deps=02", "deps=00"));
    script.slip(&swapped(&SLIP_B, "deps=00", "deps=02"));
    // a count whose first digit alone is too large
    script.slip(&swapped(&SLIP_TWO, "deps=02", "deps=20"));
    // a letter inside a code, and the bytes beside the digits, 47 and 58
    script.slip(&swapped(&SLIP_TWO, "payer=0071", "payer=0o71"));
    script.slip(&swapped(&SLIP_TWO, "payee=071", "payee=/71"));
    script.slip(&swapped(&SLIP_TWO, "dep=071:", "dep=07:1:"));
    // a sign in a number, a blank in a number, the bytes beside the digits
    for amount in ["-00345", "+00345", "   345", "00034/", "00034:"] {
        script.slip(&swapped(&SLIP_TWO, "000345", amount));
    }
    script.slip(&swapped(&SLIP_TWO, "000012", "-00012"));
    script.slip(&swapped(&SLIP_TWO, "000078", "-00078"));
    // a register where a slip is asked for
    script.slip(&closed(&owned(&EXAMPLE)));
}

/// Values whose unused places are not zero.
fn spoiled(script: &mut Script) {
    let example = closed(&owned(&EXAMPLE));
    let two = closed(&owned(&SLIP_TWO));
    // a byte after the digits of own, of the payer: 1 when writing, and the buffer is kept
    script.call("badreg", REGISTER_ROOM, &example);
    script.call("badslip", SLIP_ROOM, &two);
    script.call("badreg", 512, b"shops=01\nshop=1234567:000001\nown=1234567\n");
    script.call("badslip", 512, &swapped(&SLIP_B, "payer=71", "payer=1234567"));
    // too little room and a spoiled value: 11 comes first
    script.call("badreg", REGISTER_ROOM - 1, &example);
    script.call("badslip", SLIP_ROOM - 1, &two);
    // a code of eight digits has no unused place: it is not spoiled, and is written
    script.call("badreg", REGISTER_ROOM, &closed(&longest_register(2)));
    script.call("badslip", SLIP_ROOM, &closed(&longest_slip(1)));
    // a text that is refused is not written, spoiled or not
    script.call("badreg", REGISTER_ROOM, b"shops=00\nown=71\n");
    script.call("badslip", SLIP_ROOM, b"");
}

/// The payee's part, of the register's text or of the slip's.
fn payees(script: &mut Script) {
    let example = closed(&owned(&EXAMPLE));
    let b = closed(&owned(&SLIP_B));
    let two = closed(&owned(&SLIP_TWO));
    // listed: the register's part, for the first, the middle and the last shop
    script.payee(&example, &swapped(&SLIP_B, "payee=071", "payee=71"));
    script.payee(&example, &b);
    script.payee(&example, &swapped(&SLIP_B, "payee=071", "payee=0071"));
    // the last of 16 shops of 8 digits, by a slip with 15 dependencies
    let last = String::from_utf8(closed(&longest_slip(15))).unwrap().replace("payee=90000000", "payee=90000015");
    script.payee(&closed(&longest_register(16)), last.as_bytes());
    // not listed, by a leading zero or at all: the slip's part
    script.payee(&example, &swapped(&SLIP_B, "payee=071", "payee=00071"));
    script.payee(&example, &swapped(&SLIP_TWO, "payee=071", "payee=1"));
    // a register that is refused, by 1, by 12 and by 2, or is empty: the slip's part
    script.payee(&swapped(&EXAMPLE, "shops=03", "shops=04"), &two);
    script.payee(&swapped(&EXAMPLE, "shop=71:", "shop=071:"), &two);
    script.payee(&swapped(&EXAMPLE, "own=71", "own=72"), &two);
    script.payee(b"", &two);
    // a slip with answer 1, or an empty one: the empty part, whatever the register is
    script.payee(&example, &swapped(&SLIP_TWO, "deps=02", "deps=03"));
    script.payee(&example, b"");
    script.payee(&swapped(&EXAMPLE, "own=71", "own=72"), &b[..54]);
    script.payee(b"", b"");
    // a slip that only take refuses, amount 000000 and payee is payer: it is shown all the same
    script.payee(&example, &swapped(&SLIP_B, "000300", "000000"));
    script.payee(&example, &swapped(&SLIP_B, "payer=71", "payer=071"));
}

pub fn add_to(script: &mut Script) {
    good_registers(script);
    refused_registers(script);
    registers_with_others_than_digits(script);
    for text in damaged(&EXAMPLE) {
        script.register(&text);
    }
    good_slips(script);
    refused_slips(script);
    for text in damaged(&SLIP_TWO) {
        script.slip(&text);
    }
    spoiled(script);
    payees(script);
}

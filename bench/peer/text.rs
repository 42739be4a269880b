// The texts that are printed.
use crate::network::{Net, Raise};
use crate::share::Books;
use std::io::Write;

fn put_number(text: &mut Vec<u8>, mut number: u64) {
    const PAIRS: &[u8; 200] =
        b"0001020304050607080910111213141516171819202122232425262728293031323334353637383940414243444546474849\
5051525354555657585960616263646566676869707172737475767778798081828384858687888990919293949596979899";
    let mut digits = [0u8; 20];
    let mut at = 20;
    while number >= 10 {
        let pair = (number % 100) as usize * 2;
        number /= 100;
        at -= 2;
        digits[at..at + 2].copy_from_slice(&PAIRS[pair..pair + 2]);
    }
    if number > 0 || at == 20 {
        at -= 1;
        digits[at] = b'0' + number as u8;
    }
    text.extend_from_slice(&digits[at..]);
}

fn put_debt(text: &mut Vec<u8>, net: &Net, x: usize) {
    text.extend_from_slice(&net.names[net.debtor[x] as usize]);
    text.push(b',');
    text.extend_from_slice(&net.names[net.creditor[x] as usize]);
    text.extend_from_slice(&[b',', b'0' + net.class[x], b',']);
}

pub fn put_payments(text: &mut Vec<u8>, net: &Net, books: &Books, paid: &[u64]) {
    text.extend_from_slice(b"debtor,creditor,class,claim,paid\n");
    for x in 0..net.claim.len() {
        put_debt(text, net, x);
        put_number(text, u64::from(net.claim[x]));
        text.push(b',');
        put_number(text, paid[books.place_of[x] as usize]);
        text.push(b'\n');
    }
}

pub fn put_journal(
    out: &mut impl Write,
    mut text: Vec<u8>,
    net: &Net,
    journal: &[Raise],
    rounds: u64,
) -> std::io::Result<()> {
    text.extend_from_slice(b"stamp,debtor,creditor,class,to\n");
    let mut middles = Vec::new();
    let mut ends = vec![0];
    for x in 0..net.claim.len() {
        middles.push(b',');
        put_debt(&mut middles, net, x);
        ends.push(middles.len());
    }
    for raise in journal {
        put_number(&mut text, u64::from(raise.stamp));
        text.extend_from_slice(&middles[ends[raise.debt as usize]..ends[raise.debt as usize + 1]]);
        put_number(&mut text, u64::from(raise.to));
        text.push(b'\n');
        if text.len() > 1 << 18 {
            out.write_all(&text)?;
            text.clear();
        }
    }
    text.extend_from_slice(format!("rounds,{rounds}\n").as_bytes());
    out.write_all(&text)
}

// What each bank has, pays and keeps, and whether it defaults, with the sums below.
pub fn put_defaults(text: &mut Vec<u8>, net: &Net, books: &Books, paid: &[u64]) {
    text.extend_from_slice(b"bank,estate,paid,owed,equity,state\n");
    let banks = net.names.len();
    let mut estate = net.cash.clone();
    let mut at_most = net.cash.clone(); // the estate where all debtors pay in full
    for (place, creditor) in books.creditor.iter().enumerate() {
        estate[*creditor as usize] += paid[place];
        at_most[*creditor as usize] += books.claim[place];
    }
    let (mut sums, mut defaults) = ([0; 4], 0);
    for bank in 0..banks {
        let owed = books.owed[bank];
        let pays: u64 = paid[books.first[bank]..books.first[bank + 1]].iter().sum();
        let numbers = [estate[bank], pays, owed, estate[bank] - pays];
        text.extend_from_slice(&net.names[bank]);
        for (sum, number) in sums.iter_mut().zip(numbers) {
            text.push(b',');
            put_number(text, number);
            *sum += number;
        }
        defaults += u64::from(pays < owed);
        text.extend_from_slice(match pays < owed {
            false => b",sound\n",
            true if at_most[bank] < owed => b",fundamental\n",
            true => b",contagion\n",
        });
    }
    text.extend_from_slice(b"total");
    for number in sums.into_iter().chain([defaults]) {
        text.push(b',');
        put_number(text, number);
    }
    text.extend_from_slice(b"\ncash,");
    put_number(text, net.cash.iter().sum());
    text.push(b'\n');
}

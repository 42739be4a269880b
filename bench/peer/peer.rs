// An unverified peer of `clearing`: the same files, payments and journals, in plain Rust over std alone.
//
//   peer clear BANKS DEBTS                          the least clearing payments by a worklist, on one thread
//   peer run BANKS DEBTS WORKERS SWEEPS SHOW        the same by workers; SHOW is payments, journal or both
//   peer replay BANKS DEBTS JOURNAL                 judges a journal, and the payments that it makes
//   peer stress BANKS DEBTS SCENARIOS               the payments and defaults where all cash is cut by 0, 10, 20.. per mille
//
// It knows banks files of version 1 only.
mod clearing;
mod network;
mod share;
mod text;

use clearing::{least, replay, run};
use network::{read, read_journal, Fault, Net};
use share::books_of;
use std::fs::File;
use std::io::Write;
use std::os::fd::AsFd;
use text::{put_defaults, put_journal, put_payments};

fn usage() -> Fault {
    Fault(2, "clearing: the command line is not understood\n".to_string())
}

fn unwritten(_: std::io::Error) -> Fault {
    Fault(5, "clearing: cannot write the output\n".to_string())
}

fn clear(out: &mut File, net: &Net) -> Result<(), Fault> {
    let books = books_of(net);
    let mut text = Vec::with_capacity(1 << 19);
    put_payments(&mut text, net, &books, &least(net, &books));
    out.write_all(&text).map_err(unwritten)
}

fn run_workers(out: &mut File, net: &Net, workers: usize, sweeps: u32, show: &str) -> Result<(), Fault> {
    let books = books_of(net);
    let (paid, journal, rounds) = run(net, &books, workers, sweeps);
    let mut text = Vec::with_capacity(1 << 19);
    if show != "journal" {
        put_payments(&mut text, net, &books, &paid)
    }
    if show == "both" {
        text.push(b'\n')
    }
    if show == "payments" {
        return out.write_all(&text).map_err(unwritten);
    }
    put_journal(out, text, net, &journal, rounds).map_err(unwritten)
}

fn judge(out: &mut File, net: &Net, journal: &str) -> Result<(), Fault> {
    let journal = read_journal(net, journal)?;
    let books = books_of(net);
    match replay(net, &books, &journal) {
        Ok(paid) => {
            let mut text = format!("lawful,{}\n\n", journal.len()).into_bytes();
            put_payments(&mut text, net, &books, &paid);
            out.write_all(&text).map_err(unwritten)
        }
        Err(verdict) => {
            writeln!(out, "{verdict}").map_err(unwritten)?;
            Err(Fault(7, "clearing: the journal is not a lawful complete history\n".to_string()))
        }
    }
}

fn stress(out: &mut File, mut net: Net, scenarios: u64) -> Result<(), Fault> {
    let books = books_of(&net);
    let cash = net.cash.clone();
    let mut text = Vec::new();
    for cut in (0..scenarios).map(|scenario| 10 * scenario) {
        net.cash = cash.iter().map(|c| c - c * cut / 1000).collect();
        let paid = least(&net, &books);
        if cut > 0 {
            text.push(b'\n')
        }
        text.extend_from_slice(format!("scenario,cut {cut}\n").as_bytes());
        put_payments(&mut text, &net, &books, &paid);
        put_defaults(&mut text, &net, &books, &paid);
    }
    out.write_all(&text).map_err(unwritten)
}

fn carry_out(words: &[&str]) -> Result<(), Fault> {
    let [task, banks, debts, rest @ ..] = words else { return Err(usage()) };
    let net = read(banks, debts)?;
    let mut out = File::from(std::io::stdout().as_fd().try_clone_to_owned().map_err(unwritten)?);
    match (*task, rest) {
        ("clear", []) => clear(&mut out, &net),
        ("run", [workers, sweeps, show @ ("payments" | "journal" | "both")]) => {
            let (workers, sweeps) = (workers.parse().map_err(|_| usage())?, sweeps.parse().map_err(|_| usage())?);
            run_workers(&mut out, &net, workers, sweeps, show)
        }
        ("replay", [journal]) => judge(&mut out, &net, journal),
        ("stress", [scenarios]) => stress(&mut out, net, scenarios.parse().map_err(|_| usage())?),
        _ => Err(usage()),
    }
}

fn main() {
    let words: Vec<String> = std::env::args().skip(1).collect();
    let words: Vec<&str> = words.iter().map(String::as_str).collect();
    if let Err(Fault(code, message)) = carry_out(&words) {
        eprint!("{message}");
        std::process::exit(i32::from(code));
    }
}

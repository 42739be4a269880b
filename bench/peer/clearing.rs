// The least clearing payments: by a worklist on one thread, and by workers that raise payments side by side.
use crate::network::{Net, Raise};
use crate::share::{share, Books};
use std::collections::{BinaryHeap, VecDeque};
use std::sync::{
    atomic::{AtomicU64, Ordering::*},
    Barrier,
};

// The least clearing payments, by place. A bank is visited only when it was paid more since its last visit.
pub fn least(net: &Net, books: &Books) -> Vec<u64> {
    let banks = net.names.len();
    let mut paid = vec![0; books.claim.len()];
    let mut estate = net.cash.clone();
    let mut awards = vec![0; books.claim.len()];
    let mut heap = BinaryHeap::new();
    let mut waits: Vec<bool> = (0..banks).map(|i| estate[i] > 0 && books.owed[i] > 0).collect();
    let mut queue: VecDeque<usize> = (0..banks).filter(|i| waits[*i]).collect();
    let mut left = books.owed.clone();
    while let Some(bank) = queue.pop_front() {
        waits[bank] = false;
        let base = books.first[bank];
        let end = share(books, net.rules[bank], bank, estate[bank], &mut awards, &mut heap);
        for place in base..end {
            let more = awards[place - base] - paid[place];
            if more > 0 {
                paid[place] += more;
                left[bank] -= more;
                let creditor = books.creditor[place] as usize;
                estate[creditor] += more;
                if !waits[creditor] && left[creditor] > 0 {
                    waits[creditor] = true;
                    queue.push_back(creditor);
                }
            }
        }
    }
    paid
}

struct Shared<'a> {
    net: &'a Net,
    books: &'a Books,
    columns: Vec<Vec<u32>>,
    rows: Vec<Vec<u32>>,
    words: Vec<AtomicU64>,
    bells: Vec<AtomicU64>,
    raised: [AtomicU64; 3],
    end_of_round: Barrier,
}

// One worker's rounds. Answers its journal and the number of rounds.
fn work(all: &Shared, worker: usize, workers: usize, sweeps: u32) -> (Vec<Raise>, u64) {
    let (net, books, banks) = (all.net, all.books, all.net.names.len());
    let mut journal: Vec<Raise> = Vec::new();
    let (mut clock, mut rounds, mut visits) = (0u64, 0u64, 0u64);
    let mut paid = vec![0; books.claim.len()];
    let mut awards = vec![0; books.claim.len()];
    let mut rung = vec![0u64; banks];
    let mut heap = BinaryHeap::new();
    loop {
        let mut units = 0;
        for _ in 0..sweeps {
            for bank in (worker..banks).step_by(workers) {
                if all.bells[bank].load(Relaxed) == 0 || all.bells[bank].swap(0, AcqRel) == 0 {
                    continue;
                }
                visits += 1;
                journal.reserve(all.rows[bank].len());
                let mut estate = net.cash[bank];
                for x in &all.columns[bank] {
                    let word = all.words[*x as usize].load(Acquire);
                    clock = clock.max(word >> 32);
                    estate += word & 0xffff_ffff;
                }
                let base = books.first[bank];
                let end = share(books, net.rules[bank], bank, estate, &mut awards, &mut heap);
                let made = journal.len();
                for x in &all.rows[bank] {
                    let place = books.place_of[*x as usize] as usize;
                    if place < end && awards[place - base] > paid[place] {
                        let to: u64 = awards[place - base];
                        clock += 1;
                        all.words[*x as usize].store(clock << 32 | to, Release);
                        units += to - paid[place];
                        paid[place] = to;
                        journal.push(Raise { stamp: clock as u32, debt: *x, to: to as u32 });
                    }
                }
                for raise in &journal[made..] {
                    let creditor = net.creditor[raise.debt as usize] as usize;
                    if rung[creditor] != visits {
                        rung[creditor] = visits;
                        all.bells[creditor].store(1, Release);
                    }
                }
            }
        }
        rounds += 1;
        let now = rounds as usize % 3;
        all.raised[now].fetch_add(units, AcqRel);
        all.end_of_round.wait();
        let raised = all.raised[now].load(Acquire);
        if worker == 0 {
            all.raised[(now + 2) % 3].store(0, Release)
        }
        if raised == 0 {
            return (journal, rounds);
        }
    }
}

// Payments by place, the journal in order, and the rounds.
pub fn run(net: &Net, books: &Books, workers: usize, sweeps: u32) -> (Vec<u64>, Vec<Raise>, u64) {
    let banks = net.names.len();
    let (mut columns, mut rows) = (vec![Vec::new(); banks], vec![Vec::new(); banks]);
    for x in 0..net.claim.len() {
        columns[net.creditor[x] as usize].push(x as u32);
        rows[net.debtor[x] as usize].push(x as u32);
    }
    let words = net.claim.iter().map(|_| AtomicU64::new(0)).collect();
    let bells = (0..banks).map(|_| AtomicU64::new(1)).collect();
    let all = Shared {
        net,
        books,
        columns,
        rows,
        words,
        bells,
        raised: Default::default(),
        end_of_round: Barrier::new(workers),
    };
    let parts: Vec<_> = std::thread::scope(|scope| {
        let others: Vec<_> = (1..workers)
            .map(|w| {
                scope.spawn({
                    let all = &all;
                    move || work(all, w, workers, sweeps)
                })
            })
            .collect();
        let first = work(&all, 0, workers, sweeps);
        std::iter::once(first).chain(others.into_iter().map(|t| t.join().unwrap())).collect()
    });
    let rounds = parts[0].1;
    let mut parts = parts.into_iter().map(|p| p.0);
    let mut journal = parts.next().unwrap();
    for part in parts {
        journal.extend_from_slice(&part)
    }
    if workers > 1 {
        journal.sort_by_key(|r| (r.stamp, r.debt))
    } // the parts are sorted runs, which std's sort merges
    let paid = books.debt.iter().map(|x| all.words[*x as usize].load(Acquire) & 0xffff_ffff).collect();
    (paid, journal, rounds)
}

// Judges a journal. Answers the payments by place that it makes, or the verdict on it.
pub fn replay(net: &Net, books: &Books, journal: &[Raise]) -> Result<Vec<u64>, String> {
    let banks = net.names.len();
    let (mut paid, mut allowed) = (vec![0; net.claim.len()], vec![0; net.claim.len()]);
    let mut estate = net.cash.clone();
    let mut stale = vec![true; banks]; // the banks that received something since `allowed` was last divided for them
    let mut heap = BinaryHeap::new();
    let mut divide_anew = |bank: usize, estate: u64, allowed: &mut [u64]| {
        let base = books.first[bank];
        let end = share(books, net.rules[bank], bank, estate, &mut allowed[base..], &mut heap);
        allowed[end..books.first[bank + 1]].fill(0);
    };
    let mut last = 0;
    for (entry, raise) in (1..).zip(journal) {
        if raise.stamp < last {
            return Err(format!("falls,{entry},{last},{}", raise.stamp));
        }
        last = raise.stamp;
        let debt = raise.debt as usize;
        let (debtor, creditor) = (net.debtor[debt] as usize, net.creditor[debt] as usize);
        if std::mem::take(&mut stale[debtor]) {
            divide_anew(debtor, estate[debtor], &mut allowed)
        }
        let (place, to) = (books.place_of[debt] as usize, u64::from(raise.to));
        if to <= paid[place] || to > allowed[place] {
            return Err(format!("unlawful,{entry},{},{}", paid[place], allowed[place]));
        }
        estate[creditor] += to - paid[place];
        stale[creditor] = true;
        paid[place] = to;
    }
    for bank in 0..banks {
        if stale[bank] {
            divide_anew(bank, estate[bank], &mut allowed)
        }
        let row = books.first[bank]..books.first[bank + 1];
        if paid[row.clone()] != allowed[row] {
            return Err(format!("unfinished,{}", String::from_utf8_lossy(&net.names[bank])));
        }
    }
    Ok(paid)
}

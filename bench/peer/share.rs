// What a bank pays of an estate: the six rules, divided by level, and the books that say what each bank owes.
use crate::network::{Net, Rule};
use std::cmp::Ordering as Order;
use std::collections::{binary_heap::PeekMut, BinaryHeap};

// A debt that may get the next unit by a divisor rule: its claim and what it is divided by.
pub struct Next {
    claim: u64,
    by: u64,
    place: usize,
}

impl Ord for Next {
    fn cmp(&self, other: &Next) -> Order {
        (self.claim * other.by).cmp(&(other.claim * self.by)).then(other.place.cmp(&self.place))
    }
}
impl PartialOrd for Next {
    fn partial_cmp(&self, other: &Next) -> Option<Order> {
        Some(self.cmp(other))
    }
}
impl PartialEq for Next {
    fn eq(&self, other: &Next) -> bool {
        self.cmp(other) == Order::Equal
    }
}
impl Eq for Next {}

// The number up to which `fits` holds, where it holds of `low` and not of `high`.
fn last_fit(mut low: u64, mut high: u64, fits: impl Fn(u64) -> bool) -> u64 {
    while high - low > 1 {
        let middle = (low + high) / 2;
        if fits(middle) {
            low = middle
        } else {
            high = middle
        }
    }
    low
}

// Divides `units`, fewer than the `total` of the claims, among the debts of one class.
fn divide(rule: Rule, claims: &[u64], total: u64, units: u64, into: &mut [u64], heap: &mut BinaryHeap<Next>) {
    let n = claims.len() as u64;
    match rule {
        Rule::Order => {
            let mut left = units;
            for (award, claim) in into.iter_mut().zip(claims) {
                *award = left.min(*claim);
                left -= *award;
            }
        }
        Rule::Equal => {
            let given = |level: u64| claims.iter().map(|c| *c.min(&level)).sum::<u64>();
            let level = last_fit(units / n, claims.iter().max().unwrap() + 1, |level| given(level) <= units);
            let mut left = units - given(level);
            for (award, claim) in into.iter_mut().zip(claims) {
                let more = u64::from(left > 0 && *claim > level);
                *award = level.min(*claim) + more;
                left -= more;
            }
        }
        Rule::Losses => {
            let given = |loss: u64| claims.iter().map(|c| c.saturating_sub(loss)).sum::<u64>();
            let loss = 1 + last_fit(0, *claims.iter().max().unwrap(), |loss| given(loss) > units);
            let mut left = units - given(loss);
            for (award, claim) in into.iter_mut().zip(claims) {
                let more = u64::from(left > 0 && *claim >= loss);
                *award = claim.saturating_sub(loss) + more;
                left -= more;
            }
        }
        Rule::Jefferson | Rule::Webster | Rule::Adams => divide_by_divisor(rule, claims, total, units, into, heap),
    }
}

// A level a little too low is found by one quotient; it leaves fewer units than debts, which go one by one.
fn divide_by_divisor(
    rule: Rule,
    claims: &[u64],
    total: u64,
    units: u64,
    into: &mut [u64],
    heap: &mut BinaryHeap<Next>,
) {
    let n = claims.iter().filter(|c| **c > 0).count() as u64;
    let mut left = units;
    for (award, claim) in into.iter_mut().zip(claims) {
        *award = match rule {
            Rule::Adams if units <= n => u64::from(*claim > 0 && left > 0),
            Rule::Adams => u64::from(*claim > 0) + claim * (units - n) / total,
            Rule::Webster if 2 * units < n => 0,
            Rule::Webster => (claim * (2 * units - n) + total) / (2 * total),
            _ => claim * units / total,
        };
        left -= *award;
    }
    if left == 0 {
        return;
    }
    let by = |k: u64| match rule {
        Rule::Jefferson => k + 1,
        Rule::Webster => 2 * k + 1,
        _ => k,
    };
    heap.clear();
    let open = (0..claims.len()).filter(|j| into[*j] < claims[*j]);
    heap.extend(open.map(|place| Next { claim: claims[place], by: by(into[place]), place }));
    for _ in 0..left {
        let mut next = heap.peek_mut().unwrap();
        into[next.place] += 1;
        if into[next.place] == next.claim {
            PeekMut::pop(next);
        } else {
            next.by = by(into[next.place])
        }
    }
}

// The debts by debtor, each bank's by class and then in file order, its place there, and its classes with totals.
pub struct Books {
    pub first: Vec<usize>,
    pub debt: Vec<u32>,
    pub creditor: Vec<u32>,
    pub claim: Vec<u64>,
    pub place_of: Vec<u32>,
    classes: Vec<Vec<(usize, usize, u64)>>,
    pub owed: Vec<u64>,
}

pub fn books_of(net: &Net) -> Books {
    let (banks, debts) = (net.names.len(), net.claim.len());
    let mut debt: Vec<u32> = (0..debts as u32).collect();
    debt.sort_by_key(|x| (net.debtor[*x as usize], net.class[*x as usize]));
    let creditor = debt.iter().map(|x| net.creditor[*x as usize]).collect();
    let claim: Vec<u64> = debt.iter().map(|x| u64::from(net.claim[*x as usize])).collect();
    let mut books = Books {
        first: vec![0; banks + 1],
        debt,
        creditor,
        claim,
        place_of: vec![0; debts],
        classes: vec![Vec::new(); banks],
        owed: vec![0; banks],
    };
    let mut last = (usize::MAX, 0);
    for (place, x) in books.debt.iter().enumerate() {
        let (bank, class) = (net.debtor[*x as usize] as usize, net.class[*x as usize]);
        if last != (bank, class) {
            books.classes[bank].push((place, place, 0))
        }
        last = (bank, class);
        let part = books.classes[bank].last_mut().unwrap();
        part.1 += 1;
        part.2 += books.claim[place];
        books.owed[bank] += books.claim[place];
        books.first[bank + 1] = place + 1;
        books.place_of[*x as usize] = place as u32;
    }
    for bank in 0..banks {
        books.first[bank + 1] = books.first[bank + 1].max(books.first[bank])
    }
    books
}

// Writes over `into`, by place less `books.first`, what a bank pays of an estate. Answers the place up to which it wrote;
// the debts from there on get nothing.
pub fn share(
    books: &Books,
    rule: Rule,
    bank: usize,
    estate: u64,
    into: &mut [u64],
    heap: &mut BinaryHeap<Next>,
) -> usize {
    let base = books.first[bank];
    if estate >= books.owed[bank] {
        into[..books.first[bank + 1] - base].copy_from_slice(&books.claim[base..books.first[bank + 1]]);
        return books.first[bank + 1];
    }
    let mut left = estate;
    for &(from, to, total) in &books.classes[bank] {
        if left == 0 {
            return from;
        }
        let (claims, into) = (&books.claim[from..to], &mut into[from - base..to - base]);
        if left >= total {
            into.copy_from_slice(claims);
            left -= total;
        } else {
            divide(rule, claims, total, left, into, heap);
            return to;
        }
    }
    books.first[bank + 1]
}

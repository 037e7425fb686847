//! The step rules: the histories of a request, their count and their terms.

use std::collections::HashMap;

/// A branch of one step. It is legal when its multiplier is at least 1.
#[derive(Clone, Copy, Default)]
pub struct Branch {
    pub multiplier: u8,
    /// What falls, one each: places among the twelve orders.
    falls: [Option<usize>; 2],
    prefactor: u8,
    raises: bool,
    to_overlap: bool,
}

/// The branches of one step, legal or not.
struct Branches {
    all: [Branch; 8],
    count: usize,
}

impl Branches {
    fn of(list: &[Branch]) -> Branches {
        let mut all = [Branch::default(); 8];
        all[..list.len()].copy_from_slice(list);
        Branches {
            all,
            count: list.len(),
        }
    }
}

/// A term of the list.
#[derive(Clone, Debug, Default, PartialEq)]
pub struct Term {
    pub scale: u32,
    pub boys: u8,
    pub prefactors: Vec<u8>,
}

/// The smallest positive sum left, first on a tie; the operator once A and B are exhausted.
fn chosen(kind: u8, left: &[u8; 12]) -> Option<(usize, usize)> {
    let sum = |centre: usize| left[3 * centre..3 * centre + 3].iter().sum::<u8>();
    let centres = if kind == 4 { 4 } else { 2 };
    let mut centre = None;
    for candidate in 0..centres {
        let better = match centre {
            None => true,
            Some(best) => sum(candidate) < sum(best),
        };
        if sum(candidate) > 0 && better {
            centre = Some(candidate);
        }
    }
    if centre.is_none() && kind == 3 && sum(2) > 0 {
        centre = Some(2);
    }
    let centre = centre?;
    let axis = (0..3).find(|axis| left[3 * centre + axis] > 0)?;
    Some((centre, axis))
}

/// The branches where a history stands, in the order of their numbers.
fn branches(kind: u8, left: &[u8; 12]) -> Branches {
    let (centre, axis) = match chosen(kind, left) {
        Some(choice) => choice,
        None => return Branches::of(&[]),
    };
    let place = |centre: usize| 3 * centre + axis;
    let a = place(centre);
    let (x, c) = (axis as u8, centre as u8);
    let once = |prefactor| Branch {
        multiplier: 1,
        falls: [Some(a), None],
        prefactor,
        ..Branch::default()
    };
    let twice = |prefactor| Branch {
        multiplier: left[a] - 1,
        falls: [Some(a), Some(a)],
        prefactor,
        ..Branch::default()
    };
    let with = |other: usize, prefactor| Branch {
        multiplier: left[place(other)],
        falls: [Some(a), Some(place(other))],
        prefactor,
        ..Branch::default()
    };
    let raised = |branch| Branch {
        raises: true,
        ..branch
    };
    match (kind, centre) {
        (0, _) => {
            let b = 1 - centre;
            Branches::of(&[once(2 * x + c), twice(6), with(b, 7)])
        }
        (1, _) => {
            let b = 1 - centre;
            let as_overlap = |branch| Branch {
                to_overlap: true,
                ..branch
            };
            let nothing = Branch {
                multiplier: 1,
                prefactor: 8,
                ..Branch::default()
            };
            Branches::of(&[
                once(2 * x + c),
                twice(6),
                with(b, 7),
                as_overlap(nothing),
                as_overlap(twice(9 + c)),
            ])
        }
        (2, _) => {
            let b = 1 - centre;
            Branches::of(&[
                once(2 * x + c),
                raised(once(6 + x)),
                twice(9),
                raised(twice(10)),
                with(b, 9),
                raised(with(b, 10)),
            ])
        }
        (3, 2) => Branches::of(&[once(6 + x), twice(9)]),
        (3, _) => {
            let b = 1 - centre;
            Branches::of(&[once(2 * x + c), twice(9), with(b, 10), with(2, 11)])
        }
        _ => {
            // Partner b; then c, d are D, C for A and B, and B, A for C and D.
            let (b, third, fourth) = [(1, 3, 2), (0, 3, 2), (3, 1, 0), (2, 1, 0)][centre];
            let ket = u8::from(centre >= 2);
            Branches::of(&[
                once(6 * x + c),
                raised(once(6 * x + 4 + ket)),
                twice(18 + ket),
                raised(twice(20 + ket)),
                with(b, 18 + ket),
                raised(with(b, 20 + ket)),
                raised(with(third, 22)),
                raised(with(fourth, 22)),
            ])
        }
    }
}

/// The legal branches where a history stands.
pub fn legal(kind: u8, left: &[u8; 12]) -> impl Iterator<Item = Branch> {
    let step = branches(kind, left);
    let listed = (0..step.count).map(move |at| step.all[at]);
    listed.filter(|branch| branch.multiplier >= 1)
}

impl Branch {
    /// Where a history stands after the branch.
    pub fn leads_to(&self, kind: u8, left: &[u8; 12]) -> (u8, [u8; 12]) {
        let mut left = *left;
        for &place in self.falls.iter().flatten() {
            left[place] -= 1;
        }
        (if self.to_overlap { 0 } else { kind }, left)
    }
}

/// Walks the complete histories in dictionary order; `term` is that of the history so far.
fn walk(kind: u8, left: &[u8; 12], term: &mut Term, sink: &mut dyn FnMut(&Term)) {
    if *left == [0; 12] {
        return sink(term);
    }
    let (scale, boys) = (term.scale, term.boys);
    for branch in legal(kind, left) {
        let (kind, left) = branch.leads_to(kind, left);
        term.scale = scale * u32::from(branch.multiplier);
        term.boys = boys + u8::from(branch.raises);
        term.prefactors.push(branch.prefactor);
        walk(kind, &left, term, sink);
        term.prefactors.pop();
    }
    term.scale = scale;
    term.boys = boys;
}

/// Hands out the terms by 01's step rules one after another, for orders within the limits.
pub fn each_term(kind: u8, orders: &[u8; 12], sink: &mut dyn FnMut(&Term)) {
    let mut term = Term {
        scale: 1,
        ..Term::default()
    };
    walk(kind, orders, &mut term, sink);
}

/// The list of them.
pub fn terms(kind: u8, orders: &[u8; 12]) -> Vec<Term> {
    let mut list = Vec::new();
    each_term(kind, orders, &mut |term| list.push(term.clone()));
    list
}

/// The number of complete histories, but no more than one above `most`. What lies ahead goes by
/// kind and orders left alone, so it is counted once for each: the largest request has
/// 905,995,238,216 histories.
pub fn count_histories(kind: u8, orders: &[u8; 12], most: u32) -> u32 {
    let mut known = HashMap::new();
    count(kind, orders, most, &mut known)
}

type Known = HashMap<(u8, [u8; 12]), u32>;

fn count(kind: u8, left: &[u8; 12], most: u32, known: &mut Known) -> u32 {
    if *left == [0; 12] {
        return 1;
    }
    if let Some(&counted) = known.get(&(kind, *left)) {
        return counted;
    }
    let mut sum = 0;
    for branch in legal(kind, left) {
        let (kind, left) = branch.leads_to(kind, left);
        sum += count(kind, &left, most, known);
        if sum > most {
            sum = most + 1;
            break;
        }
    }
    known.insert((kind, *left), sum);
    sum
}

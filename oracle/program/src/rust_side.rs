//! What the unchanged Rust answers: shells, terms, values, tables, elements, J and K.

use crate::parse::{Centre, Contracted, Primitive};
use crate::second::{self, Form, Header, Term, NOW};
use ndarray::{Array, Ix2};
use rchem::integrals::{given, os86};
use rchem::{basis, direct, shell};
use std::cell::RefCell;

/// get_ijk_list as bytes, three to a triple.
pub fn shell_list(m: u8) -> Vec<u8> {
    let list = shell::get_ijk_list(m.into());
    list.iter().flatten().map(|&order| order as u8).collect()
}

/// A component as get_shell2 or get_shell4 lists it. The list of the last shells asked for is
/// kept: the Rust builds it anew each time, and questions often ask for the same one.
pub fn component(shells: &[u8], number: u32) -> Vec<u8> {
    type Kept = (Vec<u8>, Vec<u8>);
    thread_local! {
        static KEPT: RefCell<Kept> = RefCell::new(Kept::default());
    }
    KEPT.with(|kept| {
        let mut kept = kept.borrow_mut();
        if kept.0 != shells {
            *kept = (shells.to_vec(), components(shells));
        }
        let length = 3 * shells.len();
        kept.1[length * number as usize..][..length].to_vec()
    })
}

/// All components of the shells, one after another.
fn components(shells: &[u8]) -> Vec<u8> {
    let m: Vec<usize> = shells.iter().map(|&m| m.into()).collect();
    let byte = |&order: &usize| order as u8;
    if m.len() == 2 {
        let list = shell::pair(m[0], m[1]);
        list.iter().flatten().map(byte).collect()
    } else {
        let list = shell::quadruple(m[0], m[1], m[2], m[3]);
        list.iter().flatten().map(byte).collect()
    }
}

/// The terms of apply_os2 or apply_os4, for orders within the limits and the cap.
pub fn terms(kind: u8, orders: &[u8; 12]) -> Vec<Term> {
    let q = orders.map(|order| order as i8);
    let list = if kind == 4 {
        os86::terms4(q)
    } else {
        let pair = [q[0], q[1], q[2], q[3], q[4], q[5]];
        os86::terms2(kind, pair, [q[6], q[7], q[8]])
    };
    list.into_iter().map(whole_term).collect()
}

/// Scales are whole numbers that f64 holds exactly.
fn whole_term(term: rchem::Term) -> Term {
    assert_eq!(term.scale, f64::from(term.scale as u32));
    Term {
        scale: term.scale as u32,
        boys: term.boys,
        prefactors: term.prefactors.into_iter().map(|p| p as u8).collect(),
    }
}

/// The roll of the Rust's own terms, in form 1.
pub fn roll(kind: u8, orders: &[u8; 12]) -> Vec<u8> {
    roll_in(Form::One, kind, orders)
}

pub fn roll_in(form: Form, kind: u8, orders: &[u8; 12]) -> Vec<u8> {
    second::write_roll_in(form, kind, orders, &terms(kind, orders))
}

/// The length of that roll and the number of its terms.
pub fn measure(kind: u8, orders: &[u8; 12]) -> (usize, usize) {
    let terms = terms(kind, orders);
    let length = second::write_roll(kind, orders, &terms).len();
    (length, terms.len())
}

/// The scales of the Rust's own terms added up.
pub fn total(kind: u8, orders: &[u8; 12]) -> u64 {
    second::scales(&terms(kind, orders))
}

/// Is this list the one that the Rust expands from the header's kind and orders?
pub fn is_own_list(header: &Header, list: &[Term]) -> bool {
    // The count is cheap; most lists that are not the Rust's own fail here.
    second::count_histories(header.kind, &header.orders, NOW.terms) == header.count
        && terms(header.kind, &header.orders) == list
}

/// os86.rs once more, unchanged, for get_k, which is private there.
mod pairs {
    #![allow(dead_code, clippy::all)]

    include!("../../rust/src/integrals/os86.rs");

    /// k1 k2 as get_aux has it.
    pub fn product(z: [f64; 4], r: &[[f64; 3]; 4]) -> f64 {
        let k1 = get_k(z[0], z[1], &r[0], &r[1]);
        let k2 = get_k(z[2], z[3], &r[2], &r[3]);
        k1 * k2
    }
}

/// The Rust's own aux (Coulomb: k1 k2) for these centres.
pub fn aux(kind: u8, centres: &[Centre; 4]) -> f64 {
    let [a, b, c, _] = centres;
    match kind {
        2 => {
            boys::lend(&[1.0]);
            os86::get_nuclear(a.z, b.z, &a.r, &b.r, &c.r, &[0; 6])
        }
        4 => pairs::product(centres.map(|c| c.z), &centres.map(|c| c.r)),
        _ => os86::get_overlap(a.z, b.z, &a.r, &b.r, &[0; 6]),
    }
}

/// The Rust's own s for these centres.
pub fn own_s(centres: &[Centre; 4]) -> f64 {
    os86::aux(centres.map(|c| c.z), &centres.map(|c| c.r))
}

/// The s that the host's k1 k2 gives: get_aux's last line with that in place of its own product.
pub fn s_of_product(product: f64, centres: &[Centre; 4]) -> f64 {
    let [za, zb, zc, zd] = centres.map(|c| c.z);
    product / (za + zb + zc + zd).sqrt()
}

/// Is the host's number the Rust's own for these centres? That of Coulomb counts by its s.
pub fn is_own_aux(kind: u8, centres: &[Centre; 4], host: f64) -> bool {
    let (own, given) = match kind {
        4 => (own_s(centres), s_of_product(host, centres)),
        _ => (aux(kind, centres), host),
    };
    own.to_bits() == given.to_bits()
}

/// The value by the unchanged get_ function, which expands by itself and works out its aux.
pub fn value(header: &Header, centres: &[Centre; 4], numbers: &[f64]) -> f64 {
    let [a, b, c, d] = centres;
    let q = header.orders.map(usize::from);
    let pair = [q[0], q[1], q[2], q[3], q[4], q[5]];
    boys::lend(numbers);
    match header.kind {
        0 => os86::get_overlap(a.z, b.z, &a.r, &b.r, &pair),
        1 => os86::get_kinetic(a.z, b.z, &a.r, &b.r, &pair),
        2 => os86::get_nuclear(a.z, b.z, &a.r, &b.r, &c.r, &pair),
        3 => {
            let (pair, operator) = moment_orders(header);
            os86::moment(a.z, b.z, &a.r, &b.r, &c.r, &pair, &operator)
        }
        _ => os86::get_coulomb(a.z, b.z, c.z, d.z, &a.r, &b.r, &c.r, &d.r, &q),
    }
}

/// The value by the Rust's sum loops, fed with terms and aux; Coulomb: with s, the host's number
/// divided.
pub fn value_of_terms(
    header: &Header,
    list: &[Term],
    centres: &[Centre; 4],
    aux: f64,
    numbers: &[f64],
) -> f64 {
    let [a, b, c, d] = centres;
    let q = header.orders.map(usize::from);
    let pair = [q[0], q[1], q[2], q[3], q[4], q[5]];
    let list = list.iter().map(|term| rchem::Term {
        scale: term.scale.into(),
        boys: term.boys,
        prefactors: term.prefactors.iter().map(|&p| p.into()).collect(),
    });
    let aux = match header.kind {
        4 => s_of_product(aux, centres),
        _ => aux,
    };
    given::give(list.collect(), aux);
    boys::lend(numbers);
    match header.kind {
        0 => given::get_overlap(a.z, b.z, &a.r, &b.r, &pair),
        1 => given::get_kinetic(a.z, b.z, &a.r, &b.r, &pair),
        2 => given::get_nuclear(a.z, b.z, &a.r, &b.r, &c.r, &pair),
        3 => {
            let (pair, operator) = moment_orders(header);
            given::moment(a.z, b.z, &a.r, &b.r, &c.r, &pair, &operator)
        }
        _ => given::get_coulomb(a.z, b.z, c.z, d.z, &a.r, &b.r, &c.r, &d.r, &q),
    }
}

fn moment_orders(header: &Header) -> ([u8; 6], [u8; 3]) {
    let o = header.orders;
    ([o[0], o[1], o[2], o[3], o[4], o[5]], [o[6], o[7], o[8]])
}

/// Geometry numbers and prefactor table as the Rust's own lines work them out; after the geometry
/// numbers of Coulomb the sum of exponents, as get_aux adds them.
pub fn geometry_and_table(kind: u8, centres: &[Centre; 4]) -> (Vec<f64>, Vec<f64>) {
    let empty = Header {
        kind,
        orders: [0; 12],
        l: 0,
        count: 0,
        place: 0,
    };
    value_of_terms(&empty, &[], centres, 0.0, &[0.0]);
    let (mut geometry, table) = given::kept();
    if kind == 4 {
        let [za, zb, zc, zd] = centres.map(|c| c.z);
        geometry.push(za + zb + zc + zd);
    }
    (geometry, table)
}

/// The element of S or T for two contracted functions, by the unchanged get_ functions.
pub fn element(header: &Header, asked: &Contracted) -> f64 {
    let all = |list: &[Primitive]| -> Vec<_> {
        let one = |primitive: &Primitive| in_basis(primitive, primitive.centre.z);
        list.iter().map(one).collect()
    };
    element_of(header, &all(&asked.left.list), &all(&asked.right.list))
}

/// The same by the loops of S or T alone, where the pairs have these values, the right function
/// outer.
pub fn element_of_values(header: &Header, asked: &Contracted, values: &[f64]) -> f64 {
    let all = |list: &[Primitive], number: fn(usize) -> f64| -> Vec<_> {
        let numbered = list.iter().enumerate();
        numbered.map(|(at, p)| in_basis(p, number(at))).collect()
    };
    let left = all(&asked.left.list, elements::integrals::number_on_the_left);
    let right = all(&asked.right.list, elements::integrals::number_on_the_right);
    let call = || element_of(header, &left, &right);
    elements::integrals::with_values(left.len(), values, call)
}

fn in_basis(primitive: &Primitive, exponent: f64) -> elements::Primitive {
    elements::Primitive {
        exponent,
        origin: primitive.centre.r,
        norm: primitive.norm,
        coefficient: primitive.coefficient,
    }
}

fn element_of(header: &Header, left: &[elements::Primitive], right: &[elements::Primitive]) -> f64 {
    let q = header.orders.map(usize::from);
    let pair = [q[0], q[1], q[2], q[3], q[4], q[5]];
    match header.kind {
        0 => elements::overlap(left, right, &pair),
        _ => elements::kinetic(left, right, &pair),
    }
}

/// J and K, row by row.
pub type Matrices = (Vec<f64>, Vec<f64>);

/// Those of JK_direct's own loops, fed with I.
pub fn j_and_k(n: usize, i: &[f64], d: &[f64]) -> Matrices {
    let (mut j, mut k) = (Array::zeros((n, n)), Array::zeros((n, n)));
    direct::JK_direct(&mut j, &mut k, &direct::give(n, i), &density(n, d));
    (j.entries().to_vec(), k.entries().to_vec())
}

/// Those of JK_inmem, which no question asks for: docs/DIFFERENCES.md shows how they differ.
pub fn j_and_k_in_memory(n: usize, i: &[f64], d: &[f64]) -> Matrices {
    let mut tensor = Array::zeros((n, n, n, n));
    tensor.entries_mut().copy_from_slice(i);
    let (j, k) = basis::JK_inmem(&tensor, &density(n, d));
    (j.entries().to_vec(), k.entries().to_vec())
}

fn density(n: usize, d: &[f64]) -> Array<f64, Ix2> {
    let mut density = Array::zeros((n, n));
    density.entries_mut().copy_from_slice(d);
    density
}

//! The unchanged Rust: its terms, its values and its aux.

use crate::raw::Centre;
use crate::requests::Request;
use rchem::integrals::os86;
use rchem::Term;

pub fn terms(request: &Request) -> Vec<Term> {
    let q = request.orders.map(|order| order as i8);
    if request.kind == 4 {
        return os86::terms4(q);
    }
    let pair = [q[0], q[1], q[2], q[3], q[4], q[5]];
    os86::terms2(request.kind, pair, [q[6], q[7], q[8]])
}

fn place(centre: &Centre) -> [f64; 3] {
    [centre.x, centre.y, centre.z]
}

/// os86.rs once more, unchanged, for get_k, which is private there.
mod pairs {
    #![allow(dead_code, clippy::all)]

    include!("../../oracle/rust/src/integrals/os86.rs");

    /// k1 k2 as get_aux has it.
    pub fn product(z: [f64; 4], r: &[[f64; 3]; 4]) -> f64 {
        let k1 = get_k(z[0], z[1], &r[0], &r[1]);
        let k2 = get_k(z[2], z[3], &r[2], &r[3]);
        k1 * k2
    }
}

/// The aux that the get_ function of this kind works out for these centres; for Coulomb the k1 k2 that get_aux divides.
pub fn aux(kind: u8, centres: &[Centre; 4]) -> f64 {
    let [a, b, c, d] = centres;
    let (za, zb) = (a.exponent, b.exponent);
    match kind {
        2 => {
            boys::lend(&[1.0]);
            os86::get_nuclear(za, zb, &place(a), &place(b), &place(c), &[0; 6])
        }
        4 => pairs::product(
            [za, zb, c.exponent, d.exponent],
            &[place(a), place(b), place(c), place(d)],
        ),
        _ => os86::get_overlap(za, zb, &place(a), &place(b), &[0; 6]),
    }
}

/// The get_ function, which expands by itself. It takes the Boys numbers that were lent.
pub fn value(request: &Request, centres: &[Centre; 4]) -> f64 {
    let [a, b, c, d] = centres;
    let (za, zb, zc, zd) = (a.exponent, b.exponent, c.exponent, d.exponent);
    let (ra, rb, rc, rd) = (place(a), place(b), place(c), place(d));
    let o = &request.orders;
    let q = o.map(usize::from);
    let pair = [q[0], q[1], q[2], q[3], q[4], q[5]];
    match request.kind {
        0 => os86::get_overlap(za, zb, &ra, &rb, &pair),
        1 => os86::get_kinetic(za, zb, &ra, &rb, &pair),
        2 => os86::get_nuclear(za, zb, &ra, &rb, &rc, &pair),
        3 => {
            let pair = [o[0], o[1], o[2], o[3], o[4], o[5]];
            os86::moment(za, zb, &ra, &rb, &rc, &pair, &[o[6], o[7], o[8]])
        }
        _ => os86::get_coulomb(za, zb, zc, zd, &ra, &rb, &rc, &rd, &q),
    }
}

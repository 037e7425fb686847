//! The integrals: `os86` is the unchanged text; `given` is the text that the build script
//! makes from it, with terms and aux given from outside.

pub use self::os86::{get_coulomb, get_kinetic, get_nuclear, get_overlap};

pub mod os86 {
    #![allow(dead_code, clippy::all)]

    include!("os86.rs");

    use crate::Term;

    /// apply_os2 from the start: kinds 0 to 3, six orders and the operator's three.
    pub fn terms2(kind: u8, q: [i8; 6], operator: [i8; 3]) -> Vec<Term> {
        let kind = match kind {
            0 => X2kind::S,
            1 => X2kind::T,
            2 => X2kind::V,
            _ => X2kind::M,
        };
        let start = X2 {
            scale: 1.0,
            prefactors: vec![],
            q,
            kind: kind.clone(),
            operator,
            d: 0,
            order: 0,
        };
        let list = apply_os2(start, kind);
        list.into_iter()
            .map(|x| Term {
                scale: x.scale,
                boys: x.order,
                prefactors: x.prefactors,
            })
            .collect()
    }

    /// apply_os4 from the start.
    pub fn terms4(q: [i8; 12]) -> Vec<Term> {
        let start = X4 {
            scale: 1.0,
            prefactors: vec![],
            q,
            order: 0,
        };
        let list = apply_os4(start);
        list.into_iter()
            .map(|x| Term {
                scale: x.scale,
                boys: x.order,
                prefactors: x.prefactors,
            })
            .collect()
    }

    pub fn moment(
        za: f64,
        zb: f64,
        ra: &[f64; 3],
        rb: &[f64; 3],
        rc: &[f64; 3],
        c: &[u8; 6],
        order: &[u8; 3],
    ) -> f64 {
        get_moment(za, zb, ra, rb, rc, c, order)
    }

    pub fn aux(z: [f64; 4], r: &[[f64; 3]; 4]) -> f64 {
        get_aux(z[0], z[1], z[2], z[3], &r[0], &r[1], &r[2], &r[3])
    }
}

pub mod given {
    #![allow(dead_code, unused_imports, unused_variables, clippy::all)]

    include!(concat!(env!("OUT_DIR"), "/given.rs"));

    use crate::Term;
    use std::cell::RefCell;

    #[derive(Default)]
    struct Given {
        terms: Vec<Term>,
        aux: f64,
        geometry: Vec<f64>,
        table: Vec<f64>,
    }

    thread_local! {
        static GIVEN: RefCell<Given> = RefCell::new(Given::default());
    }

    /// Gives terms and aux to the next call of a get_ function of this module.
    pub fn give(terms: Vec<Term>, aux: f64) {
        GIVEN.with(|given| {
            *given.borrow_mut() = Given {
                terms,
                aux,
                ..Given::default()
            }
        });
    }

    /// Geometry numbers and table of the last call.
    pub fn kept() -> (Vec<f64>, Vec<f64>) {
        GIVEN.with(|given| {
            let mut given = given.borrow_mut();
            (
                std::mem::take(&mut given.geometry),
                std::mem::take(&mut given.table),
            )
        })
    }

    fn given_aux() -> f64 {
        GIVEN.with(|given| given.borrow().aux)
    }

    fn take(geometry: &[&[f64]], table: &[f64]) -> Vec<Term> {
        GIVEN.with(|given| {
            let mut given = given.borrow_mut();
            given.geometry = geometry.concat();
            given.table = table.to_vec();
            std::mem::take(&mut given.terms)
        })
    }

    /// The given terms as X2. A kinetic term that has left kinetic bears a prefactor above 7.
    fn given_terms2(start: X2, geometry: &[&[f64]], table: &[f64]) -> Vec<X2> {
        take(geometry, table)
            .into_iter()
            .map(|term| X2 {
                kind: match start.kind {
                    X2kind::T if term.prefactors.iter().any(|&p| p > 7) => X2kind::S,
                    _ => start.kind.clone(),
                },
                scale: term.scale,
                prefactors: term.prefactors,
                order: term.boys,
                ..start
            })
            .collect()
    }

    fn given_terms4(start: X4, geometry: &[&[f64]], table: &[f64]) -> Vec<X4> {
        take(geometry, table)
            .into_iter()
            .map(|term| X4 {
                scale: term.scale,
                prefactors: term.prefactors,
                order: term.boys,
                ..start
            })
            .collect()
    }

    pub fn moment(
        za: f64,
        zb: f64,
        ra: &[f64; 3],
        rb: &[f64; 3],
        rc: &[f64; 3],
        c: &[u8; 6],
        order: &[u8; 3],
    ) -> f64 {
        get_moment(za, zb, ra, rb, rc, c, order)
    }
}

/// Stand-in for the C binding of tho66.rs, which no question reaches.
pub mod tho66 {
    pub mod pyquante2 {
        #[allow(clippy::too_many_arguments)]
        pub fn pyquante2_coulomb_repulsion(
            _za: f64,
            _zb: f64,
            _zc: f64,
            _zd: f64,
            _ra: &[f64; 3],
            _rb: &[f64; 3],
            _rc: &[f64; 3],
            _rd: &[f64; 3],
            _norm_a: f64,
            _norm_b: f64,
            _norm_c: f64,
            _norm_d: f64,
            _powers: &[i32; 12],
        ) -> f64 {
            unreachable!("the C binding is not here")
        }
    }
}

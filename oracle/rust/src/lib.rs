//! os86.rs, shell.rs and basis.rs as published, with access functions for what is private
//! there. The three files are included or compiled as they are.

pub mod integrals;

#[allow(dead_code, non_camel_case_types, clippy::all)]
pub mod basis;

/// The text that the build script makes from basis.rs, with the integrals given from outside.
pub mod direct {
    #![allow(dead_code, non_camel_case_types, non_snake_case, clippy::all)]

    include!(concat!(env!("OUT_DIR"), "/direct.rs"));

    use std::cell::RefCell;

    thread_local! {
        static GIVEN: RefCell<Vec<f64>> = RefCell::new(Vec::new());
    }

    /// What coulomb_pgto gets in place of the C binding's value: I at the four functions'
    /// numbers, which stand in the exponents.
    fn given_integral(
        p: f64,
        q: f64,
        r: f64,
        s: f64,
        _origin_p: &[f64; 3],
        _origin_q: &[f64; 3],
        _origin_r: &[f64; 3],
        _origin_s: &[f64; 3],
        n: f64,
        _norm_q: f64,
        _norm_r: f64,
        _norm_s: f64,
        _powers: &[i32; 12],
    ) -> f64 {
        let place = ((p * n + q) * n + r) * n + s;
        GIVEN.with(|entries| entries.borrow()[place as usize])
    }

    /// A function of one primitive with the coefficient 1.0, whose number stands in the
    /// exponent and the number of all in the norm.
    fn numbered(number: usize, n: usize) -> CGTO {
        let primitive = PGTO {
            origin: [0.0; 3],
            powers: [0; 3],
            exponent: number as f64,
            norm: n as f64,
        };
        CGTO::from_pgtos(&vec![primitive], &vec![1.0])
    }

    /// Gives I, row by row, for the integrals of the next calls of this module's JK_direct, and
    /// the functions that it takes.
    ///
    /// The bits are those of the sums from 0.0 of I times D. One primitive a function makes one
    /// product: four times 1.0, then I, then D. 1.0 times I is I. The product is added to 0.0
    /// before it is added to J or K, which makes 0.0 of -0.0 and leaves any other as it is; and a
    /// sum that begins at 0.0 is never -0.0, so adding 0.0 or -0.0 to it is the same.
    pub fn give(n: usize, i: &[f64]) -> Basis {
        GIVEN.with(|entries| *entries.borrow_mut() = i.to_vec());
        Basis {
            name: String::new(),
            cgtos: (0..n).map(|number| numbered(number, n)).collect(),
        }
    }
}

pub mod shell {
    #![allow(clippy::all)]

    include!("shell.rs");

    pub fn pair(a: usize, b: usize) -> Vec<[usize; 6]> {
        get_shell2(a, b)
    }

    pub fn quadruple(a: usize, b: usize, c: usize, d: usize) -> Vec<[usize; 12]> {
        get_shell4(a, b, c, d)
    }
}

/// A term as X2 and X4 hold it.
#[derive(Clone, Debug, PartialEq)]
pub struct Term {
    pub scale: f64,
    pub boys: u8,
    pub prefactors: Vec<usize>,
}

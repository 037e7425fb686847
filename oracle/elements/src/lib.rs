//! basis.rs as published, with access to its S and T for two contracted functions. The file is
//! included as it is, but for the attribute at its top.

pub use basis::{kinetic, overlap, Primitive};
pub use rchem::shell;

/// What basis.rs calls: the unchanged functions, or values that are given from outside.
pub mod integrals {
    pub use rchem::integrals::{get_nuclear, tho66};
    use std::cell::RefCell;

    /// The number of the first primitive on the right.
    const RIGHT: usize = 16;

    struct Given {
        left: usize,
        values: Vec<f64>,
    }

    thread_local! {
        static GIVEN: RefCell<Option<Given>> = const { RefCell::new(None) };
    }

    /// Calls a function while the pairs of primitives have these values, the right function outer.
    /// The numbers of the primitives stand in their exponents then.
    pub fn with_values<T>(left: usize, values: &[f64], call: impl FnOnce() -> T) -> T {
        let values = values.to_vec();
        GIVEN.with(|given| *given.borrow_mut() = Some(Given { left, values }));
        let result = call();
        GIVEN.with(|given| *given.borrow_mut() = None);
        result
    }

    pub fn number_on_the_left(place: usize) -> f64 {
        place as f64
    }

    pub fn number_on_the_right(place: usize) -> f64 {
        (RIGHT + place) as f64
    }

    /// The value of a left and a right primitive; 0.0 for two of one side, which S and T pair too;
    /// None where no values are given.
    fn given(za: f64, zb: f64) -> Option<f64> {
        GIVEN.with(|given| {
            let given = given.borrow();
            let Given { left, values } = given.as_ref()?;
            let (a, b) = (za as usize, zb as usize);
            if a < RIGHT && b >= RIGHT {
                Some(values[(b - RIGHT) * left + a])
            } else {
                Some(0.0)
            }
        })
    }

    pub fn get_overlap(za: f64, zb: f64, ra: &[f64; 3], rb: &[f64; 3], c: &[usize; 6]) -> f64 {
        given(za, zb).unwrap_or_else(|| rchem::integrals::get_overlap(za, zb, ra, rb, c))
    }

    pub fn get_kinetic(za: f64, zb: f64, ra: &[f64; 3], rb: &[f64; 3], c: &[usize; 6]) -> f64 {
        given(za, zb).unwrap_or_else(|| rchem::integrals::get_kinetic(za, zb, ra, rb, c))
    }
}

mod basis {
    #![allow(dead_code, non_camel_case_types, non_snake_case, clippy::all)]

    include!(concat!(env!("OUT_DIR"), "/basis.rs"));

    /// A primitive of a contracted function.
    #[derive(Clone, Copy, Debug)]
    pub struct Primitive {
        pub exponent: f64,
        pub origin: [f64; 3],
        pub norm: f64,
        pub coefficient: f64,
    }

    fn contracted(primitives: &[Primitive], powers: [usize; 3]) -> CGTO {
        let pgto = |primitive: &Primitive| PGTO {
            origin: primitive.origin,
            powers,
            exponent: primitive.exponent,
            norm: primitive.norm,
        };
        let coefficients = primitives.iter().map(|primitive| primitive.coefficient);
        CGTO::from_pgtos(
            &primitives.iter().map(pgto).collect(),
            &coefficients.collect(),
        )
    }

    /// The right function is the first: S and T take the second with it as left and right.
    fn two(left: &[Primitive], right: &[Primitive], powers: &[usize; 6]) -> Basis {
        let [a, b, c, d, e, f] = *powers;
        Basis {
            name: String::new(),
            cgtos: vec![contracted(right, [d, e, f]), contracted(left, [a, b, c])],
        }
    }

    /// The element of S.
    pub fn overlap(left: &[Primitive], right: &[Primitive], powers: &[usize; 6]) -> f64 {
        S(&two(left, right, powers))[[1, 0]]
    }

    /// The element of T.
    pub fn kinetic(left: &[Primitive], right: &[Primitive], powers: &[usize; 6]) -> f64 {
        T(&two(left, right, powers))[[1, 0]]
    }
}

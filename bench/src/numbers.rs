//! The numbers that both sides get.

use crate::raw::Centre;
use crate::requests::Request;
use crate::rust_side;

/// What a host gives beside a request.
pub struct Numbers {
    pub centres: [Centre; 4],
    pub aux: f64,
    pub boys: Vec<f64>,
}

impl Numbers {
    pub fn of(request: &Request) -> Numbers {
        let centre = |x, y, z, exponent| Centre { x, y, z, exponent, charge: 1 };
        let centres = [
            centre(0.1, -0.2, 0.3, 1.1),
            centre(0.7, 0.4, -0.5, 0.9),
            centre(-0.6, 0.8, 0.2, 1.7),
            centre(0.5, -0.9, 1.3, 0.6),
        ];
        let l: u8 = request.orders.iter().sum();
        let count = match request.kind {
            2 | 4 => usize::from(l) + 1,
            _ => 0,
        };
        let numbers = Numbers {
            centres,
            aux: rust_side::aux(request.kind, &centres),
            boys: (0..count).map(|n| 0.8 / (2 * n + 1) as f64).collect(),
        };
        boys::lend(&numbers.boys);
        numbers
    }
}

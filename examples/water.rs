//! A host of the library: the integrals of water in STO-3G, beside the values that they should have (expected.txt).
//! It ends with 1 if a difference is above 1e-12 of the largest value of its kind. The host makes what the library
//! takes as input, exp, roots and Boys numbers; norms and contraction are its affair too.
use std::{f64::consts::PI, process::exit};
use xewumbal::*;

const EXPECTED: &str = include_str!("expected.txt");
const LEAST_VALUES: usize = 12;
const NAMES: [&str; KINDS as usize] = ["overlap", "kinetic", "nuclear", "moment", "coulomb"];

/// Charge, then the place in bohr.
const ATOMS: [(u32, [f64; 3]); 3] = [(8, [0.2, -0.1, 0.3]), (1, [1.6, 1.0, 0.6]), (1, [-1.2, 1.0, -0.1])];

struct Function {
    name: &'static str,
    atom: usize,
    orders: [u8; 3],
    exponents: [f64; 3],
    coefficients: [f64; 3],
}

const O1: [f64; 3] = [130.7093200, 23.8088610, 6.4436083];
const O2: [f64; 3] = [5.0331513, 1.1695961, 0.3803890];
const H1: [f64; 3] = [3.42525091, 0.62391373, 0.16885540];
const S1: [f64; 3] = [0.15432897, 0.53532814, 0.44463454];
const S2: [f64; 3] = [-0.09996723, 0.39951283, 0.70011547];
const P2: [f64; 3] = [0.15591627, 0.60768372, 0.39195739];
const BASIS: [Function; 7] = [
    Function { name: "O1s", atom: 0, orders: [0, 0, 0], exponents: O1, coefficients: S1 },
    Function { name: "O2s", atom: 0, orders: [0, 0, 0], exponents: O2, coefficients: S2 },
    Function { name: "O2px", atom: 0, orders: [1, 0, 0], exponents: O2, coefficients: P2 },
    Function { name: "O2py", atom: 0, orders: [0, 1, 0], exponents: O2, coefficients: P2 },
    Function { name: "O2pz", atom: 0, orders: [0, 0, 1], exponents: O2, coefficients: P2 },
    Function { name: "H1s", atom: 1, orders: [0, 0, 0], exponents: H1, coefficients: S1 },
    Function { name: "H'1s", atom: 2, orders: [0, 0, 0], exponents: H1, coefficients: S1 },
];

/// F(0) to F(l) at t: below 40 the series of F(l), then downward; above, where erf of the root is 1, upward.
fn boys_numbers(l: usize, t: f64) -> Vec<f64> {
    let (small, odd) = ((-t).exp(), |m: usize| (2 * m + 1) as f64);
    let mut f = vec![0.5 * (PI / t).sqrt(); l + 1];
    if t < 40.0 {
        let (mut term, mut sum, mut i) = (1.0 / odd(l), 1.0 / odd(l), 1);
        while term > 1e-17 * sum {
            term *= 2.0 * t / odd(l + i);
            sum += term;
            i += 1;
        }
        f[l] = small * sum;
        (0..l).rev().for_each(|m| f[m] = (2.0 * t * f[m + 1] + small) / odd(m));
    } else {
        (0..l).for_each(|m| f[m + 1] = (odd(m) * f[m] - small) / (2.0 * t));
    }
    f
}

fn squared_distance(a: Centre, b: Centre) -> f64 {
    (a.x - b.x) * (a.x - b.x) + (a.y - b.y) * (a.y - b.y) + (a.z - b.z) * (a.z - b.z)
}

/// The product of two s functions: its centre and exponent, and its overlap.
fn product(a: Centre, b: Centre) -> (Centre, f64) {
    let z = a.exponent + b.exponent;
    let (u, v) = (a.exponent / z, b.exponent / z);
    let overlap = (-u * b.exponent * squared_distance(a, b)).exp() * PI / z * (PI / z).sqrt();
    (Centre { x: u * a.x + v * b.x, y: u * a.y + v * b.y, z: u * a.z + v * b.z, exponent: z, charge: 0 }, overlap)
}

/// One integral over primitives, by the roll of its orders.
fn primitive(kind: u8, roll: &[u8], c: [Centre; 4], l: usize) -> Result<f64, Refusal> {
    let (p, overlap) = product(c[0], c[1]);
    let (aux, boys) = match kind {
        NUCLEAR => {
            let t = p.exponent * squared_distance(p, c[2]);
            (-2.0 * (p.exponent / PI).sqrt() * overlap, boys_numbers(l, t))
        }
        COULOMB => {
            let (q, other) = product(c[2], c[3]);
            let rho = p.exponent * q.exponent / (p.exponent + q.exponent);
            // k1·k2, which the library divides by the root of the exponents' sum
            (2.0 * (p.exponent * q.exponent / PI).sqrt() * overlap * other, boys_numbers(l, rho * squared_distance(p, q)))
        }
        _ => (overlap, vec![]),
    };
    match evaluate(roll, c[0], c[1], c[2], c[3], aux, &boys) {
        Value::Is(value) => Ok(value),
        Value::Refused(refusal) => Err(refusal),
    }
}

/// One integral over basis functions. Its roll is made once, confirmed as if another board had written it (`check` would only say
/// that it reads), and summed for all primitives.
fn integral(kind: u8, functions: &[&Function]) -> Result<f64, Refusal> {
    let mut orders = [0; ORDERS];
    functions.iter().zip(orders.chunks_mut(3)).for_each(|(f, three)| three.copy_from_slice(&f.orders));
    let mut room = match measure(kind, &orders) {
        Expanded::Roll { length, .. } => vec![0; length], // what the roll takes is lent, and no more
        Expanded::Refused(refusal) => return Err(refusal),
    };
    let roll = match expand(kind, &orders, &mut room, 0) {
        Expanded::Roll { length, .. } => &room[..length],
        Expanded::Refused(refusal) => return Err(refusal),
    };
    let l = match confirm(roll) {
        Opened::Roll { cursor, .. } => usize::from(cursor.l),
        Opened::Refused(refusal) => return Err(refusal),
    };
    let mut sum = 0.0;
    for choice in 0..3_usize.pow(functions.len() as u32) {
        let (mut c, mut factor, mut rest) = ([Centre::default(); 4], 1.0, choice);
        for (f, centre) in functions.iter().zip(&mut c) {
            let (exponent, [x, y, z]) = (f.exponents[rest % 3], ATOMS[f.atom].1);
            *centre = Centre { x, y, z, exponent, charge: 0 };
            factor *= f.coefficients[rest % 3] * (2.0 * exponent / PI).powf(0.75);
            factor *= if f.orders == [0, 0, 0] { 1.0 } else { 2.0 * exponent.sqrt() };
            rest /= 3;
        }
        if kind != NUCLEAR {
            sum += factor * primitive(kind, roll, c, l)?;
            continue;
        }
        for (charge, [x, y, z]) in ATOMS {
            c[2] = Centre { x, y, z, exponent: 0.0, charge };
            sum += factor * primitive(kind, roll, c, l)?; // the charge is in the value
        }
    }
    Ok(sum)
}

fn main() {
    let mut seen = [(0, 0.0_f64, 0.0_f64); KINDS as usize]; // of each kind: values, largest, largest difference
    for line in EXPECTED.lines().filter(|line| !line.starts_with("//")) {
        let row: Vec<f64> = line.split(',').flat_map(|text| text.trim().parse()).collect();
        let (kind, should) = (row[0] as u8, row[5]);
        let used = if kind == COULOMB { 4 } else { 2 };
        let functions: Vec<&Function> = row[1..=used].iter().map(|&f| &BASIS[f as usize]).collect();
        let ours = integral(kind, &functions).unwrap_or_else(|refusal| {
            eprintln!("water: refused {}: {refusal} ({refusal:?})", refusal.number());
            exit(1)
        });
        let names: String = functions.iter().map(|f| format!(" {:4}", f.name)).collect();
        let difference = (ours - should).abs();
        println!("{}{names} {ours:23.16e} {should:23.16e} {difference:7.1e}", NAMES[kind as usize]);
        let (values, largest, worst) = seen[kind as usize];
        seen[kind as usize] = (values + 1, should.abs().max(largest), difference.max(worst));
    }
    let mut good = true;
    for kind in [OVERLAP, KINETIC, NUCLEAR, COULOMB] {
        let (name, (values, largest, worst)) = (NAMES[kind as usize], seen[kind as usize]);
        println!("{name}: {values} values, largest difference {:.1e} of the largest value", worst / largest);
        good &= values >= LEAST_VALUES && worst / largest <= 1e-12;
    }
    exit(if good { 0 } else { 1 });
}

//! The geometry numbers and the prefactor table of each kind.

use crate::parse::Centre;

fn between(z1: f64, z2: f64, r1: &[f64; 3], r2: &[f64; 3]) -> [f64; 3] {
    let mut r = [0.0; 3];
    for x in 0..3 {
        r[x] = (z1 * r1[x] + z2 * r2[x]) / (z1 + z2);
    }
    r
}

fn distance_squared(r1: &[f64; 3], r2: &[f64; 3]) -> f64 {
    let square = |x: f64| x * x;
    square(r1[0] - r2[0]) + square(r1[1] - r2[1]) + square(r1[2] - r2[2])
}

/// What the root of a Coulomb roll is taken of: added from the left.
pub fn sum_of_exponents(centres: &[Centre; 4]) -> f64 {
    let [a, b, c, d] = centres;
    ((a.z + b.z) + c.z) + d.z
}

/// Geometry numbers and table of a kind, in the order in which the build script keeps them; after
/// those of Coulomb the sum of exponents.
pub fn geometry_and_table(kind: u8, centres: &[Centre; 4]) -> (Vec<f64>, Vec<f64>) {
    let [a, b, c, d] = centres;
    let z = a.z + b.z;
    let rp = between(a.z, b.z, &a.r, &b.r);
    if kind == 4 {
        return coulomb_table(centres, z, rp, between(c.z, d.z, &c.r, &d.r));
    }
    let mut table = Vec::new();
    table.extend((0..3).flat_map(|x| [rp[x] - a.r[x], rp[x] - b.r[x]]));
    let half = 0.5 / z;
    let e = a.z * b.z / (a.z + b.z);
    let numbers = match kind {
        0 => {
            table.extend([half, half]);
            vec![z, e, distance_squared(&a.r, &b.r)]
        }
        1 => {
            table.extend([half, half, 2.0 * e, -e / a.z, -e / b.z]);
            vec![z, e, distance_squared(&a.r, &b.r)]
        }
        2 => {
            table.extend((0..3).map(|x| -rp[x] + c.r[x]));
            table.extend([half, -0.5 / z]);
            let pc = distance_squared(&rp, &c.r);
            vec![z, pc, z * pc]
        }
        _ => {
            table.extend((0..3).map(|x| rp[x] - c.r[x]));
            table.extend([half, half, half]);
            vec![z]
        }
    };
    ([&numbers[..], &rp].concat(), table)
}

fn coulomb_table(
    centres: &[Centre; 4],
    z: f64,
    rp: [f64; 3],
    rq: [f64; 3],
) -> (Vec<f64>, Vec<f64>) {
    let [a, b, c, d] = centres;
    let n = c.z + d.z;
    let rw = between(z, n, &rp, &rq);
    let rho = z * n / (z + n);
    let t = rho * distance_squared(&rp, &rq);
    let mut table = Vec::new();
    for x in 0..3 {
        table.extend([
            rp[x] - a.r[x],
            rp[x] - b.r[x],
            rq[x] - c.r[x],
            rq[x] - d.r[x],
            rw[x] - rp[x],
            rw[x] - rq[x],
        ]);
    }
    table.extend([
        0.5 / z,
        0.5 / n,
        -0.5 * rho / (z * z),
        -0.5 * rho / (n * n),
        0.5 / (z + n),
    ]);
    let sum = sum_of_exponents(centres);
    let numbers = [&[z, n, rho, t][..], &rp, &rq, &rw, &[sum]];
    (numbers.concat(), table)
}

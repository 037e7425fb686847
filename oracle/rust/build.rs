//! Makes second texts from the unchanged os86.rs and basis.rs. Of os86.rs: the same geometry,
//! tables and sum loops, but the terms and aux are given from outside. Of basis.rs: the same
//! loops of JK_direct, but the integrals are given from outside. Only whole lines are replaced,
//! and each replacement is made exactly as often as stated here, or the build stops.

use std::{env, fs, path::Path};

fn main() {
    println!("cargo:rerun-if-changed=build.rs");
    make("src/integrals/os86.rs", "given.rs", given_terms);
    make("src/basis.rs", "direct.rs", given_integrals);
}

/// Reads a source, replaces its lines and writes the second text.
fn make(source: &str, name: &str, replaced: fn(&mut String)) {
    println!("cargo:rerun-if-changed={}", source);
    let mut text = fs::read_to_string(source).expect("the source is there");
    replaced(&mut text);
    let out = env::var("OUT_DIR").expect("cargo sets OUT_DIR");
    fs::write(Path::new(&out).join(name), text).expect("the second text is written");
}

/// Of basis.rs.
fn given_integrals(text: &mut String) {
    // An included text can't begin with this; the module that includes it says it.
    replace(text, "#![allow(non_snake_case)]", "", 1);
    // The arguments stay: the exponents are the numbers of the four functions.
    replace(
        text,
        "    integrals::tho66::pyquante2::pyquante2_coulomb_repulsion(",
        "    given_integral(",
        1,
    );
}

/// Of os86.rs.
fn given_terms(text: &mut String) {
    // aux (Coulomb: s) is the host's number.
    replace(
        text,
        "    let aux = (-e * ab).exp() * (PI / z).powf(1.5);",
        "    let aux = given_aux();",
        2,
    );
    replace(
        text,
        "    let aux = -2.0 * (z / PI).powf(0.5) * get_overlap(za, zb, ra, rb, &[0, 0, 0, 0, 0, 0]);",
        "    let aux = given_aux();",
        1,
    );
    replace(
        text,
        "    let aux = get_overlap(za, zb, ra, rb, &[0, 0, 0, 0, 0, 0]);",
        "    let aux = given_aux();",
        1,
    );
    replace(
        text,
        "    let s = get_aux(za, zb, zc, zd, ra, rb, rc, rd);",
        "    let s = given_aux();",
        1,
    );

    // The terms are given; geometry numbers and table are kept on the way.
    replace(
        text,
        "    let expansion = apply_os2(fun, X2kind::S);",
        "    let expansion = given_terms2(fun, &[&[z, e, ab], &rp], &prefac);",
        1,
    );
    replace(
        text,
        "    let expansion = apply_os2(fun, X2kind::T);",
        "    let expansion = given_terms2(fun, &[&[z, e, ab], &rp], &prefac);",
        1,
    );
    replace(
        text,
        "    let expansion = apply_os2(fun, X2kind::V);",
        "    let expansion = given_terms2(fun, &[&[z, pc, u], &rp], &prefac);",
        1,
    );
    replace(
        text,
        "    let expansion = apply_os2(fun, X2kind::M);",
        "    let expansion = given_terms2(fun, &[&[z], &rp], &prefac);",
        1,
    );
    replace(
        text,
        "    let expansion = apply_os4(fun);",
        "    let expansion = given_terms4(fun, &[&[z, n, rho, t], &rp, &rq, &rw], &prefac);",
        1,
    );
}

fn replace(text: &mut String, line: &str, by: &str, times: usize) {
    let found = text.lines().filter(|&found| found == line).count();
    assert_eq!(found, times, "the source is not as expected: {}", line);
    let lines = text
        .lines()
        .map(|found| if found == line { by } else { found });
    *text = lines.flat_map(|line| [line, "\n"]).collect();
}

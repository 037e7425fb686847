//! The unchanged Rust and the second reading of document 01 agree, and so do the unchanged
//! get_ functions and the sum loops that are fed from outside.

use oracle::random::Random;
use oracle::requests::{self, AT_THE_CAP, AT_THE_LISTING};
use oracle::second::{self, Header, Term, BEFORE, NOW};
use oracle::{floats, rolls, rust_side};

fn agreed_terms(kind: u8, orders: &[u8; 12]) -> Vec<Term> {
    let terms = rust_side::terms(kind, orders);
    assert!(
        terms == second::terms(kind, orders),
        "{} {:?}",
        kind,
        orders
    );
    let counted = second::count_histories(kind, orders, NOW.terms);
    assert_eq!(terms.len(), counted as usize);
    let length = second::write_roll(kind, orders, &terms).len();
    assert_eq!(second::measure(kind, orders), (length, terms.len()));
    agreed_total(kind, orders, &terms);
    terms
}

/// The Rust's scales add up to the second reading's total, and to 02's product where it claims one
///
fn agreed_total(kind: u8, orders: &[u8; 12], terms: &[Term]) {
    let total = second::scales(terms);
    assert_eq!(second::total(kind, orders), total);
    if second::is_claimed(kind) {
        assert_eq!(second::by_hand(kind, orders), total, "{:?}", orders);
    }
}

/// A fresh roll reads.
fn agreed_roll(kind: u8, orders: &[u8; 12]) {
    let terms = agreed_terms(kind, orders);
    let roll = second::write_roll(kind, orders, &terms);
    let (header, read) = NOW.check(&roll).expect("a fresh roll reads");
    assert_eq!((header.kind, header.orders), (kind, *orders));
    assert!(read == terms);
}

/// All requests within the limits of before, and one in so many of the others.
fn requests_of_kind(kind: u8, one_in: usize) {
    let is_old = |orders: &[u8; 12]| {
        let mut centres = orders.chunks(3);
        centres.all(|centre| centre.iter().sum::<u8>() <= BEFORE.order_sum)
    };
    let (old, new): (Vec<_>, Vec<_>) = requests::every(kind).into_iter().partition(is_old);
    for orders in old.iter().chain(new.iter().step_by(one_in)) {
        agreed_roll(kind, orders);
    }
}

#[test]
fn requests_of_kinds_0_and_1() {
    requests_of_kind(0, 1);
    requests_of_kind(1, 1);
}

#[test]
fn requests_of_kind_2() {
    requests_of_kind(2, 100);
}

#[test]
fn requests_of_kind_3() {
    requests_of_kind(3, 1_000);
}

#[test]
fn some_coulomb_requests() {
    let mut random = Random::new(1);
    for _ in 0..300 {
        agreed_terms(4, &requests::short(&mut random, 4));
    }
    for _ in 0..50 {
        agreed_terms(4, &requests::any_of(&mut random, 4, 1..=requests::LONG));
    }
}

/// The Rust takes a second and more for each.
#[test]
#[ignore]
fn coulomb_requests_around_the_cap() {
    let mut random = Random::new(6);
    for _ in 0..200 {
        let orders = requests::around_the_cap(&mut random);
        if second::check_measured(4, &orders).is_ok() {
            assert_eq!(rust_side::measure(4, &orders), second::measure(4, &orders));
        }
    }
}

#[test]
fn own_terms_and_aux_give_the_unchanged_value() {
    let mut random = Random::new(2);
    for _ in 0..20_000 {
        let roll = rolls::fresh(&mut random);
        let (header, terms) = NOW.check(&roll).expect("a fresh roll reads");
        let taste = floats::taste(&mut random);
        let centres = floats::centres(&mut random, taste);
        let boys = floats::boys(&mut random, taste, usize::from(header.l) + 1);
        let aux = rust_side::aux(header.kind, &centres);
        let value = rust_side::value(&header, &centres, &boys);
        let fed = rust_side::value_of_terms(&header, &terms, &centres, aux, &boys);
        assert!(
            value.to_bits() == fed.to_bits() || value.is_nan() && fed.is_nan(),
            "{:?} {:?}",
            header,
            centres
        );
    }
}

#[test]
fn geometry_and_tables() {
    let mut random = Random::new(3);
    for at in 0..50_000 {
        let kind = (at % 5) as u8;
        let taste = floats::taste(&mut random);
        let centres = floats::centres(&mut random, taste);
        let rust = rust_side::geometry_and_table(kind, &centres);
        let second = second::geometry_and_table(kind, &centres);
        let bits = |list: &[f64]| -> Vec<u64> {
            let one = |x: &f64| if x.is_nan() { u64::MAX } else { x.to_bits() };
            list.iter().map(one).collect()
        };
        assert_eq!(bits(&rust.0), bits(&second.0));
        assert_eq!(bits(&rust.1), bits(&second.1));
        assert_eq!(rust.1.len(), second::table_size(kind));
    }
}

#[test]
fn the_largest_request_is_counted_to_the_cap_only() {
    let orders = [6, 0, 0, 6, 0, 0, 6, 0, 0, 6, 0, 0];
    assert_eq!(second::count_histories(4, &orders, NOW.terms), 1_048_576);
}

#[test]
fn requests_at_the_limits() {
    let [within, above] = AT_THE_CAP;
    assert_eq!(agreed_terms(4, &within).len(), 1_048_572);
    assert_eq!(second::count_histories(4, &above, 2 * NOW.terms), 1_048_576);
    let [listed, refused] = AT_THE_LISTING;
    let (listed, refused) = (rust_side::roll(3, &listed), rust_side::roll(3, &refused));
    assert_eq!((listed.len(), refused.len()), (65_532, 65_540));
    assert!(second::listing(&listed).is_ok());
    assert_eq!(second::listing(&refused), Err(second::refusal(6)));
}

#[test]
fn rolls_of_a_length() {
    let mut random = Random::new(4);
    for length in 65_530..65_542 {
        let roll = rolls::of_length(&mut random, length);
        assert_eq!(roll.len(), length);
        assert!(NOW.check(&roll).is_ok());
        assert_eq!(second::listing(&roll).is_ok(), length <= 65_536);
    }
}

#[test]
fn a_list_with_another_order_is_not_the_own_one() {
    let roll = rust_side::roll(0, &[1, 0, 0, 1, 0, 0, 0, 0, 0, 0, 0, 0]);
    let (header, mut terms): (Header, _) = NOW.check(&roll).expect("a fresh roll reads");
    assert!(rust_side::is_own_list(&header, &terms));
    terms.swap(0, 1);
    assert!(!rust_side::is_own_list(&header, &terms));
}

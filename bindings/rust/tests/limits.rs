//! Each limit by behaviour: the library takes it and refuses one more.
use xewumbal::*;

/// A number of a roll: seven bits a byte, lowest first.
fn number(mut n: u32) -> Vec<u8> {
    let mut bytes = vec![];
    while n > 127 {
        bytes.push((n & 127 | 128) as u8);
        n >>= 7;
    }
    bytes.push(n as u8);
    bytes
}

/// A roll of overlap s,s with a term count and terms of any bytes.
fn roll(count: u32, terms: &[u8]) -> Vec<u8> {
    [vec![0; 7], number(count), terms.to_vec()].concat()
}

fn expand_first(kind: u8, order: u8) -> Expanded {
    let mut orders = [0; ORDERS];
    orders[0] = order;
    expand(kind, &orders, &mut [0; 1000], 0)
}

#[test]
fn most_order() {
    assert!(matches!(expand_first(OVERLAP, MOST_ORDER), Expanded::Roll { .. }));
    assert_eq!(expand_first(OVERLAP, MOST_ORDER + 1), Expanded::Refused(Refusal::OrderSum));
    assert!(matches!(shell_list(MOST_ORDER, &mut [0; 100], 0), Listed::Triples { .. }));
    assert_eq!(shell_list(MOST_ORDER + 1, &mut [0; 100], 0), Listed::Refused(Refusal::OrderSum));
}

#[test]
fn kinds() {
    assert!(matches!(expand_first(KINDS - 1, 0), Expanded::Roll { .. }));
    assert_eq!(expand_first(KINDS, 0), Expanded::Refused(Refusal::Kind));
}

#[test]
fn most_size() {
    for n in [MOST_SIZE, MOST_SIZE + 1] {
        let (i, d, mut j, mut k) = (vec![1.0; n * n * n * n], vec![1.0; n * n], vec![0.0; n * n], vec![0.0; n * n]);
        let answer = jk(n, &i, &d, &mut j, &mut k);
        if n == MOST_SIZE {
            assert_eq!(answer, Matrices::Written);
            assert!(j.iter().chain(&k).all(|&x| x == (n * n) as f64));
        } else {
            assert_eq!(answer, Matrices::Refused(Refusal::MatrixSize));
            assert!(j.iter().chain(&k).all(|&x| x == 0.0));
        }
    }
}

#[test]
fn most_terms() {
    let whole = |count: u32| roll(count, &[1, 0, 0].repeat(count as usize));
    for judge in [open, check] {
        assert!(matches!(judge(&whole(MOST_TERMS)), Opened::Roll { cursor, .. } if cursor.left == MOST_TERMS));
        assert_eq!(judge(&whole(MOST_TERMS + 1)), Opened::Refused(Refusal::BadRoll { place: 7 }));
    }
}

/// The requests of 1,048,572 terms and of 1,048,576 histories are next to the cap.
#[test]
fn most_terms_of_a_request() {
    let largest = [2, 1, 0, 2, 0, 2, 1, 3, 0, 1, 0, 2];
    assert_eq!(measure(COULOMB, &largest), Expanded::Roll { length: 14908072, terms: 1048572 });
    let just_over = [1, 1, 0, 2, 1, 1, 0, 0, 4, 0, 2, 2];
    assert_eq!(measure(COULOMB, &just_over), Expanded::Refused(Refusal::TooManyTerms));
}

/// The longest roll that there is, in just its bytes and in one less.
#[test]
fn most_roll() {
    let orders = [1, 1, 0, 4, 0, 1, 1, 3, 0, 3, 0, 0];
    let longest = Expanded::Roll { length: 15001920, terms: 1048096 };
    assert_eq!(measure(COULOMB, &orders), longest);
    let mut room = vec![0; 15001920];
    assert!(room.len() <= MOST_ROLL);
    assert_eq!(expand(COULOMB, &orders, &mut room[1..], 0), Expanded::Refused(Refusal::NoRoom));
    assert!(room.iter().all(|&byte| byte == 0));
    assert_eq!(expand(COULOMB, &orders, &mut room, 0), longest);
    assert!(matches!(check(&room), Opened::Roll { orders: read, .. } if read == orders));
}

/// The roll with the most terms, in a buffer of 40 bytes for each and in one less.
#[test]
fn largest_grouping() {
    let orders = [2, 1, 0, 2, 0, 2, 1, 3, 0, 1, 0, 2];
    let mut roll = vec![0; 14908072];
    assert_eq!(expand(COULOMB, &orders, &mut roll, 0), Expanded::Roll { length: 14908072, terms: 1048572 });
    let [a, b, c, d] =
        [1.0, 0.5, -0.25, 0.125].map(|x| Centre { x, y: x * x, z: -x, exponent: 1.0 + x * x, charge: 1 });
    let boys: Vec<f64> = (0..15).map(|n| 0.8 / f64::from(2 * n + 1)).collect();
    let mut buffer = vec![0xa5; 41942880];
    assert_eq!(buffer.len(), ENTRY * 1048572);
    let short = evaluate_grouped(&roll, a, b, c, d, 1.5, &boys, &mut buffer[1..]);
    assert_eq!(short, Value::Refused(Refusal::NoRoom));
    assert!(buffer.iter().all(|&byte| byte == 0xa5));
    match (evaluate_grouped(&roll, a, b, c, d, 1.5, &boys, &mut buffer), evaluate(&roll, a, b, c, d, 1.5, &boys)) {
        (Value::Is(ours), Value::Is(plain)) => assert_eq!(ours.to_bits(), plain.to_bits()),
        both => panic!("{both:?}"),
    }
    // The roll's terms, which follow 16 bytes, and a number of one, two or three bytes for each.
    let size = roll.len() - 16 + 127 + 2 * (16383 - 127) + 3 * (1048572 - 16383);
    assert!(buffer[size..].iter().all(|&byte| byte == 0xa5));
    let mut cursor = Cursor { place: 16, left: 1048572, kind: COULOMB, l: 14 };
    assert!(matches!(open(&roll), Opened::Roll { cursor: first, .. } if first == cursor));
    for number in 1..=1048572 {
        let term = match cursor.next(&roll) {
            Step::Term { term, next } => {
                cursor = next;
                term
            }
            other => panic!("{other:?}"),
        };
        if [1, 127, 128, 16383, 16384, 1048572].contains(&number) {
            assert_eq!(grouped_term(&buffer[..size], 14, 1048572, number), Restored::Term(term));
        }
    }
}

#[test]
fn largest_l_of_a_grouping() {
    let most = 4 * MOST_ORDER;
    let grouping = [1, 1, most, 0];
    assert!(matches!(grouped_term(&grouping, most, 1, 1), Restored::Term(term) if term.boys == most));
    assert_eq!(grouped_term(&grouping, most + 1, 1, 1), Restored::Refused(Refusal::BadRoll { place: 0 }));
}

#[test]
fn most_scale() {
    let first = Cursor { place: 8, left: 1, kind: OVERLAP, l: 0 };
    let term = |scale| roll(1, &[number(scale), vec![0, 0]].concat());
    assert!(matches!(first.next(&term(MOST_SCALE)), Step::Term { term, .. } if term.scale == MOST_SCALE));
    assert_eq!(first.next(&term(MOST_SCALE + 1)), Step::Refused(Refusal::BadRoll { place: 8 }));
}

#[test]
fn prefactors_of_a_term() {
    let orders = [MOST_ORDER, 0, 0, MOST_ORDER, 0, 0, MOST_ORDER, 0, 0, MOST_ORDER, 0, 0];
    for count in [PREFACTORS, PREFACTORS + 1] {
        let listed: Vec<u8> = (1..=count).map(|n| (n % TABLE) as u8).collect();
        let roll = [&[COULOMB], &orders[..], &[1, 1, 0, count as u8], &listed].concat();
        let cursor = match open(&roll) {
            Opened::Roll { cursor, .. } => cursor,
            refused => panic!("{refused:?}"),
        };
        match cursor.next(&roll) {
            Step::Term { term, .. } => assert_eq!((term.prefactors(), count), (&listed[..], PREFACTORS)),
            answer => {
                assert_eq!((answer, count), (Step::Refused(Refusal::BadRoll { place: 16 }), PREFACTORS + 1))
            }
        }
    }
}

/// Nuclear s,s, whose integral is aux times F(0).
#[test]
fn most_charge_and_most_nuclei() {
    let roll = [NUCLEAR, 0, 0, 0, 0, 0, 0, 1, 1, 0, 0];
    let unit = Centre { exponent: 1.0, ..Centre::default() };
    let single = |charge| evaluate(&roll, unit, unit, Centre { charge, ..unit }, unit, 0.5, &[1.0]);
    let total = |charge, count: u32, boys: &[f64]| {
        let nuclei = Nuclei { centres: [Centre { charge, ..unit }; MOST_NUCLEI], count };
        nuclear(&roll, unit, unit, nuclei, 0.5, boys)
    };
    let (most, boys) = (MOST_NUCLEI as u32, [1.0; MOST_NUCLEI + 1]);
    assert_eq!((single(MOST_CHARGE), single(MOST_CHARGE + 1)), (Value::Is(59.0), Value::Refused(Refusal::Nuclei)));
    assert_eq!(total(MOST_CHARGE, most, &boys[1..]), Value::Is(1888.0));
    assert_eq!(total(MOST_CHARGE + 1, most, &boys[1..]), Value::Refused(Refusal::Nuclei));
    assert_eq!(total(MOST_CHARGE, most + 1, &boys), Value::Refused(Refusal::Nuclei));
    assert_eq!(total(MOST_CHARGE, 0, &[]), Value::Refused(Refusal::Nuclei));
}

/// Overlap s,s, whose value is the host number.
#[test]
fn most_primitives() {
    let roll = [OVERLAP, 0, 0, 0, 0, 0, 0, 1, 1, 0, 0];
    let unit = Primitive { centre: Centre { exponent: 1.0, ..Centre::default() }, norm: 1.0, coefficient: 1.0 };
    let element = |left, right, host: &[f64]| {
        let function = |count| Contraction { primitives: [unit; MOST_PRIMITIVES], count };
        contracted(&roll, function(left), function(right), host)
    };
    let (most, host) = (MOST_PRIMITIVES as u32, [0.5; (MOST_PRIMITIVES + 1) * MOST_PRIMITIVES]);
    assert_eq!(element(most, most, &host[MOST_PRIMITIVES..]), Value::Is(50.0));
    assert_eq!(element(most + 1, most, &host), Value::Refused(Refusal::PrimitiveCount));
    assert_eq!(element(most, most + 1, &host), Value::Refused(Refusal::PrimitiveCount));
    assert_eq!(element(0, most, &[]), Value::Refused(Refusal::PrimitiveCount));
    assert_eq!(element(most, 0, &[]), Value::Refused(Refusal::PrimitiveCount));
    assert_eq!(element(most, most, &host), Value::Refused(Refusal::HostCount));
}

/// The limits of an import are the reader's: the largest scale, the most terms, and one more of each.
#[test]
fn limits_of_an_import() {
    let text = |scale: u32| format!("0,0,0,0,0,0,0,1\n{scale},0\n");
    let mut room = vec![0; 4_000_000];
    assert_eq!(import(text(MOST_SCALE).as_bytes(), &mut room, 0), Imported::Roll { length: 15, terms: 1 });
    assert_eq!(
        import(text(MOST_SCALE + 1).as_bytes(), &mut room, 0),
        Imported::Refused(Refusal::LineNumbers { line: 2 })
    );
    let many = |count: u32| format!("0,0,0,0,0,0,0,{count}\n{}", "1,0\n".repeat(count as usize));
    let length = 7 + 3 + 3 * MOST_TERMS as usize;
    assert_eq!(import(many(MOST_TERMS).as_bytes(), &mut room, 0), Imported::Roll { length, terms: MOST_TERMS });
    assert_eq!(room[..length], roll(MOST_TERMS, &[1, 0, 0].repeat(MOST_TERMS as usize)));
    assert_eq!(
        import(many(MOST_TERMS + 1).as_bytes(), &mut room, 0),
        Imported::Refused(Refusal::LineNumbers { line: 1 })
    );
    let last = many(MOST_TERMS).trim_end().to_string();
    let line = u64::from(MOST_TERMS) + 1;
    assert_eq!(import(last.as_bytes(), &mut room, 0), Imported::Refused(Refusal::LineShape { line }));
    let mut out = vec![0; many(MOST_TERMS).len()];
    assert_eq!(export(&room[..length], &mut out, 0), Exported::Text { length: out.len() });
    assert_eq!(out, many(MOST_TERMS).as_bytes());
}

/// Every request of the profile: four x orders of Coulomb, and so of y and z, have the most terms and the most bytes.
#[test]
fn small_terms_and_small_roll() {
    let (mut most, mut room) = (0, [0; SMALL_ROLL]);
    for number in 0..16 + 256 {
        let (kind, mut rest) = if number < 16 { (OVERLAP, number) } else { (COULOMB, number - 16) };
        let mut orders = [0; ORDERS];
        for centre in orders.chunks_mut(3) {
            if rest % 4 > 0 {
                centre[rest % 4 - 1] = 1;
            }
            rest /= 4;
        }
        match small_expand(kind, &orders, &mut room, 0) {
            Expanded::Roll { length, terms } => {
                assert!(length <= SMALL_ROLL && terms <= SMALL_TERMS);
                assert_eq!(
                    (length == SMALL_ROLL, small_check(&room[..length])),
                    (terms == SMALL_TERMS, check(&room[..length]))
                );
                most += u32::from(terms == SMALL_TERMS);
            }
            refused => panic!("{refused:?}"),
        }
    }
    assert_eq!(most, 3);
    let four = [1, 0, 0, 1, 0, 0, 1, 0, 0, 1, 0, 0];
    assert_eq!(small_expand(COULOMB, &four, &mut room[1..], 0), Expanded::Refused(Refusal::NoRoom));
    assert_eq!(small_expand(COULOMB, &four, &mut room, 0), Expanded::Roll { length: 348, terms: 54 });
}

#[test]
fn tables() {
    let [a, b, c, d] = [1.0, 2.0, 4.0, 8.0].map(|x| Centre { x, y: x * x, z: -x, exponent: x + 0.5, charge: 1 });
    for (kind, size) in [(0, 8), (1, 11), (2, 11), (3, 12), (KINDS - 1, TABLE)] {
        match prefactors(kind, a, b, c, d) {
            Table::Entries(entries) => {
                assert!(entries[..size].iter().all(|&entry| entry != 0.0), "{entries:?}");
                assert!(entries[size..].iter().all(|&entry| entry == 0.0), "{entries:?}");
            }
            refused => panic!("{refused:?}"),
        }
    }
}

//! The table: ratios of both sides, natively beside the goals.

use crate::commas;
use crate::components::{self, COUNT};
use crate::compare;
use crate::confirm::{self, CONFIRM};
use crate::forms;
use crate::salvage;
use crate::grouped;
use crate::matrices::{self, SIZES};
use crate::measure::Row;
use crate::contracted::{self, ELEMENT};
use crate::nuclei::{self, LIST};
use crate::ours;
use crate::requests::{self, Request};
use crate::root;
use crate::totals;
use std::fmt::Display;
use std::time::Duration;

/// The least ratios that are asked for: of an expansion with Boys orders and without, and of an evaluation.
const WITH_BOYS: f64 = 10.0;
const WITHOUT_BOYS: f64 = 6.0;
const EVALUATION: f64 = 15.0;
/// The most times that a refusal may take of the largest request that is accepted.
const REFUSAL: f64 = 3.0;
/// The most times that the last component may take of the first.
const COMPONENT: f64 = 2.0;

/// A table whose rows end in a goal and in whether it is met, where there are goals.
struct Table {
    has_goals: bool,
}

impl Table {
    fn head(&self, columns: &str) {
        let goal = if self.has_goals { " | goal | met" } else { "" };
        heading(&format!("{}{}", columns, goal));
    }

    fn row(&self, cells: &str, goal: impl Display, is_met: bool) {
        self.ended(cells, goal, if is_met { "yes" } else { "no" });
    }

    fn ended(&self, cells: &str, goal: impl Display, met: &str) {
        match self.has_goals {
            true => println!("| {} | {} | {} |", cells, goal, met),
            false => println!("| {} |", cells),
        }
    }

    fn print_expansion(&self, rows: &[&Row]) {
        self.head("expansion | terms | Rust, ns a term | ours, ns a term | ratio");
        for row in rows {
            let [theirs, ours] = row.expansion;
            let goal = match row.request.kind {
                2 | 4 => WITH_BOYS,
                _ => WITHOUT_BOYS,
            };
            let cells = format!(
                "{} | {} | {:.1} | {:.1} | {:.1}",
                row.request.title(),
                row.terms,
                theirs / row.terms,
                ours / row.terms,
                theirs / ours
            );
            self.row(&cells, goal, theirs / ours >= goal);
        }
    }

    fn print_evaluation(&self, rows: &[&Row]) {
        self.head(
            "evaluation | terms | get_, ns a term | ours, ns a term | xew_check alone | ratio",
        );
        for row in rows {
            let [theirs, ours] = row.evaluation;
            let cells = format!(
                "{} | {} | {:.1} | {:.1} | {:.1} | {:.1}",
                row.request.title(),
                row.terms,
                theirs / row.terms,
                ours / row.terms,
                row.check / row.terms,
                theirs / ours
            );
            self.row(&cells, EVALUATION, theirs / ours >= EVALUATION);
        }
    }

    /// A goal for each of the three ratios, where there is one.
    fn print_grouped(&self, rows: &[&Row]) -> Result<(), String> {
        self.head("grouped | terms | get_coulomb, ns a term | xew_evaluate | xew_evaluate_grouped | get_coulomb through xew_evaluate | get_coulomb through grouped | xew_evaluate through grouped");
        for row in rows.iter().filter(|row| row.request.kind == 4) {
            let times = grouped::times(&row.request, Duration::from_millis(100))?;
            let [theirs, plain, grouped] = times.map(|took| took / row.terms);
            let ratios = [theirs / plain, theirs / grouped, plain / grouped];
            let cells = format!(
                "{} | {} | {:.1} | {:.1} | {:.1} | {:.1} | {:.1} | {:.2}",
                row.request.title(),
                row.terms,
                theirs,
                plain,
                grouped,
                ratios[0],
                ratios[1],
                ratios[2]
            );
            let goals = grouped::goals(&row.request);
            let words = goals.map(|goal| match goal > 0.0 {
                true => goal.to_string(),
                false => "-".to_string(),
            });
            let is_met = ratios.iter().zip(&goals).all(|(ratio, goal)| ratio >= goal);
            match goals == [0.0; 3] {
                true => self.ended(&cells, "-", "-"),
                false => self.row(&cells, words.join(", "), is_met),
            }
        }
        Ok(())
    }

    fn print_refusals(&self, rows: &[&Row], largest: f64) {
        self.head("refusal 4 | ns a call | times the largest accepted");
        for row in rows {
            let took = row.expansion[1];
            let cells = format!(
                "{} | {:.0} | {:.4}",
                row.request.title(),
                took,
                took / largest
            );
            self.row(&cells, REFUSAL, took / largest <= REFUSAL);
        }
    }

    fn print_components(&self) {
        let [first, last] = components::first_and_last(Duration::from_millis(100));
        self.head("component of four shells of order 6 | ns a call | times the first");
        for (number, took) in [(0, first), (COUNT - 1, last)] {
            let cells = format!("{} | {:.1} | {:.2}", number, took, took / first);
            self.row(&cells, COMPONENT, took / first <= COMPONENT);
        }
    }

    /// The walk compares as it goes, so that a confirmation takes what an expansion takes, and the reading of the roll.
    fn print_confirm(&self, requests: &[Request]) -> Result<(), String> {
        self.head("confirmation | terms | xew_expand, ns a term | xew_confirm, ns a term | times expand | xew_expand2, ns a term | xew_confirm of form 2 | times expand2");
        for request in requests {
            let time = Duration::from_millis(100);
            let (one, two) = (confirm::times(request, 1, time)?, confirm::times(request, 2, time)?);
            let terms = f64::from(ours::measure(request).terms);
            let ratios = [one.confirmed / one.written, two.confirmed / two.written];
            let cells = format!(
                "{} | {} | {:.1} | {:.1} | {:.2} | {:.1} | {:.1} | {:.2}",
                request.title(),
                terms,
                one.written / terms,
                one.confirmed / terms,
                ratios[0],
                two.written / terms,
                two.confirmed / terms,
                ratios[1]
            );
            self.row(&cells, CONFIRM, ratios.iter().all(|&ratio| ratio <= CONFIRM));
        }
        Ok(())
    }

    fn print_nuclei(&self) -> Result<(), String> {
        self.head("32 nuclei | terms | xew_nuclear, ns a call | xew_evaluate of one | xew_check | 33 of (evaluate - check), one check | xew_nuclear, times that | 32 of get_nuclear | get_nuclear through xew_nuclear");
        for request in nuclei::requests() {
            let took = nuclei::times(&request, Duration::from_millis(100))?;
            let ratio = took.list / took.apart();
            let cells = format!(
                "{} | {} | {:.0} | {:.1} | {:.1} | {:.0} | {:.2} | {:.0} | {:.1}",
                request.title(),
                took.terms,
                took.list,
                took.one,
                took.check,
                took.apart(),
                ratio,
                took.rust,
                took.rust / took.list
            );
            self.row(&cells, format!("{:.1}", LIST), ratio <= LIST);
        }
        Ok(())
    }

    fn print_contracted(&self) -> Result<(), String> {
        self.head("10 by 10 primitives | terms | xew_contracted, ns a call | xew_evaluate of one pair | xew_check | 100 of (evaluate - check), one check | xew_contracted, times that | an element of S or T | S or T through xew_contracted");
        for request in contracted::requests() {
            let took = contracted::times(&request, Duration::from_millis(100))?;
            let ratio = took.element / took.apart();
            let cells = format!(
                "{} | {} | {:.0} | {:.1} | {:.1} | {:.0} | {:.2} | {:.0} | {:.1}",
                request.title(),
                took.terms,
                took.element,
                took.one,
                took.check,
                took.apart(),
                ratio,
                took.rust,
                took.rust / took.element
            );
            self.row(&cells, format!("{:.1}", ELEMENT), ratio <= ELEMENT);
        }
        Ok(())
    }
}

fn heading(columns: &str) {
    println!("\n| {} |", columns);
    println!("{}|", "|---".repeat(columns.split(" | ").count()));
}

fn print_measuring(rows: &[&Row]) {
    heading("measuring | terms | xew_measure, ns a call | part of xew_expand");
    for row in rows {
        println!(
            "| {} | {} | {:.0} | {:.3} |",
            row.request.title(),
            row.terms,
            row.measuring,
            row.measuring / row.expansion[1]
        );
    }
}

/// Bytes in a nanosecond are gigabytes in a second.
fn print_bytes(rows: &[&Row]) {
    heading("bytes | roll, bytes | written, MB a second | copied, MB a second");
    for row in rows {
        println!(
            "| {} | {} | {:.0} | {:.0} |",
            row.request.title(),
            row.bytes,
            1000.0 * row.bytes / row.expansion[1],
            1000.0 * row.bytes / row.copy
        );
    }
}

/// J and K together have 2n^2 entries.
fn print_matrices() -> Result<(), String> {
    heading("J and K | JK_direct, ns an entry | JK_inmem, ns an entry | ours, ns an entry | JK_direct through ours | JK_inmem through ours");
    for &n in &SIZES {
        let times = matrices::times(n, Duration::from_millis(100))?;
        let [direct, in_memory, ours] = times.map(|took| took / (2 * n * n) as f64);
        println!(
            "| n = {} | {:.1} | {:.1} | {:.1} | {:.1} | {:.1} |",
            n,
            direct,
            in_memory,
            ours,
            direct / ours,
            in_memory / ours
        );
    }
    Ok(())
}

/// A total over a roll reads each term's head once more after the roll is judged.
fn print_totals() -> Result<(), String> {
    heading("totals | xew_scale_total, ns a call | xew_roll_total, ns a call | xew_check, ns a call | roll_total through check");
    for request in totals::requests() {
        let [by_hand, over_roll, judged] = totals::times(&request, Duration::from_millis(100))?;
        println!(
            "| {} | {:.1} | {:.0} | {:.0} | {:.2} |",
            request.title(),
            by_hand,
            over_roll,
            judged,
            over_roll / judged
        );
    }
    Ok(())
}

/// A root of ours is worked out in whole numbers, the machine's by one instruction.
pub fn print_roots() -> Result<(), String> {
    heading("root | inputs | xew_root, ns a call | f64::sqrt, ns a call | xew_root through f64::sqrt");
    for (name, inputs) in root::lists() {
        let [ours, machine] = root::times(name, &inputs, Duration::from_millis(100))?;
        println!(
            "| {} | {} | {:.1} | {:.1} | {:.1} |",
            name,
            inputs.len(),
            ours,
            machine,
            ours / machine
        );
    }
    Ok(())
}

/// A move may take three times the time of xew_check of the roll in form 1; the writer of form 2 no longer than form 1's. Beside
/// it stands xew_check2, the judge of the roll that the way back moves.
fn print_forms(rows: &[&Row]) -> Result<(), String> {
    heading("two forms | form 1, bytes | form 2, bytes | ratio | xew_expand, ns a term | xew_expand2 | xew_check | xew_check2 | xew_to_form2, times check | xew_to_form1, times check2 | xew_to_form1, times check");
    for row in rows {
        let took = forms::times(&row.request, Duration::from_millis(100))?;
        println!(
            "| {} | {} | {} | {:.3} | {:.1} | {:.1} | {:.1} | {:.1} | {:.2} | {:.2} | {:.2} |",
            row.request.title(),
            took.bytes[0],
            took.bytes[1],
            took.bytes[1] / took.bytes[0],
            took.written[0] / took.terms,
            took.written[1] / took.terms,
            took.checks[0] / took.terms,
            took.checks[1] / took.terms,
            took.moved[0] / took.checks[0],
            took.moved[1] / took.checks[1],
            took.moved[1] / took.checks[0]
        );
    }
    Ok(())
}

/// A salvage may take twice the time of an expansion in the same form.
fn print_salvage(rows: &[&Row]) -> Result<(), String> {
    heading("salvage | xew_expand, ns a term | of a whole roll, times expand | of one whose last byte differs | xew_expand2, ns a term | of a whole roll, times expand2 | of one whose last byte differs");
    for row in rows {
        let time = Duration::from_millis(100);
        let (one, two) = (salvage::times(&row.request, 1, time)?, salvage::times(&row.request, 2, time)?);
        println!(
            "| {} | {:.1} | {:.2} | {:.2} | {:.1} | {:.2} | {:.2} |",
            row.request.title(),
            one.written / row.terms,
            one.whole / one.written,
            one.damaged / one.written,
            two.written / row.terms,
            two.whole / two.written,
            two.damaged / two.written
        );
    }
    Ok(())
}

/// The calls of a cheap board, beside those of every cabinet.
fn print_profile() -> Result<(), String> {
    heading("small-cabinet profile | xew_expand, ns a call | xew_small_expand | xew_check | xew_confirm | xew_small_check | small_check, times expand");
    for request in confirm::profile() {
        let took = confirm::small_times(&request, Duration::from_millis(100))?;
        println!(
            "| {} | {:.1} | {:.1} | {:.1} | {:.1} | {:.1} | {:.2} |",
            request.title(),
            took[0],
            took[1],
            took[2],
            took[3],
            took[4],
            took[4] / took[0]
        );
    }
    Ok(())
}

/// A text is measured before it is written, by the same functions, and judged before the roll is; so each way goes over it twice.
pub fn print_commas(requests: &[Request]) -> Result<(), String> {
    heading("comma-separated | terms | text, bytes | xew_check, ns a term | xew_export | xew_import | xew_export, ns a byte of text | xew_import, ns a byte of text");
    for request in requests {
        let took = commas::times(request, Duration::from_millis(100))?;
        let terms = f64::from(ours::measure(request).terms);
        println!(
            "| {} | {} | {} | {:.1} | {:.1} | {:.1} | {:.2} | {:.2} |",
            request.title(),
            terms,
            took.bytes,
            took.check / terms,
            took.export / terms,
            took.import / terms,
            took.export / took.bytes,
            took.import / took.bytes
        );
    }
    Ok(())
}

/// A comparison judges both rolls, then steps through both.
fn print_compare(rows: &[&Row]) -> Result<(), String> {
    heading("comparison | xew_check, ns a term | xew_compare with itself, ns a term | with its form 2 | with itself, times check");
    for row in rows {
        let took = compare::times(&row.request, Duration::from_millis(100))?;
        println!(
            "| {} | {:.1} | {:.1} | {:.1} | {:.1} |",
            row.request.title(),
            took.check / row.terms,
            took.same / row.terms,
            took.forms / row.terms,
            took.same / took.check
        );
    }
    Ok(())
}

pub fn print(rows: &[Row], has_goals: bool) -> Result<(), String> {
    let table = Table { has_goals };
    let (accepted, refused): (Vec<&Row>, Vec<&Row>) = rows.iter().partition(|row| row.terms > 0.0);
    table.print_expansion(&accepted);
    table.print_evaluation(&accepted);
    print_measuring(&accepted);
    print_bytes(&accepted);
    let most = accepted
        .iter()
        .fold(0.0, |most: f64, row| most.max(row.terms));
    let largest = accepted.iter().find(|row| row.terms == most);
    let time = largest.map_or(f64::NAN, |row| row.expansion[1]);
    table.print_refusals(&refused, time);
    table.print_components();
    table.print_grouped(&accepted)?;
    print_matrices()?;
    print_forms(&accepted)?;
    print_salvage(&accepted)?;
    let requests: Vec<Request> = accepted.iter().map(|row| row.request.clone()).collect();
    table.print_confirm(&requests)?;
    print_profile()?;
    print_commas(&requests)?;
    print_compare(&accepted)?;
    table.print_nuclei()?;
    table.print_contracted()?;
    print_roots()?;
    print_totals()
}

/// The table of lists of nuclei alone.
pub fn print_lists() -> Result<(), String> {
    Table { has_goals: true }.print_nuclei()
}

/// The tables of confirmations and of the profile alone.
pub fn print_confirmations() -> Result<(), String> {
    Table { has_goals: true }.print_confirm(&requests::measured())?;
    print_profile()
}

/// The table of contracted elements alone.
pub fn print_elements() -> Result<(), String> {
    Table { has_goals: true }.print_contracted()
}

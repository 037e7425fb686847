//! The small cabinet's profile, and whether a roll is the expansion of its request.

use super::form::Form;
use super::limits::{PROFILE_KINDS, PROFILE_ORDER_SUM};
use super::refusal::{other_expansion, refusal, Refusal};

/// 19: a form, a kind or an order sum outside the profile. The kind and the orders are those of a header
/// that reads, or of a request within the limits.
pub fn check_profile(form: Form, kind: u8, orders: &[u8; 12]) -> Result<(), Refusal> {
    let sum = |centre: &[u8]| centre.iter().sum::<u8>();
    let is_low = orders
        .chunks(3)
        .all(|centre| sum(centre) <= PROFILE_ORDER_SUM);
    if form == Form::One && PROFILE_KINDS.contains(&kind) && is_low {
        Ok(())
    } else {
        Err(refusal(19))
    }
}

/// 20: a byte of the roll differs from the expansion's, or only one of them has it.
pub fn check_expansion(roll: &[u8], fresh: &[u8]) -> Result<(), Refusal> {
    if roll == fresh {
        return Ok(());
    }
    let same = roll.iter().zip(fresh).take_while(|(byte, own)| byte == own);
    Err(other_expansion(same.count()))
}

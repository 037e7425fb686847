//! A second, independent reading of documents 01 and 02, in plain Rust.
//!
//! Everything that os86.rs, shell.rs and basis.rs do not know stands here: limits and
//! refusals, the roll in its two forms, the reader and the cursor, the moves, what is left of a
//! damaged roll, the listing, the comparison of two rolls, the capped count of histories, the checks of an evaluation, the
//! grouping of terms, the charges and lists of nuclei, contracted functions, the root over whole numbers, the small cabinet's profile, and the comma-separated text. Nothing here calls the unchanged Rust. The step rules, the geometry and the
//! sums of J and K are here too, so that the two can be held against each other.

mod census;
mod checks;
mod commas;
mod compare;
mod contracted;
mod form;
mod geometry;
mod grouping;
mod limits;
mod listing;
mod matrices;
mod moves;
mod nuclei;
mod profile;
mod refusal;
mod roll;
mod root;
mod salvage;
mod steps;
mod totals;

pub use census::{facts, totals, Facts};
pub use checks::{check_component, check_contracted, check_counts, check_evaluation};
pub use checks::{check_grouping, check_matrices, check_measured, check_nuclei};
pub use checks::{check_request, check_results, check_room, check_shell};
pub use checks::{check_small_request, check_table, check_total, BYTES_OF_AN_ENTRY};
pub use commas::{exported, imported};
pub use compare::{compared, Side};
pub use contracted::{element, Element};
pub use form::{shared_length, Form};
pub use geometry::{geometry_and_table, sum_of_exponents};
pub use grouping::{grouped, sum_of_groups, Entry};
pub use limits::{orders_used, table_size, Limits, BEFORE, NOW};
pub use limits::{PROFILE_KINDS, PROFILE_ORDER_SUM};
pub use listing::listing;
pub use matrices::j_and_k;
pub use moves::moved;
pub use nuclei::{sum_of_nuclei, value_of_nucleus};
pub use profile::{check_expansion, check_profile};
pub use refusal::{refusal, Refusal};
pub use roll::{fresh_roll, measure, write_number, write_roll, write_roll_in};
pub use roll::{read_number, Header, Step, Unread};
pub use root::{root, s_of_product};
pub use salvage::{salvaged, Salvaged};
pub use steps::{count_histories, terms, Term};
pub use totals::{by_hand, is_claimed, scales, total};

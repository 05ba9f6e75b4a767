//! What the programs share: cases and their stream, the Rust's answer to a case, its listing, its
//! agreement with the grammar, joined texts, member templates, plain forms, the season's count, and the makers of cases.

pub mod agreement;
pub mod answer;
pub mod case;
pub mod error_record;
pub mod exit;
pub mod joins;
pub mod listing;
pub mod make;
pub mod members;
pub mod pairs;
pub mod plain;
pub mod ranges;
pub mod reading;
pub mod seasons;
pub mod wants;

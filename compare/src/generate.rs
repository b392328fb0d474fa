//! Random inputs with a seed: trees of MSPDI's shape with odd values, rules, texts, models, damaged bytes.

mod custom_fields;
mod damage;
mod large;
mod limits;
mod models;
mod odd;
mod project;
mod rules;
mod texts;

pub use custom_fields::{CUSTOM, field_pair};
pub use damage::damaged;
pub use large::large_model;
pub use limits::{LIMITS, limit_tree};
pub use models::{made_up, old_form, packed_model, packed_old, read_one};
pub use odd::{packed_odd, shaped};
pub use project::packed_tree;
pub use rules::{packed_rule, rule};
pub use texts::{fixed_texts, leaf_text};

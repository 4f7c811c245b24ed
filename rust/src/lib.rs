//! An independent version of the programs `showplan` and `replay`, written from the descriptions in `docs/`
//! alone.
//!
//! It is a yardstick, not a product: it favours plain code over small memory, so it may use the heap and
//! hold whole lists where the real programs work in lent records.

pub mod clock;
pub mod live;
pub mod node;
pub mod prepared;
pub mod question;
pub mod refusal;
pub mod replay;
pub mod schedule;
pub mod script;
pub mod showplan;
pub mod stack;
pub mod stream;
pub mod text;

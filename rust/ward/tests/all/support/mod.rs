//! What the tests share: lent memory, the calls against the model, logs, days, teams and sets; runs of the tool, JSON and XML.

pub mod calls;
pub mod d1;
pub mod days;
pub mod digits;
pub mod handed;
pub mod json;
pub mod lent;
pub mod listings;
pub mod logs;
pub mod probes;
pub mod prompt;
pub mod random;
pub mod receivers;
pub mod refused_logs;
pub mod seen;
pub mod sets;
pub mod teams;
pub mod xml;

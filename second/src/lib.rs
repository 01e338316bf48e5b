//! The independent second program. Everything in it is written from
//! documents 01 and 02; it shares no line and no table with the planner.

pub mod accepted;
pub mod allocation;
pub mod answers;
pub mod call_line;
pub mod flow;
pub mod generate;
pub mod groups;
pub mod hex;
pub mod jobs;
pub mod lines;
pub mod overload;
pub mod random;
pub mod set;
pub mod stretches;
pub mod table;
pub mod table_line;
pub mod walk_line;

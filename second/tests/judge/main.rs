//! Tests of the judge.

mod commands;
mod generated;
mod masks;
mod overloads;
mod planner;
mod settled;
mod written;

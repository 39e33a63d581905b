//! Runs the program as people do, and holds what it writes.

mod answers;
mod arguments;
mod forms;
mod refusals;
mod run;

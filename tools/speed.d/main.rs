//! The proved calls and the Rust original, timed on the same inputs in one run. `tools/speed` builds and runs it.
//!
//! A new line: its exported call in `crates/speed_oneway`, `speed_sheet`, `speed_twoway` or `speed_repeated` and in `ours.rs`, and a function here or in a file of its own that
//! first compares the two answers and then hands both calls to `Timing::line`.

mod timing;
mod inputs;
mod oneway;
mod ours;
mod repeated;
mod root;
mod sheet;
mod twoway;

fn main() {
    let mut timing = timing::Timing::from_args();
    oneway::lines(&mut timing);
    root::lines(&mut timing);
    sheet::lines(&mut timing);
    twoway::lines(&mut timing);
    repeated::lines(&mut timing);
}

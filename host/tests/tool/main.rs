//! Runs morgana on files of its own and wants what it prints and its exit status to be as given.

mod comparisons;
mod factors;
mod failures;
mod json;
mod kept;
mod keys;
mod listings;
mod located;
mod many;
mod moves;
mod outputs;
mod prices;
mod refusals;
mod replays;
mod shapes;
mod shorter;
mod support;
mod values;

//! The request's edges and starred cases, written out with the request's numbers, and the limits
//! of sizes and of 32-bit numbers.

mod archive;
mod generator;
mod independent;
mod written;

#[path = "edges/comparisons.rs"]
mod comparisons;
#[path = "edges/editions.rs"]
mod editions;
#[path = "edges/factors.rs"]
mod factors;
#[path = "edges/fields.rs"]
mod fields;
#[path = "edges/full.rs"]
mod full;
#[path = "edges/grown.rs"]
mod grown;
#[path = "edges/inputs.rs"]
mod inputs;
#[path = "edges/located.rs"]
mod located;
#[path = "edges/moves.rs"]
mod moves;
#[path = "edges/prices.rs"]
mod prices;
#[path = "edges/quadratics.rs"]
mod quadratics;
#[path = "edges/records.rs"]
mod records;
#[path = "edges/shapes.rs"]
mod shapes;
#[path = "edges/shorter.rs"]
mod shorter;
#[path = "edges/slices.rs"]
mod slices;
#[path = "edges/starred.rs"]
mod starred;
#[path = "edges/towers.rs"]
mod towers;

//! The library beside a separately written evaluator: every number of every answer, and of every list, diagram and
//! table that is lent. `evaluator` says what tables and diagrams mean, `generator` makes them, `compare` calls and
//! compares; the other modules say what is compared.

mod compare;
mod evaluator;
mod generator;

mod attaching;
mod building;
mod lengths;
mod looking_up;
mod pairs;
mod reading;
mod refusals;
mod rings;
mod ruling;
mod sets;
mod standard;
mod subjects;
mod vectors;

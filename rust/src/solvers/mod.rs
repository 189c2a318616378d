//! The solvers, by geop's paths.

pub mod least_squares;

//! The wrapper's tests, as one program: linking it takes longer than all of them.

mod checking;
mod frames;
mod halves;
mod rest;
mod sheets;
mod types;
mod worked;

//! An analyser of CAN frame tables beside the certifier, by documents 01 and 02.

pub mod before;
pub mod bounds;
pub mod bus;
pub mod busiest;
pub mod cases;
pub mod every_schedule;
#[cfg(test)]
mod examples;
pub mod explain;
#[cfg(test)]
mod explain_examples;
#[cfg(test)]
mod fault_examples;
pub mod faults;
pub mod faulty_bus;
pub mod frame_length;
pub mod frame_length_cases;
#[cfg(test)]
mod group_examples;
pub mod judge_cases;
pub mod judgement;
pub mod known_frames;
#[cfg(test)]
mod late_examples;
pub mod lengths;
#[cfg(test)]
mod lengths_examples;
#[cfg(test)]
mod level_examples;
pub mod levels;
pub mod listing;
pub mod literal;
pub mod literal_bus;
pub mod literal_log;
pub mod literal_table;
pub mod load_sheet;
pub mod log;
pub mod log_cases;
pub mod log_check;
pub mod log_damage;
pub mod log_examples;
pub mod log_self_check;
pub mod million;
pub mod random;
pub mod replay;
pub mod self_check;
pub mod simulator;
pub mod table;
pub mod table_cases;
pub mod worst;
#[cfg(test)]
mod worst_examples;

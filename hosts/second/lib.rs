//! The second program: the directory of the rules paper, written from that paper
//! alone, to compare every example with and as the speed to beat.

pub mod answer;
pub mod bench;
pub mod calls;
pub mod image;
pub mod line;
pub mod member;
mod neighbours;
pub mod random;
pub mod refusal;
pub mod sound;
pub mod suite;

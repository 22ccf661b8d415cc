//! The command, run as people run it.

mod absent;
mod ends;
mod json;
mod made;
mod manual;
mod many;
mod marks;
mod out;
mod programs;
mod run;
mod sessions;
mod tables;
mod terminal;

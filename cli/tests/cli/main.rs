//! Runs the program. What it has to say comes from the format's papers, from the
//! second program (`second/`), or from the corpora that the second program made;
//! never from the program itself.

mod check;
mod convert;
mod corpora;
mod json;
mod lookup;
mod outputs;
mod print;
mod progress;
mod run;
mod sections;
mod sum;
mod summary;
mod usage;
mod words;

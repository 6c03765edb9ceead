//! What both programs of this package share: the original's answers, and the inputs. The program `compare` compares
//! the proved codec with them; the program `keep` writes them to files.

pub mod answer;
pub mod classes;
pub mod content;
pub mod damage;
pub mod emit;
pub mod form;
pub mod frame;
pub mod given;
pub mod hex;
pub mod panics;
pub mod random;
pub mod shown;
pub mod source;
pub mod types;
pub mod writing;

//! Traces of units (document 02, item 3), replayed on the built kernel and shown: `decode` reads a record, `play` replays a file, `words` and `state`
//! say calls, answers and states in words, `list` and `first` print them, `lanes` gathers what a picture shows and the modules after it draw that.
//! `stored` writes the stored traces of this folder.
#![forbid(unsafe_code)]

pub mod axis;
pub mod bars;
pub mod decode;
pub mod faults;
pub mod fills;
pub mod first;
pub mod lanes;
pub mod legend;
pub mod list;
pub mod picture;
pub mod play;
pub mod scale;
pub mod state;
pub mod stored;
pub mod svg;
pub mod words;

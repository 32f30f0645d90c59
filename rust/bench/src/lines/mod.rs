//! The lines of the table, by what they time. Each file first holds the answers of both sides against each other on the
//! inputs that it then times.

pub mod address;
pub mod element;
pub mod feed;
pub mod fleet;
pub mod flow;
pub mod kill;
pub mod lessees;
pub mod log;
pub mod picture;
pub mod places;
pub mod survey;
pub mod writer;

use bench::fast::layout::Layout;

/// The product's layout with the same numbers.
fn lent(layout: &Layout) -> egretfold::Layout {
    egretfold::Layout {
        base: layout.base,
        pitch: layout.pitch,
        height: layout.height,
        size: layout.size,
        tiled: layout.tiled,
    }
}

fn kind(layout: &Layout) -> &'static str {
    if layout.tiled {
        "tiled"
    } else {
        "linear"
    }
}

//! Pictures, as SVG files, and a page with one.

pub mod frame;
pub mod grid;
pub mod layout_picture;
pub mod scrub_picture;
pub mod status_page;
pub mod status_picture;
pub mod svg;

//! A tray image's header put into words, for people. Whether the image is handed out only the
//! library decides.

use super::description::Description;
use super::geometry::HEADER;
use crate::code::field::Field;
use crate::terminal::json::Json;
use crate::terminal::report;
use gesarumbo::{Layout, Tray, DEMONSTRATION, LIVE};

/// The header's numbers, whatever they are.
pub struct Header([u8; HEADER]);

impl Header {
    /// The first bytes of an image, if there are enough of them.
    pub fn of(image: &[u8]) -> Option<Header> {
        let bytes = image.get(..HEADER)?;
        bytes.try_into().ok().map(Header)
    }

    /// The layout, volume and field that the image claims; bytes, if its edition is of no field.
    pub fn claimed(&self) -> Description {
        let [b, u, k, d, e] = [4, 5, 6, 7, 9].map(|at| u32::from(self.0[at]));
        let field = Field::with_edition(self.0[2]).unwrap_or_default();
        Description::first(Layout::with_errors(b, u, k, d, e), field, self.long(12))
    }

    /// The tray that the image claims to be of.
    pub fn tray(&self) -> Tray {
        Tray::new(self.0[8].into())
    }

    /// Bytes of an image of the layout that it claims, if that is admissible.
    pub fn image_size(&self) -> Option<usize> {
        let Description { layout, field, .. } = self.claimed();
        let layers = field.numbers(layout).ok()?.layers;
        Some(HEADER + field.width() * layers)
    }

    /// Whether the numbers that are the same in every image are as they should be.
    pub fn is_whole(&self) -> bool {
        let starts = [0x18, 0];
        let known = [LIVE, DEMONSTRATION].contains(&self.0[3]);
        self.0[..2] == starts && Field::with_edition(self.0[2]).is_some() && known
    }

    /// Whether it is whole, and of a live image.
    pub fn is_live(&self) -> bool {
        self.is_whole() && self.0[3] == LIVE
    }

    /// One line a number.
    pub fn words(&self) -> Vec<String> {
        let Description { layout, volume, .. } = self.claimed();
        let short = u16::from_le_bytes([self.0[0], self.0[1]]);
        let unused = &self.0[10..12];
        vec![
            format!("header    {short} bytes, edition {}", self.0[2]),
            format!("state     {}", self.state()),
            format!(
                "layout    {layout}: {} racks of {} trays",
                layout.racks, layout.size
            ),
            format!("tray      {}{}", self.0[8], self.place(layout)),
            format!("volume    {volume}"),
            format!("symbols   {} from byte {}", self.long(20), self.long(16)),
            format!("unused    {unused:?}"),
        ]
    }

    /// The header as a report has it.
    pub fn json(&self) -> Json {
        let Description { layout, volume, .. } = self.claimed();
        let state = match self.0[3] {
            LIVE => "live",
            DEMONSTRATION => "demonstration",
            _ => "unknown",
        };
        Json::object([
            ("edition", self.0[2].into()),
            ("state", state.into()),
            ("layout", report::layout(layout)),
            ("tray", self.0[8].into()),
            ("volume", volume.into()),
            ("symbols", self.long(20).into()),
        ])
    }

    fn state(&self) -> String {
        match self.0[3] {
            LIVE => "1, live".to_string(),
            DEMONSTRATION => "2, demonstration: holds no records".to_string(),
            other => format!("{other}, which is no state of an image"),
        }
    }

    fn place(&self, layout: Layout) -> String {
        let tray = u32::from(self.0[8]);
        match (tray.checked_div(layout.size), tray.checked_rem(layout.size)) {
            (Some(rack), Some(place)) if rack < layout.racks => {
                format!(", rack {rack}, place {place}")
            }
            _ => ", outside its layout".to_string(),
        }
    }

    fn long(&self, at: usize) -> u32 {
        u32::from_le_bytes([self.0[at], self.0[at + 1], self.0[at + 2], self.0[at + 3]])
    }
}

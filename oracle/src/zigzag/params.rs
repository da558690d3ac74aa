// From simpsoka/zigzag at 81825c4812, src/params.rs, Apache-2.0, see NOTICE.
// Only the parts that Beahcerot ports; the text is the original's but where a
// comment says "completed", "added" or "left out" (document 01).

/// Satin underlay passes (bit flags).
pub mod underlay {
    pub const CENTER: u8 = 1;
    pub const CONTOUR: u8 = 2;
    pub const ZIGZAG: u8 = 4;
}

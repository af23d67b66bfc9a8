//! What packing and unpacking pixels may take.

/// Call, frame, types, and instructions a pixel that may not be passed: about 5 % above what was measured at the time.
const BARS: &[(&str, &str, &[&str], f64)] = &[
    ("unpack", "detector", &["u8", "u16", "u32", "s32"], 6.4),
    ("unpack", "detector", &["s16"], 6.7),
    ("unpack", "detector", &["s8"], 7.4),
    ("unpack", "noise", &["u8", "s8"], 24.9),
    ("unpack", "noise", &["u16", "s16"], 27.9),
    ("unpack", "noise", &["u32", "s32"], 34.6),
    ("unpack", "strong", &["s32"], 12.0),
    ("unpack", "strong", &["u16"], 13.0),
    ("unpack", "sparse", &["u8", "u16", "u32"], 6.0),
    ("unpack", "mask", &["s32"], 6.0),
    ("unpack", "mask", &["u16", "u32"], 8.5),
    ("pack", "detector", &["u8", "u16", "u32"], 8.3),
    ("pack", "detector", &["s8"], 8.6),
    ("pack", "detector", &["s16", "s32"], 8.8),
    ("pack", "noise", &["u8", "s8"], 14.6),
    // The compiler of rattle-kit-13f takes 28.60 here, and 34.69 in exact room; that of the older kit 26.62 and 32.48.
    ("pack", "noise", &["u16", "s16", "u32", "s32"], 28.7),
    ("pack", "strong", &["u16"], 13.2),
    ("pack", "strong", &["s32"], 13.7),
    ("pack", "sparse", &["u8", "u16", "u32"], 8.0),
    ("pack", "mask", &["u16", "u32"], 9.2),
    ("pack", "mask", &["s32"], 9.8),
    ("pack_exact", "detector", &["s8"], 8.1),
    (
        "pack_exact",
        "detector",
        &["u8", "u16", "s16", "u32", "s32"],
        8.6,
    ),
    ("pack_exact", "noise", &["u8", "s8"], 21.0),
    ("pack_exact", "noise", &["u16", "s16", "u32", "s32"], 34.8),
    ("pack_exact", "strong", &["u16", "s32"], 19.3),
    ("pack_exact", "sparse", &["u8", "u16", "u32"], 8.0),
    ("pack_exact", "mask", &["u16", "s32"], 10.7),
    ("pack_exact", "mask", &["u32"], 11.2),
];

/// Every frame that is measured has a bar.
pub fn bar(call: &str, frame: &str, element_type: &str) -> f64 {
    let row = BARS
        .iter()
        .find(|row| (row.0, row.1) == (call, frame) && row.2.contains(&element_type));
    row.unwrap_or_else(|| panic!("no bar for {call} {frame} {element_type}"))
        .3
}

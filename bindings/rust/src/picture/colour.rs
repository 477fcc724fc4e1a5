//! A colour for each element, light enough for black figures on it.

/// The colour of an element: neighbours in number are far apart in hue, and there are two lightnesses.
pub fn of(element: u8) -> String {
    // The golden angle keeps any number of hues apart.
    let hue = (f64::from(element) * 137.508) % 360.0;
    let lightness = if element.is_multiple_of(2) { 86 } else { 76 };
    format!("hsl({hue:.0},65%,{lightness}%)")
}

//! A font of 8 by 16 pixels for the printable characters of ASCII, drawn in font.txt: strips of sixteen glyphs side by side,
//! from the space on, each sixteen lines of eight pixels.

const DRAWING: &str = include_str!("../font.txt");
const FIRST: usize = 32;
const LAST: usize = 126;
const IN_A_STRIP: usize = 16;
const HEIGHT: usize = 16;

/// As a flush takes it: 16 bytes for each of 128 characters. Those that are not drawn are blank.
pub fn ascii16() -> Vec<u8> {
    let lines: Vec<&str> = DRAWING.lines().collect();
    let mut font = vec![0; 128 * HEIGHT];
    for character in FIRST..=LAST {
        let (strip, place) = ((character - FIRST) / IN_A_STRIP, (character - FIRST) % IN_A_STRIP);
        for row in 0..HEIGHT {
            let line = lines[strip * (HEIGHT + 1) + row];
            font[character * HEIGHT + row] = byte(line.split(' ').nth(place).expect("a glyph"));
        }
    }
    font
}

/// Eight pixels, the leftmost in the highest bit.
fn byte(pixels: &str) -> u8 {
    pixels.bytes().fold(0, |byte, pixel| byte << 1 | u8::from(pixel == b'#'))
}

#[test]
fn every_glyph_but_the_space_has_pixels_and_a_gap() {
    let font = ascii16();
    for (character, glyph) in font.chunks(HEIGHT).enumerate() {
        let drawn = (FIRST + 1..=LAST).contains(&character);
        assert_eq!(glyph.iter().any(|byte| *byte != 0), drawn, "{character}");
        assert!(glyph[..2] == [0, 0] && glyph.iter().all(|byte| byte & 1 == 0), "{character}");
    }
}

#[test]
fn the_drawing_has_nothing_else() {
    assert!(DRAWING.bytes().all(|byte| b"#. \n".contains(&byte)));
    assert_eq!(DRAWING.lines().count(), 6 * HEIGHT + 5);
}

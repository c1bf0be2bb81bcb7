//! PNG files without compression: the pixels stand in stored blocks.

/// A picture of colours by number: `palette` has red, green and blue of each.
pub fn png(width: usize, height: usize, palette: &[[u8; 3]], pixel: impl Fn(usize, usize) -> u8) -> Vec<u8> {
    let mut file = b"\x89PNG\r\n\x1a\n".to_vec();
    let [wide, high] = [width, height].map(|number| (number as u32).to_be_bytes());
    // Eight bits a pixel, by palette, no interlacing.
    chunk(&mut file, b"IHDR", &[&wide[..], &high, &[8, 3, 0, 0, 0]].concat());
    chunk(&mut file, b"PLTE", palette.as_flattened());
    // Each line begins with the number of its filter: none.
    let line = |y| std::iter::once(0).chain((0..width).map(move |x| (x, y)).map(|(x, y)| pixel(x, y)));
    let lines: Vec<u8> = (0..height).flat_map(line).collect();
    chunk(&mut file, b"IDAT", &stored(&lines));
    chunk(&mut file, b"IEND", &[]);
    file
}

fn chunk(file: &mut Vec<u8>, name: &[u8; 4], data: &[u8]) {
    let named = [name, data].concat();
    file.extend((data.len() as u32).to_be_bytes());
    file.extend(&named);
    file.extend(crc(&named).to_be_bytes());
}

/// A zlib stream of stored blocks, each up to 65,535 bytes long.
fn stored(bytes: &[u8]) -> Vec<u8> {
    let mut stream = vec![0x78, 0x01];
    let blocks = bytes.chunks(0xffff).count();
    for (place, block) in bytes.chunks(0xffff).enumerate() {
        let length = block.len() as u16;
        stream.push(u8::from(place + 1 == blocks));
        stream.extend(length.to_le_bytes());
        stream.extend((!length).to_le_bytes());
        stream.extend(block);
    }
    stream.extend(adler(bytes).to_be_bytes());
    stream
}

fn crc(bytes: &[u8]) -> u32 {
    let step = |crc: u32, _| if crc & 1 == 1 { crc >> 1 ^ 0xedb8_8320 } else { crc >> 1 };
    !bytes.iter().fold(!0, |crc, byte| (0..8).fold(crc ^ u32::from(*byte), step))
}

fn adler(bytes: &[u8]) -> u32 {
    let sums = |(a, b): (u32, u32), byte: &u8| {
        let a = (a + u32::from(*byte)) % 65_521;
        (a, (b + a) % 65_521)
    };
    let (a, b) = bytes.iter().fold((1, 0), sums);
    b << 16 | a
}

#[test]
fn known_checksums() {
    assert_eq!(crc(b"IEND"), 0xae42_6082);
    assert_eq!(crc(b"123456789"), 0xcbf4_3926);
    assert_eq!(adler(b"Wikipedia"), 0x11e6_0398);
}

#[test]
fn long_data_stands_in_several_blocks() {
    let bytes = vec![7; 0xffff + 2];
    let stream = stored(&bytes);
    assert_eq!(stream[2..7], [0, 0xff, 0xff, 0, 0]);
    assert_eq!(stream[7 + 0xffff..12 + 0xffff], [1, 2, 0, 0xfd, 0xff]);
    assert_eq!(stream.len(), 2 + 5 + 0xffff + 5 + 2 + 4);
}

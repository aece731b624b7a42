//! PNG files (ISO/IEC 15948) of pictures with a palette.

use crate::deflate::zlib;

/// Pixels a metre that make 150 dots an inch.
const DENSITY: u32 = 5906;

/// A picture: `pixels[y * width + x]` is a place in the palette of at most 256 colours.
pub struct Image {
    pub width: usize,
    pub height: usize,
    pub palette: Vec<[u8; 3]>,
    pub pixels: Vec<u8>,
}

/// The file of a picture, with some texts (keyword and Latin-1 text) in its metadata.
pub fn encode(image: &Image, texts: &[(&str, &str)]) -> Vec<u8> {
    let mut file = b"\x89PNG\r\n\x1a\n".to_vec();
    chunk(&mut file, b"IHDR", &header(image));
    chunk(&mut file, b"PLTE", image.palette.as_flattened());
    chunk(&mut file, b"pHYs", &[&DENSITY.to_be_bytes()[..], &DENSITY.to_be_bytes(), &[1]].concat());
    for (keyword, text) in texts {
        let latin: Vec<u8> = text.chars().map(|c| u8::try_from(c).unwrap_or(b'?')).collect();
        chunk(&mut file, b"tEXt", &[keyword.as_bytes(), &[0], &latin].concat());
    }
    chunk(&mut file, b"IDAT", &smallest(image));
    chunk(&mut file, b"IEND", &[]);
    file
}

/// Width, height, 8 bits a pixel, colours by palette; deflate, filters, no interlacing.
fn header(image: &Image) -> Vec<u8> {
    let (width, height) = (image.width as u32, image.height as u32);
    [&width.to_be_bytes()[..], &height.to_be_bytes(), &[8, 3, 0, 0, 0]].concat()
}

/// The compressed rows, under the one filter that makes them smallest: none, less the pixel to the
/// left, or less the pixel above.
fn smallest(image: &Image) -> Vec<u8> {
    let streams = [0, 1, 2].map(|filter| zlib(&filtered(image, filter)));
    streams.into_iter().min_by_key(Vec::len).unwrap_or_default()
}

fn filtered(image: &Image, filter: u8) -> Vec<u8> {
    let width = image.width;
    let mut out = Vec::with_capacity(image.pixels.len() + image.height);
    for (y, row) in image.pixels.chunks(width).enumerate() {
        out.push(filter);
        out.extend(row.iter().enumerate().map(|(x, &pixel)| {
            let known = match filter {
                1 if x > 0 => row[x - 1],
                2 if y > 0 => image.pixels[(y - 1) * width + x],
                _ => 0,
            };
            pixel.wrapping_sub(known)
        }));
    }
    out
}

/// A chunk: its length, its kind, its body, and the checksum of kind and body.
fn chunk(file: &mut Vec<u8>, kind: &[u8; 4], body: &[u8]) {
    file.extend((body.len() as u32).to_be_bytes());
    let start = file.len();
    file.extend(kind);
    file.extend(body);
    let checksum = crc32(&file[start..]);
    file.extend(checksum.to_be_bytes());
}

/// The checksum of a chunk, by a table of what eight steps do to each byte.
pub fn crc32(bytes: &[u8]) -> u32 {
    const TABLE: [u32; 256] = crc_table();
    !bytes.iter().fold(u32::MAX, |crc, &byte| TABLE[((crc ^ u32::from(byte)) & 0xff) as usize] ^ (crc >> 8))
}

const fn crc_table() -> [u32; 256] {
    let mut table = [0; 256];
    let mut byte = 0;
    while byte < 256 {
        let mut crc = byte as u32;
        let mut step = 0;
        while step < 8 {
            crc = if crc & 1 == 1 { 0xedb8_8320 ^ (crc >> 1) } else { crc >> 1 };
            step += 1;
        }
        table[byte] = crc;
        byte += 1;
    }
    table
}

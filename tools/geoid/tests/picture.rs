//! PNG files and their compression, by an inflater of the tests' own.

use geoid::deflate::{adler32, zlib};
use geoid::grid::{GLOBE, Nodes, Region};
use geoid::map::{Map, draw};
use geoid::png::{Image, crc32, encode};
use geoid::random::SplitMix64;

/// Reads bits from the least significant end of each byte.
struct Bits<'a> {
    bytes: &'a [u8],
    at: usize,
}

impl Bits<'_> {
    fn bit(&mut self) -> usize {
        let bit = self.bytes[self.at / 8] >> (self.at % 8) & 1;
        self.at += 1;
        bit.into()
    }

    fn number(&mut self, width: usize) -> usize {
        (0..width).map(|k| self.bit() << k).sum()
    }

    fn code(&mut self, width: usize) -> usize {
        (0..width).fold(0, |code, _| 2 * code + self.bit())
    }

    /// A symbol of the fixed code, RFC 1951, 3.2.6.
    fn symbol(&mut self) -> usize {
        let seven = self.code(7);
        if seven < 24 {
            return 256 + seven;
        }
        let eight = 2 * seven + self.bit();
        match eight {
            0x30..=0xbf => eight - 0x30,
            0xc0..=0xc7 => 280 + eight - 0xc0,
            _ => 144 + 2 * eight + self.bit() - 0x190,
        }
    }
}

/// The tables of RFC 1951, 3.2.5.
const LENGTHS: [(usize, usize); 29] = [
    (3, 0),
    (4, 0),
    (5, 0),
    (6, 0),
    (7, 0),
    (8, 0),
    (9, 0),
    (10, 0),
    (11, 1),
    (13, 1),
    (15, 1),
    (17, 1),
    (19, 2),
    (23, 2),
    (27, 2),
    (31, 2),
    (35, 3),
    (43, 3),
    (51, 3),
    (59, 3),
    (67, 4),
    (83, 4),
    (99, 4),
    (115, 4),
    (131, 5),
    (163, 5),
    (195, 5),
    (227, 5),
    (258, 0),
];
const DISTANCES: [(usize, usize); 30] = [
    (1, 0),
    (2, 0),
    (3, 0),
    (4, 0),
    (5, 1),
    (7, 1),
    (9, 2),
    (13, 2),
    (17, 3),
    (25, 3),
    (33, 4),
    (49, 4),
    (65, 5),
    (97, 5),
    (129, 6),
    (193, 6),
    (257, 7),
    (385, 7),
    (513, 8),
    (769, 8),
    (1025, 9),
    (1537, 9),
    (2049, 10),
    (3073, 10),
    (4097, 11),
    (6145, 11),
    (8193, 12),
    (12289, 12),
    (16385, 13),
    (24577, 13),
];

/// The bytes of a zlib stream of one block in the fixed code, with its checks.
fn inflate(stream: &[u8]) -> Vec<u8> {
    assert_eq!((stream[0] & 15, (usize::from(stream[0]) * 256 + usize::from(stream[1])) % 31), (8, 0));
    let mut bits = Bits { bytes: &stream[2..], at: 0 };
    assert_eq!(bits.number(3), 3, "the last block, in the fixed code");
    let mut out = Vec::new();
    loop {
        match bits.symbol() {
            256 => break,
            literal @ 0..=255 => out.push(literal as u8),
            symbol => {
                let (base, extra) = LENGTHS[symbol - 257];
                let length = base + bits.number(extra);
                let (base, extra) = DISTANCES[bits.code(5)];
                let start = out.len() - base - bits.number(extra);
                (start..start + length).for_each(|k| out.push(out[k]));
            }
        }
    }
    assert_eq!(stream.len(), 2 + bits.at.div_ceil(8) + 4);
    assert_eq!(stream[stream.len() - 4..], adler32(&out).to_be_bytes());
    out
}

#[test]
fn checksums_are_the_published_ones() {
    assert_eq!(crc32(b"123456789"), 0xcbf4_3926);
    assert_eq!(crc32(b"IEND"), 0xae42_6082);
    assert_eq!(adler32(b"Wikipedia"), 0x11e6_0398);
    assert_eq!(adler32(&[0xff; 100_000]), {
        let (a, b) = (1..=100_000u64).fold((1u64, 0u64), |(a, b), _| ((a + 255) % 65_521, (b + (a + 255) % 65_521) % 65_521));
        (b << 16 | a) as u32
    });
}

#[test]
fn what_is_deflated_inflates_to_itself() {
    let mut random = SplitMix64::new(5);
    let mut inputs = vec![vec![], vec![7], vec![1, 2], vec![0; 3], vec![0; 257], vec![0; 258], vec![9; 100_000], (0..=255).collect()];
    for alphabet in [2, 5, 256] {
        for length in [10, 1000, 70_000] {
            inputs.push((0..length).map(|_| (random.word() % alphabet) as u8).collect());
        }
    }
    // Repeats at every distance and length, those at the window's end among them.
    let block: Vec<u8> = (0..40_000).map(|_| random.word() as u8).collect();
    inputs.push([&block[..], &block[..300], &block[7232..7500], &block[39_990..], &block[..32_768]].concat());
    for input in inputs {
        assert_eq!(inflate(&zlib(&input)), input, "{} bytes", input.len());
    }
}

#[test]
fn repeats_become_small() {
    assert!(zlib(&[42; 100_000]).len() < 1000);
}

/// The chunks of a file, as kind and body, their checksums checked.
fn chunks(file: &[u8]) -> Vec<(String, Vec<u8>)> {
    assert_eq!(&file[..8], b"\x89PNG\r\n\x1a\n");
    let mut rest = &file[8..];
    let mut found = Vec::new();
    while !rest.is_empty() {
        let length = u32::from_be_bytes(rest[..4].try_into().unwrap()) as usize;
        let (kind, body) = (String::from_utf8(rest[4..8].to_vec()).unwrap(), rest[8..8 + length].to_vec());
        assert_eq!(rest[8 + length..12 + length], crc32(&rest[4..8 + length]).to_be_bytes());
        found.push((kind, body));
        rest = &rest[12 + length..];
    }
    found
}

/// The pixels of a file's rows, their filters undone.
fn pixels(width: usize, stream: &[u8]) -> Vec<u8> {
    let mut out: Vec<u8> = Vec::new();
    for row in inflate(stream).chunks(width + 1) {
        for (x, &byte) in row[1..].iter().enumerate() {
            let known = match row[0] {
                0 => 0,
                1 if x == 0 => 0,
                1 => out[out.len() - 1],
                2 if out.len() < width => 0,
                2 => out[out.len() - width],
                filter => panic!("filter {filter}"),
            };
            out.push(byte.wrapping_add(known));
        }
    }
    out
}

fn body(file: &[u8], kind: &str) -> Vec<u8> {
    chunks(file).into_iter().find(|(found, _)| found == kind).unwrap().1
}

#[test]
fn a_file_has_its_chunks() {
    let image = Image { width: 3, height: 2, palette: vec![[255; 3], [1, 2, 3]], pixels: vec![0, 1, 0, 1, 1, 0] };
    let file = encode(&image, &[("Title", "m²/s²")]);
    let kinds: Vec<String> = chunks(&file).into_iter().map(|(kind, _)| kind).collect();
    assert_eq!(kinds, ["IHDR", "PLTE", "pHYs", "tEXt", "IDAT", "IEND"]);
    assert_eq!(body(&file, "IHDR"), [0, 0, 0, 3, 0, 0, 0, 2, 8, 3, 0, 0, 0]);
    assert_eq!(body(&file, "PLTE"), [255, 255, 255, 1, 2, 3]);
    assert_eq!(body(&file, "tEXt"), b"Title\0m\xb2/s\xb2");
    assert_eq!(pixels(3, &body(&file, "IDAT")), image.pixels);
}

#[test]
fn any_picture_comes_back() {
    let mut random = SplitMix64::new(3);
    for noise in [1, 3, 200] {
        let ramps = (0..64 * 50).map(|k| ((k / 64 + k % 64) as u64 + random.word() % noise) as u8).collect();
        let image = Image { width: 64, height: 50, palette: vec![[0; 3]; 256], pixels: ramps };
        assert_eq!(pixels(64, &body(&encode(&image, &[]), "IDAT")), image.pixels);
    }
}

fn map_of(region: Region, step: f64, value: impl Fn(f64, f64) -> f64) -> Result<Image, geoid::error::Error> {
    let nodes = Nodes::new(region, step).unwrap();
    let values: Vec<f64> = nodes
        .latitudes
        .iter()
        .flat_map(|&lat| nodes.longitudes.iter().map(move |&lon| (lat, lon)))
        .map(|(lat, lon)| value(lat, lon))
        .collect();
    draw(&Map { nodes: &nodes, values: &values, unit: "m", title: "Test", subtitle: ["one", "two", "three"] })
}

#[test]
fn maps_of_every_shape() {
    let wave = |lat: f64, lon: f64| (lat / 10.0).sin() + (lon / 20.0).cos();
    let regions =
        [GLOBE, Region { west: 10.0, east: 11.0, south: -80.0, north: 80.0 }, Region { west: 0.0, east: 360.0, south: 89.0, north: 90.0 }];
    for region in regions {
        let image = map_of(region, 1.0, wave).unwrap();
        assert_eq!(image.pixels.len(), image.width * image.height);
        assert!(image.pixels.iter().all(|&pixel| usize::from(pixel) < image.palette.len()));
    }
}

#[test]
fn strange_values_can_be_drawn() {
    for value in [0.0, 5.0, -5.0, f64::NAN, f64::INFINITY, f64::MAX, f64::MIN_POSITIVE, 5e-324] {
        assert!(map_of(GLOBE, 30.0, |_, _| value).is_ok(), "{value}");
        assert!(map_of(GLOBE, 30.0, |lat, _| if lat > 0.0 { value } else { -1.0 }).is_ok(), "{value}");
        assert!(map_of(GLOBE, 30.0, |lat, _| if lat > 0.0 { value } else { -value }).is_ok(), "{value}");
    }
}

#[test]
fn a_map_of_nothing_has_no_colours() {
    let nothing = map_of(GLOBE, 30.0, |_, _| f64::NAN).unwrap();
    // White, black and the grey of missing values; no colour bar, whose numbers would be of nothing.
    assert!(nothing.pixels.iter().all(|&pixel| pixel <= 2));
    let something = map_of(GLOBE, 30.0, |lat, _| if lat > 80.0 { 0.0 } else { f64::NAN }).unwrap();
    assert!(something.pixels.iter().any(|&pixel| pixel > 2));
}

#[test]
fn a_line_is_no_map() {
    let error = map_of(Region { south: 0.0, north: 0.0, ..GLOBE }, 1.0, |_, lon| lon).err().unwrap();
    assert!(error.to_string().starts_with("a map needs two rows and two columns"));
}

//! Binary PPM images, read and written, and PNG images, written without compression.
use crate::Stop;

pub struct Image {
    pub width: usize,
    pub height: usize,
    /// Three bytes a texel, row by row.
    pub texels: Vec<u8>,
}

/// A P6 file of 8 bits a value.
pub fn read(path: &str, file: &[u8]) -> Result<Image, Stop> {
    let wrong = |why: &str| Stop::bad(format!("{path}: is not a binary PPM: {why}"));
    let mut at = 2;
    if !file.starts_with(b"P6") {
        return Err(wrong("it does not begin with P6"));
    }
    let mut numbers = [0usize; 3];
    for number in &mut numbers {
        at = past_space(file, at).ok_or_else(|| wrong("its head breaks off"))?;
        let end = at + file[at..].iter().take_while(|b| b.is_ascii_digit()).count();
        let digits = std::str::from_utf8(&file[at..end]).unwrap_or("");
        *number = digits.parse().ok().filter(|n| *n <= 65536).ok_or_else(|| wrong("a number of its head is missing or too large"))?;
        at = end;
    }
    let [width, height, most] = numbers;
    if most != 255 || width == 0 || height == 0 {
        return Err(wrong("it has no texels, or not 255 as the largest value"));
    }
    let texels = file.get(at + 1..).unwrap_or(&[]);
    if texels.len() != width * height * 3 {
        return Err(wrong(&format!("{} bytes of texels are due, and it has {}", width * height * 3, texels.len())));
    }
    Ok(Image { width, height, texels: texels.to_vec() })
}

/// Past white space and remarks.
fn past_space(file: &[u8], mut at: usize) -> Option<usize> {
    loop {
        match file.get(at)? {
            b'#' => at += file[at..].iter().take_while(|b| **b != b'\n').count(),
            b if b.is_ascii_whitespace() => at += 1,
            _ => return Some(at),
        }
    }
}

pub fn ppm(image: &Image) -> Vec<u8> {
    let mut file = format!("P6\n{} {}\n255\n", image.width, image.height).into_bytes();
    file.extend(&image.texels);
    file
}

pub fn png(image: &Image) -> Vec<u8> {
    let mut raw = vec![];
    for row in image.texels.chunks_exact(image.width * 3) {
        raw.push(0);
        raw.extend(row);
    }
    let mut head = vec![];
    head.extend((image.width as u32).to_be_bytes());
    head.extend((image.height as u32).to_be_bytes());
    head.extend([8, 2, 0, 0, 0]);
    let mut file = b"\x89PNG\r\n\x1a\n".to_vec();
    chunk(&mut file, b"IHDR", &head);
    chunk(&mut file, b"IDAT", &stored(&raw));
    chunk(&mut file, b"IEND", &[]);
    file
}

fn chunk(file: &mut Vec<u8>, name: &[u8; 4], content: &[u8]) {
    file.extend((content.len() as u32).to_be_bytes());
    let start = file.len();
    file.extend(name);
    file.extend(content);
    let sum = crc(&file[start..]);
    file.extend(sum.to_be_bytes());
}

/// A zlib stream of blocks that are stored as they are.
fn stored(raw: &[u8]) -> Vec<u8> {
    let mut out = vec![0x78, 0x01];
    let mut blocks = raw.chunks(65535).peekable();
    while let Some(block) = blocks.next() {
        out.push(blocks.peek().is_none() as u8);
        out.extend((block.len() as u16).to_le_bytes());
        out.extend((!(block.len() as u16)).to_le_bytes());
        out.extend(block);
    }
    let (mut a, mut b) = (1u32, 0u32);
    for byte in raw {
        a = (a + *byte as u32) % 65521;
        b = (b + a) % 65521;
    }
    out.extend((b << 16 | a).to_be_bytes());
    out
}

fn crc(bytes: &[u8]) -> u32 {
    let mut sum = u32::MAX;
    for byte in bytes {
        sum ^= *byte as u32;
        for _ in 0..8 {
            sum = if sum & 1 == 1 { sum >> 1 ^ 0xedb8_8320 } else { sum >> 1 };
        }
    }
    !sum
}

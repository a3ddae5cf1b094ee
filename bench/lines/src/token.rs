// Tokens: version 1, a reserved 0, the store and the place, in base64.
const ALPHABET: &[u8; 64] = b"ABCDEFGHIJKLMNOPQRSTUVWXYZabcdefghijklmnopqrstuvwxyz0123456789+/";

pub fn encode(store: u64, place: u64) -> String {
    let mut bytes = [0; 18];
    bytes[0] = 1;
    bytes[2..10].copy_from_slice(&store.to_be_bytes());
    bytes[10..].copy_from_slice(&place.to_be_bytes());
    let mut text = String::with_capacity(24);
    for three in bytes.chunks(3) {
        let bits = u32::from_be_bytes([0, three[0], three[1], three[2]]);
        for shift in [18, 12, 6, 0] {
            text.push(char::from(ALPHABET[(bits >> shift & 63) as usize]));
        }
    }
    text
}

fn six(byte: u8) -> Option<u32> {
    Some(match byte {
        b'A'..=b'Z' => u32::from(byte - b'A'),
        b'a'..=b'z' => u32::from(byte - b'a') + 26,
        b'0'..=b'9' => u32::from(byte - b'0') + 52,
        b'+' => 62,
        b'/' => 63,
        _ => return None,
    })
}

/// The store and the place of a token.
pub fn decode(text: &str) -> Option<(u64, u64)> {
    let text: &[u8; 24] = text.as_bytes().try_into().ok()?;
    let mut bytes = [0; 18];
    for (four, three) in text.chunks(4).zip(bytes.chunks_mut(3)) {
        let mut bits = 0;
        for byte in four {
            bits = bits << 6 | six(*byte)?;
        }
        three.copy_from_slice(&bits.to_be_bytes()[1..]);
    }
    if bytes[..2] != [1, 0] {
        return None;
    }
    let store = u64::from_be_bytes(bytes[2..10].try_into().ok()?);
    let place = u64::from_be_bytes(bytes[10..].try_into().ok()?);
    Some((store, place))
}

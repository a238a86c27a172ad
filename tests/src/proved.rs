//! The archive's functions with the lengths they want: each call must answer 0.

/// What a result holds before the call, so that a byte left out is seen.
const UNWRITTEN: u8 = 0xc3;

/// Gives a call room for its result, and takes no answer but 0.
fn filled<const N: usize>(call: impl FnOnce(&mut [u8]) -> u64) -> [u8; N] {
    let mut out = [UNWRITTEN; N];
    assert_eq!(call(&mut out), 0, "a call with the lengths wanted");
    out
}

/// The substitution table.
pub fn table() -> [u8; 256] {
    filled(bindings::sbox)
}

/// The round keys.
pub fn expand(key: &[u8; 16]) -> [u8; 176] {
    filled(|out| bindings::expand(key, out))
}

/// One block encrypted.
pub fn encrypt(key: &[u8; 16], block: &[u8; 16]) -> [u8; 16] {
    filled(|out| bindings::encrypt(key, block, out))
}

/// K1, then K2.
pub fn subkeys(key: &[u8; 16]) -> [u8; 32] {
    filled(|out| bindings::subkeys(key, out))
}

/// The tag of a message.
pub fn tag(key: &[u8; 16], message: &[u8]) -> [u8; 16] {
    filled(|out| bindings::tag(key, message, out))
}

/// The block after that many encryptions.
pub fn encrypt_chain(key: &[u8; 16], block: &[u8; 16], count: u64) -> [u8; 16] {
    let mut block = *block;
    assert_eq!(bindings::encrypt_chain(key, &mut block, count), 0);
    block
}

/// The message after that many tags took the place of its start.
pub fn tag_chain(key: &[u8; 16], message: &[u8], count: u64) -> Vec<u8> {
    let mut message = message.to_vec();
    assert_eq!(bindings::tag_chain(key, &mut message, count), 0);
    message
}

// A client's messages.

/// A message of numbers of 32 bits.
pub fn message(object: u64, opcode: u32, arguments: &[u32]) -> Vec<u8> {
    let mut bytes = object.to_le_bytes().to_vec();
    bytes.extend((16 + 4 * arguments.len() as u32).to_le_bytes());
    bytes.extend(opcode.to_le_bytes());
    bytes.extend(arguments.iter().flat_map(|number| number.to_le_bytes()));
    bytes
}

/// The same, with a text before the numbers.
pub fn with_text(object: u64, opcode: u32, text: &[u8], arguments: &[u32]) -> Vec<u8> {
    let length = text.len() as u32 + 1;
    let mut words = text.to_vec();
    words.resize(length.next_multiple_of(4) as usize, 0);
    let mut all = vec![length];
    all.extend(
        words
            .chunks_exact(4)
            .map(|word| u32::from_le_bytes([word[0], word[1], word[2], word[3]])),
    );
    all.extend(arguments);
    message(object, opcode, &all)
}

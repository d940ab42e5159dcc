//! A written line as its letter and its numbers, to be changed one by one.

/// The letter and the numbers of a line.
pub fn fields(line: &[u8]) -> Vec<Vec<u8>> {
    let line = line.strip_suffix(b"\n").unwrap_or(line);
    let mut fields: Vec<Vec<u8>> = line
        .split(|&byte| byte == b' ')
        .map(<[u8]>::to_vec)
        .collect();
    fields.resize(fields.len().max(2), Vec::new());
    fields
}

pub fn edit(line: &mut Vec<u8>, change: impl FnOnce(&mut Vec<Vec<u8>>)) {
    let mut fields = fields(line);
    change(&mut fields);
    *line = fields.join(&b' ');
    line.push(b'\n');
}

pub fn set(fields: &mut [Vec<u8>], at: usize, number: u32) {
    if let Some(field) = fields.get_mut(at) {
        *field = number.to_string().into_bytes();
    }
}

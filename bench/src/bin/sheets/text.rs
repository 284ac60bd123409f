//! Lines as text.

pub const SHEET_MOST: usize = 65536;

pub fn hex(bytes: &[u8]) -> String {
    bytes.iter().map(|byte| format!("{byte:02x}")).collect()
}

pub fn send(body: &[u8]) -> String {
    format!("send,{}", hex(body))
}

/// READ, WRITE and so on: `code` is the command's high nibble.
pub fn command(code: u8, cid: u8, address: u8, data: [u8; 8]) -> String {
    let mut body = vec![code << 4 | cid, address];
    body.extend(data);
    send(&body)
}

pub fn attrib(serial: [u8; 4], cid: u8) -> String {
    let [s0, s1, s2, s3] = serial;
    send(&[0x1D, s0, s1, s2, s3, 0, 0, 0, cid])
}

pub fn page(tag: usize, page: usize, bytes: [u8; 8]) -> String {
    format!("page,{tag},{page},{}", hex(&bytes))
}

/// Page 0 of a new tag.
pub fn serial_page(tag: usize, serial: [u8; 4]) -> String {
    let [s0, s1, s2, s3] = serial;
    page(tag, 0, [s0, s1, s2, s3, 0, 0, 0, 0])
}

/// The lines, each with its LF.
pub fn joined<S: AsRef<str>>(lines: &[S]) -> String {
    lines
        .iter()
        .map(|line| format!("{}\n", line.as_ref()))
        .collect()
}

/// Fills a sheet up to its most bytes by `on` and `off`, at least six bytes being left.
pub fn fill_up(sheet: &mut String) {
    let left = SHEET_MOST - sheet.len();
    let offs = left % 3;
    for _ in 0..offs {
        sheet.push_str("off\n");
    }
    for _ in 0..(left - 4 * offs) / 3 {
        sheet.push_str("on\n");
    }
}

// A table file's numbers and fields, as bytes.
pub fn put(data: &mut Vec<u8>, n: u16) {
    data.extend(n.to_be_bytes());
}

pub fn put_field(table: &mut Vec<u8>, tag: u8, data: &[u8]) {
    table.push(tag);
    put(table, data.len() as u16);
    table.extend(data);
}

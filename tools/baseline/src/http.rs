//! Heads by `httparse`.

/// The first line's words and the length of a message's head and body.
pub struct Framed<'a> {
    pub method: &'a str,
    pub target: &'a str,
    pub head: usize,
    pub body: usize,
}

fn length(fields: &[httparse::Header]) -> Option<usize> {
    let field = fields.iter().find(|field| field.name.eq_ignore_ascii_case("content-length"))?;
    std::str::from_utf8(field.value).ok()?.trim().parse().ok()
}

/// A request that is there as a whole.
pub fn request(bytes: &[u8]) -> Option<Framed<'_>> {
    let mut fields = [httparse::EMPTY_HEADER; 64];
    let mut request = httparse::Request::new(&mut fields);
    let head = match request.parse(bytes).ok()? {
        httparse::Status::Complete(head) => head,
        httparse::Status::Partial => return None,
    };
    let body = length(request.headers)?;
    bytes.get(head + body..)?;
    Some(Framed { method: request.method?, target: request.path?, head, body })
}

/// The body of an answer that is there as a whole and says 200.
pub fn answer(bytes: &[u8]) -> Option<&[u8]> {
    let mut fields = [httparse::EMPTY_HEADER; 64];
    let mut answer = httparse::Response::new(&mut fields);
    let head = match answer.parse(bytes).ok()? {
        httparse::Status::Complete(head) => head,
        httparse::Status::Partial => return None,
    };
    (answer.code? == 200).then_some(())?;
    bytes.get(head..head + length(answer.headers)?)
}

/// Puts a message of a first line with fields, and a body.
pub fn put(out: &mut Vec<u8>, head: &str, body: &[u8]) {
    out.extend_from_slice(head.as_bytes());
    out.extend_from_slice(format!("content-length: {}\r\n\r\n", body.len()).as_bytes());
    out.extend_from_slice(body);
}

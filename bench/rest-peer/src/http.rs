//! Requests at the front of what came on a connection (RFC 9112), and the heads of replies.

/// The greatest number of bytes of a head, and of a body.
const MOST: usize = 8192;

pub struct Request<'a> {
    pub method: &'a [u8],
    pub target: &'a [u8],
    pub media: Option<&'a [u8]>,
    pub close: bool,
    pub body: &'a [u8],
    pub size: usize,
}

pub enum Cut<'a> {
    More,
    Refused(u16),
    Request(Request<'a>),
}

/// Which bytes a method and the name of a field may have.
const IS_TOKEN: [bool; 256] = {
    let mut table = [false; 256];
    let mut byte = 0;
    while byte < 128 {
        table[byte] = (byte as u8).is_ascii_graphic();
        byte += 1;
    }
    let mut at = 0;
    let others = b"\"(),/:;<=>?@[\\]{}";
    while at < others.len() {
        table[others[at] as usize] = false;
        at += 1;
    }
    table
};

fn is_token(bytes: &[u8]) -> bool {
    !bytes.is_empty() && bytes.iter().all(|byte| IS_TOKEN[usize::from(*byte)])
}

fn trim(bytes: &[u8]) -> &[u8] {
    let is_blank = |byte: &u8| *byte == b' ' || *byte == b'\t';
    let from = bytes.iter().position(|byte| !is_blank(byte)).unwrap_or(bytes.len());
    let to = bytes.iter().rposition(|byte| !is_blank(byte)).map_or(from, |at| at + 1);
    &bytes[from..to]
}

/// The line at this place without its end, and the place behind it; None where it doesn't end.
fn line_at(bytes: &[u8], at: usize) -> Option<(&[u8], usize)> {
    let length = bytes[at..].iter().position(|byte| *byte == b'\n')?;
    let line = &bytes[at..at + length];
    Some((line.strip_suffix(b"\r").unwrap_or(line), at + length + 1))
}

/// The method, the target, and whether the version is 1.0.
fn request_line(line: &[u8]) -> Option<(&[u8], &[u8], bool)> {
    let mut words = line.split(|byte| *byte == b' ');
    let (method, target, version) = (words.next()?, words.next()?, words.next()?);
    if words.next().is_some() || target.is_empty() {
        return None;
    }
    if !is_token(method) || !target.iter().all(|byte| byte.is_ascii_graphic()) {
        return None;
    }
    match version {
        b"HTTP/1.1" => Some((method, target, false)),
        b"HTTP/1.0" => Some((method, target, true)),
        _ => None,
    }
}

/// The name and the value of a field.
fn field(line: &[u8]) -> Option<(&[u8], &[u8])> {
    let colon = line.iter().position(|byte| *byte == b':')?;
    let (name, value) = (&line[..colon], trim(&line[colon + 1..]));
    let is_text = |byte: &u8| *byte == b'\t' || (*byte >= b' ' && *byte != 127);
    if !is_token(name) || !value.iter().all(is_text) {
        return None;
    }
    Some((name, value))
}

/// The size that a Content-Length says, or the status of the refusal.
fn announced(value: &[u8]) -> Result<usize, u16> {
    if value.is_empty() || value.len() > 10 || !value.iter().all(|byte| byte.is_ascii_digit()) {
        return Err(400);
    }
    let size = value.iter().fold(0, |size, byte| size * 10 + usize::from(byte - b'0'));
    if size > MOST { Err(413) } else { Ok(size) }
}

/// What stands at the front of the bytes.
pub fn cut(held: &[u8]) -> Cut<'_> {
    match request_in(held, &held[..held.len().min(MOST)]) {
        Ok(Some(request)) => Cut::Request(request),
        Ok(None) => Cut::More,
        Err(status) => Cut::Refused(status),
    }
}

fn request_in<'a>(held: &'a [u8], window: &'a [u8]) -> Result<Option<Request<'a>>, u16> {
    let unended = || if held.len() < MOST { Ok(None) } else { Err(400) };
    let mut at = 0;
    while let Some((b"", behind)) = line_at(window, at) {
        at = behind;
    }
    let Some((line, behind)) = line_at(window, at) else { return unended() };
    let (method, target, mut close) = request_line(line).ok_or(400u16)?;
    at = behind;
    let (mut media, mut length, mut twice, mut chunked) = (None, None, false, false);
    loop {
        let Some((line, behind)) = line_at(window, at) else { return unended() };
        at = behind;
        if line.is_empty() {
            break;
        }
        let (name, value) = field(line).ok_or(400u16)?;
        if name.eq_ignore_ascii_case(b"content-length") {
            twice |= length.replace(value).is_some();
        } else if name.eq_ignore_ascii_case(b"content-type") {
            media = media.or(value.split(|byte| *byte == b';').next());
        } else if name.eq_ignore_ascii_case(b"transfer-encoding") {
            chunked = true;
        } else if name.eq_ignore_ascii_case(b"connection") {
            close |= value.split(|byte| *byte == b',').any(|option| trim(option).eq_ignore_ascii_case(b"close"));
        }
    }
    if chunked {
        return Err(411);
    }
    if twice {
        return Err(400);
    }
    let size = length.map_or(Ok(0), announced)?;
    let Some(body) = held.get(at..at + size) else { return Ok(None) };
    Ok(Some(Request { method, target, media: media.map(trim), close, body, size: at + size }))
}

fn phrase(status: u16) -> &'static str {
    match status {
        200 => "OK",
        201 => "Created",
        204 => "No Content",
        400 => "Bad Request",
        404 => "Not Found",
        405 => "Method Not Allowed",
        409 => "Conflict",
        411 => "Length Required",
        413 => "Payload Too Large",
        415 => "Unsupported Media Type",
        _ => "Service Unavailable",
    }
}

/// Puts a reply: its head, and its body where it has one.
pub fn put_reply(out: &mut Vec<u8>, status: u16, close: bool, allow: &str, body: Option<&[u8]>) {
    use std::io::Write;
    let _ = write!(out, "HTTP/1.1 {} {}\r\n", status, phrase(status));
    if close {
        out.extend_from_slice(b"Connection: close\r\n");
    }
    if !allow.is_empty() {
        let _ = write!(out, "Allow: {allow}\r\n");
    }
    if body.is_some() {
        out.extend_from_slice(b"Content-Type: application/yang-data+json\r\n");
    }
    if status != 204 {
        let _ = write!(out, "Content-Length: {}\r\n", body.map_or(0, |body| body.len()));
    }
    out.extend_from_slice(b"\r\n");
    out.extend_from_slice(body.unwrap_or(b""));
}

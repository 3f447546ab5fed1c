//! The shop over restJson1: an item's id in the path, its tags in the query, the rest in the body.
use crate::shop::{keeps_constraints, Answer, Body, Rest};
use crate::{http, routes::Router, tell, time};
use std::hint::black_box;

const ANSWER: &str = "HTTP/1.1 200 OK\r\ncontent-type: application/json\r\n";

struct Item {
    id: String,
    tags: Vec<String>,
    rest: Rest,
}

fn decoded(text: &str) -> Option<String> {
    if !text.contains('%') {
        return Some(text.to_string());
    }
    let mut bytes = Vec::new();
    let mut left = text.as_bytes();
    while let Some((&first, rest)) = left.split_first() {
        left = rest;
        if first != b'%' {
            bytes.push(first);
            continue;
        }
        let digits = std::str::from_utf8(rest.get(..2)?).ok()?;
        bytes.push(u8::from_str_radix(digits, 16).ok()?);
        left = &rest[2..];
    }
    String::from_utf8(bytes).ok()
}

fn put_encoded(out: &mut String, text: &str) {
    for byte in text.bytes() {
        match byte {
            b'a'..=b'z' | b'A'..=b'Z' | b'0'..=b'9' | b'-' | b'.' | b'_' | b'~' => out.push(byte as char),
            _ => out.push_str(&format!("%{byte:02X}")),
        }
    }
}

fn tags_of(query: &str) -> Option<Vec<String>> {
    let pairs = query.split('&').map(|pair| pair.split_once('=').unwrap_or((pair, "")));
    pairs.filter(|(key, _)| *key == "tag").map(|(_, value)| decoded(value)).collect()
}

fn request_in(router: &Router, bytes: &[u8]) -> Option<Item> {
    let framed = http::request(bytes)?;
    router.find(framed.method, framed.target)?;
    let (path, query) = framed.target.split_once('?').unwrap_or((framed.target, ""));
    let id = decoded(path.rsplit('/').next()?)?;
    let rest: Rest = serde_json::from_slice(&bytes[framed.head..framed.head + framed.body]).ok()?;
    keeps_constraints(&id, rest.note.as_deref()).then_some(())?;
    Some(Item { id, tags: tags_of(query)?, rest })
}

fn request_out(item: &Item, out: &mut Vec<u8>) {
    let mut head = String::from("PUT /items/");
    put_encoded(&mut head, &item.id);
    for (place, tag) in item.tags.iter().enumerate() {
        head.push_str(if place == 0 { "?tag=" } else { "&tag=" });
        put_encoded(&mut head, tag);
    }
    head.push_str(" HTTP/1.1\r\nhost: back.example\r\ncontent-type: application/json\r\n");
    http::put(out, &head, &serde_json::to_vec(&item.rest).expect("an item"));
}

fn asked(body: &Body) -> Vec<u8> {
    let tags: Vec<String> = body.tags.iter().map(|tag| format!("tag={tag}")).collect();
    let query = if tags.is_empty() { String::new() } else { format!("?{}", tags.join("&")) };
    let head = format!("PUT /items/{}{query} HTTP/1.1\r\nhost: shop.example\r\ncontent-type: application/json\r\n", body.id);
    let mut out = Vec::new();
    http::put(&mut out, &head, &body.json);
    out
}

/// A request in, a request out, and a turn of both with the answer.
pub fn measure(title: &str, body: &Body) {
    let router = Router::new([("PUT", "/items/{id}")].into_iter());
    let request = asked(body);
    let mut answered = Vec::new();
    http::put(&mut answered, "HTTP/1.1 200 OK\r\n", br#"{"count":3}"#);
    let item = request_in(&router, &request).expect("a request");
    let (mut back, mut front) = (Vec::new(), Vec::new());
    tell(&format!("restJson1 request in, {title}"), time(|| {
        black_box(request_in(&router, black_box(&request)).expect("a request"));
    }));
    tell(&format!("restJson1 request out, {title}"), time(|| {
        back.clear();
        request_out(black_box(&item), &mut back);
        black_box(&back);
    }));
    tell(&format!("restJson1 to restJson1, a turn of {title}"), time(|| {
        back.clear();
        front.clear();
        request_out(&request_in(&router, black_box(&request)).expect("a request"), &mut back);
        let body = http::answer(black_box(&answered)).expect("an answer");
        let answer: Answer = serde_json::from_slice(body).expect("an answer");
        http::put(&mut front, ANSWER, &serde_json::to_vec(&answer).expect("an answer"));
        black_box((&back, &front));
    }));
}

//! The shop from AWS JSON 1.1 to Smithy RPC v2 CBOR: all of an item in the body.
use crate::shop::{keeps_constraints, Answer, Body, Part};
use crate::{http, tell, time};
use serde::{Deserialize, Serialize};
use std::hint::black_box;

const REQUEST: &str = "POST /service/Shop/operation/PutItem HTTP/1.1\r\nhost: back.example\r\ncontent-type: application/cbor\r\n\
    smithy-protocol: rpc-v2-cbor\r\naccept: application/cbor\r\n";
const ASKED: &str = "POST / HTTP/1.1\r\nhost: shop.example\r\ncontent-type: application/x-amz-json-1.1\r\nx-amz-target: Shop.PutItem\r\n";
const ANSWER: &str = "HTTP/1.1 200 OK\r\ncontent-type: application/x-amz-json-1.1\r\n";
const ANSWERED: &str = "HTTP/1.1 200 OK\r\ncontent-type: application/cbor\r\nsmithy-protocol: rpc-v2-cbor\r\n";

#[derive(Serialize, Deserialize)]
struct Item {
    id: String,
    #[serde(skip_serializing_if = "Option::is_none")]
    tags: Option<Vec<String>>,
    #[serde(skip_serializing_if = "Option::is_none")]
    when: Option<i64>,
    #[serde(skip_serializing_if = "Option::is_none")]
    dates: Option<Vec<i64>>,
    #[serde(skip_serializing_if = "Option::is_none")]
    at: Option<i64>,
    #[serde(skip_serializing_if = "Option::is_none")]
    note: Option<String>,
    #[serde(skip_serializing_if = "Option::is_none")]
    parent: Option<Part>,
}

fn cross_request(bytes: &[u8], out: &mut Vec<u8>) -> Option<()> {
    let framed = http::request(bytes)?;
    let item: Item = serde_json::from_slice(&bytes[framed.head..framed.head + framed.body]).ok()?;
    keeps_constraints(&item.id, item.note.as_deref()).then_some(())?;
    http::put(out, REQUEST, &serde_cbor::to_vec(&item).ok()?);
    Some(())
}

fn cross_answer(bytes: &[u8], out: &mut Vec<u8>) -> Option<()> {
    let answer: Answer = serde_cbor::from_slice(http::answer(bytes)?).ok()?;
    http::put(out, ANSWER, &serde_json::to_vec(&answer).ok()?);
    Some(())
}

/// A turn: a request there, and its answer back.
pub fn measure(title: &str, body: &Body) {
    let (mut request, mut answered) = (Vec::new(), Vec::new());
    http::put(&mut request, ASKED, &body.json);
    http::put(&mut answered, ANSWERED, &serde_cbor::to_vec(&Answer { count: 3 }).expect("an answer"));
    let (mut back, mut front) = (Vec::new(), Vec::new());
    tell(&format!("AWS JSON 1.1 to RPC v2 CBOR, a turn of {title}"), time(|| {
        back.clear();
        front.clear();
        cross_request(black_box(&request), &mut back).expect("a request");
        cross_answer(black_box(&answered), &mut front).expect("an answer");
        black_box((&back, &front));
    }));
}

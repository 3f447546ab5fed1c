//! The shop that is asked: an item, as a request has it, and the bodies that are measured.
use serde::{Deserialize, Serialize};

#[derive(Serialize, Deserialize)]
pub struct Part {
    pub name: String,
    #[serde(skip_serializing_if = "Option::is_none")]
    pub kids: Option<Vec<Part>>,
}

/// What stands in the body of each protocol.
#[derive(Serialize, Deserialize)]
pub struct Rest {
    #[serde(skip_serializing_if = "Option::is_none")]
    pub when: Option<i64>,
    #[serde(skip_serializing_if = "Option::is_none")]
    pub dates: Option<Vec<i64>>,
    #[serde(skip_serializing_if = "Option::is_none")]
    pub at: Option<i64>,
    #[serde(skip_serializing_if = "Option::is_none")]
    pub note: Option<String>,
    #[serde(skip_serializing_if = "Option::is_none")]
    pub parent: Option<Part>,
}

#[derive(Serialize, Deserialize)]
pub struct Answer {
    pub count: i32,
}

/// The constraints of the model: the length of an id, and what a note consists of.
pub fn keeps_constraints(id: &str, note: Option<&str>) -> bool {
    (1..=8).contains(&id.chars().count()) && note.map_or(true, |note| note.bytes().all(|byte| byte == b' ' || byte.is_ascii_lowercase()))
}

// A tree of parts, twelve below each, as tools/shop_bodies.py makes it.
fn part(left: &mut i64, depth: u32, seed: &mut u64) -> Part {
    *seed = seed.wrapping_mul(6364136223846793005).wrapping_add(1442695040888963407);
    let name = format!("part {:016x}", *seed);
    *left -= name.len() as i64 + 12;
    let mut kids = Vec::new();
    for _ in 0..if depth == 0 { 0 } else { 12 } {
        if *left <= 0 {
            break;
        }
        *left -= 10;
        kids.push(part(left, depth - 1, seed));
    }
    Part { name, kids: (!kids.is_empty()).then_some(kids) }
}

/// A body in JSON, with the id and the tags that it holds where a protocol has them in the body.
pub struct Body {
    pub id: &'static str,
    pub tags: &'static [&'static str],
    pub json: Vec<u8>,
}

pub fn bodies() -> Vec<(&'static str, Body)> {
    let parts = serde_json::to_string(&part(&mut 1_330_000, 6, &mut 1)).expect("parts");
    let large = format!(r#"{{"id":"i1","note":"x","parent":{parts}}}"#).into_bytes();
    let small = br#"{ "extra": [1, {}], "note": "x" , "id": "b" }"#.to_vec();
    let middle = br#"{"id":"a1","tags":["red","big"],"note":"two parts","parent":{"name":"p"}}"#.to_vec();
    vec![
        ("45 bytes", Body { id: "b", tags: &[], json: small }),
        ("73 bytes", Body { id: "a1", tags: &["red", "big"], json: middle }),
        ("1 MB", Body { id: "i1", tags: &[], json: large }),
    ]
}

//! An ordinary program that reads JSON lines into values and prints replies of the size of a range's, and
//! does nothing else: what a thin layer of a user's own would cost.
use serde_json::{json, Value};
use std::io::{BufRead, BufReader, BufWriter, Write};

/// How many edges the reply to a request has: its limit, or one for each id that it asks for.
fn edges_of(request: &Value) -> u64 {
    let ids = request.get("ids").and_then(Value::as_array).map_or(0, Vec::len);
    request.get("limit").and_then(Value::as_u64).unwrap_or(ids as u64)
}

fn main() {
    let input = BufReader::with_capacity(1 << 16, std::io::stdin().lock());
    let mut output = BufWriter::with_capacity(1 << 16, std::io::stdout().lock());
    for line in input.split(b'\n') {
        let line = line.unwrap();
        if line.is_empty() {
            continue;
        }
        let request: Value = serde_json::from_slice(&line).unwrap();
        let edges: Vec<Value> = (0..edges_of(&request))
            .map(|k| json!({"data": {}, "id2": k + 2, "time": k}))
            .collect();
        let reply = json!({"edges": edges, "hops": 0, "kept": true, "ok": "assoc_range", "store": false, "version": 10});
        output.write_all(reply.to_string().as_bytes()).unwrap();
        output.write_all(b"\n").unwrap();
    }
}

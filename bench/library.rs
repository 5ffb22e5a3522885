// The work of `bench_stores queue N` and `bench_stores keys-K N` with the collections of Rust's library.
use std::collections::{HashMap, VecDeque};
use std::io::BufRead;

#[derive(Clone, Copy, PartialEq)]
enum Value {
    Int(i32),
    Text(u32),
}

fn fill_and_empty(count: u32) -> u32 {
    let tuple = vec![Value::Text(0), Value::Int(1)];
    let mut queue = VecDeque::new();
    for _ in 0..count {
        queue.push_back(tuple.clone());
    }
    let mut into = Vec::with_capacity(16);
    let mut hits = 0;
    for _ in 0..count {
        if let Some(oldest) = queue.pop_front() {
            into.clear();
            into.extend_from_slice(&oldest);
            hits += (into[0] == Value::Text(0)) as u32;
        }
    }
    hits
}

fn fill_and_empty_by_key(keys: u32, count: u32) -> u32 {
    let mut table: HashMap<i32, VecDeque<Vec<Value>>> = HashMap::new();
    for round in 0..count {
        let key = (round % keys) as i32;
        table.entry(key).or_default().push_back(vec![Value::Text(0), Value::Int(key)]);
    }
    let mut into = Vec::with_capacity(16);
    let mut hits = 0;
    for round in 0..count {
        let key = (round % keys) as i32;
        let template = vec![Value::Text(0), Value::Int(key)];
        let Some(line) = table.get_mut(&key) else { continue };
        if let Some(place) = line.iter().position(|tuple| *tuple == template) {
            let tuple = line.remove(place).unwrap();
            into.clear();
            into.extend_from_slice(&tuple);
            hits += 1;
        }
        if line.is_empty() {
            table.remove(&key);
        }
    }
    hits
}

fn main() {
    for line in std::io::stdin().lock().lines() {
        let line = line.unwrap();
        let Some((name, count)) = line.split_once(' ') else { continue };
        let count: u32 = count.parse().unwrap();
        let hits = match name.strip_prefix("keys-") {
            Some(keys) => fill_and_empty_by_key(keys.parse().unwrap(), count),
            None => fill_and_empty(count),
        };
        println!("{name} {count} {hits}");
    }
}

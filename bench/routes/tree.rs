// The same tables as a plain tree of hash maps in Rust, for bench/routes/run: the yardstick, and no
// part of the product. Usage: tree [SUBSCRIPTIONS]
use std::collections::HashMap;
use std::os::raw::c_long;

const SIZES: [u32; 5] = [10, 100, 1_000, 10_000, 100_000];
const MATCHING: u32 = 10;
const CALLS: u32 = 2_000;
const LATE: (u64, u32) = (1_000_000, 1_000_000);

extern "C" {
    /// The processor time of this process, in microseconds (POSIX).
    fn clock() -> c_long;
}

/// The nanoseconds of the processor for each of so many calls.
fn nanos(calls: u32, run: impl FnOnce()) -> i64 {
    let begun = unsafe { clock() };
    run();
    (unsafe { clock() } - begun) * 1000 / i64::from(calls)
}

#[derive(Default)]
struct Node {
    children: HashMap<String, Node>,
    /// The session and the QoS of each subscription that ends here, and of those that end by `#`.
    here: Vec<(u64, u8)>,
    below: Vec<(u64, u8)>,
}

fn put(node: &mut Node, levels: &[&str], birth: u64, qos: u8) {
    match levels {
        [] => set(&mut node.here, birth, qos),
        ["#"] => set(&mut node.below, birth, qos),
        [first, rest @ ..] => {
            if !node.children.contains_key(*first) {
                node.children.insert(first.to_string(), Node::default());
            }
            put(node.children.get_mut(*first).unwrap(), rest, birth, qos)
        }
    }
}

fn set(rows: &mut Vec<(u64, u8)>, birth: u64, qos: u8) {
    match rows.iter_mut().find(|row| row.0 == birth) {
        Some(row) => row.1 = qos,
        None => rows.push((birth, qos)),
    }
}

/// Removes a subscription, and says whether the node is empty.
fn remove(node: &mut Node, levels: &[&str], birth: u64) -> bool {
    match levels {
        [] => node.here.retain(|row| row.0 != birth),
        ["#"] => node.below.retain(|row| row.0 != birth),
        [first, rest @ ..] => {
            if let Some(child) = node.children.get_mut(*first) {
                if remove(child, rest, birth) {
                    node.children.remove(*first);
                }
            }
        }
    }
    node.children.is_empty() && node.here.is_empty() && node.below.is_empty()
}

fn find(node: &Node, levels: &[&str], found: &mut Vec<(u64, u8)>) {
    found.extend_from_slice(&node.below);
    match levels {
        [] => found.extend_from_slice(&node.here),
        [first, rest @ ..] => {
            for level in [*first, "+"] {
                if let Some(child) = node.children.get(level) {
                    find(child, rest, found);
                }
            }
        }
    }
}

/// The copies of a publication: one a session, in the order of sessions.
fn route(root: &Node, topic: &str) -> Vec<(u64, u8)> {
    let levels: Vec<&str> = topic.split('/').collect();
    let mut found = Vec::new();
    find(root, &levels, &mut found);
    found.sort();
    found.dedup_by_key(|row| row.0);
    found
}

fn subscribe(root: &mut Node, number: u32, birth: u64, qos: u8) {
    let topic = if number < MATCHING { 7 } else { number };
    let text = format!("house/{topic}/+");
    let levels: Vec<&str> = text.split('/').collect();
    put(root, &levels, birth, qos);
}

fn tell(count: u32) {
    let sessions = (count / 100).max(MATCHING);
    let mut root = Node::default();
    let filled = nanos(count, || {
        for n in 0..count {
            subscribe(&mut root, n, u64::from(n % sessions), 1);
        }
    });
    let routed = nanos(CALLS, || {
        for _ in 0..CALLS {
            assert_eq!(route(&root, "house/7/door").len(), 10);
        }
    });
    let replaced = nanos(CALLS, || {
        for _ in 0..CALLS {
            subscribe(&mut root, 7, 7, 2);
        }
    });
    let moved = nanos(CALLS, || {
        for _ in 0..CALLS {
            subscribe(&mut root, LATE.1, LATE.0, 1);
            remove(&mut root, &["house", "1000000", "+"], LATE.0);
        }
    });
    eprintln!("{count:>14} {filled:>12} {routed:>12} {replaced:>12} {moved:>14}");
}

fn main() {
    match std::env::args().nth(1) {
        Some(word) => tell(word.parse().expect("how many subscriptions")),
        None => SIZES.iter().copied().for_each(tell),
    }
}

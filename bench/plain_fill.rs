//! Fills the empty car routes of plans.csv in the current folder at the links' free speed, in plain Rust: the peer of bench/fill_routes.
//! `plain_fill legs` makes a search for each leg, which ends at its target; `plain_fill nodes` one for each node from which a leg
//! begins, which ends when all its targets are settled; `plain_fill all` whole searches from these nodes. It prints how many routes it
//! found and how many links they have, and how many searches it made.
use std::cmp::Reverse;
use std::collections::{BinaryHeap, HashMap};

struct Link {
    from: usize,
    to: usize,
    seconds: u64,
}

fn rows(file: &str) -> Vec<Vec<String>> {
    let text = std::fs::read_to_string(file).expect("a file");
    text.lines().skip(1).map(|line| line.split(',').map(String::from).collect()).collect()
}

/// The car legs without a route, by the node where the search begins: the node where it ends.
fn wanted(links: &[Link], names: &HashMap<String, usize>) -> HashMap<usize, Vec<usize>> {
    let plans = rows("plans.csv");
    let mut wanted: HashMap<usize, Vec<usize>> = HashMap::new();
    for three in plans.windows(3) {
        if three[1][2] == "leg" && three[1][3] == "car" && three[1][6].is_empty() && three[0][4] != three[2][4] {
            let (here, there) = (&links[names[&three[0][4]]], &links[names[&three[2][4]]]);
            wanted.entry(here.to).or_default().push(there.from);
        }
    }
    wanted
}

/// Labels of a search from a node, which ends when so many of these targets are settled.
fn search(links: &[Link], out: &[Vec<usize>], from: usize, targets: &[usize], labels: &mut [u64]) {
    labels.fill(u64::MAX);
    labels[from] = 0;
    let mut open: Vec<usize> = targets.to_vec();
    open.sort_unstable();
    open.dedup();
    let mut left = open.len();
    let mut heap = BinaryHeap::from([Reverse((0, from))]);
    while let Some(Reverse((second, node))) = heap.pop() {
        if second > labels[node] {
            continue;
        }
        if open.binary_search(&node).is_ok() {
            left -= 1;
            if left == 0 {
                return;
            }
        }
        for &number in &out[node] {
            let link = &links[number];
            let arrival = second + link.seconds;
            if arrival < labels[link.to] {
                labels[link.to] = arrival;
                heap.push(Reverse((arrival, link.to)));
            }
        }
    }
}

/// How many links the chosen route to a node has: of the links that are tight at a node the one of the least number.
fn followed(links: &[Link], into: &[Vec<usize>], labels: &[u64], from: usize, to: usize) -> usize {
    let (mut node, mut count) = (to, 0);
    while node != from {
        let tight = |number: &usize| {
            let link = &links[*number];
            labels[link.from] != u64::MAX && labels[link.from] + link.seconds == labels[node]
        };
        node = links[into[node].iter().copied().find(tight).expect("a way")].from;
        count += 1;
    }
    count
}

fn main() {
    let mode = std::env::args().nth(1).expect("legs, nodes or all");
    let nodes: HashMap<String, usize> = rows("nodes.csv").into_iter().enumerate().map(|(number, row)| (row[0].clone(), number)).collect();
    let link_rows = rows("links.csv");
    let names: HashMap<String, usize> = link_rows.iter().enumerate().map(|(number, row)| (row[0].clone(), number)).collect();
    let links: Vec<Link> = link_rows
        .iter()
        .map(|row| Link {
            from: nodes[&row[1]],
            to: nodes[&row[2]],
            seconds: (row[3].parse::<u64>().expect("a length") / row[4].parse::<u64>().expect("a speed")).max(1),
        })
        .collect();
    let (mut out, mut into) = (vec![Vec::new(); nodes.len()], vec![Vec::new(); nodes.len()]);
    for (number, link) in links.iter().enumerate() {
        out[link.from].push(number);
        into[link.to].push(number);
    }
    let wanted = wanted(&links, &names);
    let mut labels = vec![0; nodes.len()];
    let (mut routes, mut count, mut searches) = (0, 0, 0);
    let started = std::time::Instant::now();
    for (&from, targets) in &wanted {
        let groups: Vec<&[usize]> = if mode == "legs" { targets.chunks(1).collect() } else { vec![&targets[..]] };
        for group in groups {
            search(&links, &out, from, if mode == "all" { &[] } else { group }, &mut labels);
            searches += 1;
            for &to in group {
                routes += 1;
                count += followed(&links, &into, &labels, from, to);
            }
        }
    }
    println!("routes,{routes}\nlinks,{count}\nsearches,{searches}\nms,{:.3}", started.elapsed().as_secs_f64() * 1000.0);
}

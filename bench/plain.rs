//! The work of the bench in plain Rust, to compare speed with: bushy joins over n relations, tallied once, alternatives scanned in order.
//! rustc -O plain.rs; ./plain count 10 | unrank 8 | rank 8 | campaign 8 cover | campaign 8 rows

use std::time::Instant;

#[derive(Clone, Copy, PartialEq, Eq)]
enum Kind {
    Scan,
    HashJoin,
}

#[derive(Clone, Copy, PartialEq, Eq)]
struct Alternative {
    kind: Kind,
    tag: u16,
    left: u16,
    right: u16,
}

#[derive(Clone, Copy)]
struct Node {
    goal: u16,
    alternative: Alternative,
}

#[derive(Clone, Copy)]
struct Tally {
    count: u64,
    size: u16,
}

struct Bushy {
    relations: u32,
}

impl Bushy {
    fn goals(&self) -> u16 {
        1 << self.relations
    }

    fn root(&self) -> u16 {
        self.goals() - 1
    }

    fn width(&self, goal: u16) -> u32 {
        match goal.count_ones() {
            0 => 0,
            1 => 1,
            ones => (1 << ones) - 2,
        }
    }

    fn alternative(&self, goal: u16, index: u32) -> Option<Alternative> {
        if index >= self.width(goal) {
            return None;
        }
        if goal.count_ones() == 1 {
            return Some(Alternative { kind: Kind::Scan, tag: goal.trailing_zeros() as u16, left: 0, right: 0 });
        }
        let mut rest = goal;
        let mut ahead = index + 1;
        let mut left = 0;
        while rest != 0 {
            let low = rest & rest.wrapping_neg();
            if ahead & 1 == 1 {
                left |= low;
            }
            rest ^= low;
            ahead >>= 1;
        }
        Some(Alternative { kind: Kind::HashJoin, tag: 0, left, right: goal ^ left })
    }
}

const MOST: u64 = 1_000_000_000_000_000_000;

fn tally(space: &Bushy, tallies: &mut [Tally]) -> (u64, u16) {
    for goal in 0..space.goals() {
        let mut total = Tally { count: 0, size: 0 };
        for index in 0..space.width(goal) {
            if let Some(a) = space.alternative(goal, index) {
                let (count, size) = match a.kind {
                    Kind::Scan => (1, 1),
                    Kind::HashJoin => {
                        let (l, r) = (tallies[a.left as usize], tallies[a.right as usize]);
                        (l.count.saturating_mul(r.count).min(MOST + 1), (1 + l.size + r.size).min(1025))
                    }
                };
                if count > 0 {
                    total.count = total.count.saturating_add(count).min(MOST + 1);
                    total.size = total.size.max(size);
                }
            }
        }
        tallies[goal as usize] = total;
    }
    let root = tallies[space.root() as usize];
    (root.count, root.size)
}

fn ways(a: Alternative, tallies: &[Tally]) -> u64 {
    match a.kind {
        Kind::Scan => 1,
        Kind::HashJoin => tallies[a.left as usize].count * tallies[a.right as usize].count,
    }
}

fn unrank(space: &Bushy, number: u64, tallies: &[Tally], work: &mut Vec<(u16, u64)>, plan: &mut Vec<Node>) {
    work.clear();
    plan.clear();
    work.push((space.root(), number));
    while let Some((goal, mut rest)) = work.pop() {
        let mut index = 0;
        while let Some(a) = space.alternative(goal, index) {
            let count = ways(a, tallies);
            if rest < count {
                plan.push(Node { goal, alternative: a });
                if a.kind == Kind::HashJoin {
                    let left = tallies[a.left as usize].count;
                    work.push((a.right, rest / left));
                    work.push((a.left, rest % left));
                }
                break;
            }
            rest -= count;
            index += 1;
        }
    }
}

fn rank(space: &Bushy, plan: &[Node], tallies: &[Tally], work: &mut Vec<(u16, u64)>) -> Option<u64> {
    work.clear();
    work.push((space.root(), 1));
    let mut number = 0;
    for node in plan {
        let (goal, weight) = work.pop()?;
        if node.goal != goal {
            return None;
        }
        let mut before = 0;
        let mut index = 0;
        loop {
            let a = space.alternative(goal, index)?;
            if a == node.alternative {
                break;
            }
            before += ways(a, tallies);
            index += 1;
        }
        number += weight * before;
        if node.alternative.kind == Kind::HashJoin {
            work.push((node.alternative.right, weight * tallies[node.alternative.left as usize].count));
            work.push((node.alternative.left, weight));
        }
    }
    if work.is_empty() { Some(number) } else { None }
}

fn cover(plan: &[Node], values: &mut Vec<u64>) -> Result<u64, u8> {
    values.clear();
    for node in plan.iter().rev() {
        let a = node.alternative;
        let value = match a.kind {
            Kind::Scan if a.tag > 63 => return Err(1),
            Kind::Scan => 1u64 << a.tag,
            Kind::HashJoin => {
                let (l, r) = (values.pop().unwrap(), values.pop().unwrap());
                if l & r != 0 {
                    return Err(3);
                }
                l | r
            }
        };
        values.push(value);
    }
    Ok(values.pop().unwrap())
}

fn rows(plan: &[Node], relations: &[u64], values: &mut Vec<u64>) -> Result<u64, u8> {
    values.clear();
    for node in plan.iter().rev() {
        let a = node.alternative;
        let value = match a.kind {
            Kind::Scan => *relations.get(a.tag as usize).ok_or(1)?,
            Kind::HashJoin => values.pop().unwrap().saturating_mul(values.pop().unwrap()),
        };
        if value > MOST {
            return Err(2);
        }
        values.push(value);
    }
    Ok(values.pop().unwrap())
}

fn main() {
    let args: Vec<String> = std::env::args().collect();
    let n: u32 = args[2].parse().unwrap();
    let space = Bushy { relations: n };
    let mut tallies = vec![Tally { count: 0, size: 0 }; space.goals() as usize];
    let mut work = Vec::new();
    let mut plan = Vec::new();
    let mut values = Vec::new();
    let start = Instant::now();
    let (plans, size) = tally(&space, &mut tallies);
    match args[1].as_str() {
        "count" => println!("plans {plans} largest {size} in {} us", start.elapsed().as_micros()),
        "unrank" | "rank" => {
            let many = 200_000u64;
            let start = Instant::now();
            let mut sum = 0u64;
            for k in 0..many {
                unrank(&space, k * 7919 % plans, &tallies, &mut work, &mut plan);
                sum = sum.wrapping_add(plan.len() as u64);
                if args[1] == "rank" {
                    sum = sum.wrapping_add(rank(&space, &plan, &tallies, &mut work).unwrap());
                }
            }
            println!("{} {many} in {} us, {sum}", args[1], start.elapsed().as_micros());
        }
        _ => {
            let relations = [10u64, 20, 30, 40, 50, 60, 70, 80, 90, 100];
            let start = Instant::now();
            let mut agreed = 0u64;
            for k in 0..plans {
                unrank(&space, 0, &tallies, &mut work, &mut plan);
                let base = if args[3] == "cover" { cover(&plan, &mut values) } else { rows(&plan, &relations, &mut values) };
                unrank(&space, k, &tallies, &mut work, &mut plan);
                let other = if args[3] == "cover" { cover(&plan, &mut values) } else { rows(&plan, &relations, &mut values) };
                agreed += (base == other) as u64;
            }
            println!("agreed {agreed} of {plans} in {} ms", start.elapsed().as_millis());
        }
    }
}

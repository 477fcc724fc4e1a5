//! Where the nodes of a graph stand: in columns by how far they are from where it is entered.

use super::graph::Diagram;
use std::collections::VecDeque;

/// The column and the row of each node, and how many rows the fullest column has.
pub struct Layers {
    pub places: Vec<(usize, usize)>,
    pub columns: usize,
    pub rows: usize,
    /// How many nodes each column has.
    pub filled: Vec<usize>,
}

pub fn layers(diagram: &Diagram) -> Layers {
    let distance = distances(diagram);
    let columns = distance.iter().max().map_or(1, |most| most + 1);
    let mut filled = vec![0; columns];
    let mut places = Vec::new();
    for column in distance {
        places.push((column, filled[column]));
        filled[column] += 1;
    }
    let rows = filled.iter().copied().max().unwrap_or(1);
    Layers {
        places,
        columns,
        rows,
        filled,
    }
}

/// How many edges lead from an entered node to each; those that none leads to stand behind all others.
fn distances(diagram: &Diagram) -> Vec<usize> {
    let mut distance: Vec<Option<usize>> = vec![None; diagram.nodes.len()];
    let mut waiting = VecDeque::new();
    for (number, node) in diagram.nodes.iter().enumerate() {
        if node.entered.is_some() {
            distance[number] = Some(0);
            waiting.push_back((number, 0));
        }
    }
    let mut furthest = 0;
    while let Some((from, steps)) = waiting.pop_front() {
        furthest = furthest.max(steps);
        for (_, to, _) in diagram.edges.iter().filter(|(own, _, _)| *own == from) {
            if distance[*to].is_none() {
                distance[*to] = Some(steps + 1);
                waiting.push_back((*to, steps + 1));
            }
        }
    }
    let behind = if waiting.is_empty() && distance.iter().all(Option::is_none) {
        0
    } else {
        furthest + 1
    };
    distance
        .into_iter()
        .map(|own| own.unwrap_or(behind))
        .collect()
}

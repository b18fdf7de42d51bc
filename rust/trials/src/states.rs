//! Lists of states, one state a node, as the paper speaks of them.

use crate::cost::Cost;
use crate::trees::{Node, Trees};
use second::draft::Draft;

/// The states that a node can have: 0 unless it asks for a role, and the
/// roles assigned to its user, if they permit it.
pub(crate) fn possible(node: &Node) -> Vec<u16> {
    let roles = node.assigned & node.permitted.unwrap_or(u16::MAX);
    let zero = node.permitted.is_none().then_some(0);
    let roles = (1..=16).filter(|role| roles >> (role - 1) & 1 != 0);
    zero.into_iter().chain(roles).collect()
}

/// The nodes that get an on before them.
pub fn on_steps(trees: &Trees, states: &[u16]) -> u32 {
    let on = |&at: &usize| states[at] != 0 && states[at] != trees.above(states, at);
    (0..states.len()).filter(on).count() as u32
}

/// The cost of a list, in a file without on and off nodes.
pub fn cost(trees: &Trees, states: &[u16]) -> Cost {
    let nodes = trees.nodes.iter().zip(states);
    let idle = nodes.filter(|(node, &state)| node.permitted.is_none() && state != 0);
    Cost {
        on_steps: on_steps(trees, states),
        idle: idle.count() as u32,
    }
}

/// All lists, from the smallest on; none if a node has no state.
fn lists(trees: &Trees) -> impl Iterator<Item = Vec<u16>> {
    let possible: Vec<Vec<u16>> = trees.nodes.iter().map(possible).collect();
    let count: usize = possible.iter().map(Vec::len).product();
    (0..count).map(move |mut number| {
        let mut states = vec![0; possible.len()];
        for (state, possible) in states.iter_mut().zip(&possible).rev() {
            *state = possible[number % possible.len()];
            number /= possible.len();
        }
        states
    })
}

/// The lists that cost the least, from the smallest on.
pub fn cheapest<C: Ord>(trees: &Trees, cost: impl Fn(&[u16]) -> C) -> Vec<Vec<u16>> {
    let mut cheapest: Vec<Vec<u16>> = Vec::new();
    let mut least = None;
    for states in lists(trees) {
        let cost = cost(&states);
        if least.as_ref().is_none_or(|least| cost < *least) {
            cheapest.clear();
            least = Some(cost);
        } else if least.as_ref() != Some(&cost) {
            continue;
        }
        cheapest.push(states);
    }
    cheapest
}

/// The lowest role that permits a send or receive of its user, step by step;
/// other nodes have their parent's state. With `stays` the parent's state is
/// kept if it permits the step.
pub fn greedy(trees: &Trees, stays: bool) -> Vec<u16> {
    let mut states = Vec::new();
    for (at, node) in trees.nodes.iter().enumerate() {
        let above = trees.above(&states, at);
        let possible = possible(node);
        let keep = node.permitted.is_none() || stays && possible.contains(&above);
        states.push(if keep { above } else { possible[0] });
    }
    states
}

/// The file that the states give.
pub fn placed(draft: &Draft, trees: &Trees, states: &[u16]) -> Draft {
    let mut nodes = Vec::new();
    let mut starts = Vec::new();
    for (at, &own) in states.iter().enumerate() {
        let above = trees.above(states, at);
        starts.push(nodes.len() as u16 + 1);
        if above != own && above != 0 {
            nodes.push([8, above, 0]);
        }
        if above != own && own != 0 {
            nodes.push([7, own, 0]);
        }
        nodes.push(draft.nodes[at]);
    }
    let start_of = |number: u16| starts[usize::from(number) - 1];
    for node in nodes.iter_mut().filter(|node| node[0] == 1) {
        node[1] = start_of(node[1]);
    }
    let mut placed = draft.clone();
    for session in &mut placed.sessions {
        session[2] = start_of(session[2]);
    }
    placed.nodes = nodes;
    placed
}

//! The greatest number of panes that can be served at once, by Dinic's max flow: a unit from the
//! source through each pane and one of its passing glasses to the sink, at most its stock through
//! each glass. It measures demand 3 of document 01 and the greatest number of document 02, 2026-05, without
//! any answer of the library. The flow and a minimum cut certify each other: see `check_flow` in `rules.rs`.

use std::collections::VecDeque;

const SOURCE: usize = 0;
const SINK: usize = 1;
const UNREACHED: usize = usize::MAX;

/// A max flow through the panes and glasses of a roof.
#[derive(Clone, Debug)]
pub struct Flow {
    /// The most panes that can be served.
    pub most_served: usize,
    /// The glass through which each pane is served, if it is.
    pub glass_of: Vec<Option<usize>>,
    /// The panes on the source's side of a minimum cut. Their glasses are on that side too, so that the
    /// panes less the sheets are those that cannot be served.
    pub group: Vec<usize>,
}

impl Flow {
    /// The flow where `passing` lists the glasses of each pane, and `stocks` has the sheets of each glass.
    pub fn of(passing: &[Vec<usize>], stocks: &[u16]) -> Flow {
        let first_glass = SINK + 1;
        let first_pane = first_glass + stocks.len();
        let mut network = Network::new(first_pane + passing.len());
        for (glass, &stock) in stocks.iter().enumerate() {
            network.connect(first_glass + glass, SINK, u32::from(stock));
        }
        for (pane, glasses) in passing.iter().enumerate() {
            network.connect(SOURCE, first_pane + pane, 1);
            for &glass in glasses {
                network.connect(first_pane + pane, first_glass + glass, 1);
            }
        }
        let most_served = network.max_flow() as usize;
        let panes = 0..passing.len();
        let glass = |pane| Some(network.full_edge_from(first_pane + pane)? - first_glass);
        Flow {
            most_served,
            glass_of: panes.clone().map(glass).collect(),
            group: panes
                .filter(|pane| network.is_reached(first_pane + pane))
                .collect(),
        }
    }
}

/// An edge and the flow that it can still take.
struct Edge {
    to: usize,
    room: u32,
}

/// A flow network in which edges 2i and 2i + 1 run in opposite directions.
struct Network {
    edges: Vec<Edge>,
    /// The edges out of each node.
    out: Vec<Vec<usize>>,
    /// The distance of each node from the source.
    level: Vec<usize>,
    /// How many edges of each node the current phase has used up.
    used: Vec<usize>,
}

impl Network {
    fn new(nodes: usize) -> Network {
        Network {
            edges: Vec::new(),
            out: vec![Vec::new(); nodes],
            level: vec![UNREACHED; nodes],
            used: vec![0; nodes],
        }
    }

    fn connect(&mut self, from: usize, to: usize, room: u32) {
        self.out[from].push(self.edges.len());
        self.edges.push(Edge { to, room });
        self.out[to].push(self.edges.len());
        self.edges.push(Edge { to: from, room: 0 });
    }

    /// Sends as much as can flow. The levels are then those of a minimum cut, for the sink was not reached.
    fn max_flow(&mut self) -> u32 {
        let mut flow = 0;
        while self.set_levels() {
            self.used.fill(0);
            loop {
                let sent = self.send(SOURCE, u32::MAX);
                if sent == 0 {
                    break;
                }
                flow += sent;
            }
        }
        flow
    }

    /// Sets the levels breadth first, and tells whether the sink was reached.
    fn set_levels(&mut self) -> bool {
        self.level.fill(UNREACHED);
        self.level[SOURCE] = 0;
        let mut queue = VecDeque::from([SOURCE]);
        while let Some(node) = queue.pop_front() {
            for &edge in &self.out[node] {
                let Edge { to, room } = self.edges[edge];
                if room > 0 && self.level[to] == UNREACHED {
                    self.level[to] = self.level[node] + 1;
                    queue.push_back(to);
                }
            }
        }
        self.is_reached(SINK)
    }

    fn is_reached(&self, node: usize) -> bool {
        self.level[node] != UNREACHED
    }

    /// Where an edge without room leads that was laid from this node.
    fn full_edge_from(&self, node: usize) -> Option<usize> {
        let mut laid = self.out[node].iter().filter(|&edge| edge % 2 == 0);
        let full = laid.find(|&&edge| self.edges[edge].room == 0)?;
        Some(self.edges[*full].to)
    }

    /// Sends at most `limit` from a node to the sink along rising levels, and gives what was sent.
    fn send(&mut self, node: usize, limit: u32) -> u32 {
        if node == SINK {
            return limit;
        }
        while let Some(&edge) = self.out[node].get(self.used[node]) {
            let Edge { to, room } = self.edges[edge];
            if room > 0 && self.level[to] == self.level[node] + 1 {
                let sent = self.send(to, limit.min(room));
                if sent > 0 {
                    self.edges[edge].room -= sent;
                    self.edges[edge ^ 1].room += sent;
                    return sent;
                }
            }
            self.used[node] += 1;
        }
        0
    }
}

// The twin of examples/graph.rg: the nodes stand in a vector, an edge is a place in it, and `Arc` shares what nobody changes any more.
use std::sync::Arc;

struct Node {
    number: i64,
    edges: Vec<usize>,
}

fn ring(many: usize) -> Vec<Node> {
    let mut nodes: Vec<Node> = (0..many).map(|k| Node { number: k as i64, edges: vec![] }).collect();
    for k in 1..many {
        nodes[k - 1].edges.push(k);
        nodes[k].edges.push(k - 1);
    }
    nodes[many - 1].edges.push(0);
    nodes[0].edges.push(many - 1);
    nodes
}

struct Walker {
    graph: Arc<Vec<Node>>,
    at: usize,
    sum: i64,
}

impl Walker {
    fn new(graph: &Arc<Vec<Node>>) -> Walker {
        Walker { graph: graph.clone(), at: graph.len() - 1, sum: 0 }
    }

    // Along the edge that was added last, or along the one before it.
    fn step(&mut self, takes_first: bool) {
        let edges = &self.graph[self.at].edges;
        self.at = edges[edges.len() - if takes_first { 1 } else { 2 }];
        self.sum += self.graph[self.at].number;
    }
}

fn main() {
    let graph = Arc::new(ring(5));
    let (mut one, mut two) = (Walker::new(&graph), Walker::new(&graph));
    for k in 0..7 {
        one.step(k % 3 == 1);
        println!("{}", one.graph[one.at].number);
        two.step(k % 2 == 0);
    }
    println!("{}\n{}\n{}", one.at == two.at, one.sum, two.sum);
}

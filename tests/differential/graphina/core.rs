//! The part of graphina's `core` that its centrality files use, over petgraph's stable graph. Edges are added by
//! petgraph's own `add_edge`, so parallel edges stay.

pub mod error {
    /// Why a call gave no scores; only that it did is compared.
    #[derive(Debug)]
    pub enum GraphinaError {
        Graph(String),
        Argument(String),
        Rounds(usize),
    }

    pub type Result<T> = std::result::Result<T, GraphinaError>;

    impl GraphinaError {
        pub fn invalid_graph(text: impl Into<String>) -> Self {
            GraphinaError::Graph(text.into())
        }

        pub fn invalid_argument(text: impl Into<String>) -> Self {
            GraphinaError::Argument(text.into())
        }

        pub fn convergence_failed(rounds: usize, _text: impl Into<String>) -> Self {
            GraphinaError::Rounds(rounds)
        }
    }
}

pub mod types {
    use petgraph::graph::NodeIndex;
    use petgraph::stable_graph::StableGraph;
    use petgraph::visit::{EdgeRef, IntoEdgeReferences, IntoNodeReferences};
    use petgraph::{Direction, EdgeType};
    use std::collections::HashMap;

    pub use petgraph::{Directed, Undirected};

    pub trait GraphConstructor<A, W>: EdgeType {}

    impl<A, W> GraphConstructor<A, W> for Directed {}

    impl<A, W> GraphConstructor<A, W> for Undirected {}

    #[derive(Clone, Copy, Debug, PartialEq, Eq, Hash, PartialOrd, Ord)]
    pub struct NodeId(NodeIndex);

    impl NodeId {
        pub fn of(index: usize) -> Self {
            NodeId(NodeIndex::new(index))
        }

        pub fn index(&self) -> usize {
            self.0.index()
        }
    }

    pub type NodeMap<T> = HashMap<NodeId, T, rustc_hash::FxBuildHasher>;

    pub struct BaseGraph<A, W, Ty: EdgeType> {
        inner: StableGraph<A, W, Ty>,
    }

    impl<W: Copy, Ty: EdgeType> BaseGraph<(), W, Ty> {
        /// The graph of `nodes` nodes and these edges, added in order.
        pub fn of(nodes: usize, from: &[u32], to: &[u32], weight: &[W]) -> Self {
            let mut inner = StableGraph::with_capacity(nodes, from.len());
            for _ in 0..nodes {
                inner.add_node(());
            }
            for ((&u, &v), &w) in from.iter().zip(to).zip(weight) {
                inner.add_edge(NodeIndex::new(u as usize), NodeIndex::new(v as usize), w);
            }
            BaseGraph { inner }
        }
    }

    impl<A, W, Ty: EdgeType> BaseGraph<A, W, Ty> {
        pub fn is_directed(&self) -> bool {
            Ty::is_directed()
        }

        pub fn node_count(&self) -> usize {
            self.inner.node_count()
        }

        pub fn edge_count(&self) -> usize {
            self.inner.edge_count()
        }

        pub fn node_ids(&self) -> impl Iterator<Item = NodeId> + '_ {
            self.inner.node_indices().map(NodeId)
        }

        pub fn nodes(&self) -> impl Iterator<Item = (NodeId, &A)> + '_ {
            self.inner.node_references().map(|(v, a)| (NodeId(v), a))
        }

        pub fn edges(&self) -> impl Iterator<Item = (NodeId, NodeId, &W)> + '_ {
            self.inner.edge_references().map(|e| (NodeId(e.source()), NodeId(e.target()), e.weight()))
        }

        pub fn neighbors(&self, node: NodeId) -> impl Iterator<Item = NodeId> + '_ {
            self.inner.neighbors(node.0).map(NodeId)
        }

        /// Edge ends at a node: a self-loop has two of them there.
        pub fn degree(&self, node: NodeId) -> Option<usize> {
            self.inner.node_weight(node.0)?;
            if Ty::is_directed() {
                return Some(self.ends(node, Direction::Incoming) + self.ends(node, Direction::Outgoing));
            }
            Some(self.inner.edges(node.0).map(|e| 1 + (e.source() == e.target()) as usize).sum())
        }

        pub fn in_degree(&self, node: NodeId) -> Option<usize> {
            if Ty::is_directed() {
                self.inner.node_weight(node.0)?;
                return Some(self.ends(node, Direction::Incoming));
            }
            self.degree(node)
        }

        pub fn out_degree(&self, node: NodeId) -> Option<usize> {
            if Ty::is_directed() {
                self.inner.node_weight(node.0)?;
                return Some(self.ends(node, Direction::Outgoing));
            }
            self.degree(node)
        }

        fn ends(&self, node: NodeId, side: Direction) -> usize {
            self.inner.edges_directed(node.0, side).count()
        }
    }
}

// Supplied: reads the context's readings; changes nothing.

/// What a reading's nodes hold, from bottom to top. The three lists are of one length unless the nodes are damaged.
pub struct Entries<'a, Data: SemanticValue> {
    pub userdata: &'a Data::UserData,
    pub states: Vec<usize>,
    pub values: Vec<&'a Data>,
    pub locations: Vec<&'a Data::Location>,
    /// A node of the reading is free (it is shown as it stands) or beyond the pool.
    pub freed: bool,
}

impl<
    P: Parser<Term = Data::Term, NonTerm = Data::NonTerm, StateIndex = StateIndex>,
    Data: SemanticValue,
    Start: StartExtractor<Data>,
    StateIndex: Index,
    const MAX_REDUCE_RULES: usize,
> Context<P, Data, Start, StateIndex, MAX_REDUCE_RULES>
{
    pub fn shows_consumed(&self) -> bool {
        self.consumed
    }

    pub fn count_readings(&self) -> usize {
        self.current_branches.len()
    }

    /// Reading `number`, of at most `most` nodes.
    pub fn read_out(&self, number: usize, most: usize) -> Option<Entries<'_, Data>> {
        let branch = self.current_branches.get(number)?;
        let mut nodes = Vec::new();
        let mut next = Some(branch.node);
        let mut freed = false;
        while let (Some(id), true) = (next, nodes.len() < most) {
            freed |= !self.node_is_live(id);
            let Some(node) = self.nodes_pool.get(id.index()) else { break };
            nodes.push(node);
            next = node.parent;
        }
        nodes.reverse();
        Some(Entries {
            userdata: &branch.userdata,
            states: nodes.iter().flat_map(|n| n.state_stack.iter().map(|s| s.into_usize())).collect(),
            values: nodes.iter().flat_map(|n| &n.data_stack).collect(),
            locations: nodes.iter().flat_map(|n| &n.location_stack).collect(),
            freed,
        })
    }
}

//! The policy record, and questions 3 to 6 of document 01 put to it.
//!
//! A count is the length of its vector, so there are no entries past a count.

pub const MOST_DECISIONS: usize = 128;
pub const MOST_ACTIONS: usize = 16;
pub const MOST_RULES: usize = 256;
pub const MOST_QUERIES: usize = 64;
pub const MOST_LISTED: usize = 8;
pub const TOP_LEVEL: u32 = 15;
pub const TOP_WEIGHT: u32 = 65_535;

/// The number of the first question answered no.
pub type Refusal = u32;

#[derive(Clone)]
pub struct Action {
    pub kind: char,
    pub weight: u32,
    pub also: u32,
}

#[derive(Clone, Default)]
pub struct Rule {
    pub head: u32,
    pub needs: u32,
    pub ifs: Vec<u32>,
    pub unless: Vec<u32>,
}

#[derive(Clone, Default)]
pub struct Policy {
    pub levels: Vec<u32>,
    pub actions: Vec<Action>,
    pub rules: Vec<Rule>,
}

#[derive(Clone)]
pub struct Query {
    pub want: u32,
    pub done: u32,
}

/// Yes is Ok; no is the number of the question.
pub fn ask(number: Refusal, yes: bool) -> Result<(), Refusal> {
    if yes {
        Ok(())
    } else {
        Err(number)
    }
}

impl Policy {
    pub fn is_decision(&self, number: u32) -> bool {
        (number as usize) < self.levels.len()
    }

    /// Below 2^M; with a count of actions that is out of range itself, any mask may pass.
    pub fn is_mask(&self, number: u32) -> bool {
        u64::from(number) >> self.actions.len() == 0
    }

    /// Question 3, to a query.
    pub fn is_query(&self, query: &Query) -> bool {
        self.is_decision(query.want) && self.is_mask(query.done)
    }

    pub fn level(&self, decision: u32) -> u32 {
        self.levels[decision as usize]
    }

    pub fn has_unless(&self) -> bool {
        self.rules.iter().any(|rule| !rule.unless.is_empty())
    }

    /// Question 3, to all that the record holds.
    pub fn in_range(&self) -> bool {
        self.in_range_but_levels() && self.levels.iter().all(|&level| level <= TOP_LEVEL)
    }

    /// Question 3, with the levels left out.
    pub fn in_range_but_levels(&self) -> bool {
        let list = |list: &[u32]| list.len() <= MOST_LISTED && list.iter().all(|&d| self.is_decision(d));
        (1..=MOST_DECISIONS).contains(&self.levels.len())
            && self.actions.len() <= MOST_ACTIONS
            && self.rules.len() <= MOST_RULES
            && self.actions.iter().all(|a| (1..=TOP_WEIGHT).contains(&a.weight) && self.is_mask(a.also))
            && self
                .rules
                .iter()
                .all(|r| self.is_decision(r.head) && self.is_mask(r.needs) && list(&r.ifs) && list(&r.unless))
    }

    /// Question 4.
    pub fn lists_rise(&self) -> bool {
        self.rules.iter().all(|rule| rises(&rule.ifs) && rises(&rule.unless))
    }

    /// Question 5.
    pub fn levels_fit(&self) -> bool {
        self.rules.iter().all(|rule| {
            let level = self.level(rule.head);
            rule.ifs.iter().all(|&d| self.level(d) <= level) && rule.unless.iter().all(|&d| self.level(d) < level)
        })
    }

    /// Question 6. An action in its own also mask does not weigh more than itself.
    fn weights_fit(&self) -> bool {
        self.actions.iter().all(|action| {
            let mut others = self.actions.iter().enumerate();
            others.all(|(i, other)| !has(action.also, i) || action.weight > other.weight)
        })
    }

    /// Questions 4 to 6, for a record that is in range.
    pub fn ordered(&self) -> Result<(), Refusal> {
        ask(4, self.lists_rise())?;
        ask(5, self.levels_fit())?;
        ask(6, self.weights_fit())
    }
}

pub fn has(mask: u32, action: usize) -> bool {
    mask >> action & 1 == 1
}

pub fn rises(list: &[u32]) -> bool {
    list.windows(2).all(|pair| pair[0] < pair[1])
}

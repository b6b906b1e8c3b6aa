//! Worlds, models, and the calls Judge, Fire, Choose and List, in the plainest way: the model of each world in
//! rounds, each set tried, and each proper subset looked at to see that a set is slim.

use crate::keep::keep;
use crate::policy::{ask, has, Policy, Query, Refusal, MOST_DECISIONS, TOP_LEVEL};
use std::iter::successors;

/// A set of decisions: decision d is in it when bit d is 1.
pub type Decisions = u128;

/// A rule with its decisions as sets, for the rounds of a model.
struct SetRule {
    needs: u32,
    head: Decisions,
    ifs: Decisions,
    unless: Decisions,
}

pub struct Choice {
    pub mask: u32,
    pub keep: u32,
    pub cost: u32,
    pub slim: usize,
}

pub struct Engine<'a> {
    pub policy: &'a Policy,
    /// For each action what it reaches, itself too.
    reached: Vec<u32>,
    /// The rules by the level of their heads.
    strata: Vec<Vec<SetRule>>,
    /// The model of each world that was met; it depends on the world alone, so queries share it.
    models: Vec<Option<Decisions>>,
}

impl<'a> Engine<'a> {
    pub fn new(policy: &'a Policy) -> Self {
        let mut engine = Engine { policy, reached: Vec::new(), strata: Vec::new(), models: Vec::new() };
        if check(policy).is_ok() {
            engine.reached = reached(policy);
            engine.strata = (0..=TOP_LEVEL).map(|level| stratum(policy, level)).collect();
            engine.models = vec![None; 1 << policy.actions.len()];
        }
        engine
    }

    /// Questions 3 to 6 as a call puts them: 3 to the whole of policy, query and offered set.
    pub fn questions(&self, query: &Query, set: u32) -> Result<(), Refusal> {
        let policy = self.policy;
        ask(3, policy.in_range() && policy.is_query(query) && policy.is_mask(set))?;
        policy.ordered()
    }

    /// What the actions in done and the set reach.
    pub fn world(&self, done: u32, set: u32) -> u32 {
        join(&self.reached, done | set)
    }

    /// Stratum by stratum, in rounds: a round adds the heads of all rules that the round before it satisfies.
    pub fn model(&mut self, world: u32) -> Decisions {
        if let Some(model) = self.models[world as usize] {
            return model;
        }
        let mut model = 0;
        for stratum in &self.strata {
            loop {
                let before = model;
                let satisfied =
                    |rule: &&SetRule| rule.needs & !world == 0 && rule.ifs & !before == 0 && rule.unless & before == 0;
                model = stratum.iter().filter(satisfied).fold(before, |model, rule| model | rule.head);
                if model == before {
                    break;
                }
            }
        }
        self.models[world as usize] = Some(model);
        model
    }

    fn enough(&mut self, query: &Query, set: u32) -> bool {
        let world = self.world(query.done, set);
        self.model(world) >> query.want & 1 == 1
    }

    fn cost(&self, set: u32) -> u32 {
        let actions = self.policy.actions.iter().enumerate();
        actions.filter(|&(i, _)| has(set, i)).map(|(_, action)| action.weight).sum()
    }

    /// For each mask, whether it is a set (shares nothing with done) and enough.
    pub fn try_each(&mut self, query: &Query) -> Vec<bool> {
        let masks = 0..1u32 << self.policy.actions.len();
        masks.map(|set| set & query.done == 0 && self.enough(query, set)).collect()
    }

    pub fn judge(&mut self, query: &Query, set: u32) -> Result<(bool, u32), Refusal> {
        self.questions(query, set)?;
        ask(7, set & query.done == 0)?;
        Ok((self.enough(query, set), self.cost(set)))
    }

    /// Follows the text to the letter, since the list is compared.
    pub fn fire(&self, query: &Query, set: u32) -> Result<Vec<usize>, Refusal> {
        self.questions(query, set)?;
        ask(7, set & query.done == 0)?;
        let world = self.world(query.done, set);
        let mut held = [false; MOST_DECISIONS];
        let mut fired = Vec::new();
        for level in 0..=TOP_LEVEL {
            loop {
                let before = fired.len();
                for (number, rule) in self.policy.rules.iter().enumerate() {
                    let head = rule.head as usize;
                    if self.policy.level(rule.head) == level
                        && rule.needs & world == rule.needs
                        && !held[head]
                        && rule.ifs.iter().all(|&d| held[d as usize])
                        && !rule.unless.iter().any(|&d| held[d as usize])
                    {
                        held[head] = true;
                        fired.push(number);
                        if rule.head == query.want {
                            return Ok(fired);
                        }
                    }
                }
                if fired.len() == before {
                    break;
                }
            }
        }
        Ok(Vec::new())
    }

    /// None, or the best set, by least cost and then smallest mask, and what to keep off it.
    pub fn choose(&mut self, query: &Query) -> Result<Option<Choice>, Refusal> {
        self.questions(query, 0)?;
        let enough = self.try_each(query);
        let sets = (0..enough.len() as u32).filter(|&set| enough[set as usize]);
        let best = sets.map(|set| (self.cost(set), set)).min();
        Ok(best.map(|(cost, mask)| {
            let keep = keep(&enough, query.done, mask);
            Choice { mask, keep, cost, slim: smallest(&enough).len() }
        }))
    }

    /// Writes the slim sets to the lent list, and returns their count.
    pub fn list(&mut self, query: &Query, lent: &mut [u16]) -> Result<usize, Refusal> {
        self.questions(query, 0)?;
        let slim = smallest(&self.try_each(query));
        ask(8, slim.len() <= lent.len())?;
        for (place, &set) in lent.iter_mut().zip(&slim) {
            *place = set as u16;
        }
        Ok(slim.len())
    }

    /// Whether a list of rules is a derivation of the wanted decision in the world of the set, by the definition.
    pub fn is_derivation(&mut self, query: &Query, set: u32, list: &[usize]) -> bool {
        let world = self.world(query.done, set);
        let model = self.model(world);
        let policy = self.policy;
        list.iter().enumerate().all(|(place, &number)| {
            let rule = &policy.rules[number];
            let earlier = |d: u32| list[..place].iter().any(|&e| policy.rules[e].head == d);
            rule.needs & !world == 0
                && rule.ifs.iter().all(|&d| earlier(d))
                && rule.unless.iter().all(|&d| model >> d & 1 == 0)
                && policy.level(rule.head) <= policy.level(query.want)
        }) && list.last().map(|&last| policy.rules[last].head) == Some(query.want)
    }
}

/// Questions 3 to 6 put to a policy alone.
pub fn check(policy: &Policy) -> Result<(), Refusal> {
    ask(3, policy.in_range())?;
    policy.ordered()
}

/// For each action what it reaches: itself, and what those in its also mask reach. They weigh less (question 6), so
/// with the lightest action first theirs is known when it is asked for.
fn reached(policy: &Policy) -> Vec<u32> {
    let actions = &policy.actions;
    let mut lightest_first: Vec<usize> = (0..actions.len()).collect();
    lightest_first.sort_by_key(|&i| actions[i].weight);
    let mut reached = vec![0; actions.len()];
    for i in lightest_first {
        reached[i] = 1 << i | join(&reached, actions[i].also);
    }
    reached
}

/// The masks that belong to the actions in the set, joined.
fn join(masks: &[u32], set: u32) -> u32 {
    let own = masks.iter().enumerate().filter(|&(i, _)| has(set, i));
    own.fold(0, |joined, (_, mask)| joined | mask)
}

fn stratum(policy: &Policy, level: u32) -> Vec<SetRule> {
    let set = |list: &[u32]| list.iter().fold(0, |set, d| set | 1 << d);
    let rules = policy.rules.iter().filter(|rule| policy.level(rule.head) == level);
    rules
        .map(|rule| SetRule { needs: rule.needs, head: 1 << rule.head, ifs: set(&rule.ifs), unless: set(&rule.unless) })
        .collect()
}

/// The proper subsets of a set, from the largest mask down to the empty set.
fn proper_subsets(set: u32) -> impl Iterator<Item = u32> {
    successors(Some(set), move |&subset| (subset > 0).then(|| (subset - 1) & set)).skip(1)
}

/// The masks that are marked and have no proper subset that is, in rising order; with the enough sets marked, the slim
/// sets. At most 3^16, some 43 million, subsets are looked at, so this is quick enough for 16 actions too.
pub fn smallest(marked: &[bool]) -> Vec<u32> {
    let is_marked = |&set: &u32| marked[set as usize];
    let is_smallest = |set: &u32| is_marked(set) && !proper_subsets(*set).any(|subset| is_marked(&subset));
    (0..marked.len() as u32).filter(is_smallest).collect()
}

//! The combining algorithms of XACML 2.0, appendix C, each as one loop over the children in their order, and what a table
//! of the convention profile gives by them: a group of rules is a policy, a group of groups a policy set.

use super::Table;
use Decision::{Deny, Indeterminate, NotApplicable, Permit};

/// By their numbers.
#[derive(Clone, Copy, Debug, PartialEq)]
enum Decision {
    NotApplicable,
    Permit,
    Deny,
    Indeterminate,
}

/// A rule by its effect, permit or deny, and what it gives.
#[derive(Clone, Copy)]
struct Rule {
    effect: Decision,
    gives: Decision,
}

mod rule_combining {
    use super::*;

    pub fn deny_overrides(rules: impl Iterator<Item = Rule>) -> Decision {
        let mut some_permits = false;
        let mut some_is_indeterminate = false;
        let mut some_might_deny = false;
        for rule in rules {
            match rule.gives {
                Deny => return Deny,
                Permit => some_permits = true,
                NotApplicable => {}
                Indeterminate => {
                    some_is_indeterminate = true;
                    some_might_deny |= rule.effect == Deny;
                }
            }
        }
        if some_might_deny {
            Indeterminate
        } else if some_permits {
            Permit
        } else if some_is_indeterminate {
            Indeterminate
        } else {
            NotApplicable
        }
    }

    pub fn permit_overrides(rules: impl Iterator<Item = Rule>) -> Decision {
        let mut some_denies = false;
        let mut some_is_indeterminate = false;
        let mut some_might_permit = false;
        for rule in rules {
            match rule.gives {
                Permit => return Permit,
                Deny => some_denies = true,
                NotApplicable => {}
                Indeterminate => {
                    some_is_indeterminate = true;
                    some_might_permit |= rule.effect == Permit;
                }
            }
        }
        if some_might_permit {
            Indeterminate
        } else if some_denies {
            Deny
        } else if some_is_indeterminate {
            Indeterminate
        } else {
            NotApplicable
        }
    }

    pub fn first_applicable(rules: impl Iterator<Item = Rule>) -> Decision {
        for rule in rules {
            match rule.gives {
                NotApplicable => {}
                Permit | Deny | Indeterminate => return rule.gives,
            }
        }
        NotApplicable
    }
}

mod policy_combining {
    use super::*;

    pub fn deny_overrides(policies: impl Iterator<Item = Decision>) -> Decision {
        let mut some_permits = false;
        for gives in policies {
            match gives {
                Deny | Indeterminate => return Deny,
                Permit => some_permits = true,
                NotApplicable => {}
            }
        }
        if some_permits {
            Permit
        } else {
            NotApplicable
        }
    }

    pub fn permit_overrides(policies: impl Iterator<Item = Decision>) -> Decision {
        let mut some_denies = false;
        let mut some_is_indeterminate = false;
        for gives in policies {
            match gives {
                Permit => return Permit,
                Deny => some_denies = true,
                NotApplicable => {}
                Indeterminate => some_is_indeterminate = true,
            }
        }
        if some_denies {
            Deny
        } else if some_is_indeterminate {
            Indeterminate
        } else {
            NotApplicable
        }
    }

    pub fn first_applicable(policies: impl Iterator<Item = Decision>) -> Decision {
        for gives in policies {
            match gives {
                NotApplicable => {}
                Permit | Deny | Indeterminate => return gives,
            }
        }
        NotApplicable
    }

    /// Each policy is asked first whether it is applicable, which is none where that cannot be told.
    pub fn only_one_applicable<P>(
        policies: impl Iterator<Item = P>,
        applicable: impl Fn(&P) -> Option<bool>,
        evaluate: impl FnOnce(P) -> Decision,
    ) -> Decision {
        let mut selected = None;
        for policy in policies {
            match applicable(&policy) {
                None => return Indeterminate,
                Some(true) if selected.is_some() => return Indeterminate,
                Some(true) => selected = Some(policy),
                Some(false) => {}
            }
        }
        selected.map_or(NotApplicable, evaluate)
    }
}

impl Table {
    /// What a group gives, by its number, where these targets match together with all above them; a table of the
    /// profile.
    pub(super) fn as_printed(&self, group: usize, matches: &[bool]) -> u8 {
        self.evaluate(group, matches) as u8
    }

    /// A group whose own target does not match is not applicable, and its children are not asked.
    fn evaluate(&self, group: usize, matches: &[bool]) -> Decision {
        let children = &self.nodes[group].children;
        if !matches[group] {
            NotApplicable
        } else if children.iter().any(|&child| self.nodes[child].is_rule()) {
            self.policy(group, matches)
        } else {
            self.policy_set(group, matches)
        }
    }

    fn policy(&self, group: usize, matches: &[bool]) -> Decision {
        let group = &self.nodes[group];
        let rules = group
            .children
            .iter()
            .map(|&rule| self.rule_at(rule, matches));
        match group.kind {
            0 => rule_combining::first_applicable(rules),
            2 => rule_combining::permit_overrides(rules),
            3 => rule_combining::deny_overrides(rules),
            kind => panic!("kind {kind} has no rule-combining algorithm"),
        }
    }

    fn policy_set(&self, group: usize, matches: &[bool]) -> Decision {
        let group = &self.nodes[group];
        let children = group.children.iter().copied();
        let evaluate = |policy: usize| self.evaluate(policy, matches);
        match group.kind {
            0 => policy_combining::first_applicable(children.map(evaluate)),
            1 => {
                // a target matches or does not: it can always be told
                let applicable = |&policy: &usize| Some(matches[policy]);
                policy_combining::only_one_applicable(children, applicable, evaluate)
            }
            2 => policy_combining::permit_overrides(children.map(evaluate)),
            3 => policy_combining::deny_overrides(children.map(evaluate)),
            kind => panic!("kind {kind} has no policy-combining algorithm"),
        }
    }

    /// A rule gives its effect where its target matches.
    fn rule_at(&self, rule: usize, matches: &[bool]) -> Rule {
        let effect = if self.nodes[rule].kind == 4 {
            Permit
        } else {
            Deny
        };
        let gives = if matches[rule] { effect } else { NotApplicable };
        Rule { effect, gives }
    }
}

/// Clauses that no table reaches: rules that give indeterminate, and a policy of which it cannot be told whether it is
/// applicable.
#[test]
fn clauses_of_indeterminate() {
    const PERMITS: Rule = Rule {
        effect: Permit,
        gives: Permit,
    };
    const DENIES: Rule = Rule {
        effect: Deny,
        gives: Deny,
    };
    const MIGHT_PERMIT: Rule = Rule {
        effect: Permit,
        gives: Indeterminate,
    };
    const MIGHT_DENY: Rule = Rule {
        effect: Deny,
        gives: Indeterminate,
    };
    let rules: [(&[Rule], [Decision; 3]); 8] = [
        // first applicable, permit overrides, deny overrides
        (
            &[MIGHT_PERMIT],
            [Indeterminate, Indeterminate, Indeterminate],
        ),
        (&[MIGHT_DENY], [Indeterminate, Indeterminate, Indeterminate]),
        (&[MIGHT_PERMIT, PERMITS], [Indeterminate, Permit, Permit]),
        (
            &[MIGHT_DENY, PERMITS],
            [Indeterminate, Permit, Indeterminate],
        ),
        (
            &[MIGHT_PERMIT, DENIES],
            [Indeterminate, Indeterminate, Deny],
        ),
        (&[MIGHT_DENY, DENIES], [Indeterminate, Deny, Deny]),
        (&[PERMITS, MIGHT_DENY], [Permit, Permit, Indeterminate]),
        (&[DENIES, MIGHT_PERMIT], [Deny, Indeterminate, Deny]),
    ];
    for (given, due) in rules {
        let given = || given.iter().copied();
        assert_eq!(rule_combining::first_applicable(given()), due[0]);
        assert_eq!(rule_combining::permit_overrides(given()), due[1]);
        assert_eq!(rule_combining::deny_overrides(given()), due[2]);
    }
    for (applicable, due) in [
        ([None, Some(false)], Indeterminate),
        ([Some(true), None], Indeterminate),
    ] {
        let told =
            policy_combining::only_one_applicable(applicable.into_iter(), |&told| told, |_| Permit);
        assert_eq!(told, due);
    }
}

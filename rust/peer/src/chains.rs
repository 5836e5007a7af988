//! Who descends from whom, asked in logarithmic time: every link knows its
//! parent and one far ancestor, chosen so that the leaps double.

#[derive(Clone, Copy)]
struct Link {
    parent: u32,
    leap: u32,
    depth: u32,
}

/// A forest of definitions, numbered in the order they were added.
#[derive(Default)]
pub struct Chains(Vec<Link>);

impl Chains {
    /// Adds a definition with or without a base.
    pub fn add(&mut self, base: Option<u32>) {
        let own = self.0.len() as u32;
        self.0.push(match base {
            None => Link {
                parent: own,
                leap: own,
                depth: 0,
            },
            Some(parent) => self.below(parent),
        });
    }

    fn below(&self, parent: u32) -> Link {
        let link = self.link(parent);
        let far = self.link(link.leap);
        let farther = self.link(far.leap);
        let even = link.depth - far.depth == far.depth - farther.depth;
        Link {
            parent,
            leap: if even { far.leap } else { parent },
            depth: link.depth + 1,
        }
    }

    fn link(&self, number: u32) -> Link {
        self.0[number as usize]
    }

    /// Whether `ancestor` is `definition` itself or one of its ancestors.
    pub fn descends(&self, definition: u32, ancestor: u32) -> bool {
        let depth = self.link(ancestor).depth;
        let mut at = definition;
        while self.link(at).depth > depth {
            let link = self.link(at);
            let leaps = self.link(link.leap).depth >= depth;
            at = if leaps { link.leap } else { link.parent };
        }
        at == ancestor
    }
}

#[cfg(test)]
mod tests {
    use super::*;

    #[test]
    fn agrees_with_walking_up_step_by_step() {
        let mut chains = Chains::default();
        let mut bases: Vec<Option<u32>> = Vec::new();
        for number in 0u32..300 {
            let base = (number % 41 != 0).then(|| number - 1 - (number * 7 % 3).min(number - 1));
            chains.add(base);
            bases.push(base);
        }
        for definition in 0..300 {
            let mut above = vec![false; 300];
            let mut at = Some(definition);
            while let Some(number) = at {
                above[number as usize] = true;
                at = bases[number as usize];
            }
            for ancestor in 0..300 {
                let expected = above[ancestor as usize];
                assert_eq!(chains.descends(definition, ancestor), expected);
            }
        }
    }
}

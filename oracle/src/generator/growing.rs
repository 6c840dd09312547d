//! Histories as version control makes them: a trunk, releases that are kept for long, topics that come and go, and merges of many.

use crate::random::Random;

/// The most releases and the most topics that are open.
const RELEASES: usize = 8;
const TOPICS: usize = 24;
/// The most topics that one merge takes in.
const OCTOPUS: u64 = 7;
/// How seldom a release begins.
const RELEASE_EVERY: u64 = 150;

/// A history on its way from the oldest commit on. A commit is its place in the list, which holds its parents.
struct Growing<'a> {
    random: &'a mut Random,
    commits: Vec<Vec<usize>>,
    trunk: usize,
    releases: Vec<usize>,
    topics: Vec<usize>,
}

/// The parents of each of so many commits, every one before its children.
pub fn commits(random: &mut Random, count: usize) -> Vec<Vec<usize>> {
    let mut growing = Growing {
        random,
        commits: vec![Vec::new()],
        trunk: 0,
        releases: Vec::new(),
        topics: Vec::new(),
    };
    while growing.commits.len() < count {
        growing.step();
    }
    growing.commits
}

impl Growing<'_> {
    /// Adds a commit with these parents.
    fn commit(&mut self, parents: Vec<usize>) -> usize {
        self.commits.push(parents);
        self.commits.len() - 1
    }

    /// Adds a commit to the trunk, to a release or to a topic, a new one too, or a merge.
    fn step(&mut self) {
        if self.random.once_in(RELEASE_EVERY) {
            self.release();
        }
        match self.random.weighted(&[20, 12, 8, 40, 12, 2, 3, 1, 1]) {
            0 => self.trunk = self.commit(vec![self.trunk]),
            1 => self.fix(),
            2 => self.begin_topic(vec![self.trunk]),
            3 => self.continue_topic(),
            4 => self.merge_topics(1),
            5 => self.merge_many(),
            6 => self.merge_release(),
            7 => self.begin_old_topic(),
            _ => self.begin_topic(Vec::new()),
        }
    }

    /// Begins a release at the trunk; the oldest one is given up where there are too many.
    fn release(&mut self) {
        if self.releases.len() == RELEASES {
            self.releases.remove(0);
        }
        let commit = self.commit(vec![self.trunk]);
        self.releases.push(commit);
    }

    /// Adds a commit to one of the releases.
    fn fix(&mut self) {
        if let Some(place) = self.any(self.releases.len()) {
            self.releases[place] = self.commit(vec![self.releases[place]]);
        }
    }

    /// Takes a release into the trunk, and keeps it.
    fn merge_release(&mut self) {
        if let Some(place) = self.any(self.releases.len()) {
            self.trunk = self.commit(vec![self.trunk, self.releases[place]]);
        }
    }

    /// Begins a topic with these parents, one or none.
    fn begin_topic(&mut self, parents: Vec<usize>) {
        if self.topics.len() < TOPICS {
            let commit = self.commit(parents);
            self.topics.push(commit);
        }
    }

    /// Begins a topic at any commit, however old.
    fn begin_old_topic(&mut self) {
        let parent = self.any(self.commits.len());
        self.begin_topic(parent.into_iter().collect());
    }

    /// Adds a commit to one of the topics.
    fn continue_topic(&mut self) {
        if let Some(place) = self.any(self.topics.len()) {
            self.topics[place] = self.commit(vec![self.topics[place]]);
        }
    }

    /// Takes two topics or more into the trunk at once.
    fn merge_many(&mut self) {
        let count = self.random.from(2, OCTOPUS);
        self.merge_topics(count);
    }

    /// Takes so many topics into the trunk, and ends them.
    fn merge_topics(&mut self, count: u64) {
        let mut parents = vec![self.trunk];
        for _ in 0..count {
            if let Some(place) = self.any(self.topics.len()) {
                parents.push(self.topics.swap_remove(place));
            }
        }
        self.trunk = self.commit(parents);
    }

    /// Any of so many places.
    fn any(&mut self, count: usize) -> Option<usize> {
        (count > 0).then(|| self.random.below(count as u64) as usize)
    }
}

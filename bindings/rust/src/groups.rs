//! What finds the groups of matches: a second regex, which is built when groups are first asked for.
use crate::engine;
use crate::handle::Handle;
use crate::raw::{self, Settings, TextOptions};
use crate::util::captures::GroupInfo;
use crate::BuildError;
use std::sync::{Arc, Mutex, PoisonError};

/// The texts of a regex, and their options, from which what finds groups is built.
pub struct Source {
    texts: Vec<String>,
    settings: Settings,
    options: TextOptions,
}

impl Source {
    /// Returns a copy of these texts, with these options.
    pub fn of<P: AsRef<str>>(patterns: &[P], settings: Settings, options: TextOptions) -> Source {
        let texts = patterns.iter().map(|pattern| pattern.as_ref().to_owned()).collect();
        Source { texts, settings, options }
    }

    /// Builds what finds the groups of the texts. It makes no search, so it has no part that finds where matches
    /// start, and its quit bytes do not matter.
    pub fn build(&self) -> Result<Groups, BuildError> {
        let options = TextOptions { groups: 1, forward_only: 1, ..self.options };
        let mut regex = engine::open(&self.texts, &raw::Options::of(&self.settings, &[], &options))?;
        let names = (0..self.texts.len()).map(|pattern| names(&mut regex, pattern as u32)).collect();
        Ok(Groups { regex: Mutex::new(regex), info: Arc::new(GroupInfo::new(names)) })
    }
}

/// Returns the names of the groups of a pattern.
fn names(regex: &mut Handle, pattern: u32) -> Vec<Option<String>> {
    let mut count = 0;
    let status = raw::lazydfa_group_count(regex, pattern, &mut count);
    debug_assert_eq!(status.code, 0, "the regex was built for groups, and has the pattern");
    (0..count).map(|group| name(regex, pattern, group)).collect()
}

/// Returns the name of a group, if it has one.
fn name(regex: &mut Handle, pattern: u32, group: usize) -> Option<String> {
    let (mut bytes, mut length) = (vec![0; 64], 0);
    loop {
        let status = raw::group_name(regex, pattern, group, &mut bytes, &mut length);
        if status.code != 0 {
            return None;
        }
        if length < bytes.len() {
            bytes.truncate(length);
            return Some(String::from_utf8(bytes).expect("a name is text"));
        }
        bytes.resize(length + 1, 0);
    }
}

/// What finds the groups of matches. The lock serializes the calls that use its handle, which create caches.
pub struct Groups {
    regex: Mutex<Handle>,
    info: Arc<GroupInfo>,
}

impl Groups {
    /// Returns the names and numbers of groups.
    pub fn info(&self) -> &Arc<GroupInfo> {
        &self.info
    }

    /// Opens a cache whose memory has room for groups.
    pub fn create_cache(&self) -> Result<Handle, BuildError> {
        let mut regex = self.regex.lock().unwrap_or_else(PoisonError::into_inner);
        let mut cache = Handle::closed();
        raw::lazydfa_cache_new(&mut cache, &mut regex).built()?;
        Ok(cache)
    }
}

//! Paths of a trace, brought to one form.
//!
//! A path under the folder that the run was started in is kept relative to it, any other one absolute, so that each
//! file has one key. Links that were there before the run are not seen, but strace -y writes the real path.

use std::collections::BTreeMap;

/// A path in its one form.
pub type Key = Vec<u8>;

/// The starting folder itself.
pub const START: &[u8] = b".";

/// Links and moves that are kept; a run with more cannot be told.
const MOST_KEPT: usize = 10_000;

#[derive(Default)]
pub struct Paths {
    /// The folder that the run was started in, absolute, once it is known.
    start: Option<Vec<u8>>,
    /// Symbolic links that the run made, with the path that each leads to.
    links: BTreeMap<Key, Key>,
    /// Where what has this path now came from.
    moves: BTreeMap<Key, Vec<Key>>,
    /// How many paths these are.
    origins: usize,
}

/// There are more links or moves than are kept.
pub struct TooMany;

impl Paths {
    pub fn start(&self) -> Option<&[u8]> {
        self.start.as_deref()
    }

    /// Takes an absolute path for the starting folder's.
    pub fn set_start(&mut self, folder: &[u8]) {
        self.start = Some(normal(folder));
        for (link, target) in std::mem::take(&mut self.links) {
            self.links.insert(self.key(&link), self.key(&target));
        }
        for (to, origins) in std::mem::take(&mut self.moves) {
            let origins = origins.iter().map(|origin| self.key(origin)).collect();
            self.moves.insert(self.key(&to), origins);
        }
    }

    /// The key of a path that is absolute or starts in the starting folder.
    pub fn key(&self, path: &[u8]) -> Key {
        in_folder(self.start.as_deref(), path)
    }

    /// The key of a path that a step in this folder names; links that the run made are followed.
    pub fn resolve(&self, folder: &[u8], path: &[u8]) -> Key {
        let mut key = self.key(&joined(folder, path));
        for _ in 0..16 {
            match self.links.get(&key) {
                Some(target) => key = target.clone(),
                None => break,
            }
        }
        key
    }

    /// The absolute path of a key, where it is known.
    pub fn absolute(&self, key: &[u8]) -> Option<Vec<u8>> {
        if key.starts_with(b"/") {
            return Some(key.to_vec());
        }
        self.start.as_ref().map(|start| normal(&joined(start, key)))
    }

    /// Keeps a symbolic link that the run made.
    pub fn link(&mut self, link: Key, target: &[u8]) -> Result<(), TooMany> {
        let folder = parent(&link).to_vec();
        let target = self.key(&joined(&folder, target));
        self.links.insert(link, target);
        self.fits()
    }

    pub fn unlink(&mut self, key: &[u8]) {
        self.links.remove(key);
        self.forget(key);
    }

    /// Keeps that what was at the one path is now at the other.
    pub fn moved(&mut self, from: &[u8], to: &[u8]) -> Result<(), TooMany> {
        if let Some(target) = self.links.remove(from) {
            self.links.insert(to.to_vec(), target);
        }
        self.forget(to);
        let mut origins = self.forget(from);
        origins.retain(|origin| origin != from && origin != to);
        origins.push(from.to_vec());
        self.origins += origins.len();
        self.moves.insert(to.to_vec(), origins);
        self.fits()
    }

    /// Where what was at this path came from, which is kept no longer.
    fn forget(&mut self, key: &[u8]) -> Vec<Key> {
        let origins = self.moves.remove(key).unwrap_or_default();
        self.origins -= origins.len();
        origins
    }

    fn fits(&self) -> Result<(), TooMany> {
        if self.links.len() + self.origins > MOST_KEPT {
            return Err(TooMany);
        }
        Ok(())
    }

    /// The paths that a file may have had before, as it or a folder above it was moved.
    pub fn origins(&self, key: &[u8]) -> Vec<Key> {
        let mut all = Vec::new();
        let mut front = key;
        loop {
            for origin in self.moves.get(front).into_iter().flatten() {
                all.push([origin, &key[front.len()..]].concat());
            }
            match front.iter().rposition(|&byte| byte == b'/') {
                Some(at) if at > 0 => front = &front[..at],
                _ => return all,
            }
        }
    }
}

/// The folder of a path.
fn parent(path: &[u8]) -> &[u8] {
    match path.iter().rposition(|&byte| byte == b'/') {
        Some(0) => b"/",
        Some(at) => &path[..at],
        None => START,
    }
}

/// The last name of a path.
pub fn last_name(path: &[u8]) -> &[u8] {
    path.rsplit(|&byte| byte == b'/').next().unwrap_or(path)
}

fn in_folder(start: Option<&[u8]>, path: &[u8]) -> Key {
    let path = normal(path);
    let Some(start) = start else { return path };
    let path = if path.starts_with(b"/") { path } else { normal(&joined(start, &path)) };
    if path == start {
        return START.to_vec();
    }
    let inside = path.strip_prefix(start).and_then(|rest| rest.strip_prefix(b"/"));
    match inside {
        Some(inside) if start != b"/" => inside.to_vec(),
        _ => path,
    }
}

/// A path named from a folder.
pub fn joined(folder: &[u8], path: &[u8]) -> Vec<u8> {
    if path.starts_with(b"/") {
        return path.to_vec();
    }
    [folder, b"/", path].concat()
}

/// The same path without `.`, `..` and doubled `/`, as far as it says.
fn normal(path: &[u8]) -> Vec<u8> {
    let is_absolute = path.starts_with(b"/");
    let mut names: Vec<&[u8]> = Vec::new();
    for name in path.split(|&byte| byte == b'/') {
        match name {
            b"" | b"." => {}
            b".." => match names.last() {
                Some(&last) if last != b".." => drop(names.pop()),
                _ if is_absolute => {}
                _ => names.push(name),
            },
            _ => names.push(name),
        }
    }
    let front: &[u8] = if is_absolute { b"/" } else { b"" };
    let whole = [front, &names.join(&b'/')].concat();
    if whole.is_empty() {
        START.to_vec()
    } else {
        whole
    }
}

#[cfg(test)]
mod tests {
    use super::*;

    #[test]
    fn one_file_has_one_key() {
        let mut paths = Paths::default();
        assert_eq!(paths.resolve(START, b"./a//b/../c"), b"a/c");
        assert_eq!(paths.resolve(b"sub", b"../../x"), b"../x");
        assert_eq!(paths.resolve(START, b"/run/pay/a"), b"/run/pay/a");
        paths.set_start(b"/run/pay/");
        assert_eq!(paths.resolve(START, b"/run/pay/a"), b"a");
        assert_eq!(paths.resolve(b"sub", b"../../x"), b"/run/x");
        assert_eq!(paths.resolve(START, b"."), START);
        assert_eq!(paths.resolve(START, b"/run/payroll"), b"/run/payroll");
        assert_eq!(paths.absolute(b"a/c"), Some(b"/run/pay/a/c".to_vec()));
        assert_eq!(paths.key(b"/../.."), b"/");
    }

    #[test]
    fn links_and_moves_are_followed() {
        let mut paths = Paths::default();
        assert!(paths.link(b"in/now".to_vec(), b"../sheets/3.csv").is_ok());
        assert_eq!(paths.resolve(START, b"in/now"), b"sheets/3.csv");
        assert!(paths.link(b"a".to_vec(), b"a").is_ok());
        assert_eq!(paths.resolve(START, b"a"), b"a");
        assert!(paths.moved(b"low", b"high").is_ok());
        assert!(paths.moved(b"high", b"top").is_ok());
        assert_eq!(paths.origins(b"top/x/1.csv"), [b"low/x/1.csv".to_vec(), b"high/x/1.csv".to_vec()]);
        assert_eq!(paths.origins(b"high/x"), Vec::<Key>::new());
    }

    #[test]
    fn what_is_kept_has_an_end() {
        let mut paths = Paths::default();
        let all = (0..2 * MOST_KEPT).all(|n| paths.moved(b"a", format!("b{n}").as_bytes()).is_ok());
        assert!(!all);
    }
}

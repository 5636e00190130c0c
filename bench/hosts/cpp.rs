//! Maps in C++: those of libcds, by `libcds.cc`, and the hash map of TBB, by `tbb.cc`.

use crate::peers::View;
use std::ffi::c_void;
use std::sync::Arc;

unsafe extern "C" {
    #[cfg(libcds)]
    fn libcds_ellen_hp() -> *mut c_void;
    #[cfg(libcds)]
    fn libcds_ellen_rcu() -> *mut c_void;
    #[cfg(libcds)]
    fn libcds_avl() -> *mut c_void;
    #[cfg(libcds)]
    fn libcds_skip_list() -> *mut c_void;
    #[cfg(tbb)]
    fn tbb_hash() -> *mut c_void;
    fn cpp_map_free(map: *mut c_void);
    fn cpp_map_find(map: *mut c_void, key: u64, value: &mut u64) -> bool;
    fn cpp_map_insert(map: *mut c_void, key: u64, value: u64) -> bool;
    fn cpp_map_delete(map: *mut c_void, key: u64) -> bool;
}

/// What a map is made of. A tree or a skip list waits with the memory of a node that it took out, since others may still be there.
#[derive(Clone, Copy, PartialEq)]
pub enum Template {
    /// The same kind of tree as the library's, which waits by hazard pointers.
    #[cfg(libcds)]
    EllenHazards,
    /// The same, which waits by RCU.
    #[cfg(libcds)]
    EllenRcu,
    /// A balanced tree, which waits by RCU.
    #[cfg(libcds)]
    Avl,
    /// A skip list, which waits by RCU.
    #[cfg(libcds)]
    SkipList,
    /// A hash map, without an order of its keys.
    #[cfg(tbb)]
    Hash,
}

impl Template {
    pub fn name(self) -> &'static str {
        match self {
            #[cfg(libcds)]
            Template::EllenHazards => "libcds HP",
            #[cfg(libcds)]
            Template::EllenRcu => "libcds RCU",
            #[cfg(libcds)]
            Template::Avl => "libcds AVL tree",
            #[cfg(libcds)]
            Template::SkipList => "libcds skip list",
            #[cfg(tbb)]
            Template::Hash => "TBB hash map",
        }
    }

    /// Whether keys that come in order make it deep.
    pub fn grows_deep(self) -> bool {
        match self {
            #[cfg(libcds)]
            Template::EllenHazards | Template::EllenRcu => true,
            _ => false,
        }
    }

    /// A new map without keys, which is to be freed.
    fn allocate(self) -> *mut c_void {
        // SAFETY: none of them asks anything.
        unsafe {
            match self {
                #[cfg(libcds)]
                Template::EllenHazards => libcds_ellen_hp(),
                #[cfg(libcds)]
                Template::EllenRcu => libcds_ellen_rcu(),
                #[cfg(libcds)]
                Template::Avl => libcds_avl(),
                #[cfg(libcds)]
                Template::SkipList => libcds_skip_list(),
                #[cfg(tbb)]
                Template::Hash => tbb_hash(),
            }
        }
    }
}

pub struct CppMap(*mut c_void);

// SAFETY: any threads may call at once.
unsafe impl Send for CppMap {}
unsafe impl Sync for CppMap {}

impl CppMap {
    /// A map of ascending keys with their values.
    pub fn start(template: Template, pairs: &[(u64, u64)]) -> CppMap {
        let map = CppMap(template.allocate());
        map.insert_balanced(pairs);
        map
    }

    /// Inserts ascending keys, the one in the middle first, so that those of a tree lie as balanced as can be.
    fn insert_balanced(&self, pairs: &[(u64, u64)]) {
        let (lesser, rest) = pairs.split_at(pairs.len() / 2);
        if let [(key, value), greater @ ..] = rest {
            self.insert(*key, *value);
            self.insert_balanced(lesser);
            self.insert_balanced(greater);
        }
    }

    fn insert(&self, key: u64, value: u64) -> bool {
        // SAFETY: the map is there until the drop.
        unsafe { cpp_map_insert(self.0, key, value) }
    }
}

impl Drop for CppMap {
    fn drop(&mut self) {
        // SAFETY: nobody has the map any more.
        unsafe { cpp_map_free(self.0) };
    }
}

impl View for Arc<CppMap> {
    fn find(&mut self, key: u64) -> Option<u64> {
        let mut value = 0;
        // SAFETY: the map is there until the drop.
        unsafe { cpp_map_find(self.0, key, &mut value) }.then_some(value)
    }

    fn insert(&mut self, key: u64, value: u64) -> bool {
        CppMap::insert(self, key, value)
    }

    fn delete(&mut self, key: u64) -> bool {
        // SAFETY: the map is there until the drop.
        unsafe { cpp_map_delete(self.0, key) }
    }
}

//! Loading the runtime helper `usingCtx`.

use super::parse::{mode, Settings};
use super::scoping::{name, symbol_flags, Scoping, ROOT_SCOPE};
use super::tag;
use super::tree::{NodeId, Nodes};

pub struct HelperLoader {
    settings: Settings,
    /// The symbol of the helper in runtime mode; 0 before the first load.
    pub loaded: u16,
    /// A load was made, in whatever mode.
    any: bool,
}

/// A record that loads the helper, and whether it is the first of the walk.
pub struct Load {
    pub node: NodeId,
    pub first: bool,
}

impl HelperLoader {
    pub fn new(settings: Settings) -> HelperLoader {
        HelperLoader {
            settings,
            loaded: 0,
            any: false,
        }
    }

    /// Whether the helper is a symbol that a module imports.
    pub fn is_imported(&self) -> bool {
        self.settings.mode == mode::RUNTIME && self.settings.module == 1
    }

    /// Loads the helper, seen from the scope `current`.
    pub fn helper_load(&mut self, nodes: &mut Nodes, scoping: &mut Scoping, current: u16) -> Load {
        let first = !std::mem::replace(&mut self.any, true);
        let node = self.load_node(nodes, scoping, current);
        Load { node, first }
    }

    fn load_node(&mut self, nodes: &mut Nodes, scoping: &mut Scoping, current: u16) -> NodeId {
        if self.settings.mode != mode::RUNTIME {
            return nodes.make(
                tag::LOAD,
                [1, scoping.find_babel_helpers(current), 0, 0],
                &[],
            );
        }
        if self.loaded == 0 {
            let flags = if self.is_imported() {
                symbol_flags::IMPORT
            } else {
                symbol_flags::FUNCTION_SCOPED_VARIABLE
            };
            self.loaded = scoping.generate_uid(name::USING_CTX, ROOT_SCOPE, flags);
        }
        nodes.make(tag::LOAD, [0, self.loaded, 0, 0], &[])
    }
}

//! The numbers of what a machine has. Each kind has a type of its own, so that none is taken for another.

macro_rules! numbers {
    ($($(#[$doc:meta])* $Name:ident)+) => {
        $(
            $(#[$doc])*
            #[derive(Clone, Copy, Debug, PartialEq, Eq, PartialOrd, Ord, Hash)]
            pub struct $Name(usize);

            impl $Name {
                /// The one of this number, if the machine has it: they count from 0, in the order of making.
                pub const fn new(number: usize) -> $Name {
                    $Name(number)
                }

                /// Its number.
                pub const fn number(self) -> usize {
                    self.0
                }
            }
        )+
    };
}

numbers! {
    /// A block: [`Machine::block`](crate::Machine::block).
    BlockId
    /// A space: [`Machine::space`](crate::Machine::space).
    SpaceId
    /// An I/O table: [`Machine::table`](crate::Machine::table).
    TableId
    /// A region: [`Machine::region`](crate::Machine::region).
    RegionId
    /// A translator: [`Machine::translator`](crate::Machine::translator).
    TranslatorId
    /// A layout: [`Machine::layout`](crate::Machine::layout).
    LayoutId
    /// A memory: [`Machine::plain`](crate::Machine::plain) and [`Machine::new_memory`](crate::Machine::new_memory).
    MemoryId
    /// A queue: [`Machine::queue`](crate::Machine::queue).
    QueueId
}

//! The clauses of "well formed", to count which of them the damaged states meet.

/// The first clause that fails, in the order in which the check looks.
#[derive(Clone, Copy, Debug, PartialEq, Eq, PartialOrd, Ord)]
pub enum Fault {
    Length,
    Spare,
    NotePadding,
    NoteTag,
    NoteArgument,
    OutsideMemory,
    LaterSlot,
    FreeSlot,
    TablePadding,
    BlankEntry,
    Kind,
    Flags,
    Range,
    Object,
    FrozenMark,
    Stamp,
    RootFlags,
    RootRange,
    SecondRoot,
    ParentNumber,
    ParentNoEntry,
    ParentKind,
    ParentObject,
    ParentFlags,
    ParentRange,
    NoRoot,
    Cycle,
    Geometry,
    TopMark,
    DirectoryPadding,
    PositionTag,
    EmptyPosition,
    PageFlags,
    PositionPadding,
    Frame,
    ChildSlot,
    ChildOrder,
    ChildTop,
    ProcessTable,
    ProcessDirectory,
    ProcessPadding,
    BootMark,
    EndpointPadding,
}

pub const FAULTS: usize = Fault::EndpointPadding as usize + 1;

impl Fault {
    /// Every clause, in order.
    pub fn all() -> [Fault; FAULTS] {
        use Fault::*;
        [
            Length,
            Spare,
            NotePadding,
            NoteTag,
            NoteArgument,
            OutsideMemory,
            LaterSlot,
            FreeSlot,
            TablePadding,
            BlankEntry,
            Kind,
            Flags,
            Range,
            Object,
            FrozenMark,
            Stamp,
            RootFlags,
            RootRange,
            SecondRoot,
            ParentNumber,
            ParentNoEntry,
            ParentKind,
            ParentObject,
            ParentFlags,
            ParentRange,
            NoRoot,
            Cycle,
            Geometry,
            TopMark,
            DirectoryPadding,
            PositionTag,
            EmptyPosition,
            PageFlags,
            PositionPadding,
            Frame,
            ChildSlot,
            ChildOrder,
            ChildTop,
            ProcessTable,
            ProcessDirectory,
            ProcessPadding,
            BootMark,
            EndpointPadding,
        ]
    }
}

pub fn ensure(holds: bool, fault: Fault) -> Result<(), Fault> {
    if holds {
        Ok(())
    } else {
        Err(fault)
    }
}

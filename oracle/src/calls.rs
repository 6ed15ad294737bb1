//! One call of the C boundary with its inputs, its answer, and both as a line of text.

/// The calls of `include/gatelichen.h`.
#[derive(Clone, Copy, Debug, PartialEq, Eq, PartialOrd, Ord)]
pub enum Name {
    Check,
    Empty,
    Add,
    Remove,
    Merge,
    Reset,
    Contains,
    Read,
    Clock,
    ValidateAdd,
    ValidateRemove,
    ValidateMerge,
}

impl Name {
    pub const ALL: [Name; 12] = [
        Name::Check,
        Name::Empty,
        Name::Add,
        Name::Remove,
        Name::Merge,
        Name::Reset,
        Name::Contains,
        Name::Read,
        Name::Clock,
        Name::ValidateAdd,
        Name::ValidateRemove,
        Name::ValidateMerge,
    ];

    pub fn text(self) -> &'static str {
        match self {
            Name::Check => "check",
            Name::Empty => "empty",
            Name::Add => "add",
            Name::Remove => "remove",
            Name::Merge => "merge",
            Name::Reset => "reset",
            Name::Contains => "contains",
            Name::Read => "read",
            Name::Clock => "clock",
            Name::ValidateAdd => "validate_add",
            Name::ValidateRemove => "validate_remove",
            Name::ValidateMerge => "validate_merge",
        }
    }
}

/// A call and its inputs; an input that the call doesn't take is empty or 0.
#[derive(Clone, Debug)]
pub struct Call {
    pub name: Name,
    /// The first image.
    pub image: Vec<u8>,
    /// The second image, or the clock argument in the image's form.
    pub other: Vec<u8>,
    /// The actor, or the member that `contains` asks for.
    pub number: u32,
    pub counter: u64,
    pub members: Vec<u32>,
}

impl Call {
    pub fn new(name: Name, image: &[u8], other: &[u8]) -> Call {
        Call { name, image: image.to_vec(), other: other.to_vec(), number: 0, counter: 0, members: Vec::new() }
    }

    pub fn dot(mut self, actor: u32, counter: u64) -> Call {
        (self.number, self.counter) = (actor, counter);
        self
    }

    pub fn member(mut self, member: u32) -> Call {
        self.number = member;
        self
    }

    pub fn members(mut self, members: &[u32]) -> Call {
        self.members = members.to_vec();
        self
    }

    /// The call with an output of `room` bytes, as a line: name, image, other, number, counter, members, room. Bytes in hex,
    /// members as 8 hex digits each, numbers in hex; `-` for what is empty.
    pub fn line(&self, room: usize) -> String {
        let members: String = self.members.iter().map(|m| format!("{m:08x}")).collect();
        let members = if members.is_empty() { "-" } else { &members };
        let (name, image, other) = (self.name.text(), hex(&self.image), hex(&self.other));
        format!("{name} {image} {other} {:x} {:x} {members} {room:x}", self.number, self.counter)
    }
}

/// What a call answers and what then stands at the start of the output; later bytes stay.
#[derive(Clone, Debug, PartialEq, Eq)]
pub struct Answer {
    pub number: u32,
    pub length: u32,
    pub bytes: Vec<u8>,
}

impl Answer {
    pub fn refused(number: u32) -> Answer {
        Answer { number, length: 0, bytes: Vec::new() }
    }

    pub fn written(bytes: Vec<u8>) -> Answer {
        Answer { number: 0, length: bytes.len() as u32, bytes }
    }

    /// The answer where the output has `room` bytes: 10 if the result is longer; 11 and 12 then only don't write.
    pub fn in_room(&self, room: usize) -> Answer {
        match self.number {
            _ if self.bytes.len() <= room => self.clone(),
            0 => Answer::refused(10),
            number => Answer::refused(number),
        }
    }

    /// The answer as the end of a line: number and length in hex, the bytes in hex or `-`.
    pub fn line(&self) -> String {
        format!("{:x} {:x} {}", self.number, self.length, hex(&self.bytes))
    }
}

/// Two digits a byte, or `-` for none.
pub fn hex(bytes: &[u8]) -> String {
    if bytes.is_empty() {
        return "-".to_string();
    }
    bytes.iter().map(|b| format!("{b:02x}")).collect()
}

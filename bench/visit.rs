// The same work as crates/speed, in plain Rust: the rules of docs/ written down as one would without proofs, with the
// same tables, and bounds checks where Rust puts them. It prints the same counts and sums.
use std::env;
use std::fmt;
use std::hint::black_box;
use std::time::Instant;

// ---- scripts

#[derive(Clone, Copy, PartialEq, Eq, Debug)]
enum Direction {
    In,
    Out,
}

#[derive(Clone, Copy, Debug)]
struct Channel {
    direction: Direction,
    level: u8,
}

#[derive(Clone, Copy, PartialEq, Eq, Debug)]
enum Operation {
    Add,
    Subtract,
    Multiply,
    Quotient,
    Remainder,
    Less,
    Same,
}

#[derive(Clone, Copy, Debug)]
enum Instruction {
    Skip,
    Set { target: u8, number: i32 },
    Compute { operation: Operation, target: u8, first: u8, second: u8 },
    Jump { first: u8, place: u16 },
    Input { target: u8, channel: u8 },
    Output { first: u8, channel: u8 },
    Stop,
}

#[derive(Clone, Copy)]
struct Script {
    levels: u8,
    channel_count: usize,
    channels: [Channel; 16],
    instruction_count: usize,
    instructions: [Instruction; 256],
}

#[derive(Clone, Copy, PartialEq, Eq, Debug)]
#[allow(dead_code)]
enum Refusal {
    Short = 1,
    Head,
    Map,
    Zero,
    Range,
    Tail,
    Order,
    Levels,
    Channels,
    Channel,
    Direction,
    Level,
    Buffer,
    Full,
    Empty,
    Spent,
}

#[derive(Clone, Copy, PartialEq, Eq, Debug)]
enum Part {
    Head,
    Channel(usize),
    Count,
    Instruction(usize),
    Tail,
}

#[derive(Clone, Copy, PartialEq, Eq, Debug)]
#[allow(dead_code)]
struct Fault {
    refusal: Refusal,
    byte: usize,
    part: Part,
}

const BLANK: Channel = Channel { direction: Direction::In, level: 0 };

impl Instruction {
    fn is_sound(&self, channels: &[Channel], count: usize) -> bool {
        let directed = |k: u8, direction| channels.get(k as usize).is_some_and(|c| c.direction == direction);
        match *self {
            Instruction::Skip | Instruction::Stop => true,
            Instruction::Set { target, .. } => target < 16,
            Instruction::Compute { target, first, second, .. } => target < 16 && first < 16 && second < 16,
            Instruction::Jump { first, place } => first < 16 && place as usize <= count,
            Instruction::Input { target, channel } => target < 16 && directed(channel, Direction::In),
            Instruction::Output { first, channel } => first < 16 && directed(channel, Direction::Out),
        }
    }
}

impl Script {
    fn new(levels: u8, channels: &[Channel], instructions: &[Instruction]) -> Option<Script> {
        let sound = (1..=16).contains(&levels)
            && channels.len() <= 16
            && (1..=256).contains(&instructions.len())
            && channels.iter().all(|c| c.level < levels)
            && instructions.iter().all(|i| i.is_sound(channels, instructions.len()));
        if !sound {
            return None;
        }
        let mut script = Script {
            levels,
            channel_count: channels.len(),
            channels: [BLANK; 16],
            instruction_count: instructions.len(),
            instructions: [Instruction::Skip; 256],
        };
        script.channels[..channels.len()].copy_from_slice(channels);
        script.instructions[..instructions.len()].copy_from_slice(instructions);
        Some(script)
    }
}

// ---- regimes

#[derive(Clone, Copy)]
struct ReadySet {
    flags: [bool; 16],
}

impl ReadySet {
    fn none() -> ReadySet {
        ReadySet { flags: [false; 16] }
    }

    fn contains(&self, level: u8) -> bool {
        level < 16 && self.flags[level as usize]
    }

    fn insert(&mut self, level: u8) {
        if level < 16 {
            self.flags[level as usize] = true;
        }
    }
}

trait Regime {
    fn levels(&self) -> u8;
    fn flows(&self, a: u8, b: u8) -> bool;
    fn pick(&self, place: u8, ready: ReadySet) -> Option<u8>;
}

#[derive(Clone, Copy)]
struct Ladder {
    levels: u8,
}

impl Regime for Ladder {
    fn levels(&self) -> u8 {
        self.levels
    }

    fn flows(&self, a: u8, b: u8) -> bool {
        a <= b && b < self.levels
    }

    fn pick(&self, place: u8, ready: ReadySet) -> Option<u8> {
        if place >= self.levels {
            return None;
        }
        (0..self.levels).find(|&level| ready.contains(level))
    }
}

#[derive(Clone, Copy)]
struct Compartments {
    marks: u8,
}

impl Regime for Compartments {
    fn levels(&self) -> u8 {
        1 << self.marks
    }

    fn flows(&self, a: u8, b: u8) -> bool {
        let n = self.levels();
        a < n && b < n && a & b == a
    }

    fn pick(&self, place: u8, ready: ReadySet) -> Option<u8> {
        (place < self.levels() && ready.contains(place)).then_some(place)
    }
}

// ---- the slot host

trait Host {
    fn count(&self) -> u8;
    fn held(&self, channel: u8) -> Result<usize, Refusal>;
    fn space(&self, channel: u8) -> Result<usize, Refusal>;
    fn put(&mut self, channel: u8, value: i32) -> Result<(), Refusal>;
    fn take(&mut self, channel: u8) -> Result<i32, Refusal>;
}

#[derive(Clone, Copy)]
struct Queue {
    values: [i32; 32],
    len: usize,
}

#[derive(Clone, Copy)]
struct SlotHost {
    queues: [Queue; 16],
}

impl SlotHost {
    fn new() -> SlotHost {
        SlotHost { queues: [Queue { values: [0; 32], len: 0 }; 16] }
    }

    fn queue(&mut self, channel: u8) -> Result<&mut Queue, Refusal> {
        self.queues.get_mut(channel as usize).ok_or(Refusal::Channel)
    }
}

impl Host for SlotHost {
    fn count(&self) -> u8 {
        self.queues.len() as u8
    }

    fn held(&self, channel: u8) -> Result<usize, Refusal> {
        let queue = self.queues.get(channel as usize).ok_or(Refusal::Channel)?;
        Ok(queue.len)
    }

    fn space(&self, channel: u8) -> Result<usize, Refusal> {
        let queue = self.queues.get(channel as usize).ok_or(Refusal::Channel)?;
        Ok(32 - queue.len)
    }

    fn put(&mut self, channel: u8, value: i32) -> Result<(), Refusal> {
        let queue = self.queue(channel)?;
        if queue.len >= 32 {
            return Err(Refusal::Full);
        }
        queue.values[queue.len] = value;
        queue.len += 1;
        Ok(())
    }

    fn take(&mut self, channel: u8) -> Result<i32, Refusal> {
        let queue = self.queue(channel)?;
        if queue.len == 0 {
            return Err(Refusal::Empty);
        }
        let value = queue.values[0];
        queue.values.copy_within(1..queue.len, 0);
        queue.len -= 1;
        Ok(value)
    }
}

// ---- the strip host

#[derive(Clone, Copy)]
struct Entry {
    channel: u8,
    value: i32,
}

// All channels in the first `len` of the entries that are lent, in order of arrival, with the number of each beside.
struct StripHost<'a> {
    entries: &'a mut [Entry],
    len: usize,
    count: u8,
    capacity: usize,
    counts: [usize; 16],
}

impl StripHost<'_> {
    fn new(entries: &mut [Entry], asked: usize) -> StripHost<'_> {
        let count = entries.len().min(asked).min(16);
        let capacity = entries.len().min(512).checked_div(count).unwrap_or(0);
        StripHost { entries, len: 0, count: count as u8, capacity, counts: [0; 16] }
    }
}

impl Host for StripHost<'_> {
    fn count(&self) -> u8 {
        self.count
    }

    fn held(&self, channel: u8) -> Result<usize, Refusal> {
        if channel >= self.count {
            return Err(Refusal::Channel);
        }
        Ok(self.counts[channel as usize])
    }

    fn space(&self, channel: u8) -> Result<usize, Refusal> {
        Ok(self.capacity - self.held(channel)?)
    }

    fn put(&mut self, channel: u8, value: i32) -> Result<(), Refusal> {
        if self.held(channel)? >= self.capacity {
            return Err(Refusal::Full);
        }
        self.entries[self.len] = Entry { channel, value };
        self.len += 1;
        self.counts[channel as usize] += 1;
        Ok(())
    }

    fn take(&mut self, channel: u8) -> Result<i32, Refusal> {
        if self.held(channel)? == 0 {
            return Err(Refusal::Empty);
        }
        let entries = &mut self.entries[..self.len];
        let at = entries.iter().position(|entry| entry.channel == channel).ok_or(Refusal::Empty)?;
        let value = entries[at].value;
        entries.copy_within(at + 1.., at);
        self.len -= 1;
        self.counts[channel as usize] -= 1;
        Ok(value)
    }
}

// ---- visits

#[derive(Clone, Copy)]
struct Replica {
    next: u16,
    registers: [i32; 16],
    positions: [u8; 16],
    steps: u32,
}

#[derive(Clone, Copy)]
struct Tape {
    values: [i32; 64],
    len: u8,
}

impl Tape {
    fn value(&self, at: u8) -> Option<i32> {
        (at < self.len).then(|| self.values[at as usize])
    }

    fn push(&mut self, value: i32) {
        if self.len < 64 {
            self.values[self.len as usize] = value;
            self.len += 1;
        }
    }
}

#[derive(Clone, Copy, PartialEq, Eq, Debug)]
enum Act {
    Inner,
    Took { channel: u8, value: i32 },
    Reused { channel: u8, value: i32 },
    Defaulted { channel: u8, value: i32 },
    Wrote { channel: u8, value: i32 },
    Withheld { channel: u8, value: i32 },
}

impl Act {
    fn number(self) -> u8 {
        match self {
            Act::Inner => 0,
            Act::Took { .. } => 1,
            Act::Reused { .. } => 2,
            Act::Defaulted { .. } => 3,
            Act::Wrote { .. } => 4,
            Act::Withheld { .. } => 5,
        }
    }

    fn value(self) -> i32 {
        match self {
            Act::Inner => 0,
            Act::Took { value, .. }
            | Act::Reused { value, .. }
            | Act::Defaulted { value, .. }
            | Act::Wrote { value, .. }
            | Act::Withheld { value, .. } => value,
        }
    }
}

#[derive(Clone, Copy, PartialEq, Eq, Debug)]
enum Turned {
    Nobody,
    Moved { level: u8, act: Act },
}

#[derive(Clone, Copy, PartialEq, Eq, Debug)]
#[allow(dead_code)]
enum Status {
    Ready,
    LacksValue { channel: u8 },
    LacksSpace { channel: u8 },
    Ended,
}

// Where an in gets its value.
enum Source {
    Default,
    Tape(i32),
    Host,
    Owner,
}

const TURNS: u32 = 1_000_000;

struct Visit<R: Regime, H: Host> {
    script: Script,
    regime: R,
    host: H,
    turns: u32,
    copies: [Replica; 16],
    tapes: [Tape; 16],
}

fn apply(operation: Operation, a: i32, b: i32) -> i32 {
    match operation {
        Operation::Add => a.wrapping_add(b),
        Operation::Subtract => a.wrapping_sub(b),
        Operation::Multiply => a.wrapping_mul(b),
        Operation::Quotient => if b == 0 { 0 } else { a.wrapping_div(b) },
        Operation::Remainder => if b == 0 { a } else { a.wrapping_rem(b) },
        Operation::Less => i32::from(a < b),
        Operation::Same => i32::from(a == b),
    }
}

impl<R: Regime, H: Host> Visit<R, H> {
    fn open(script: Script, regime: R, host: H) -> Visit<R, H> {
        Visit {
            script,
            regime,
            host,
            turns: 0,
            copies: [Replica { next: 0, registers: [0; 16], positions: [0; 16], steps: 0 }; 16],
            tapes: [Tape { values: [0; 64], len: 0 }; 16],
        }
    }

    fn fit(&self) -> Result<(), Refusal> {
        if self.script.levels != self.regime.levels() {
            return Err(Refusal::Levels);
        }
        if (self.host.count() as usize) < self.script.channel_count {
            return Err(Refusal::Channels);
        }
        Ok(())
    }

    fn direction(&self, channel: u8) -> Result<Direction, Refusal> {
        if channel as usize >= self.script.channel_count {
            return Err(Refusal::Channel);
        }
        Ok(self.script.channels[channel as usize].direction)
    }

    fn feed(&mut self, channel: u8, value: i32) -> Result<(), Refusal> {
        self.fit()?;
        match self.direction(channel)? {
            Direction::Out => Err(Refusal::Direction),
            Direction::In => self.host.put(channel, value),
        }
    }

    fn collect(&mut self, channel: u8) -> Result<i32, Refusal> {
        self.fit()?;
        match self.direction(channel)? {
            Direction::In => Err(Refusal::Direction),
            Direction::Out => self.host.take(channel),
        }
    }

    fn source(&self, level: u8, channel: u8) -> Source {
        let from = self.script.channels[channel as usize].level;
        let position = self.copies[level as usize].positions[channel as usize];
        if !self.regime.flows(from, level) || position >= 64 {
            return Source::Default;
        }
        match self.tapes[channel as usize].value(position) {
            Some(value) => Source::Tape(value),
            None if from == level => Source::Host,
            None => Source::Owner,
        }
    }

    fn status(&self, level: u8) -> Status {
        let next = self.copies[level as usize].next as usize;
        if next >= self.script.instruction_count {
            return Status::Ended;
        }
        match self.script.instructions[next] {
            Instruction::Input { channel, .. } => match self.source(level, channel) {
                Source::Default | Source::Tape(_) => Status::Ready,
                Source::Host if self.host.held(channel).is_ok_and(|held| held > 0) => Status::Ready,
                Source::Host | Source::Owner => Status::LacksValue { channel },
            },
            Instruction::Output { channel, .. } => {
                if self.script.channels[channel as usize].level != level
                    || self.host.space(channel).is_ok_and(|space| space > 0)
                {
                    Status::Ready
                } else {
                    Status::LacksSpace { channel }
                }
            }
            _ => Status::Ready,
        }
    }

    fn ready(&self) -> ReadySet {
        let mut ready = ReadySet::none();
        for level in 0..self.script.levels {
            if self.status(level) == Status::Ready {
                ready.insert(level);
            }
        }
        ready
    }

    fn read(&mut self, level: u8, target: u8, channel: u8) -> Option<Act> {
        let source = self.source(level, channel);
        let (value, act) = match source {
            Source::Default => (0, Act::Defaulted { channel, value: 0 }),
            Source::Tape(value) => (value, Act::Reused { channel, value }),
            Source::Host => {
                let value = self.host.take(channel).ok()?;
                self.tapes[channel as usize].push(value);
                (value, Act::Took { channel, value })
            }
            Source::Owner => return None,
        };
        let copy = &mut self.copies[level as usize];
        if !matches!(source, Source::Default) {
            copy.positions[channel as usize] += 1;
        }
        copy.registers[target as usize] = value;
        copy.next += 1;
        Some(act)
    }

    fn write(&mut self, level: u8, first: u8, channel: u8) -> Option<Act> {
        let copy = &mut self.copies[level as usize];
        let value = copy.registers[first as usize];
        if self.script.channels[channel as usize].level != level {
            copy.next += 1;
            return Some(Act::Withheld { channel, value });
        }
        self.host.put(channel, value).ok()?;
        copy.next += 1;
        Some(Act::Wrote { channel, value })
    }

    fn step(&mut self, level: u8) -> Option<Act> {
        let copy = &mut self.copies[level as usize];
        if copy.next as usize >= self.script.instruction_count {
            return None;
        }
        let act = match self.script.instructions[copy.next as usize] {
            Instruction::Skip => {
                copy.next += 1;
                Act::Inner
            }
            Instruction::Set { target, number } => {
                copy.registers[target as usize] = number;
                copy.next += 1;
                Act::Inner
            }
            Instruction::Compute { operation, target, first, second } => {
                let (a, b) = (copy.registers[first as usize], copy.registers[second as usize]);
                copy.registers[target as usize] = apply(operation, a, b);
                copy.next += 1;
                Act::Inner
            }
            Instruction::Jump { first, place } => {
                copy.next = if copy.registers[first as usize] == 0 { copy.next + 1 } else { place };
                Act::Inner
            }
            Instruction::Input { target, channel } => self.read(level, target, channel)?,
            Instruction::Output { first, channel } => self.write(level, first, channel)?,
            Instruction::Stop => {
                copy.next = self.script.instruction_count as u16;
                Act::Inner
            }
        };
        self.copies[level as usize].steps += 1;
        Some(act)
    }

    fn turn(&mut self) -> Result<Turned, Refusal> {
        self.fit()?;
        if self.turns >= TURNS {
            return Err(Refusal::Spent);
        }
        let place = (self.turns % self.script.levels as u32) as u8;
        let picked = self.regime.pick(place, self.ready());
        self.turns += 1;
        let Some(level) = picked else {
            return Ok(Turned::Nobody);
        };
        Ok(match self.step(level) {
            Some(act) => Turned::Moved { level, act },
            None => Turned::Nobody,
        })
    }

    fn end(self) -> (Script, R, H) {
        (self.script, self.regime, self.host)
    }
}

// ---- files

// The seven fields of an instruction: kind, target, first, second, number, place, channel.
type Fields = [u32; 7];
const WIDTHS: [usize; 7] = [1, 1, 1, 1, 4, 2, 1];

impl Instruction {
    fn fields(self) -> Fields {
        match self {
            Instruction::Skip => [0; 7],
            Instruction::Set { target, number } => [1, target.into(), 0, 0, number as u32, 0, 0],
            Instruction::Compute { operation, target, first, second } => {
                [operation as u32 + 2, target.into(), first.into(), second.into(), 0, 0, 0]
            }
            Instruction::Jump { first, place } => [9, 0, first.into(), 0, 0, place.into(), 0],
            Instruction::Input { target, channel } => [10, target.into(), 0, 0, 0, 0, channel.into()],
            Instruction::Output { first, channel } => [11, 0, first.into(), 0, 0, 0, channel.into()],
            Instruction::Stop => [12, 0, 0, 0, 0, 0, 0],
        }
    }
}

// How many bytes a record with these fields has.
fn record_length(fields: &[u32], widths: &[usize]) -> usize {
    1 + fields.iter().zip(widths).filter(|(field, _)| **field != 0).map(|(_, width)| width).sum::<usize>()
}

fn put_record(out: &mut [u8], at: usize, fields: &[u32], widths: &[usize]) -> usize {
    let mut map = 0;
    let mut end = at + 1;
    for (k, (&field, &width)) in fields.iter().zip(widths).enumerate() {
        if field != 0 {
            map |= 1 << k;
            out[end..end + width].copy_from_slice(&field.to_le_bytes()[..width]);
            end += width;
        }
    }
    out[at] = map;
    end
}

fn channel_fields(channel: &Channel) -> [u32; 2] {
    [channel.direction as u32, channel.level.into()]
}

fn encoded_length(script: &Script) -> usize {
    let channels = &script.channels[..script.channel_count];
    let instructions = &script.instructions[..script.instruction_count];
    4 + channels.iter().map(|c| record_length(&channel_fields(c), &WIDTHS[..2])).sum::<usize>()
        + instructions.iter().map(|i| record_length(&i.fields(), &WIDTHS)).sum::<usize>()
}

fn write_script(script: &Script, out: &mut [u8]) -> Result<usize, Refusal> {
    if out.len() < encoded_length(script) {
        return Err(Refusal::Buffer);
    }
    out[0] = script.levels;
    out[1] = script.channel_count as u8;
    let mut at = 2;
    for channel in &script.channels[..script.channel_count] {
        at = put_record(out, at, &channel_fields(channel), &WIDTHS[..2]);
    }
    out[at..at + 2].copy_from_slice(&(script.instruction_count as u16).to_le_bytes());
    at += 2;
    for instruction in &script.instructions[..script.instruction_count] {
        at = put_record(out, at, &instruction.fields(), &WIDTHS);
    }
    Ok(at)
}

struct Reader<'a> {
    bytes: &'a [u8],
    at: usize,
    part: Part,
}

impl Reader<'_> {
    fn fault<T>(&self, refusal: Refusal, byte: usize) -> Result<T, Fault> {
        Err(Fault { refusal, byte, part: self.part })
    }

    fn byte(&mut self) -> Result<u8, Fault> {
        let Some(&b) = self.bytes.get(self.at) else {
            return self.fault(Refusal::Short, self.bytes.len());
        };
        self.at += 1;
        Ok(b)
    }

    fn head(&mut self, low: u8, high: u8) -> Result<u8, Fault> {
        let b = self.byte()?;
        if b < low || b > high {
            return self.fault(Refusal::Head, self.at - 1);
        }
        Ok(b)
    }

    // The fields of a record, 0 where absent, and the byte of each.
    fn record<const N: usize>(&mut self) -> Result<([u32; N], [usize; N], u8, usize), Fault> {
        let map_at = self.at;
        let map = self.byte()?;
        if (map as usize) >> N != 0 {
            return self.fault(Refusal::Map, map_at);
        }
        let mut fields = [0; N];
        let mut places = [map_at; N];
        for k in 0..N {
            if map >> k & 1 == 1 {
                let Some(bytes) = self.bytes.get(self.at..self.at + WIDTHS[k]) else {
                    return self.fault(Refusal::Short, self.bytes.len());
                };
                let mut value = [0; 4];
                value[..WIDTHS[k]].copy_from_slice(bytes);
                fields[k] = u32::from_le_bytes(value);
                places[k] = self.at;
                self.at += WIDTHS[k];
            }
        }
        for k in 0..N {
            if map >> k & 1 == 1 && fields[k] == 0 {
                return self.fault(Refusal::Zero, places[k]);
            }
        }
        Ok((fields, places, map, map_at))
    }

    fn channel(&mut self, levels: u8) -> Result<Channel, Fault> {
        let ([direction, level], places, _, _) = self.record::<2>()?;
        if direction > 1 {
            return self.fault(Refusal::Range, places[0]);
        }
        if level >= levels.into() {
            return self.fault(Refusal::Range, places[1]);
        }
        let direction = if direction == 0 { Direction::In } else { Direction::Out };
        Ok(Channel { direction, level: level as u8 })
    }

    fn instruction(&mut self, channels: &[Channel], count: usize) -> Result<Instruction, Fault> {
        let (fields, places, map, map_at) = self.record::<7>()?;
        let [kind, target, first, second, number, place, channel] = fields;
        if kind > 12 {
            return self.fault(Refusal::Range, places[0]);
        }
        // The fields that the kind uses, as bits.
        let used = match kind {
            0 | 12 => 0b0000001,
            1 => 0b0010011,
            2..=8 => 0b0001111,
            9 => 0b0100101,
            10 => 0b1000011,
            _ => 0b1000101,
        };
        if map & !used != 0 {
            return self.fault(Refusal::Map, map_at);
        }
        for k in 1..4 {
            if fields[k] >= 16 {
                return self.fault(Refusal::Range, places[k]);
            }
        }
        if place as usize > count {
            return self.fault(Refusal::Range, places[5]);
        }
        if kind == 10 || kind == 11 {
            let direction = if kind == 10 { Direction::In } else { Direction::Out };
            if channels.get(channel as usize).is_none_or(|c| c.direction != direction) {
                return self.fault(Refusal::Range, places[6]);
            }
        }
        let (target, first, second, channel) = (target as u8, first as u8, second as u8, channel as u8);
        let compute = |operation| Instruction::Compute { operation, target, first, second };
        Ok(match kind {
            0 => Instruction::Skip,
            1 => Instruction::Set { target, number: number as i32 },
            2 => compute(Operation::Add),
            3 => compute(Operation::Subtract),
            4 => compute(Operation::Multiply),
            5 => compute(Operation::Quotient),
            6 => compute(Operation::Remainder),
            7 => compute(Operation::Less),
            8 => compute(Operation::Same),
            9 => Instruction::Jump { first, place: place as u16 },
            10 => Instruction::Input { target, channel },
            11 => Instruction::Output { first, channel },
            _ => Instruction::Stop,
        })
    }
}

fn read_script(bytes: &[u8]) -> Result<Script, Fault> {
    let mut reader = Reader { bytes, at: 0, part: Part::Head };
    let levels = reader.head(1, 16)?;
    let channel_count = reader.head(0, 16)? as usize;
    let mut channels = [BLANK; 16];
    for (i, channel) in channels[..channel_count].iter_mut().enumerate() {
        reader.part = Part::Channel(i);
        *channel = reader.channel(levels)?;
    }
    reader.part = Part::Count;
    let count_at = reader.at;
    let instruction_count = u16::from_le_bytes([reader.byte()?, reader.byte()?]) as usize;
    if !(1..=256).contains(&instruction_count) {
        return reader.fault(Refusal::Head, count_at);
    }
    let mut instructions = [Instruction::Skip; 256];
    for (i, instruction) in instructions[..instruction_count].iter_mut().enumerate() {
        reader.part = Part::Instruction(i);
        *instruction = reader.instruction(&channels[..channel_count], instruction_count)?;
    }
    if reader.at < bytes.len() {
        reader.part = Part::Tail;
        return reader.fault(Refusal::Tail, reader.at);
    }
    Ok(Script { levels, channel_count, channels, instruction_count, instructions })
}

// ---- what is measured

#[derive(Clone, Copy, Default)]
struct Tally {
    moved: u32,
    nobody: u32,
    fed: u32,
    collected: u32,
    refused: u32,
    sum: i32,
}

impl Tally {
    fn mix(&mut self, value: i32) {
        self.sum = self.sum.wrapping_mul(31).wrapping_add(value);
    }

    fn turn(&mut self, answer: Result<Turned, Refusal>) {
        match answer {
            Ok(Turned::Moved { level, act }) => {
                self.moved += 1;
                self.mix(i32::from(level) * 8 + i32::from(act.number()));
                self.mix(act.value());
            }
            Ok(Turned::Nobody) => self.nobody += 1,
            Err(_) => self.refused += 1,
        }
    }

    fn feed(&mut self, answer: Result<(), Refusal>) {
        match answer {
            Ok(()) => self.fed += 1,
            Err(_) => self.refused += 1,
        }
    }

    fn collect(&mut self, answer: Result<i32, Refusal>) {
        match answer {
            Ok(value) => {
                self.collected += 1;
                self.mix(value);
            }
            Err(_) => self.refused += 1,
        }
    }
}

impl fmt::Display for Tally {
    fn fmt(&self, f: &mut fmt::Formatter<'_>) -> fmt::Result {
        write!(f, "moved {} nobody {}", self.moved, self.nobody)?;
        write!(f, " fed {} collected {}", self.fed, self.collected)?;
        write!(f, " refused {} sum {}", self.refused, self.sum)
    }
}

#[derive(Clone, Copy)]
enum Kind {
    Compute,
    Exchange,
    Visits,
}

impl Kind {
    fn name(self) -> &'static str {
        match self {
            Kind::Compute => "compute",
            Kind::Exchange => "exchange",
            Kind::Visits => "visits",
        }
    }
}

#[derive(Clone, Copy)]
struct Load {
    script: Script,
    visits: u32,
    turns: u32,
    pace: u32,
}

fn channels(levels: u8) -> [Channel; 4] {
    let top = levels - 1;
    [
        Channel { direction: Direction::In, level: 0 },
        Channel { direction: Direction::Out, level: 0 },
        Channel { direction: Direction::In, level: top },
        Channel { direction: Direction::Out, level: top },
    ]
}

fn computing(levels: u8) -> Option<Script> {
    let set = |target, number| Instruction::Set { target, number };
    let compute = |operation, target, first, second| Instruction::Compute { operation, target, first, second };
    Script::new(
        levels,
        &channels(levels),
        &[
            set(0, 1),
            set(1, 1_664_525),
            set(2, 250),
            compute(Operation::Multiply, 3, 3, 1),
            compute(Operation::Add, 3, 3, 0),
            compute(Operation::Subtract, 2, 2, 0),
            Instruction::Jump { first: 2, place: 3 },
            Instruction::Output { first: 3, channel: 1 },
            Instruction::Jump { first: 0, place: 2 },
        ],
    )
}

fn exchanging(levels: u8) -> Option<Script> {
    Script::new(
        levels,
        &channels(levels),
        &[
            Instruction::Set { target: 0, number: 1 },
            Instruction::Input { target: 1, channel: 0 },
            Instruction::Output { first: 1, channel: 1 },
            Instruction::Input { target: 2, channel: 2 },
            Instruction::Output { first: 2, channel: 3 },
            Instruction::Jump { first: 0, place: 1 },
        ],
    )
}

impl Load {
    fn of(kind: Kind, levels: u8, turns: u32) -> Option<Load> {
        Some(match kind {
            Kind::Compute => Load { script: computing(levels)?, visits: 1, turns, pace: 1024 },
            Kind::Exchange => Load { script: exchanging(levels)?, visits: 1, turns, pace: 8 },
            Kind::Visits => Load { script: exchanging(levels)?, visits: turns / 500, turns: 500, pace: 8 },
        })
    }
}

fn empty<H: Host>(host: &mut H, channel: u8) {
    for _ in 0..host.held(channel).unwrap_or(0) {
        let _ = host.take(channel);
    }
}

fn come_by<R: Regime, H: Host>(visit: &mut Visit<R, H>, value: i32, tally: &mut Tally) {
    tally.feed(visit.feed(0, value));
    tally.collect(visit.collect(1));
    tally.feed(visit.feed(2, value));
    tally.collect(visit.collect(3));
}

fn drive<R: Regime, H: Host>(visit: &mut Visit<R, H>, load: &Load, tally: &mut Tally) {
    let mut wait = 0;
    let mut value = 0;
    for _ in 0..load.turns {
        if wait == 0 {
            wait = load.pace;
            value += 1;
            come_by(visit, value, tally);
        }
        wait -= 1;
        tally.turn(visit.turn());
    }
}

fn run<R: Regime + Copy, H: Host>(load: &Load, regime: R, mut host: H) -> (Tally, H) {
    let mut tally = Tally::default();
    for _ in 0..load.visits {
        for channel in 0..4 {
            empty(&mut host, channel);
        }
        let mut visit = Visit::open(load.script, regime, host);
        drive(&mut visit, load, &mut tally);
        (_, _, host) = visit.end();
    }
    (tally, host)
}

fn measure<R: Regime + Copy, H: Host>(
    (kind, host_name, regime_name): (Kind, &str, &str),
    turns: u32,
    regime: R,
    host: H,
) -> H {
    let levels = regime.levels();
    let load = Load::of(kind, levels, turns).expect("a load's script is accepted");
    let start = Instant::now();
    let (tally, host) = run(&load, regime, host);
    let nanos = start.elapsed().as_nanos();
    let kind = kind.name();
    println!("{kind} {host_name} {regime_name} {levels} {tally}");
    eprintln!("{kind} {host_name} {regime_name} {levels} {turns} {nanos}");
    host
}

fn measure_host<H: Host>(name: &str, kinds: &[Kind], turns: u32, mut host: H) {
    for &kind in kinds {
        for marks in 0..5 {
            host = measure((kind, name, "ladder"), turns, Ladder { levels: 1 << marks }, host);
            host = measure((kind, name, "compartments"), turns, Compartments { marks }, host);
        }
    }
}

const BYTES: usize = 1844;

fn largest() -> Option<Script> {
    let channel = Channel { direction: Direction::Out, level: 15 };
    let mut instructions = [Instruction::Skip; 256];
    let mut number: i32 = 1;
    for instruction in &mut instructions {
        number = number.wrapping_mul(1_664_525);
        *instruction = Instruction::Set { target: 15, number };
    }
    Script::new(16, &[channel; 16], &instructions)
}

fn last_number(script: &Script) -> i32 {
    match script.instructions[255] {
        Instruction::Set { number, .. } => number,
        _ => 0,
    }
}

fn read_often(file: &mut [u8; BYTES], times: u32) -> i32 {
    let mut sum: i32 = 0;
    let mut last: u8 = 0;
    for _ in 0..times {
        last = last.wrapping_add(1);
        file[BYTES - 1] = last;
        match read_script(black_box(&*file)) {
            Ok(script) => sum = sum.wrapping_mul(31).wrapping_add(last_number(black_box(&script))),
            Err(_) => sum = sum.wrapping_mul(37),
        }
    }
    sum
}

fn write_often(script: &Script, file: &mut [u8; BYTES], times: u32) -> i32 {
    let mut sum: i32 = 0;
    for _ in 0..times {
        match write_script(black_box(script), black_box(&mut *file)) {
            Ok(_) => sum = sum.wrapping_mul(31).wrapping_add(i32::from(file[BYTES - 1])),
            Err(_) => sum = sum.wrapping_mul(37),
        }
    }
    sum
}

fn measure_files(times: u32) {
    let script = largest().expect("the largest script is accepted");
    let mut file = [0; BYTES];
    let start = Instant::now();
    let sum = write_often(&script, &mut file, times);
    let nanos = start.elapsed().as_nanos();
    println!("write {BYTES} bytes times {times} sum {sum}");
    eprintln!("write file - 16 {times} {nanos}");
    let start = Instant::now();
    let sum = read_often(&mut file, times);
    let nanos = start.elapsed().as_nanos();
    println!("read {BYTES} bytes times {times} sum {sum}");
    eprintln!("read file - 16 {times} {nanos}");
}

fn main() {
    let turns = if env::args().skip(1).any(|word| word == "full") { 1_000_000 } else { 50_000 };
    println!("bytes ladder slots {}", size_of::<Visit<Ladder, SlotHost>>());
    println!("bytes compartments slots {}", size_of::<Visit<Compartments, SlotHost>>());
    println!("bytes ladder strip {}", size_of::<Visit<Ladder, StripHost>>());
    println!("bytes compartments strip {}", size_of::<Visit<Compartments, StripHost>>());
    measure_host("slots", &[Kind::Compute, Kind::Exchange, Kind::Visits], turns, SlotHost::new());
    // 16 channels of 32 values each, as on the slot host.
    let mut entries = [Entry { channel: 0, value: 0 }; 512];
    measure_host("strip", &[Kind::Compute, Kind::Exchange], turns, StripHost::new(&mut entries, 16));
    measure_files(turns / 200);
}

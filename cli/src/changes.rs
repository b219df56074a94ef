//! Changes of a stage that the check accepts. Each is judged by the library; nothing here says of itself that a stage is right. `explain` tries the
//! likeliest and shows some, `mend` tries every single one: both take them from here. Single changes are another kind, another hold, a pin or a rail of
//! an output on another net, and another net at a register or a C-element; where more has to change at once, only some ways are tried.

use crate::explain::{Order, DEPTH};
use crate::netlist::{
    commands, gate_command, kind_name, pin_count, relaxed, set_expression, two, Command, Form, Reference, Side, Stage, ABSENT, OUTSIDE,
};
use crate::situation::{once, Idle, Situation};
use crate::wiring::Wiring;
use fovaheju::Verdict;

/// How many of the gates that are named are changed first.
const GATES: usize = 8;
/// How many gates of one change are named.
const PARTS: usize = 8;
/// The kind that is no longer cast.
const RETIRED: u8 = 24;
const THAND0: u8 = 26;
const TH12: u8 = 1;

/// The file after a change, and what was changed.
#[derive(Clone)]
pub struct Change {
    pub file: Vec<u8>,
    pub says: String,
    /// Of changes that have this alike, one is shown: the orders of pins on one kind.
    sort: Option<(usize, u8)>,
    /// Whether it is of one kind, hold, pin or rail alone.
    pub single: bool,
}

impl Change {
    /// A change of one kind, hold, pin or rail.
    fn single(file: Vec<u8>, says: String) -> Change {
        Change { file, says, sort: None, single: true }
    }

    /// A change of more than that.
    fn several(file: Vec<u8>, says: String) -> Change {
        Change { file, says, sort: None, single: false }
    }

    /// Whether it is another change than one that was found: two ways to one stage are one.
    pub fn differs(&self, other: &Change) -> bool {
        other.file != self.file && (self.sort.is_none() || other.sort != self.sort)
    }
}

/// Changes that are made one by one, as they are tried.
pub type Changes<'a> = Box<dyn Iterator<Item = Change> + 'a>;

/// A stage to be changed.
#[derive(Clone, Copy)]
struct Base<'a> {
    file: &'a [u8],
    stage: &'a Stage,
}

/// What a verdict names: where changes are likely to help.
struct Named {
    /// The gates to look at.
    gates: Vec<usize>,
    /// An output that is wrong.
    output: Option<usize>,
    /// A net that no output waits for.
    net: Option<usize>,
    /// Whether that is on the way to DATA.
    rises: bool,
    /// The gates of a kind that is no longer cast.
    retired: Vec<usize>,
    /// The gates that never rise.
    idle: Vec<usize>,
    /// The words that are not cared for, in which the first of these would rise.
    words: Vec<usize>,
    /// A register that is not wired as it should be.
    register: Option<usize>,
}

impl Named {
    /// What a verdict on the gates of a stage names; of other verdicts nothing.
    fn of(verdict: Verdict, base: Base, reference: &[u8], order: Order) -> Option<Named> {
        let at = verdict.at as usize;
        let (gates, retired, idle, words) = (Vec::new(), Vec::new(), Vec::new(), Vec::new());
        let mut named = Named { gates, output: None, net: None, rises: true, retired, idle, words, register: None };
        if let 33..=35 = verdict.number {
            named.register = Some(at).filter(|&register| register < base.stage.registers.len());
            return Some(named);
        }
        // Levels are those of the stage in which a register is two wires; inputs, gates and outputs have the same numbers there.
        let (file, stage) = &wired(base.file, base.stage);
        match verdict.number {
            12 => named.gates = base.stage.shortest_loop(at),
            28 => named.retired = stage.alike(at),
            32 => {
                let idle = Idle::of(at, file, stage)?;
                (named.gates, named.idle, named.words) = (vec![at], idle.gates, idle.words);
            }
            13 => {
                let case = Situation::of(verdict, file, stage, order)?;
                let value = Reference::of(reference).answer(&case.values).get(at).copied().unwrap_or(false);
                for (_, net) in case.wrong_rails(at, value) {
                    case.behind(net, DEPTH, &mut named.gates);
                }
                named.output = Some(at);
            }
            _ => {
                let case = Situation::of(verdict, file, stage, order)?;
                (named.gates, named.net, named.rises) = (case.places(), case.odd_net(), !case.falls);
            }
        }
        Some(named)
    }
}

/// A stage as its runs see it: a register is two wires. One without registers is itself.
fn wired(file: &[u8], stage: &Stage) -> (Vec<u8>, Stage) {
    if !stage.has_parts() {
        return (file.to_vec(), stage.clone());
    }
    let file = Stage::of(file).wired();
    let plain = Stage { names: stage.names.clone(), ..Stage::of(&file) };
    (file, plain)
}

/// A refused stage that some change may mend.
pub struct Mending<'a> {
    base: Base<'a>,
    reference: &'a [u8],
    order: Order,
    named: Named,
    /// A gate that feeds nothing. It is only taken out: it is not observable where it rises, and where it never does it is refused for that.
    spare: Option<usize>,
    number: u64,
}

impl<'a> Mending<'a> {
    /// None where the verdict speaks of bytes, lines or counts, or accepts.
    pub fn of(verdict: Verdict, file: &'a [u8], reference: &'a [u8], stage: &'a Stage, order: Order) -> Option<Mending<'a>> {
        let base = Base { file, stage };
        let named = Named::of(verdict, base, reference, order)?;
        let late = named.net.and_then(|net| stage.driver(net));
        let spare = late.or(named.gates.first().copied()).filter(|&gate| base.feeds_nothing(gate));
        Some(Mending { base, reference, order, named, spare, number: verdict.number })
    }

    /// The library's answer to a change.
    pub fn accepts(&self, change: &Change) -> bool {
        fovaheju::check(self.order.mark(), &change.file, self.reference).accepts()
    }

    /// The first changes that are accepted: of those that are likely, and where none is, of others. At most so many of each are tried; how many
    /// were is answered too.
    pub fn some(&self, shown: usize, tries: usize) -> (Vec<Change>, usize) {
        let (found, tried) = self.first(self.likely(), shown, tries);
        if !found.is_empty() {
            return (found, tried);
        }
        let (found, more) = self.first(Box::new(self.others().chain(std::iter::once_with(|| self.waiting()).flatten())), shown, tries);
        (found, tried + more)
    }

    fn first(&self, changes: Changes<'_>, shown: usize, tries: usize) -> (Vec<Change>, usize) {
        let (mut found, mut tried) = (Vec::<Change>::new(), 0);
        for change in changes.take(tries) {
            tried += 1;
            if found.iter().all(|other| change.differs(other)) && self.accepts(&change) {
                found.push(change);
            }
            if found.len() == shown {
                break;
            }
        }
        (found, tried)
    }

    /// Changes of what is named, single ones and others, the likeliest first.
    fn likely(&self) -> Changes<'a> {
        match self.spare {
            _ if self.named.register.is_some() => self.base.of_register(self.named.register),
            _ if !self.named.idle.is_empty() => self.base.of_idle(&self.named, self.spare.is_some()),
            Some(gate) => Box::new(self.base.without(gate).into_iter()),
            None if !self.named.retired.is_empty() => self.base.of_retired(self.named.retired.clone()),
            None => {
                let (base, reference, order) = (self.base, self.reference, self.order);
                let holds = (!self.named.rises).then(|| std::iter::once_with(move || base.needed_hold(reference, order)).flatten());
                self.base.of_named(&self.named, Box::new(holds.into_iter().flatten()))
            }
        }
    }

    /// Two changes of a gate that is named, then single ones of all others.
    fn others(&self) -> Changes<'a> {
        match self.spare {
            _ if self.named.register.is_some() => self.base.of_registers(),
            None if self.named.retired.is_empty() => self.base.of_all(&self.named),
            _ => Box::new(std::iter::empty()),
        }
    }

    /// Changes of what is named that are no single ones.
    pub fn several(&self) -> Changes<'a> {
        Box::new(self.likely().chain(self.others()).filter(|change| !change.single))
    }

    /// An output that waits for the input that it does not wait for, by gates that are added.
    pub fn waiting(&self) -> Option<Change> {
        let net = self.named.net.filter(|&net| net < 2 * self.base.stage.inputs && self.named.rises)?;
        self.base.waiting(net / 2, self.reference, self.order)
    }

    /// The parts whose single changes are tried: each output, each gate, each register and each C-element; none where a gate is only to be taken out.
    pub fn parts(&self) -> Vec<Part> {
        if self.spare.is_some() {
            return Vec::new();
        }
        let stage = self.base.stage;
        let gates = (0..stage.outputs.len()).map(Part::Output).chain((0..stage.gates.len()).map(Part::Gate));
        gates.chain((0..stage.registers.len()).map(Part::Register)).chain((0..stage.elements.len()).map(Part::Element)).collect()
    }

    /// Every single change of a part.
    pub fn singles(&self, part: Part) -> Vec<Change> {
        match part {
            Part::Output(output) => self.base.rails_exchanged(output).into_iter().chain(self.base.other_rails(output)).collect(),
            Part::Gate(gate) => [self.base.other_kinds(gate), self.base.other_pins(gate)].concat(),
            Part::Register(register) => [self.base.other_kis(register), self.base.other_data(register)].concat(),
            Part::Element(element) => self.base.other_element_pins(element),
        }
    }

    /// The single changes of pins of the gates on the way, under 14 and 15: those that put a pin on a late net first. Two of them at once are tried
    /// where nothing else helps.
    pub fn pins(&self) -> Vec<Pin> {
        let stage = self.base.stage;
        if !matches!(self.number, 14 | 15) || self.spare.is_some() {
            return Vec::new();
        }
        let gates = self.named.gates.iter().take(GATES);
        let places = gates.flat_map(|&gate| (0..stage.gates[gate].pins.len()).map(move |pin| (gate, pin)));
        let mut pins: Vec<Pin> =
            places.flat_map(|(gate, pin)| stage.data_nets().into_iter().map(move |net| Pin { gate, pin, net })).collect();
        pins.retain(|pin| stage.gates[pin.gate].pins[pin.pin] != pin.net);
        let late = self.named.net;
        pins.sort_by_key(|pin| Some(pin.net) != late);
        pins
    }

    /// Two changes of pins at once; none where both are of one pin.
    pub fn both(&self, first: Pin, second: Pin) -> Option<Change> {
        if (first.gate, first.pin) == (second.gate, second.pin) {
            return None;
        }
        let one = self.base.other_pin(first);
        let two = Base { file: &one.file, ..self.base }.other_pin(second);
        Some(Change::several(two.file, format!("{}, and {}", one.says, two.says)))
    }
}

/// An output, a gate, a register or a C-element.
#[derive(Clone, Copy, PartialEq, Eq, Debug)]
pub enum Part {
    Output(usize),
    Gate(usize),
    Register(usize),
    Element(usize),
}

/// A pin of a gate that is put on another net.
#[derive(Clone, Copy, PartialEq, Eq, Debug)]
pub struct Pin {
    pub gate: usize,
    pub pin: usize,
    pub net: usize,
}

impl<'a> Base<'a> {
    /// Changes of what is named, the likeliest first, among them those of the gates' hold.
    fn of_named(self, named: &Named, holds: Changes<'a>) -> Changes<'a> {
        let near: Vec<usize> = named.gates.iter().copied().take(GATES).collect();
        let (output, net) = (named.output, named.net);
        let late = net.and_then(|net| self.stage.driver(net)).filter(|_| named.rises);
        let each = |gates: &Vec<usize>| gates.clone().into_iter();
        let outputs = output.into_iter().flat_map(move |output| {
            let others = (0..self.stage.outputs.len()).filter(move |&j| j != output);
            self.rails_exchanged(output).into_iter().chain(others.filter_map(move |j| self.outputs_exchanged(output, j)))
        });
        let kinds = each(&near)
            .flat_map(move |gate| self.completed(gate).into_iter().chain(self.completed_by_gates(gate)).chain(self.other_kinds(gate)));
        let built_in = late.into_iter().flat_map(move |gate| self.built_in(gate));
        let more = net
            .into_iter()
            .zip([near.clone()])
            .flat_map(move |(net, near)| near.into_iter().flat_map(move |gate| self.one_pin_more(gate, net)));
        let rails = output.into_iter().flat_map(move |output| self.other_rails(output));
        let pins = each(&near).flat_map(move |gate| self.other_pins(gate));
        Box::new(outputs.chain(kinds).chain(holds).chain(built_in).chain(more).chain(rails).chain(pins))
    }

    /// Two changes of a gate that is named, its kind and the order of its pins, then changes of all other gates.
    fn of_all(self, named: &Named) -> Changes<'a> {
        let (near, far): (Vec<usize>, Vec<usize>) =
            (0..self.stage.gates.len()).partition(|gate| named.gates.iter().take(GATES).any(|near| near == gate));
        let mixed = near.into_iter().flat_map(move |gate| self.pins_and_kind(gate));
        let kinds = far.clone().into_iter().flat_map(move |gate| self.other_kinds(gate));
        let pins = far.into_iter().flat_map(move |gate| self.other_pins(gate));
        Box::new(mixed.chain(kinds).chain(pins))
    }

    /// Gates that never rise: these taken out, or one more word cared for; then changes of the one that is named, if it feeds something.
    fn of_idle(self, named: &Named, spare: bool) -> Changes<'a> {
        let out = self.without_idle(&named.idle).into_iter();
        let more = named.words.clone().into_iter().map(move |word| self.with_care(word));
        let others = (!spare).then(|| self.of_named(named, Box::new(std::iter::empty())));
        Box::new(out.chain(more).chain(others.into_iter().flatten()))
    }

    /// Whether no gate but itself reads a gate, and nothing else does.
    fn feeds_nothing(&self, gate: usize) -> bool {
        let net = self.stage.net_of(gate);
        self.stage.readers(net).iter().all(|&reader| reader == gate) && !self.read_by_others(net)
    }

    /// Whether an output, a register or a C-element reads a net.
    fn read_by_others(&self, net: usize) -> bool {
        let stage = self.stage;
        stage.outputs.iter().flatten().any(|&rail| rail == net)
            || stage.registers.iter().any(|register| register.data.contains(&net) || register.ki == net)
            || stage.elements.iter().any(|element| element.pins.contains(&net))
    }

    /// Changes of a register that is named: its Ki as the rule asks, by a C-element more if it has to be; its Ki on any net that may stand there; its
    /// data on other nets.
    fn of_register(self, register: Option<usize>) -> Changes<'a> {
        let each = register.into_iter().flat_map(move |register| {
            let kis = self.other_kis(register).into_iter().chain(self.completed_ki(&[register]));
            kis.chain(self.other_data(register))
        });
        Box::new(each)
    }

    /// Every Ki as the rule asks, then single changes of all registers and C-elements.
    fn of_registers(self) -> Changes<'a> {
        let all: Vec<usize> = (0..self.stage.registers.len()).collect();
        let kis = (0..all.len()).flat_map(move |register| self.other_kis(register));
        let pins = (0..self.stage.elements.len()).flat_map(move |element| self.other_element_pins(element));
        let data = (0..all.len()).flat_map(move |register| self.other_data(register));
        Box::new(self.completed_ki(&all).into_iter().chain(kis).chain(pins).chain(data))
    }

    /// The nets that are no data: each Ko, and each C-element.
    fn completion_nets(&self) -> Vec<usize> {
        let kos = self.stage.registers.iter().map(|register| register.ko());
        kos.chain(self.stage.elements.iter().map(|element| element.net)).collect()
    }

    /// A register with its Ki on another net that may stand there, or on the outside.
    fn other_kis(&self, register: usize) -> Vec<Change> {
        let found = &self.stage.registers[register];
        let nets = [OUTSIDE].into_iter().chain(self.completion_nets()).filter(|&net| net != found.ki);
        let name = self.stage.register_name(register);
        let change = |net: usize| {
            let [now, before] = [net, found.ki].map(|net| self.stage.net_name(net));
            let file = self.with(found.at + 5, &(net as u16).to_le_bytes());
            Change::single(file, format!("the Ki of {name} on {now} in place of {before}"))
        };
        nets.map(change).collect()
    }

    /// A register with a data rail on another net.
    fn other_data(&self, register: usize) -> Vec<Change> {
        let found = &self.stage.registers[register];
        let name = self.stage.register_name(register);
        let places = (0..2).flat_map(|rail| self.stage.data_nets().into_iter().map(move |net| (rail, net)));
        let change = |(rail, net): (usize, usize)| {
            let [now, before] = [net, found.data[rail]].map(|net| self.stage.net_name(net));
            let file = self.with(found.at + 1 + 2 * rail, &(net as u16).to_le_bytes());
            Change::single(file, format!("data rail {rail} of {name} on {now} in place of {before}"))
        };
        places.filter(|&(rail, net)| found.data[rail] != net).map(change).collect()
    }

    /// A C-element with a pin on another net.
    fn other_element_pins(&self, element: usize) -> Vec<Change> {
        let found = &self.stage.elements[element];
        let name = self.stage.element_name(element);
        let places = (0..found.pins.len()).flat_map(|pin| self.completion_nets().into_iter().map(move |net| (pin, net)));
        let change = |(pin, net): (usize, usize)| {
            let [now, before] = [net, found.pins[pin]].map(|net| self.stage.net_name(net));
            let letter = ["A", "B", "C", "D"][pin.min(3)];
            let file = self.with(found.at + 1 + 2 * pin, &(net as u16).to_le_bytes());
            Change::single(file, format!("pin {letter} of {name} on {now} in place of {before}"))
        };
        places.filter(|&(pin, net)| found.pins[pin] != net).map(change).collect()
    }

    /// The Ki of some registers as the rule asks: the outside, the one Ko that is needed, or new C-elements on all of them. C-elements that stand last in the
    /// file have the last nets, so no other net moves.
    fn completed_ki(&self, registers: &[usize]) -> Option<Change> {
        let wiring = Wiring::of(self.stage);
        let (mut file, mut added, mut says) = (self.file.to_vec(), Vec::<(Vec<usize>, usize)>::new(), Vec::new());
        let mut elements: Vec<Vec<usize>> = Vec::new();
        let first = self.stage.all_nets();
        for &register in registers {
            let found = &self.stage.registers[register];
            if wiring.missing(register).is_empty() && wiring.barred(register).is_empty() {
                continue;
            }
            let kos: Vec<usize> = wiring.reached(register).into_iter().map(|other| self.stage.registers[other].ko()).collect();
            let known = added.iter().find(|(same, _)| *same == kos).map(|&(_, net)| net);
            let net = match (kos.as_slice(), known) {
                ([], _) => OUTSIDE,
                (&[ko], _) => ko,
                (_, Some(net)) => net,
                _ => {
                    let mut nets = kos.clone();
                    while nets.len() > 1 {
                        let one = |some: &[usize]| match some {
                            &[net] => net,
                            some => {
                                elements.push(some.to_vec());
                                first + elements.len() - 1
                            }
                        };
                        nets = nets.chunks(4).map(one).collect();
                    }
                    added.push((kos.clone(), nets[0]));
                    nets[0]
                }
            };
            file.get_mut(found.at + 5..found.at + 7)?.copy_from_slice(&(net as u16).to_le_bytes());
            says.push((register, net));
        }
        let name = |net: usize| match net.checked_sub(first) {
            Some(new) if net != OUTSIDE => self.stage.element_name(self.stage.elements.len() + new),
            _ => self.stage.net_name(net),
        };
        let new = elements.iter().enumerate().map(|(k, pins)| {
            let pins: Vec<String> = pins.iter().map(|&pin| name(pin)).collect();
            format!("a new {} = C({})", name(first + k), pins.join(", "))
        });
        let kis = says.iter().map(|&(register, net)| format!("the Ki of {} on {}", self.stage.register_name(register), name(net)));
        let parts: Vec<String> = new.chain(kis).collect();
        let end = file.len().checked_sub(1)?;
        file.splice(end..end, elements.iter().flat_map(|pins| element_command(pins)));
        (!parts.is_empty()).then(|| Change::several(file, some_of(&parts)))
    }

    /// The file with other bytes at a place.
    fn with(&self, at: usize, bytes: &[u8]) -> Vec<u8> {
        let mut file = self.file.to_vec();
        if let Some(place) = file.get_mut(at..at + bytes.len()) {
            place.copy_from_slice(bytes);
        }
        file
    }

    fn with_kinds(&self, kinds: &[(usize, u8)]) -> Vec<u8> {
        let mut file = self.file.to_vec();
        kinds.iter().for_each(|&(gate, kind)| file[self.stage.gates[gate].at + 1] = kind);
        file
    }

    /// Where the rails of an output stand.
    fn rails_at(&self, output: usize) -> Option<usize> {
        let commands = commands(self.file, Side::Stage);
        let mut outputs = commands.iter().filter(|command| command.form == Some(Form::Output));
        outputs.nth(output).map(|command| command.at + 1)
    }

    fn rails_exchanged(&self, output: usize) -> Option<Change> {
        let [low, high] = *self.stage.outputs.get(output)?;
        let file = self.with(self.rails_at(output)?, &two([high, low]));
        Some(Change::single(file, format!("the rails of {} exchanged", self.stage.output_name(output))))
    }

    fn outputs_exchanged(&self, output: usize, other: usize) -> Option<Change> {
        let file = self.with(self.rails_at(output)?, &two(self.stage.outputs[other]));
        let file = Base { file: &file, ..*self }.with(self.rails_at(other)?, &two(self.stage.outputs[output]));
        let names = [output, other].map(|output| self.stage.output_name(output));
        Some(Change::several(file, format!("{} exchanged", names.join(" and "))))
    }

    /// An output with one rail on another net.
    fn other_rails(&self, output: usize) -> Vec<Change> {
        let (Some(at), Some(&rails)) = (self.rails_at(output), self.stage.outputs.get(output)) else { return Vec::new() };
        let places = (0..2).flat_map(|rail| self.stage.data_nets().into_iter().map(move |net| (rail, net)));
        let others = places.filter(|&(rail, net)| rails[rail] != net);
        let name = self.stage.output_name(output);
        let change = |(rail, net): (usize, usize)| {
            let [now, before] = [net, rails[rail]].map(|net| self.stage.net_name(net));
            let file = self.with(at + 2 * rail, &(net as u16).to_le_bytes());
            Change::single(file, format!("rail {rail} of {name} on {now} in place of {before}"))
        };
        others.map(change).collect()
    }

    /// A gate with this kind and these pins.
    fn gate_as(&self, gate: usize, kind: u8, pins: &[usize]) -> Change {
        let names: Vec<String> = pins.iter().map(|&net| self.stage.net_name(net)).collect();
        let says = format!("{} = {}({})", self.stage.gate_name(gate), kind_name(kind).unwrap_or_default(), names.join(", "));
        Change::several(self.with(self.stage.gates[gate].at, &gate_command(kind, pins)), says)
    }

    /// A gate on two input rails in the form that waits for both inputs.
    fn completed(&self, gate: usize) -> Option<Change> {
        let found = &self.stage.gates[gate];
        let &[a, b] = found.pins.as_slice() else { return None };
        let rails = 2 * self.stage.inputs;
        (a < rails && b < rails && a / 2 != b / 2).then(|| self.gate_as(gate, THAND0 | found.kind & 0x80, &[a, b, a ^ 1, b ^ 1]))
    }

    /// A TH12 in the form that waits for both signals, where a TH22 reads the other rails of the two.
    fn completed_by_gates(&self, gate: usize) -> Vec<Change> {
        let found = &self.stage.gates[gate];
        let &[a, b] = found.pins.as_slice() else { return Vec::new() };
        let others = self.stage.gates.iter().filter(|other| found.kind & 0x7F == TH12 && other.kind & 0x7F == 2);
        let pins = others.flat_map(|other| [[a, b, other.pins[0], other.pins[1]], [a, b, other.pins[1], other.pins[0]]]);
        pins.map(|pins| self.gate_as(gate, THAND0 | found.kind & 0x80, &pins)).collect()
    }

    /// A gate of another kind with as many pins, first with its hold or without; no retired kind.
    fn other_kinds(&self, gate: usize) -> Vec<Change> {
        let found = &self.stage.gates[gate];
        let cells = (1..=27).map(|cell| cell | found.kind & 0x80);
        let kinds = [found.kind ^ 0x80].into_iter().chain(cells);
        let others = kinds.filter(|&kind| kind != found.kind && kind & 0x7F != RETIRED && pin_count(kind) == Some(found.pins.len()));
        let change = |kind: u8| {
            let [name, new] = [self.stage.gate_name(gate), kind_name(kind).unwrap_or_default()];
            Change::single(self.with_kinds(&[(gate, kind)]), format!("{name} as {new} in place of {}", found.name()))
        };
        others.map(change).collect()
    }

    /// The relaxed gates that need their hold, with it: those that the check names one after the other, but for those that it does without.
    fn needed_hold(self, reference: &[u8], order: Order) -> Option<Change> {
        let verdict = |held: &[usize]| fovaheju::check(order.mark(), &self.with_hold(held), reference);
        let all: Vec<usize> = (0..self.stage.gates.len()).filter(|&gate| relaxed(self.stage.gates[gate].kind)).collect();
        let mut held = Vec::new();
        loop {
            let found = verdict(&held);
            if found.accepts() {
                break;
            }
            let (file, plain) = wired(&self.with_hold(&held), self.stage);
            let case = Situation::of(found, &file, &plain, order).filter(|case| case.falls)?;
            let next = case.places().into_iter().find(|gate| all.contains(gate) && !held.contains(gate));
            match next {
                Some(gate) => held.push(gate),
                None if held.len() < all.len() => held = all.clone(),
                None => return None,
            }
        }
        for gate in held.clone() {
            let fewer: Vec<usize> = held.iter().copied().filter(|&other| other != gate).collect();
            if verdict(&fewer).accepts() {
                held = fewer;
            }
        }
        held.sort();
        let names: Vec<String> = held.iter().map(|&gate| self.stage.gate_name(gate)).collect();
        let says = match names.as_slice() {
            _ if held == all => "all gates with hold, the kinds without r".into(),
            [one] => format!("{one} with its hold, the kind without r"),
            [some @ .., last] => format!("{} and {last} with their hold, the kinds without r", some.join(", ")),
            [] => return None,
        };
        Some(Change::several(self.with_hold(&held), says))
    }

    /// The file in which these gates have their hold.
    fn with_hold(&self, gates: &[usize]) -> Vec<u8> {
        let kinds: Vec<(usize, u8)> = gates.iter().map(|&gate| (gate, self.stage.gates[gate].kind & 0x7F)).collect();
        self.with_kinds(&kinds)
    }

    /// A gate that reads one net more.
    fn one_pin_more(&self, gate: usize, net: usize) -> Vec<Change> {
        let found = &self.stage.gates[gate];
        let pins: Vec<usize> = found.pins.iter().copied().chain([net]).collect();
        cells_of(pins.len()).map(|cell| self.gate_as(gate, cell | found.kind & 0x80, &pins)).collect()
    }

    /// A gate of another kind with its pins in another order.
    fn pins_and_kind(self, gate: usize) -> Changes<'a> {
        let found = &self.stage.gates[gate];
        let orders = orders(&found.pins);
        let kinds = cells_of(found.pins.len()).map(|cell| cell | found.kind & 0x80);
        Box::new(kinds.flat_map(move |kind| {
            let change = move |pins: Vec<usize>| Change { sort: Some((gate, kind)), ..self.gate_as(gate, kind, &pins) };
            orders.clone().into_iter().map(change)
        }))
    }

    /// A gate that one other gate reads, built into that one: its pins in place of its net, and the gate taken out.
    fn built_in(self, gate: usize) -> Changes<'a> {
        let net = self.stage.net_of(gate);
        let (&[reader], false) = (self.stage.readers(net).as_slice(), self.read_by_others(net)) else {
            return Box::new(std::iter::empty());
        };
        let found = &self.stage.gates[reader];
        let pins: Vec<usize> = found.pins.iter().copied().filter(|&pin| pin != net).chain(self.stage.gates[gate].pins.clone()).collect();
        let orders = if pins.len() <= 4 { orders(&pins) } else { Vec::new() };
        let kinds = cells_of(pins.len()).map(|cell| cell | found.kind & 0x80);
        Box::new(kinds.flat_map(move |kind| {
            let change = move |pins: Vec<usize>| {
                let first = self.gate_as(reader, kind, &pins);
                let out = Base { file: &first.file, ..self }.without(gate)?;
                let says = format!("{}, and {}", first.says, out.says);
                Some(Change { sort: Some((reader, kind)), ..Change::several(out.file, says) })
            };
            orders.clone().into_iter().filter_map(change)
        }))
    }

    /// An output that waits for an input: each of its rails passes a gate that needs the input too. Where the check then misses other inputs, it
    /// waits for these as well.
    fn waiting(self, input: usize, reference: &[u8], order: Order) -> Option<Change> {
        let mut inputs = vec![input];
        for _ in 0..self.stage.inputs {
            let change = self.output_waits(0, &inputs)?;
            let verdict = fovaheju::check(order.mark(), &change.file, reference);
            match verdict.number {
                0 => return Some(change),
                14 if !inputs.contains(&(verdict.at as usize)) => inputs.push(verdict.at as usize),
                _ => return None,
            }
        }
        None
    }

    /// An output whose rails wait for inputs: TH12 of the rails of an input tells that it has come, and TH22 to TH44 wait for all.
    fn output_waits(self, output: usize, inputs: &[usize]) -> Option<Change> {
        // New gates would move the nets of registers and C-elements.
        let rails = self.stage.outputs.get(output).filter(|_| !self.stage.has_parts()).copied()?;
        let mut added = Vec::new();
        let mut add = |kind: u8, pins: &[usize]| {
            added.push((kind, pins.to_vec()));
            self.stage.nets() + added.len() - 1
        };
        let mut come: Vec<usize> = inputs.iter().map(|&input| add(TH12, &[2 * input, 2 * input + 1])).collect();
        while come.len() > 3 {
            come = come.chunks(4).map(|some| if some.len() == 1 { some[0] } else { add(all_of(some.len()), some) }).collect();
        }
        let new = rails.map(|rail| add(all_of(come.len() + 1), &[&[rail][..], &come].concat()));
        let mut file = self.with(self.rails_at(output)?, &two(new));
        let gates: Vec<u8> = added.iter().flat_map(|(kind, pins)| gate_command(*kind, pins)).collect();
        let end = file.len().checked_sub(1)?;
        file.splice(end..end, gates);
        let name = |net: usize| match net.checked_sub(self.stage.nets()) {
            Some(k) => format!("new{k}"),
            None => self.stage.net_name(net),
        };
        let said: Vec<String> = added
            .iter()
            .enumerate()
            .map(|(k, (kind, pins))| {
                let pins: Vec<String> = pins.iter().map(|&pin| name(pin)).collect();
                format!("new{k} = {}({})", kind_name(*kind).unwrap_or_default(), pins.join(", "))
            })
            .collect();
        let [low, high] = new.map(name);
        let says = format!("new gates {}, and the rails of {} on {low} and {high}", said.join(", "), self.stage.output_name(output));
        Some(Change::several(file, says))
    }

    /// A gate with one pin on another net.
    fn other_pins(&self, gate: usize) -> Vec<Change> {
        let pins = &self.stage.gates[gate].pins;
        let places = (0..pins.len()).flat_map(|pin| self.stage.data_nets().into_iter().map(move |net| Pin { gate, pin, net }));
        places.filter(|place| pins[place.pin] != place.net).map(|place| self.other_pin(place)).collect()
    }

    /// A pin on another net.
    fn other_pin(&self, Pin { gate, pin, net }: Pin) -> Change {
        let found = &self.stage.gates[gate];
        let [now, before] = [net, found.pins[pin]].map(|net| self.stage.net_name(net));
        let (name, letter) = (self.stage.gate_name(gate), ["A", "B", "C", "D"][pin.min(3)]);
        let file = self.with(found.at + 2 + 2 * pin, &(net as u16).to_le_bytes());
        Change::single(file, format!("pin {letter} of {name} on {now} in place of {before}"))
    }

    /// All gates of a retired kind by another one. Where two pins are on one net, the net once will do.
    fn of_retired(self, gates: Vec<usize>) -> Changes<'a> {
        let all = |gate: usize| self.stage.gates[gate].pins.clone();
        let pins = move |gate: usize, count: usize| if count == 4 { all(gate) } else { once(&all(gate)) };
        let change = move |cell: u8, hold: u8| {
            let count = pin_count(cell)?;
            let mut changed = Change::several(self.file.to_vec(), String::new());
            for &gate in &gates {
                let pins = pins(gate, count);
                let kind = cell | self.stage.gates[gate].kind & hold;
                let next = (pins.len() == count).then(|| Base { file: &changed.file, ..self }.gate_as(gate, kind, &pins))?;
                let and = if changed.says.is_empty() { "" } else { ", " };
                changed = Change::several(next.file, changed.says + and + &next.says);
            }
            Some(changed)
        };
        let cells = [0x80, 0].into_iter().flat_map(|hold| (1..=27).filter(|&cell| cell != RETIRED).map(move |cell| (cell, hold)));
        Box::new(cells.filter_map(move |(cell, hold)| change(cell, hold)))
    }

    /// One more care word, where there are some: they stand in rising order.
    fn with_care(&self, word: usize) -> Change {
        let commands = commands(self.file, Side::Stage);
        let mut care = commands.iter().filter(|command| command.form == Some(Form::Care)).zip(&self.stage.care);
        let end = care.clone().last().map_or(2, |(command, _)| command.at + command.bytes.len());
        let at = care.find(|(_, &other)| other > word).map_or(end, |(command, _)| command.at);
        let mut file = self.file.to_vec();
        file.splice(at..at, [&[6][..], &(word as u16).to_le_bytes()].concat());
        Change::several(file, format!("word {word} cared for too"))
    }

    /// Gates that never rise, taken out: those that read them do without.
    fn without_idle(&self, idle: &[usize]) -> Option<Change> {
        let left: Vec<Left> = (0..self.stage.gates.len()).map(|gate| self.left(gate, idle)).collect::<Option<_>>()?;
        let kept: Vec<usize> = (0..left.len()).filter(|&gate| matches!(left[gate], Left::Gate(..))).collect();
        let gone = left.len() - kept.len();
        let number = |mut net: usize| loop {
            match self.stage.driver(net).map(|gate| (gate, &left[gate])) {
                None if net >= self.stage.nets() && net < OUTSIDE => return Some(net - gone),
                None => return Some(net),
                Some((gate, Left::Gate(..))) => return Some(self.stage.net_of(kept.binary_search(&gate).ok()?)),
                Some((_, Left::Net(other))) => net = *other,
                Some((_, Left::Nothing)) => return None,
            }
        };
        let mut file = Vec::new();
        let (mut gate, mut output) = (0, 0);
        for command in commands(self.file, Side::Stage) {
            match command.form {
                Some(Form::Gate) => {
                    if let Left::Gate(kind, pins) = &left[gate] {
                        let pins: Vec<usize> = pins.iter().map(|&pin| number(pin)).collect::<Option<_>>()?;
                        file.extend(gate_command(*kind, &pins));
                    }
                    gate += 1;
                }
                Some(Form::Output) => {
                    let [low, high] = self.stage.outputs[output].map(number);
                    file.push(command.bytes[0]);
                    file.extend(two([low?, high?]));
                    output += 1;
                }
                Some(Form::Register | Form::Element) => file.extend(renumbered(&command, number)?),
                _ => file.extend(command.bytes),
            }
        }
        Some(Change::several(file, self.says_without(idle, &left)))
    }

    /// What is left of a gate where those that never rise are taken out.
    fn left(&self, gate: usize, idle: &[usize]) -> Option<Left> {
        let found = &self.stage.gates[gate];
        let low = |net: &usize| self.stage.driver(*net).is_some_and(|driver| idle.contains(&driver));
        if idle.contains(&gate) {
            return Some(Left::Nothing);
        }
        if !found.pins.iter().any(low) {
            return Some(Left::Gate(found.kind, found.pins.clone()));
        }
        let products: Vec<Vec<usize>> = products(found.kind, &found.pins).into_iter().filter(|nets| !nets.iter().any(low)).collect();
        let mut nets: Vec<usize> = smallest(&products).concat();
        nets.sort();
        nets.dedup();
        if let [net] = nets[..] {
            return Some(Left::Net(net));
        }
        let same = |&(cell, ref pins): &(u8, Vec<usize>)| smallest(&self::products(cell, pins)) == smallest(&products);
        let all = cells_of(nets.len()).flat_map(|cell| orders(&nets).into_iter().map(move |pins| (cell, pins)));
        all.into_iter().find(same).map(|(cell, pins)| Left::Gate(cell | found.kind & 0x80, pins))
    }

    fn says_without(&self, idle: &[usize], left: &[Left]) -> String {
        let mut parts: Vec<String> = idle.iter().map(|&gate| self.stage.gate_name(gate)).collect();
        parts = vec![format!("{} taken out", some_of(&parts))];
        let mut changed = Vec::new();
        for (gate, left) in left.iter().enumerate() {
            match left {
                Left::Gate(kind, pins) if pins != &self.stage.gates[gate].pins => changed.push(self.gate_as(gate, *kind, pins).says),
                Left::Net(net) => changed.push(format!("{} in place of {}", self.stage.net_name(*net), self.stage.gate_name(gate))),
                _ => {}
            }
        }
        if !changed.is_empty() {
            parts.push(some_of(&changed));
        }
        parts.join(", and ")
    }

    /// A gate that nothing reads, taken out: the nets behind it are numbered one less.
    fn without(&self, gate: usize) -> Option<Change> {
        let (net, at) = (self.stage.net_of(gate), self.stage.gates.get(gate)?.at);
        let mut file = Vec::new();
        let less = |other: usize| Some(other - usize::from(other > net && other < OUTSIDE));
        for command in commands(self.file, Side::Stage).iter().filter(|command| command.at != at) {
            file.extend(renumbered(command, less)?);
        }
        // Names of a text stay; numbers do not.
        let later = gate + 1 < self.stage.gates.len() && self.stage.names.is_none();
        let moved = if later { " (later gates and nets move down by one)" } else { "" };
        Some(Change::several(file, format!("{} taken out{moved}", self.stage.gate_name(gate))))
    }
}

/// The command of a C-element.
fn element_command(pins: &[usize]) -> Vec<u8> {
    let operands = (0..4).flat_map(|pin| (pins.get(pin).copied().unwrap_or(ABSENT) as u16).to_le_bytes());
    [0x05].into_iter().chain(operands).collect()
}

/// A command with other numbers for its nets; the outside and operands that are not used are handed on as they are.
fn renumbered(command: &Command, number: impl Fn(usize) -> Option<usize>) -> Option<Vec<u8>> {
    let operands = match command.form {
        Some(Form::Gate) => 2..10,
        Some(Form::Output) => 1..5,
        Some(Form::Register) => 1..7,
        Some(Form::Element) => 1..9,
        _ => 0..0,
    };
    let mut bytes = command.bytes.to_vec();
    for place in operands.step_by(2) {
        let net = usize::from(u16::from_le_bytes([bytes[place], bytes[place + 1]]));
        bytes[place..place + 2].copy_from_slice(&(number(net)? as u16).to_le_bytes());
    }
    Some(bytes)
}

/// What is left of a gate: nothing, the one net that it would follow, or a gate of a kind on some pins.
enum Left {
    Nothing,
    Net(usize),
    Gate(u8, Vec<usize>),
}

/// The products of a kind's set expression on these pins, each as its nets in rising order.
fn products(kind: u8, pins: &[usize]) -> Vec<Vec<usize>> {
    let product = |letters: &str| {
        let mut nets: Vec<usize> = letters.bytes().filter_map(|letter| pins.get(usize::from(letter - b'A')).copied()).collect();
        nets.sort();
        nets.dedup();
        nets
    };
    set_expression(kind).unwrap_or_default().split('+').map(product).collect()
}

/// Products that hold no other one, in order: two set expressions are the same where these are.
fn smallest(products: &[Vec<usize>]) -> Vec<Vec<usize>> {
    let holds = |one: &Vec<usize>, other: &Vec<usize>| one != other && other.iter().all(|net| one.contains(net));
    let mut kept: Vec<Vec<usize>> = products.iter().filter(|one| !products.iter().any(|other| holds(one, other))).cloned().collect();
    kept.sort();
    kept.dedup();
    kept
}

/// Some parts of a sentence, the first ones.
fn some_of(parts: &[String]) -> String {
    let more = if parts.len() > PARTS { ", .." } else { "" };
    parts[..parts.len().min(PARTS)].join(", ") + more
}

/// The cells with so many pins, but the retired one.
fn cells_of(count: usize) -> impl Iterator<Item = u8> {
    (1..=27).filter(move |&cell| cell != RETIRED && pin_count(cell) == Some(count))
}

/// TH22, TH33 or TH44: the cell that waits for all of its pins.
fn all_of(count: usize) -> u8 {
    [2, 5, 11][count.clamp(2, 4) - 2]
}

/// All orders of some pins.
fn orders(pins: &[usize]) -> Vec<Vec<usize>> {
    if pins.is_empty() {
        return vec![Vec::new()];
    }
    let first = |k: usize| {
        let mut rest = pins.to_vec();
        let pin = rest.remove(k);
        orders(&rest).into_iter().map(move |rest| [vec![pin], rest].concat())
    };
    (0..pins.len()).flat_map(first).collect()
}

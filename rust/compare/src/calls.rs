// One call of each entry: drawn from its seed, answered by both sides, compared in its number, in the index told and in every list.
use crate::draw::{self, Draw};
use crate::ends;
use crate::lent::List;
use plain::{clears_work, coder, frame_decoder, listing, lone, End, Frame, Refused};
use turbo::raw;

// Numbers are below this; it stands for an answer that is none.
pub const NUMBERS: u32 = 19;

#[derive(Default)]
pub struct Answer {
    pub number: u32,
    // Of a refused sheet; else 0.
    pub line: usize,
    // Of a call that is told ends: their place.
    pub ends: Option<usize>,
    // The channel values that a call for samples had to write; else 0.
    pub values: usize,
    pub differences: Vec<String>,
}

pub struct Differences(pub Vec<String>);

impl Differences {
    pub fn new(number: u32, asked: u32) -> Differences {
        Differences(if number == asked { Vec::new() } else { vec![format!("number {number}, asked {asked}")] })
    }

    pub fn add(&mut self, checked: Result<(), String>) {
        self.0.extend(checked.err());
    }
}

// The answer to a call without ends, which is told where something differs.
pub fn answer(number: u32, mut x: Differences, call: impl std::fmt::Debug) -> Answer {
    if !x.0.is_empty() {
        x.0.push(format!("{call:?}"));
    }
    Answer { number, differences: x.0, ..Answer::default() }
}

// Half of the calls have no fault, most others one, and some two or three.
pub fn faults(d: &mut Draw) -> usize {
    match d.below(20) {
        0..=9 => 0,
        10..=16 => 1,
        17 | 18 => 2,
        _ => 3,
    }
}

pub fn short(d: &mut Draw) -> usize {
    match d.below(10) {
        0..=5 => 12,
        6..=8 => 64,
        _ => 300,
    }
}

// The number and the index that a decoder must give.
fn asked_reply<L>(asked: &Result<L, Refused>) -> (u32, u64) {
    asked.as_ref().err().map_or((0, 0), |r| (r.number, r.index as u64))
}

fn work_after(number: u32, length: usize) -> Option<Vec<i32>> {
    clears_work(number).then(|| vec![0; length])
}

pub fn lone_decode(d: &mut Draw) -> Answer {
    let end = draw::end(d);
    lone_damaged(d, end, None)
}

// The ends in turn.
pub fn lone_long(d: &mut Draw, index: u64) -> Answer {
    lone_damaged(d, End::ALL[index as usize % ends::SINGLE], Some(4096))
}

fn lone_damaged(d: &mut Draw, end: End, most: Option<usize>) -> Answer {
    let (mut call, mut lent) = lone_call(d, end, most);
    damage_lone(d, &mut call, &mut lent);
    lone_decoded(d, &call, lent)
}

pub fn lone_decoded(d: &mut Draw, call: &lone::Call, lent: lone::Lent) -> Answer {
    let asked = lone::decode(call, lent);
    let t = &call.table;

    let next = List::of("next", d, &t.next);
    let words = List::of("words", d, &t.words);
    let channel = List::of("channel", d, &call.channel);
    let apriori = List::of("apriori", d, &call.apriori);
    let mut marks = List::any("marks", d, lent.marks);
    let mut margins = List::any("margins", d, lent.margins);
    let mut extrinsics = List::any("extrinsics", d, lent.extrinsics);
    let mut work = List::any("work", d, lent.work);
    let mut index = List::any("index", d, 1);
    let number = raw::lone_decode(
        t.states,
        t.outputs,
        next.entries(),
        words.entries(),
        call.end.number(),
        call.sections,
        channel.entries(),
        apriori.entries(),
        marks.entries_mut(),
        margins.entries_mut(),
        extrinsics.entries_mut(),
        work.entries_mut(),
        &mut index.entries_mut()[0],
    );

    let (asked_number, asked_index) = asked_reply(&asked);
    let results = asked.as_ref().ok();
    let mut x = Differences::new(number, asked_number);
    x.add(next.check(None));
    x.add(words.check(None));
    x.add(channel.check(None));
    x.add(apriori.check(None));
    x.add(marks.check(results.map(|l| &l.marks[..])));
    x.add(margins.check(results.map(|l| &l.margins[..])));
    x.add(extrinsics.check(results.map(|l| &l.extrinsics[..])));
    x.add(work.check(work_after(asked_number, lent.work).as_deref()));
    x.add(index.check(Some(&[asked_index])));
    // the plain side's recursion against a listing of all paths
    if (asked_number == 0 || asked_number == 12) && call.sections <= 12 {
        let by_paths = listing::pass(t, call.end, call.sections, &call.channel, &call.apriori);
        let by_recursion = lone::pass(t, call.end, call.sections, &call.channel, &call.apriori);
        if by_paths != by_recursion {
            x.0.push(format!("plain side: {by_recursion:?}, by its listing {by_paths:?}"));
        }
    }
    Answer { number, ends: ends::place(&[call.end]), differences: x.0, ..Answer::default() }
}

fn lone_call(d: &mut Draw, end: End, most: Option<usize>) -> (lone::Call, lone::Lent) {
    let outputs = d.size(1, 4);
    let systematic = d.chance(2);
    let table = draw::table(d, outputs, systematic);
    let outputs = table.outputs;
    let sections = match most {
        Some(most) => if d.chance(3) { most } else { d.size(1, most) },
        None => {
            let most = short(d);
            d.size(1, most)
        }
    };
    let channel = draw::values(d, outputs * sections, 1023);
    let apriori = draw::values(d, sections, 8191);
    let call = lone::Call { table, end, sections, channel, apriori };
    let lent = lent_for_lone(&call);
    (call, lent)
}

// Lists of the lengths that the lone decoder asks for.
pub fn lent_for_lone(call: &lone::Call) -> lone::Lent {
    let n = call.sections;
    lone::Lent { marks: n, margins: n, extrinsics: n, work: (n + 1) * call.table.states }
}

pub fn damage_lone(d: &mut Draw, call: &mut lone::Call, lent: &mut lone::Lent) {
    let sections = call.sections;
    for _ in 0..faults(d) {
        match d.below(14) {
            0..=2 => draw::damage_table(d, &mut call.table),
            3 => call.sections = d.of(&[0, 4097, 4098, sections + 1, sections - 1]),
            4 => call.sections = d.of(&draw::WILD),
            5 => {
                let n = draw::off(d, call.channel.len());
                call.channel.resize(n, 0);
            }
            6 => {
                let n = draw::off(d, call.apriori.len());
                call.apriori.resize(n, 0);
            }
            7 => draw::damage_values(d, &mut call.channel, 1023),
            8 => draw::damage_values(d, &mut call.apriori, 8191),
            9 => {
                draw::damage_values(d, &mut call.channel, 1023);
                draw::damage_values(d, &mut call.apriori, 8191);
            }
            10 => lent.marks = draw::off(d, lent.marks),
            11 => {
                let which = if d.chance(2) { &mut lent.margins } else { &mut lent.extrinsics };
                *which = draw::off(d, *which);
            }
            12 => call.end = draw::no_end(d),
            _ => lent.work = draw::off(d, lent.work),
        }
    }
}

// Nothing is wrong but values out of range, in one list or in both.
pub fn lone_values(d: &mut Draw) -> Answer {
    let most = d.chance(100).then_some(4096);
    let end = draw::end(d);
    let (mut call, lent) = lone_call(d, end, most);
    let which = d.below(3);
    if which != 0 {
        draw::damage_values(d, &mut call.channel, 1023);
    }
    if which != 1 {
        draw::damage_values(d, &mut call.apriori, 8191);
    }
    lone_decoded(d, &call, lent)
}

// A frame and its number of faults.
fn short_frame(d: &mut Draw) -> (Frame, usize) {
    let (ends, most) = (draw::ends(d), short(d));
    (draw::frame(d, ends, most), faults(d))
}

// The pairs of ends in turn. Every other round has frames without fault that are surely coded and decoded; in the others K + T is often the most
// there may be, and now and then one more, with lists to fit.
fn long_frame(d: &mut Draw, index: u64) -> (Frame, usize) {
    let (round, place) = (index as usize / ends::PAIRS, index as usize % ends::PAIRS);
    let ends = ends::pair(place);
    if round % 2 == 0 {
        return (draw::sure_frame(d, ends, 4096), 0);
    }
    let most = match d.below(8) {
        0 | 1 => 4097,
        2..=4 => 4096,
        _ => d.size(1, 4096),
    };
    let mut frame = draw::frame(d, ends, most);
    if most > 4096 || d.chance(2) {
        frame.bits = most - frame.tail;
        frame.pattern = draw::permutation(d, frame.bits);
    }
    (frame, faults(d))
}

pub fn encode(d: &mut Draw) -> Answer {
    let (frame, faults) = short_frame(d);
    encode_damaged(d, frame, faults)
}

pub fn encode_long(d: &mut Draw, index: u64) -> Answer {
    let (frame, faults) = long_frame(d, index);
    encode_damaged(d, frame, faults)
}

fn encode_damaged(d: &mut Draw, frame: Frame, faults: usize) -> Answer {
    let mut sent_len = frame.length();
    let message = (0..frame.bits).map(|_| d.below(2) as u8).collect();
    let mut call = coder::Call { frame, message };
    for _ in 0..faults {
        match d.below(10) {
            0 | 1 => draw::damage_table(d, &mut call.frame.table),
            2..=6 => draw::damage_frame(d, &mut call.frame),
            7 => {
                let n = draw::off(d, call.message.len());
                call.message.resize(n, 1);
            }
            8 if !call.message.is_empty() => {
                let at = d.below(call.message.len());
                call.message[at] = d.of(&[2, 3, 255]);
            }
            _ => sent_len = draw::off(d, sent_len),
        }
    }
    encoded(d, &call, sent_len)
}

pub fn encoded(d: &mut Draw, call: &coder::Call, sent_len: usize) -> Answer {
    let asked = coder::encode(call, sent_len);
    let (f, t) = (&call.frame, &call.frame.table);

    let next = List::of("next", d, &t.next);
    let words = List::of("words", d, &t.words);
    let message = List::of("message", d, &call.message);
    let pattern = List::of("pattern", d, &f.pattern);
    let masks = List::of("masks", d, &f.masks);
    let mut sent = List::any("sent", d, sent_len);
    let number = raw::encode(
        t.states,
        t.outputs,
        next.entries(),
        words.entries(),
        f.ends[0].number(),
        f.ends[1].number(),
        f.bits,
        f.tail,
        message.entries(),
        pattern.entries(),
        masks.entries(),
        sent.entries_mut(),
    );

    let mut x = Differences::new(number, asked.as_ref().err().copied().unwrap_or(0));
    x.add(next.check(None));
    x.add(words.check(None));
    x.add(message.check(None));
    x.add(pattern.check(None));
    x.add(masks.check(None));
    x.add(sent.check(asked.as_deref().ok()));
    Answer { number, ends: ends::place(&f.ends), differences: x.0, ..Answer::default() }
}

// Received values: any, or those of a coded message with noise, so that iterations have something to find.
pub fn received(d: &mut Draw, frame: &Frame) -> Vec<i16> {
    if d.chance(2) {
        if let Some(sent) = sent(d, frame) {
            let strength = d.of(&[1, 10, 100, 500]);
            let noise = strength * d.within(0, 4) / 2;
            return sent.iter().map(|&b| ((2 * b as i64 - 1) * strength + d.within(-noise, noise)).clamp(-1023, 1023) as i16).collect();
        }
    }
    draw::values(d, frame.length(), 1023)
}

// A coded message, or none where the coder refuses it.
pub fn sent(d: &mut Draw, frame: &Frame) -> Option<Vec<u8>> {
    let message = (0..frame.bits).map(|_| d.below(2) as u8).collect();
    coder::encode(&coder::Call { frame: frame.clone(), message }, frame.length()).ok()
}

// Lists of the lengths that the frame decoder asks for.
pub fn lent_for(frame: &Frame) -> frame_decoder::Lent {
    let k = frame.bits;
    frame_decoder::Lent { bits: k, margins: k, extrinsics: k, work: frame.work() as usize }
}

pub fn decode(d: &mut Draw) -> Answer {
    let iterations = if d.chance(4) { d.size(1, 32) } else { d.size(1, 4) };
    let (frame, faults) = short_frame(d);
    let received = received(d, &frame);
    decode_damaged(d, frame, received, iterations, faults)
}

pub fn decode_long(d: &mut Draw, index: u64) -> Answer {
    let iterations = d.size(1, 32);
    let (frame, faults) = long_frame(d, index);
    let received = received(d, &frame);
    decode_damaged(d, frame, received, iterations, faults)
}

pub fn decode_damaged(d: &mut Draw, frame: Frame, received: Vec<i16>, iterations: usize, faults: usize) -> Answer {
    let (call, lent) = damaged(d, frame, received, iterations, faults);
    decoded(d, &call, lent)
}

// Small frames against passes that write every path out; most are very small, since a pass of N sections has up to 2^N paths from each start.
pub fn decode_listed(d: &mut Draw) -> Answer {
    let iterations = if d.chance(16) { d.size(1, 32) } else { d.size(1, 4) };
    let most = d.of(&[5, 5, 5, 5, 5, 8, 8, 8, 8, 12]);
    let ends = draw::ends(d);
    let (frame, faults) = (draw::frame(d, ends, most), faults(d));
    let received = received(d, &frame);
    let (call, lent) = damaged(d, frame, received, iterations, faults);
    decoded_as(d, &call, lent, &frame_decoder::decode_listed(&call, lent))
}

fn damaged(d: &mut Draw, frame: Frame, received: Vec<i16>, iterations: usize, faults: usize) -> (frame_decoder::Call, frame_decoder::Lent) {
    let mut lent = lent_for(&frame);
    let mut call = frame_decoder::Call { frame, received, iterations };
    for _ in 0..faults {
        match d.below(14) {
            0 | 1 => draw::damage_table(d, &mut call.frame.table),
            2..=6 => draw::damage_frame(d, &mut call.frame),
            7 | 8 => {
                let n = draw::off(d, call.received.len());
                call.received.resize(n, 0);
            }
            9 => draw::damage_values(d, &mut call.received, 1023),
            10 => call.iterations = d.of(&[0, 33, 34, 256, usize::MAX]),
            11 => lent.bits = draw::off(d, lent.bits),
            12 => {
                let which = if d.chance(2) { &mut lent.margins } else { &mut lent.extrinsics };
                *which = draw::off(d, *which);
            }
            _ => lent.work = draw::off(d, lent.work),
        }
    }
    (call, lent)
}

// Values out of range, alone or beside a fault whose number stands after 6. Without right masks the frame's list may have any length.
pub fn decode_values(d: &mut Draw) -> Answer {
    let most = if d.chance(100) { 4096 } else { short(d) };
    let ends = draw::ends(d);
    let mut frame = draw::frame(d, ends, most);
    // something is sent
    if frame.length() == 0 {
        frame.masks = vec![7];
    }
    let mut received = received(d, &frame);
    let lent = lent_for(&frame);
    let mut iterations = 1;
    match d.below(8) {
        0 => frame.pattern[0] = frame.bits as u32,
        1 => {
            frame.masks = vec![8];
            received.resize(d.size(1, 40), 0);
        }
        2 => iterations = 33,
        3 => frame.table.words[0] ^= 1,
        _ => {}
    }
    draw::damage_values(d, &mut received, 1023);
    decoded(d, &frame_decoder::Call { frame, received, iterations }, lent)
}

pub fn decoded(d: &mut Draw, call: &frame_decoder::Call, lent: frame_decoder::Lent) -> Answer {
    decoded_as(d, call, lent, &frame_decoder::decode(call, lent))
}

// What the plain side asks for, by whichever of its decoders.
type Asked = Result<frame_decoder::Lists, Refused>;

fn decoded_as(d: &mut Draw, call: &frame_decoder::Call, lent: frame_decoder::Lent, asked: &Asked) -> Answer {
    let (f, t) = (&call.frame, &call.frame.table);

    let next = List::of("next", d, &t.next);
    let words = List::of("words", d, &t.words);
    let pattern = List::of("pattern", d, &f.pattern);
    let masks = List::of("masks", d, &f.masks);
    let received = List::of("received", d, &call.received);
    let mut bits = List::any("bits", d, lent.bits);
    let mut margins = List::any("margins", d, lent.margins);
    let mut extrinsics = List::any("extrinsics", d, lent.extrinsics);
    let mut work = List::any("work", d, lent.work);
    let mut index = List::any("index", d, 1);
    let number = raw::decode(
        t.states,
        t.outputs,
        next.entries(),
        words.entries(),
        f.ends[0].number(),
        f.ends[1].number(),
        f.bits,
        f.tail,
        pattern.entries(),
        masks.entries(),
        received.entries(),
        call.iterations,
        bits.entries_mut(),
        margins.entries_mut(),
        extrinsics.entries_mut(),
        work.entries_mut(),
        &mut index.entries_mut()[0],
    );

    let (asked_number, asked_index) = asked_reply(asked);
    let results = asked.as_ref().ok();
    let mut x = Differences::new(number, asked_number);
    x.add(next.check(None));
    x.add(words.check(None));
    x.add(pattern.check(None));
    x.add(masks.check(None));
    x.add(received.check(None));
    x.add(bits.check(results.map(|l| &l.bits[..])));
    x.add(margins.check(results.map(|l| &l.margins[..])));
    x.add(extrinsics.check(results.map(|l| &l.extrinsics[..])));
    x.add(work.check(work_after(asked_number, lent.work).as_deref()));
    x.add(index.check(Some(&[asked_index])));
    Answer { number, ends: ends::place(&f.ends), differences: x.0, ..Answer::default() }
}

// Both lists of the house code, at every length up to 20: one of the calls' index.
pub fn house(d: &mut Draw, length: usize) -> Answer {
    let table = plain::house::table();
    let mut next = List::any("next", d, length);
    let mut words = List::any("words", d, length);
    let number = raw::house_next(next.entries_mut());
    let other = raw::house_words(words.entries_mut());
    let asked = if length == 8 { 0 } else { 5 };
    let mut x = Differences::new(number, asked);
    x.0.extend(Differences::new(other, asked).0);
    x.add(next.check((asked == 0).then_some(&table.next[..])));
    x.add(words.check((asked == 0).then_some(&table.words[..])));
    Answer { number, differences: x.0, ..Answer::default() }
}

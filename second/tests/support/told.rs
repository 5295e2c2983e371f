//! What a sheet tells: the flat list of every typed answer, taken from the numbers of the sheet by
//! the tables of docs/SHEET.md alone.

/// The answers that the sheet of an unsealed section tells.
pub struct Told {
    pub command: Vec<u64>,
    pub insert_components: Vec<Vec<u64>>,
    pub events: Vec<ToldEvent>,
    pub private_bytes: Vec<Vec<u64>>,
    pub descriptors: Vec<ToldDescriptor>,
}

#[derive(Default)]
pub struct ToldEvent {
    pub list: Vec<u64>,
    pub components: Vec<Vec<u64>>,
}

/// A known descriptor. Lists that it does not have are empty.
#[derive(Default)]
pub struct ToldDescriptor {
    pub list: Vec<u64>,
    pub dtmf_chars: Vec<Vec<u64>>,
    pub segmentation_components: Vec<Vec<u64>>,
    pub audio_components: Vec<Vec<u64>>,
    /// Offset, length and bytes, where there is a UPID.
    pub upid: Option<Vec<u64>>,
}

const ENCRYPTED_PACKET: usize = 5;
const SPLICE_COMMAND_LENGTH: usize = 10;
const CUEI: u64 = 0x4355_4549;

/// What is told of a section that has so many bytes and this sheet, unless it is sealed.
pub fn told(byte_count: usize, sheet: &[u64]) -> Option<Told> {
    if sheet[ENCRYPTED_PACKET] == 1 {
        return None;
    }
    let stated = sheet[SPLICE_COMMAND_LENGTH];
    let mut numbers = Numbers(&sheet[SPLICE_COMMAND_LENGTH + 1..]);
    let mut told = command(&mut numbers, stated);
    let loop_length = numbers.next();
    told.descriptors = descriptors(&mut numbers, loop_length, byte_count as u64);
    Some(told)
}

/// The numbers of a sheet that are still to come.
struct Numbers<'a>(&'a [u64]);

impl Numbers<'_> {
    fn next(&mut self) -> u64 {
        self.take(1)[0]
    }

    fn flag(&mut self) -> bool {
        self.next() == 1
    }

    fn take(&mut self, count: u64) -> Vec<u64> {
        let (taken, others) = self.0.split_at(count as usize);
        self.0 = others;
        taken.to_vec()
    }

    /// So many lists, each of one number.
    fn singles(&mut self, count: u64) -> Vec<Vec<u64>> {
        (0..count).map(|_| self.take(1)).collect()
    }

    /// So many lists, each read in the same way.
    fn lists(&mut self, count: u64, each: impl Fn(&mut Self) -> Vec<u64>) -> Vec<Vec<u64>> {
        (0..count).map(|_| each(self)).collect()
    }

    /// A splice_time() as the case of a time.
    fn splice_time(&mut self) -> Vec<u64> {
        let given = self.flag();
        self.next();
        if given {
            vec![2, self.next()]
        } else {
            vec![1]
        }
    }

    /// A break_duration(), there or not.
    fn break_duration(&mut self, there: bool) -> Vec<u64> {
        if !there {
            return vec![0];
        }
        let three = self.take(3);
        vec![1, three[0], three[2]]
    }
}

fn command(numbers: &mut Numbers, stated: u64) -> Told {
    let mut told = Told {
        command: vec![],
        insert_components: vec![],
        events: vec![],
        private_bytes: vec![],
        descriptors: vec![],
    };
    match numbers.next() {
        0x00 => told.command = vec![0],
        0x04 => {
            let splice_count = numbers.next();
            told.command = vec![1, splice_count];
            told.events = (0..splice_count).map(|_| event(numbers)).collect();
        }
        0x05 => (told.command, told.insert_components) = insert(numbers),
        0x06 => told.command = [vec![4], numbers.splice_time()].concat(),
        0x07 => told.command = vec![5],
        0xFF => {
            told.command = vec![6, numbers.next(), stated - 4];
            told.private_bytes = numbers.singles(stated - 4);
        }
        _ => {
            told.command = vec![7];
            numbers.take(stated);
        }
    }
    told
}

/// The insert and its components.
fn insert(numbers: &mut Numbers) -> (Vec<u64>, Vec<Vec<u64>>) {
    let id = numbers.next();
    let cancelled = numbers.flag();
    numbers.next();
    if cancelled {
        return (vec![3, id], vec![]);
    }
    let out_of_network = numbers.next();
    let program = numbers.flag();
    let duration = numbers.flag();
    let immediate = numbers.flag();
    numbers.next();
    let mut time = vec![if immediate { 0 } else { 1 }];
    let mut mode = vec![0];
    let mut components = vec![];
    if program && !immediate {
        time = numbers.splice_time();
    }
    if !program {
        let component_count = numbers.next();
        mode = vec![1, component_count];
        components = numbers.lists(component_count, |numbers| {
            let mut component = numbers.take(1);
            component.extend(if immediate {
                vec![0]
            } else {
                numbers.splice_time()
            });
            component
        });
    }
    let duration = numbers.break_duration(duration);
    let avail = numbers.take(3);
    let list = [vec![2, id, out_of_network], time, mode, duration, avail].concat();
    (list, components)
}

fn event(numbers: &mut Numbers) -> ToldEvent {
    let id = numbers.next();
    let cancelled = numbers.flag();
    numbers.next();
    let mut told = ToldEvent::default();
    if cancelled {
        told.list = vec![1, id];
        return told;
    }
    let out_of_network = numbers.next();
    let program = numbers.flag();
    let duration = numbers.flag();
    numbers.next();
    // utc_splice_time or component_count
    let mode = vec![u64::from(!program), numbers.next()];
    if !program {
        told.components = numbers.lists(mode[1], |numbers| numbers.take(2));
    }
    let duration = numbers.break_duration(duration);
    let avail = numbers.take(3);
    told.list = [vec![0, id, out_of_network], mode, duration, avail].concat();
    told
}

/// The known ones among the descriptors; the stuffing behind them says where the loop ends.
fn descriptors(numbers: &mut Numbers, loop_length: u64, byte_count: u64) -> Vec<ToldDescriptor> {
    let mut descriptors = Vec::new();
    let mut ends_in_loop = Vec::new();
    let mut at = 0;
    while at < loop_length {
        let tag = numbers.next();
        let length = numbers.next();
        at += 2 + length;
        if let Some(descriptor) = descriptor(numbers, tag, length) {
            descriptors.push(descriptor);
            ends_in_loop.push(at);
        }
    }
    let stuffing = numbers.0.len() as u64;
    let loop_at = byte_count - 4 - stuffing - loop_length;
    for (descriptor, end) in descriptors.iter_mut().zip(ends_in_loop) {
        // Until here it says how far before the descriptor's end the UPID starts.
        if let Some(upid) = &mut descriptor.upid {
            upid[0] = loop_at + end - upid[0];
        }
    }
    descriptors
}

fn descriptor(numbers: &mut Numbers, tag: u64, length: u64) -> Option<ToldDescriptor> {
    let identifier = numbers.next();
    if identifier != CUEI || tag > 4 {
        numbers.take(length - 4);
        return None;
    }
    let mut told = ToldDescriptor::default();
    match tag {
        0 => told.list = vec![0, numbers.next()],
        1 => {
            told.list = [vec![1], numbers.take(2)].concat();
            numbers.next();
            told.dtmf_chars = numbers.singles(told.list[2]);
        }
        2 => segmentation(numbers, length, &mut told),
        3 => told.list = [vec![4], numbers.take(3)].concat(),
        _ => {
            told.list = vec![5, numbers.next()];
            numbers.next();
            told.audio_components = numbers.lists(told.list[1], |numbers| numbers.take(5));
        }
    }
    Some(told)
}

fn segmentation(numbers: &mut Numbers, length: u64, told: &mut ToldDescriptor) {
    let id = numbers.next();
    let cancelled = numbers.flag();
    numbers.next();
    if cancelled {
        told.list = vec![3, id];
        return;
    }
    let program = numbers.flag();
    let duration = numbers.flag();
    let not_restricted = numbers.flag();
    // identifier, event, cancel, flags, UPID's type and length, type and both numbers
    let mut taken = 4 + 4 + 1 + 1 + 2 + 3;
    let mut mode = vec![0];
    let mut delivery = vec![0];
    let mut ticks = vec![0];
    if not_restricted {
        numbers.next();
    } else {
        delivery = [vec![1], numbers.take(4)].concat();
    }
    if !program {
        let component_count = numbers.next();
        mode = vec![1, component_count];
        taken += 1 + 6 * component_count;
        told.segmentation_components = numbers.lists(component_count, |numbers| {
            let three = numbers.take(3);
            vec![three[0], three[2]]
        });
    }
    if duration {
        ticks = vec![1, numbers.next()];
        taken += 5;
    }
    let upid_type_and_length = numbers.take(2);
    let upid = numbers.take(upid_type_and_length[1]);
    let type_and_numbers = numbers.take(3);
    let mut sub_segments = vec![0];
    let mut behind_upid = 3;
    if length == taken + upid.len() as u64 + 2 {
        sub_segments = [vec![1], numbers.take(2)].concat();
        behind_upid = 5;
    }
    let before_the_end = behind_upid + upid.len() as u64;
    told.upid = Some([vec![before_the_end, upid.len() as u64], upid].concat());
    told.list = [
        vec![2, id],
        mode,
        delivery,
        ticks,
        upid_type_and_length,
        type_and_numbers,
        sub_segments,
    ]
    .concat();
}

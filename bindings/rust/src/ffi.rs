//! The exported calls, as include/locator.h and locator_table.h declare them, and a safe function over each. All that is unsafe
//! stands here.
//!
//! Slices and references are what the calls ask for: valid, aligned, not null, and what is written overlaps nothing else.

/// `struct locator_stretch`
#[repr(C)]
#[derive(Clone, Copy, Default)]
pub struct Stretch {
    pub present: usize,
    pub start: usize,
    pub length: usize,
}

/// `struct locator_request`: clauses in document 01's order.
#[repr(C)]
#[derive(Default)]
pub struct Request {
    pub clauses: [Stretch; 8],
}

/// `struct locator_mailslot`
#[repr(C)]
#[derive(Default)]
pub struct Mailslot {
    pub repeat: usize,
    pub bits: usize,
    pub version: usize,
    pub computer: Stretch,
    pub user: Stretch,
    pub mailslot: Stretch,
    pub sid: Stretch,
}

/// `struct locator_answer`
#[repr(C)]
#[derive(Default)]
pub struct Answer {
    pub length: usize,
    pub context: usize,
    pub form: usize,
}

/// `struct locator_name`
#[repr(C)]
#[derive(Clone, Copy, Default)]
pub struct Name {
    pub present: usize,
    pub start: usize,
    pub length: usize,
    pub pointers: usize,
}

/// `struct locator_reading`
#[repr(C)]
#[derive(Default)]
pub struct Reading {
    pub length: usize,
    pub opcode: usize,
    pub version: usize,
    pub has_flags: usize,
    pub flags: usize,
    pub has_guid: usize,
    pub guid: usize,
    pub has_address: usize,
    pub address: usize,
    pub server: Stretch,
    pub user: Stretch,
    pub domain: Stretch,
    pub names: [Name; 9],
}

/// The octets of the longest name.
pub const TEXT_MOST: usize = 253;

#[link(name = "vinegarjar", kind = "static")]
extern "C" {
    fn vinegarjar_judge(image: *const u8, image_length: usize) -> u8;
    fn vinegarjar_check(octets: *const u8, length: usize, check: *mut [u32; 2]);
    fn vinegarjar_take_apart(filter: *const u8, filter_length: usize, request: *mut Request) -> u8;
    fn vinegarjar_judge_values(
        filter: *const u8,
        filter_length: usize,
        request: *const Request,
        version: *mut u32,
    ) -> u8;
    fn vinegarjar_write_filter(
        source: *const u8,
        source_length: usize,
        request: *const Request,
        out: *mut u8,
        out_room: usize,
        length: *mut usize,
    ) -> u8;
    fn vinegarjar_answer_ping(
        image: *const u8,
        image_length: usize,
        client: *const [u8; 4],
        filter: *const u8,
        filter_length: usize,
        reply: *mut u8,
        reply_room: usize,
        answer: *mut Answer,
    ) -> u8;
    fn vinegarjar_read_mailslot(message: *const u8, message_length: usize, members: *mut Mailslot) -> u8;
    fn vinegarjar_write_mailslot(
        source: *const u8,
        source_length: usize,
        members: *const Mailslot,
        out: *mut u8,
        out_room: usize,
        length: *mut usize,
    ) -> u8;
    fn vinegarjar_answer_mailslot(
        image: *const u8,
        image_length: usize,
        client: *const [u8; 4],
        message: *const u8,
        message_length: usize,
        reply: *mut u8,
        reply_room: usize,
        answer: *mut Answer,
    ) -> u8;
    fn vinegarjar_read_nt40(reply: *const u8, reply_length: usize, reading: *mut Reading) -> u8;
    fn vinegarjar_read_response(reply: *const u8, reply_length: usize, reading: *mut Reading) -> u8;
    fn vinegarjar_read_ex(reply: *const u8, reply_length: usize, version: u32, reading: *mut Reading) -> u8;
    fn vinegarjar_name_text(
        reply: *const u8,
        reply_length: usize,
        start: usize,
        text: *mut [u8; TEXT_MOST],
        length: *mut usize,
    ) -> u8;
}

#[link(name = "vinegarjar_table", kind = "static")]
extern "C" {
    // The image must be one that was accepted: `Accepted` alone calls them.
    fn vinegarjar_answer_ping_on_accepted_image(
        image: *const u8,
        image_length: usize,
        client: *const [u8; 4],
        filter: *const u8,
        filter_length: usize,
        reply: *mut u8,
        reply_room: usize,
        answer: *mut Answer,
    ) -> u8;
    fn vinegarjar_answer_mailslot_on_accepted_image(
        image: *const u8,
        image_length: usize,
        client: *const [u8; 4],
        message: *const u8,
        message_length: usize,
        reply: *mut u8,
        reply_room: usize,
        answer: *mut Answer,
    ) -> u8;
}

pub fn judge(image: &[u8]) -> u8 {
    unsafe { vinegarjar_judge(image.as_ptr(), image.len()) }
}

pub fn check(octets: &[u8]) -> [u32; 2] {
    let mut check = [0; 2];
    unsafe { vinegarjar_check(octets.as_ptr(), octets.len(), &mut check) };
    check
}

pub fn take_apart(filter: &[u8]) -> (u8, Request) {
    let mut request = Request::default();
    let number = unsafe { vinegarjar_take_apart(filter.as_ptr(), filter.len(), &mut request) };
    (number, request)
}

pub fn judge_values(filter: &[u8], request: &Request) -> (u8, u32) {
    let mut version = 0;
    let number = unsafe { vinegarjar_judge_values(filter.as_ptr(), filter.len(), request, &mut version) };
    (number, version)
}

pub fn write_filter(source: &[u8], request: &Request, out: &mut [u8]) -> (u8, usize) {
    let mut length = 0;
    let (octets, room) = (out.as_mut_ptr(), out.len());
    let number = unsafe { vinegarjar_write_filter(source.as_ptr(), source.len(), request, octets, room, &mut length) };
    (number, length)
}

pub fn read_mailslot(message: &[u8]) -> (u8, Mailslot) {
    let mut members = Mailslot::default();
    let number = unsafe { vinegarjar_read_mailslot(message.as_ptr(), message.len(), &mut members) };
    (number, members)
}

pub fn write_mailslot(source: &[u8], members: &Mailslot, out: &mut [u8]) -> (u8, usize) {
    let mut length = 0;
    let (octets, room) = (out.as_mut_ptr(), out.len());
    let number =
        unsafe { vinegarjar_write_mailslot(source.as_ptr(), source.len(), members, octets, room, &mut length) };
    (number, length)
}

/// The calls that answer a ping: a filter or a mailslot message, from any image or an accepted one.
type Answering =
    unsafe extern "C" fn(*const u8, usize, *const [u8; 4], *const u8, usize, *mut u8, usize, *mut Answer) -> u8;

/// # Safety
/// The image is what the call asks for.
unsafe fn answer_by(call: Answering, image: &[u8], client: [u8; 4], ping: &[u8], reply: &mut [u8]) -> (u8, Answer) {
    let mut answer = Answer::default();
    let (table, ping) = ((image.as_ptr(), image.len()), (ping.as_ptr(), ping.len()));
    let (octets, room) = (reply.as_mut_ptr(), reply.len());
    let number = unsafe { call(table.0, table.1, &client, ping.0, ping.1, octets, room, &mut answer) };
    (number, answer)
}

pub fn answer_ping(image: &[u8], client: [u8; 4], filter: &[u8], reply: &mut [u8]) -> (u8, Answer) {
    // Any image will do.
    unsafe { answer_by(vinegarjar_answer_ping, image, client, filter, reply) }
}

pub fn answer_mailslot(image: &[u8], client: [u8; 4], message: &[u8], reply: &mut [u8]) -> (u8, Answer) {
    // Any image will do.
    unsafe { answer_by(vinegarjar_answer_mailslot, image, client, message, reply) }
}

/// An image that passed its judgement, for as long as it is borrowed. That is what its calls are proved under, and two things keep
/// it true: `new` alone makes one, by judging, and what is borrowed nobody writes. Memory that others may write to breaks it: a
/// `&[u8]` may not be made of a mapped file or shared memory while they can.
#[derive(Clone, Copy, Debug)]
pub struct Accepted<'image> {
    image: &'image [u8],
}

impl<'image> Accepted<'image> {
    pub fn new(image: &'image [u8]) -> Result<Self, u8> {
        match judge(image) {
            0 => Ok(Accepted { image }),
            number => Err(number),
        }
    }

    /// The answer from it, without judging it again.
    pub fn answer_ping(self, client: [u8; 4], filter: &[u8], reply: &mut [u8]) -> (u8, Answer) {
        // The image was accepted by `new`, and did not change since.
        unsafe { answer_by(vinegarjar_answer_ping_on_accepted_image, self.image, client, filter, reply) }
    }

    /// The same of a mailslot message.
    pub fn answer_mailslot(self, client: [u8; 4], message: &[u8], reply: &mut [u8]) -> (u8, Answer) {
        // As above.
        unsafe { answer_by(vinegarjar_answer_mailslot_on_accepted_image, self.image, client, message, reply) }
    }
}

pub fn read_nt40(reply: &[u8]) -> (u8, Reading) {
    let mut reading = Reading::default();
    let number = unsafe { vinegarjar_read_nt40(reply.as_ptr(), reply.len(), &mut reading) };
    (number, reading)
}

pub fn read_response(reply: &[u8]) -> (u8, Reading) {
    let mut reading = Reading::default();
    let number = unsafe { vinegarjar_read_response(reply.as_ptr(), reply.len(), &mut reading) };
    (number, reading)
}

pub fn read_ex(reply: &[u8], version: u32) -> (u8, Reading) {
    let mut reading = Reading::default();
    let number = unsafe { vinegarjar_read_ex(reply.as_ptr(), reply.len(), version, &mut reading) };
    (number, reading)
}

pub fn name_text(reply: &[u8], start: usize) -> (u8, [u8; TEXT_MOST], usize) {
    let (mut text, mut length) = ([0; TEXT_MOST], 0);
    let number = unsafe { vinegarjar_name_text(reply.as_ptr(), reply.len(), start, &mut text, &mut length) };
    (number, text, length)
}

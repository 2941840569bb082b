//! Puts streams together, right and wrong ones alike: nothing is judged here.

use crate::reader::DECIMAL;
use crate::tidy::write_prefix;

/// Name, type byte and info bytes of a member.
pub type Member<'m> = (&'m str, u8, &'m [u8]);

#[derive(Clone, Default)]
pub struct Stream(pub Vec<u8>);

impl Stream {
    /// A header with RootId and HeaderId 1.
    pub fn new() -> Stream {
        Stream::rooted(1)
    }

    pub fn rooted(root: i32) -> Stream {
        Stream::default().header(root, 1)
    }

    pub fn header(self, root: i32, header: i32) -> Stream {
        self.bytes(&[0]).int(root).int(header).int(1).int(0)
    }

    pub fn bytes(mut self, bytes: &[u8]) -> Stream {
        self.0.extend_from_slice(bytes);
        self
    }

    pub fn int(self, number: i32) -> Stream {
        self.bytes(&number.to_le_bytes())
    }

    pub fn text(mut self, text: &str) -> Stream {
        write_prefix(&mut self.0, text.len());
        self.bytes(text.as_bytes())
    }

    /// A Decimal is its text alone and gets its prefix here.
    pub fn value(mut self, code: u8, value: &[u8]) -> Stream {
        if code == DECIMAL {
            write_prefix(&mut self.0, value.len());
        }
        self.bytes(value)
    }

    pub fn by_id(self, id: i32, metadata_id: i32) -> Stream {
        self.bytes(&[1]).int(id).int(metadata_id)
    }

    pub fn system(self, id: i32, name: &str, members: &[Member]) -> Stream {
        self.bytes(&[4]).class_info(id, name, members)
    }

    pub fn class(self, id: i32, name: &str, members: &[Member], library: i32) -> Stream {
        self.bytes(&[5]).class_info(id, name, members).int(library)
    }

    /// Kind 2.
    pub fn untyped_system(self, id: i32, name: &str, members: &[&str]) -> Stream {
        self.bytes(&[2]).untyped_info(id, name, members)
    }

    /// Kind 3.
    pub fn untyped(self, id: i32, name: &str, members: &[&str], library: i32) -> Stream {
        self.bytes(&[3]).untyped_info(id, name, members).int(library)
    }

    fn untyped_info(self, id: i32, name: &str, members: &[&str]) -> Stream {
        let start = self.int(id).text(name).int(members.len() as i32);
        members.iter().fold(start, |stream, name| stream.text(name))
    }

    /// An entry of a class book; a system class has no library.
    pub fn entry(self, name: &str, library: Option<&str>, members: &[Member]) -> Stream {
        let mut book = self.bytes(&[u8::from(library.is_some())]).text(name);
        if let Some(library) = library {
            book = book.text(library);
        }
        let start = book.bytes(&[members.len() as u8]);
        let put = |book: Stream, (name, type_byte, info): &Member| {
            book.text(name).bytes(&[*type_byte]).bytes(info)
        };
        members.iter().fold(start, put)
    }

    fn class_info(self, id: i32, name: &str, members: &[Member]) -> Stream {
        let names: Vec<&str> = members.iter().map(|(name, _, _)| *name).collect();
        let mut stream = self.untyped_info(id, name, &names);
        for (_, type_byte, _) in members {
            stream = stream.bytes(&[*type_byte]);
        }
        for (_, _, info) in members {
            stream = stream.bytes(info);
        }
        stream
    }

    pub fn string(self, id: i32, text: &str) -> Stream {
        self.bytes(&[6]).int(id).text(text)
    }

    /// Kind 7 up to its lengths; type byte and info follow.
    pub fn array(self, id: i32, array_type: u8, lengths: &[i32]) -> Stream {
        let start = self.bytes(&[7]).int(id).bytes(&[array_type]).int(lengths.len() as i32);
        lengths.iter().fold(start, |stream, &length| stream.int(length))
    }

    pub fn typed(self, code: u8, value: &[u8]) -> Stream {
        self.bytes(&[8, code]).bytes(value)
    }

    pub fn reference(self, id: i32) -> Stream {
        self.bytes(&[9]).int(id)
    }

    pub fn null(self) -> Stream {
        self.bytes(&[10])
    }

    pub fn nulls(self, count: u8) -> Stream {
        self.bytes(&[13, count])
    }

    pub fn long_nulls(self, count: i32) -> Stream {
        self.bytes(&[14]).int(count)
    }

    pub fn library(self, id: i32, name: &str) -> Stream {
        self.bytes(&[12]).int(id).text(name)
    }

    pub fn primitives(self, id: i32, length: i32, code: u8, items: &[u8]) -> Stream {
        self.bytes(&[15]).int(id).int(length).bytes(&[code]).bytes(items)
    }

    pub fn objects(self, id: i32, length: i32) -> Stream {
        self.bytes(&[16]).int(id).int(length)
    }

    pub fn strings(self, id: i32, length: i32) -> Stream {
        self.bytes(&[17]).int(id).int(length)
    }

    pub fn end(self) -> Stream {
        self.bytes(&[11])
    }
}

//! The messages of rpc.proto as pb-rs generates them for quick-protobuf: each field by the whole value of its tag, anything else unknown,
//! fields written in ascending order. The macro writes what pb-rs would.

use quick_protobuf::sizeofs::{sizeof_len, sizeof_varint};
use quick_protobuf::{BytesReader, MessageRead, MessageWrite, Result, Writer, WriterBackend};
use std::borrow::Cow;

type Bytes<'a> = Cow<'a, [u8]>;
type Text<'a> = Cow<'a, str>;

/// A message: each field's name, type, tag, reader of one value into the field, size of the field, and writer of the field.
macro_rules! message {
    ($name:ident { $($field:ident: $kind:ident $(($inner:ident))? = $tag:literal),* $(,)? }) => {
        #[derive(Default)]
        pub struct $name<'a> { $(pub $field: field!(type $kind $($inner)?),)* }

        impl<'a> MessageRead<'a> for $name<'a> {
            fn from_reader(r: &mut BytesReader, bytes: &'a [u8]) -> Result<Self> {
                let mut msg = Self::default();
                while !r.is_eof() {
                    match r.next_tag(bytes) {
                        $(Ok($tag) => field!(read $kind r bytes msg.$field),)*
                        Ok(t) => r.read_unknown(bytes, t)?,
                        Err(e) => return Err(e),
                    }
                }
                Ok(msg)
            }
        }

        impl<'a> MessageWrite for $name<'a> {
            fn get_size(&self) -> usize {
                0 $(+ field!(size $kind self.$field))*
            }

            fn write_message<W: WriterBackend>(&self, w: &mut Writer<W>) -> Result<()> {
                $(field!(write $kind w $tag self.$field);)*
                Ok(())
            }
        }
    };
}

macro_rules! field {
    (type bool) => { Option<bool> };
    (type uint64) => { Option<u64> };
    (type string) => { Option<Text<'a>> };
    (type required_string) => { Text<'a> };
    (type bytes) => { Option<Bytes<'a>> };
    (type repeated_bytes) => { Vec<Bytes<'a>> };
    (type message $inner:ident) => { Option<$inner<'a>> };
    (type repeated $inner:ident) => { Vec<$inner<'a>> };

    (read bool $r:ident $bytes:ident $f:expr) => { $f = Some($r.read_bool($bytes)?) };
    (read uint64 $r:ident $bytes:ident $f:expr) => { $f = Some($r.read_uint64($bytes)?) };
    (read string $r:ident $bytes:ident $f:expr) => { $f = Some($r.read_string($bytes).map(Cow::Borrowed)?) };
    (read required_string $r:ident $bytes:ident $f:expr) => { $f = $r.read_string($bytes).map(Cow::Borrowed)? };
    (read bytes $r:ident $bytes:ident $f:expr) => { $f = Some($r.read_bytes($bytes).map(Cow::Borrowed)?) };
    (read repeated_bytes $r:ident $bytes:ident $f:expr) => { $f.push($r.read_bytes($bytes).map(Cow::Borrowed)?) };
    (read message $r:ident $bytes:ident $f:expr) => { $f = Some($r.read_message($bytes)?) };
    (read repeated $r:ident $bytes:ident $f:expr) => { $f.push($r.read_message($bytes)?) };

    (size bool $f:expr) => { $f.map_or(0, |m| 1 + sizeof_varint(m as u64)) };
    (size uint64 $f:expr) => { $f.map_or(0, |m| 1 + sizeof_varint(m)) };
    (size string $f:expr) => { $f.as_ref().map_or(0, |m| 1 + sizeof_len(m.len())) };
    (size required_string $f:expr) => { 1 + sizeof_len($f.len()) };
    (size bytes $f:expr) => { $f.as_ref().map_or(0, |m| 1 + sizeof_len(m.len())) };
    (size repeated_bytes $f:expr) => { $f.iter().map(|m| 1 + sizeof_len(m.len())).sum::<usize>() };
    (size message $f:expr) => { $f.as_ref().map_or(0, |m| 1 + sizeof_len(m.get_size())) };
    (size repeated $f:expr) => { $f.iter().map(|m| 1 + sizeof_len(m.get_size())).sum::<usize>() };

    (write bool $w:ident $tag:literal $f:expr) => { if let Some(m) = $f { $w.write_with_tag($tag, |w| w.write_bool(m))?; } };
    (write uint64 $w:ident $tag:literal $f:expr) => { if let Some(m) = $f { $w.write_with_tag($tag, |w| w.write_uint64(m))?; } };
    (write string $w:ident $tag:literal $f:expr) => { if let Some(m) = &$f { $w.write_with_tag($tag, |w| w.write_string(m))?; } };
    (write required_string $w:ident $tag:literal $f:expr) => { $w.write_with_tag($tag, |w| w.write_string(&$f))?; };
    (write bytes $w:ident $tag:literal $f:expr) => { if let Some(m) = &$f { $w.write_with_tag($tag, |w| w.write_bytes(m))?; } };
    (write repeated_bytes $w:ident $tag:literal $f:expr) => { for m in &$f { $w.write_with_tag($tag, |w| w.write_bytes(m))?; } };
    (write message $w:ident $tag:literal $f:expr) => { if let Some(m) = &$f { $w.write_with_tag($tag, |w| w.write_message(m))?; } };
    (write repeated $w:ident $tag:literal $f:expr) => { for m in &$f { $w.write_with_tag($tag, |w| w.write_message(m))?; } };
}

message!(Rpc {
    subscriptions: repeated(SubOpts) = 10,
    publish: repeated(Message) = 18,
    control: message(Control) = 26,
});
message!(SubOpts { subscribe: bool = 8, topic: string = 18 });
message!(Message {
    from: string = 10,
    data: bytes = 18,
    seqno: bytes = 26,
    topic: required_string = 34,
    signature: bytes = 42,
    key: bytes = 50,
});
message!(Control {
    ihave: repeated(IHave) = 10,
    iwant: repeated(IWant) = 18,
    graft: repeated(Graft) = 26,
    prune: repeated(Prune) = 34,
    idontwant: repeated(IDontWant) = 42,
});
message!(IHave { topic: string = 10, ids: repeated_bytes = 18 });
message!(IWant { ids: repeated_bytes = 10 });
message!(Graft { topic: string = 10 });
message!(Prune { topic: string = 10, peers: repeated(PeerInfo) = 18, backoff: uint64 = 24 });
message!(PeerInfo { id: bytes = 10, record: bytes = 18 });
message!(IDontWant { ids: repeated_bytes = 10 });

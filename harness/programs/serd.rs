//! The writer of serdi, libserd, where it is installed: called in this process, so that a write is timed without serdi's reading.

use std::ffi::{c_char, c_int, c_void, CStr, CString};

const LIBRARY: &CStr = c"libserd-0.so.0";
const NOW: c_int = 2;

// serd.h of version 0.30: kinds of nodes, the syntax, and the styles of `serdi` and of `serdi -b`.
const LITERAL: u32 = 1;
const URI: u32 = 2;
const BLANK: u32 = 4;
const NTRIPLES: u32 = 2;
pub const PLAIN: u32 = 0;
pub const BULK: u32 = 1 << 4;

extern "C" {
    fn dlopen(name: *const c_char, flags: c_int) -> *mut c_void;
    fn dlsym(library: *mut c_void, name: *const c_char) -> *mut c_void;
}

#[repr(C)]
#[derive(Clone, Copy)]
struct Node {
    bytes: *const u8,
    length: usize,
    chars: usize,
    flags: u32,
    kind: u32,
}

type Sink = extern "C" fn(*const c_void, usize, *mut c_void) -> usize;
type NodeFromString = unsafe extern "C" fn(u32, *const u8) -> Node;
type EnvNew = unsafe extern "C" fn(*const Node) -> *mut c_void;
type WriterNew = unsafe extern "C" fn(u32, u32, *mut c_void, *const c_void, Sink, *mut c_void) -> *mut c_void;
type WriteStatement =
    unsafe extern "C" fn(*mut c_void, u32, *const Node, *const Node, *const Node, *const Node, *const Node, *const Node) -> u32;
type Finish = unsafe extern "C" fn(*mut c_void) -> u32;
type Free = unsafe extern "C" fn(*mut c_void);

/// A term with the string that serd has of it; a literal's tag or datatype besides.
struct Term {
    text: CString,
    kind: u32,
    suffix: Option<(CString, bool)>,
}

/// The library, and triples as its nodes.
pub struct Serd {
    library: *mut c_void,
    terms: Vec<[Term; 3]>,
    nodes: Vec<[Node; 5]>,
}

extern "C" fn append(bytes: *const c_void, length: usize, page: *mut c_void) -> usize {
    // SAFETY: serd lends `length` bytes; `page` is the vector that `write` passed on.
    unsafe { (*page.cast::<Vec<u8>>()).extend_from_slice(std::slice::from_raw_parts(bytes.cast(), length)) };
    length
}

impl Serd {
    /// None where the library is not installed. The texts have no U+0000.
    pub fn with(triples: &[[model::dictionary::Term; 3]]) -> Option<Serd> {
        // SAFETY: the name is a C string.
        let library = unsafe { dlopen(LIBRARY.as_ptr(), NOW) };
        if library.is_null() {
            return None;
        }
        let terms: Vec<_> = triples.iter().map(|t| t.each_ref().map(term)).collect();
        let mut serd = Serd { library, terms, nodes: Vec::new() };
        serd.nodes = serd.terms.iter().map(|t| serd.statement(t)).collect();
        Some(serd)
    }

    fn symbol<F: Copy>(&self, name: &CStr) -> F {
        // SAFETY: the library is open; F is the type that serd.h gives the function of this name.
        unsafe {
            let place = dlsym(self.library, name.as_ptr());
            assert!(!place.is_null(), "libserd without {name:?}");
            std::mem::transmute_copy(&place)
        }
    }

    fn statement(&self, [s, p, o]: &[Term; 3]) -> [Node; 5] {
        let make: NodeFromString = self.symbol(c"serd_node_from_string");
        // SAFETY: each text is a C string that lives as long as `self`.
        let node = |kind, text: &CString| unsafe { make(kind, text.as_ptr().cast()) };
        let none = Node { bytes: std::ptr::null(), length: 0, chars: 0, flags: 0, kind: 0 };
        let (datatype, tag) = match &o.suffix {
            None => (none, none),
            Some((text, true)) => (node(URI, text), none),
            Some((text, false)) => (none, node(LITERAL, text)),
        };
        [node(s.kind, &s.text), node(p.kind, &p.text), node(o.kind, &o.text), datatype, tag]
    }

    /// All triples written to the page, in a style.
    pub fn write(&self, style: u32, page: &mut Vec<u8>) {
        let env_new: EnvNew = self.symbol(c"serd_env_new");
        let writer_new: WriterNew = self.symbol(c"serd_writer_new");
        let write: WriteStatement = self.symbol(c"serd_writer_write_statement");
        let finish: Finish = self.symbol(c"serd_writer_finish");
        let (writer_free, env_free): (Free, Free) = (self.symbol(c"serd_writer_free"), self.symbol(c"serd_env_free"));
        let null = std::ptr::null();
        // SAFETY: as serd.h says; nodes and page live longer than the writer.
        unsafe {
            let env = env_new(null);
            let writer = writer_new(NTRIPLES, style, env, std::ptr::null(), append, (page as *mut Vec<u8>).cast());
            for [s, p, o, datatype, tag] in &self.nodes {
                let or_null = |n: &Node| if n.bytes.is_null() { null } else { n as *const Node };
                assert_eq!(write(writer, 0, null, s, p, o, or_null(datatype), or_null(tag)), 0, "serd refuses a triple");
            }
            finish(writer);
            writer_free(writer);
            env_free(env);
        }
    }
}

fn term((kind, bytes): &model::dictionary::Term) -> Term {
    let string = |b: &[u8]| CString::new(b).expect("no U+0000");
    match kind {
        1 => Term { text: string(bytes), kind: URI, suffix: None },
        2 => Term { text: string(bytes), kind: BLANK, suffix: None },
        _ => {
            let end = bytes.iter().rposition(|&b| b == 0).expect("a literal");
            let suffix = &bytes[end + 1..];
            let plain = suffix == b"http://www.w3.org/2001/XMLSchema#string";
            let suffix = (!plain).then(|| (string(suffix), suffix.contains(&b':')));
            Term { text: string(&bytes[..end]), kind: LITERAL, suffix }
        }
    }
}

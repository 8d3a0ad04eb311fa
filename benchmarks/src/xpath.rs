//! libxml2's XPath and its tags on the same tree, called through its C interface. Only what is used here is declared.

use std::ffi::{c_char, c_int, c_uint, c_void, CString};
use std::ptr;

/// The front of a node: a pointer for the application, here the node's number.
#[repr(C)]
struct Node {
    number: *mut c_void,
}

/// A set of nodes.
#[repr(C)]
struct NodeSet {
    count: c_int,
    room: c_int,
    nodes: *mut *mut Node,
}

/// The front of an answer.
#[repr(C)]
struct Object {
    kind: c_int,
    nodes: *mut NodeSet,
}

/// The front of a buffer.
#[repr(C)]
struct Buffer {
    content: *mut u8,
    used: c_uint,
}

#[link(name = "xml2")]
extern "C" {
    fn xmlNewDoc(version: *const c_char) -> *mut c_void;
    fn xmlFreeDoc(document: *mut c_void);
    fn xmlNewNode(namespace: *mut c_void, name: *const c_char) -> *mut Node;
    fn xmlDocSetRootElement(document: *mut c_void, root: *mut Node) -> *mut Node;
    fn xmlAddChild(parent: *mut Node, child: *mut Node) -> *mut Node;
    fn xmlXPathNewContext(document: *mut c_void) -> *mut c_void;
    fn xmlXPathFreeContext(context: *mut c_void);
    fn xmlXPathCompile(text: *const c_char) -> *mut c_void;
    fn xmlXPathFreeCompExpr(path: *mut c_void);
    fn xmlXPathCompiledEval(path: *mut c_void, context: *mut c_void) -> *mut Object;
    fn xmlXPathFreeObject(object: *mut Object);
    fn xmlDocGetRootElement(document: *mut c_void) -> *mut Node;
    fn xmlBufferCreateSize(bytes: usize) -> *mut Buffer;
    fn xmlBufferEmpty(buffer: *mut Buffer);
    fn xmlBufferFree(buffer: *mut Buffer);
    fn xmlNodeDump(buffer: *mut Buffer, document: *mut c_void, node: *mut Node, level: c_int, format: c_int) -> c_int;
    fn xmlReadMemory(
        text: *const c_char,
        bytes: c_int,
        name: *const c_char,
        encoding: *const c_char,
        options: c_int,
    ) -> *mut c_void;
}

/// A path, compiled once.
pub struct Path(*mut c_void);

impl Path {
    pub fn of(text: &str) -> Path {
        let text = CString::new(text).expect("a path has no zero byte");
        // The text ends with a zero byte and outlives the call.
        let path = unsafe { xmlXPathCompile(text.as_ptr()) };
        assert!(!path.is_null(), "libxml2 compiles the path");
        Path(path)
    }
}

impl Drop for Path {
    fn drop(&mut self) {
        // Compiled by `of`, freed once.
        unsafe { xmlXPathFreeCompExpr(self.0) }
    }
}

/// A document of libxml2's and a context to evaluate paths in.
pub struct Tree {
    document: *mut c_void,
    context: *mut c_void,
    nodes: usize,
}

impl Tree {
    /// The tree of a table: element `n` and the label, children in rising number.
    pub fn of(rows: &[u16]) -> Tree {
        let mut made: Vec<*mut Node> = Vec::new();
        // Every pointer comes from libxml2 and is linked into one document, which is freed as a whole.
        unsafe {
            let document = xmlNewDoc(ptr::null());
            for (v, row) in rows.chunks(2).enumerate() {
                let name = CString::new(format!("n{}", row[1])).expect("a name has no zero byte");
                let node = xmlNewNode(ptr::null_mut(), name.as_ptr());
                (*node).number = v as *mut c_void;
                if v == 0 {
                    xmlDocSetRootElement(document, node);
                } else {
                    xmlAddChild(made[row[0] as usize], node);
                }
                made.push(node);
            }
            let context = xmlXPathNewContext(document);
            Tree {
                document,
                context,
                nodes: made.len(),
            }
        }
    }

    /// Evaluates a path and takes its nodes' numbers.
    fn numbers<T>(&self, path: &Path, take: impl FnOnce(&[*mut Node]) -> T) -> T {
        // The answer is a set of nodes of this document; it is freed after its numbers were taken.
        unsafe {
            let object = xmlXPathCompiledEval(path.0, self.context);
            assert!(!object.is_null(), "libxml2 evaluates the path");
            let set = (*object).nodes;
            let found: &[*mut Node] = if set.is_null() || (*set).count == 0 {
                &[]
            } else {
                std::slice::from_raw_parts((*set).nodes, (*set).count as usize)
            };
            let taken = take(found);
            xmlXPathFreeObject(object);
            taken
        }
    }

    /// How many nodes a path selects.
    pub fn count(&self, path: &Path) -> usize {
        self.numbers(path, <[_]>::len)
    }

    /// A byte a node: 1 where the path selects it.
    pub fn selected(&self, path: &Path) -> Vec<u8> {
        let mut row = vec![0; self.nodes];
        self.numbers(path, |found| {
            for node in found {
                // The nodes live as long as the document.
                row[unsafe { (**node).number } as usize] = 1;
            }
        });
        row
    }
}

/// A buffer of libxml2's for the tags of a tree.
pub struct Tags(*mut Buffer);

impl Tags {
    /// One with room for so many bytes.
    pub fn with_room(bytes: usize) -> Tags {
        // The buffer is freed once, by `drop`.
        Tags(unsafe { xmlBufferCreateSize(bytes) })
    }

    /// The tags of a tree, written anew.
    pub fn of(&mut self, tree: &Tree) -> &[u8] {
        self.of_document(tree.document)
    }

    /// The tags of a document that was read.
    pub fn of_read(&mut self, document: &Parsed) -> &[u8] {
        self.of_document(document.0)
    }

    fn of_document(&mut self, document: *mut c_void) -> &[u8] {
        // The document and its root are live; what was written lies in the buffer until it is emptied.
        unsafe {
            xmlBufferEmpty(self.0);
            let bytes = xmlNodeDump(self.0, document, xmlDocGetRootElement(document), 0, 0);
            assert!(bytes >= 0, "libxml2 writes the tags");
            std::slice::from_raw_parts((*self.0).content, (*self.0).used as usize)
        }
    }
}

/// Texts of any depth are read.
const HUGE: c_int = 1 << 19;

/// A document that libxml2 read.
pub struct Parsed(*mut c_void);

impl Parsed {
    pub fn of(text: &[u8]) -> Parsed {
        // The text outlives the call; the document is freed once, by `drop`.
        let document = unsafe {
            let bytes = c_int::try_from(text.len()).expect("the text is no longer than that");
            xmlReadMemory(text.as_ptr().cast(), bytes, ptr::null(), ptr::null(), HUGE)
        };
        assert!(!document.is_null(), "libxml2 reads the tags");
        Parsed(document)
    }
}

impl Drop for Parsed {
    fn drop(&mut self) {
        // Made by `of`, freed once.
        unsafe { xmlFreeDoc(self.0) }
    }
}

impl Drop for Tags {
    fn drop(&mut self) {
        // Made by `with_room`, freed once.
        unsafe { xmlBufferFree(self.0) }
    }
}

impl Drop for Tree {
    fn drop(&mut self) {
        // Made by `of`, freed once; the context before its document.
        unsafe {
            xmlXPathFreeContext(self.context);
            xmlFreeDoc(self.document);
        }
    }
}

//! Stand-in for `std` as the originals see it: the real one, but a spawn starts nothing and files
//! are kept in memory. So the originals' own `open`, save and load run, and no thread ever does.
pub use ::std::*;

pub mod thread {
    pub use ::std::thread::*;

    pub struct JoinHandle<T>(::std::marker::PhantomData<T>);

    impl JoinHandle<()> {
        pub fn join(self) -> ::std::thread::Result<()> {
            Ok(())
        }
    }

    #[derive(Default)]
    pub struct Builder;

    impl Builder {
        pub fn new() -> Builder {
            Builder
        }
        pub fn name(self, _name: String) -> Builder {
            self
        }
        pub fn spawn<F: FnOnce() + Send + 'static>(self, f: F) -> ::std::io::Result<JoinHandle<()>> {
            drop(f);
            Ok(JoinHandle(::std::marker::PhantomData))
        }
    }
}

pub mod fs {
    use ::std::cell::RefCell;
    use ::std::collections::BTreeMap;
    use ::std::io::{Error, ErrorKind, Read, Result, Write};

    ::std::thread_local!(static FILES: RefCell<BTreeMap<String, Vec<u8>>> =
        const { RefCell::new(BTreeMap::new()) });

    fn with<T>(f: impl FnOnce(&mut BTreeMap<String, Vec<u8>>) -> T) -> T {
        FILES.with(|files| f(&mut files.borrow_mut()))
    }

    fn missing() -> Error {
        Error::from(ErrorKind::NotFound)
    }

    /// A file opened by its name, and the position in it.
    pub struct File {
        name: String,
        at: usize,
    }

    pub struct Metadata(u64);

    impl Metadata {
        pub fn len(&self) -> u64 {
            self.0
        }
    }

    impl File {
        pub fn create<P: AsRef<str>>(path: P) -> Result<File> {
            put(path.as_ref(), Vec::new());
            Ok(File { name: path.as_ref().to_string(), at: 0 })
        }
        pub fn open<P: AsRef<str>>(path: P) -> Result<File> {
            let name = path.as_ref().to_string();
            with(|files| files.contains_key(&name)).then_some(File { name, at: 0 }).ok_or_else(missing)
        }
        pub fn sync_all(&self) -> Result<()> {
            Ok(())
        }
        pub fn metadata(&self) -> Result<Metadata> {
            with(|files| files.get(&self.name).map(|bytes| Metadata(bytes.len() as u64))).ok_or_else(missing)
        }
    }

    impl Read for File {
        fn read(&mut self, out: &mut [u8]) -> Result<usize> {
            let count = with(|files| {
                let bytes = files.get(&self.name).ok_or_else(missing)?;
                let rest = &bytes[self.at.min(bytes.len())..];
                let count = rest.len().min(out.len());
                out[..count].copy_from_slice(&rest[..count]);
                Ok::<usize, Error>(count)
            })?;
            self.at += count;
            Ok(count)
        }
    }

    impl Write for File {
        fn write(&mut self, xs: &[u8]) -> Result<usize> {
            with(|files| files.get_mut(&self.name).map(|bytes| bytes.extend_from_slice(xs))).ok_or_else(missing)?;
            Ok(xs.len())
        }
        fn flush(&mut self) -> Result<()> {
            Ok(())
        }
    }

    pub fn rename<P: AsRef<str>, Q: AsRef<str>>(from: P, to: Q) -> Result<()> {
        let bytes = take(from.as_ref()).ok_or_else(missing)?;
        put(to.as_ref(), bytes);
        Ok(())
    }

    pub fn remove_file<P: AsRef<str>>(path: P) -> Result<()> {
        take(path.as_ref()).map(drop).ok_or_else(missing)
    }

    /// Ours: lays a file down, and takes one away with its bytes.
    pub fn put(name: &str, bytes: Vec<u8>) {
        with(|files| files.insert(name.to_string(), bytes));
    }
    pub fn take(name: &str) -> Option<Vec<u8>> {
        with(|files| files.remove(name))
    }
}

//! Stand-in: reading (document 01, step 3, the port's own rule). Order: logical page (22), overrun
//! (22), unmapped (61); then the bytes at the offset of the mapped page. The device never refuses
//! it. page_write.rs and page_gc.rs read only whole mapped pages through it.
use crate::device::{device_address, device_request, PADDR_EMPTY};
use crate::ftl::PageFtl;
use std::io;

pub fn read_page(pgftl: &mut PageFtl, request: &mut device_request) -> io::Result<usize> {
    let refuse = |number| Err(io::Error::from_raw_os_error(number));
    let size = pgftl.dev().page_size();
    let (page, offset, length) = (request.sector / size, request.sector % size, request.data_len);
    if page >= pgftl.map_entries() || length > size - offset {
        return refuse(libc::EINVAL);
    }
    let word = pgftl.trans_map[page];
    if word == PADDR_EMPTY {
        return refuse(libc::ENODATA);
    }
    let at = device_address::from(word);
    let bytes = pgftl.dev().flash().page(at.block() as usize, at.segment_page() as usize);
    if let Some(buffer) = unsafe { request.buffer_mut() } {
        buffer.copy_from_slice(&bytes[offset..offset + length]);
    }
    Ok(length)
}

//! Stand-in: reading by document 01's step 3, one copy out of plain memory.
use crate::device::{device_address, device_request, PADDR_EMPTY};
use crate::ftl::PageFtl;
use std::io;

pub fn read_page(ftl: &mut PageFtl, rq: &mut device_request) -> io::Result<usize> {
    let refuse = |r| Err(io::Error::from_raw_os_error(r));
    let (l, offset, len) = (ftl.lpn(rq.sector), ftl.page_offset(rq.sector), rq.data_len);
    if l >= ftl.map_entries() || len > ftl.dev().page_size() - offset {
        return refuse(libc::EINVAL);
    }
    let word = ftl.trans_map[l];
    if word == PADDR_EMPTY {
        return refuse(libc::ENODATA);
    }
    let page = ftl.dev().page(device_address::from(word));
    if let Some(to) = unsafe { rq.buffer_mut() } {
        to.copy_from_slice(&page[offset..offset + len]);
    }
    Ok(len)
}

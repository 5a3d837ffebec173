//! How many cells are looked at for a list of lists that names itself.
use hive_cells::{Image, Looks};
use hive_load::load;
use refusals::{Cause, Refusal};
use std::alloc::{AllocError, Global};

const BAD_LIST: Refusal = Refusal::HiveDamaged {
    hive: 0,
    cause: Cause::BadList,
};

const SHARED: Refusal = Refusal::HiveDamaged {
    hive: 0,
    cause: Cause::Shared,
};

// a root at 32 with one subkey, whose list is at 120; neither values nor descriptor
const ROOT: &[u8; 88] =
    b"\xa8\xff\xff\xffnk\x20\0\0\0\0\0\0\0\0\0\0\0\0\0\0\0\0\0\x01\0\0\0\0\0\0\0\x78\0\0\0\xff\xff\xff\xff\0\0\0\0\xff\xff\xff\xff\xff\xff\xff\xff\xff\xff\xff\xff\0\0\0\0\0\0\0\0\0\0\0\0\0\0\0\0\0\0\0\0\x01\0\0\0R\0\0\0\0\0\0\0";

// a list of lists at 120, which names itself
const LIST: &[u8; 16] = b"\xf0\xff\xff\xffri\x01\0\x78\0\0\0\0\0\0\0";

// an allocated cell that nothing names
const OTHER: &[u8; 8] = b"\xf8\xff\xff\xff\0\0\0\0";

// headers of bins of 4,096 bytes and of 819,200
const PAGE: &[u8; 32] = b"hbin\0\0\0\0\0\x10\0\0\0\0\0\0\0\0\0\0\0\0\0\0\0\0\0\0\0\0\0\0";

const PAGES: &[u8; 32] = b"hbin\0\0\0\0\0\x80\x0c\0\0\0\0\0\0\0\0\0\0\0\0\0\0\0\0\0\0\0\0\0";

// a bin that has the root, its list, and so many other cells
fn bin(alloc: Global, header: &[u8; 32], others: usize) -> Result<Vec<u8>, AllocError> {
    let mut bytes = Vec::new(alloc);
    bytes.extend_from_slice(header)?;
    bytes.extend_from_slice(ROOT)?;
    bytes.extend_from_slice(LIST)?;
    for _ in 0..others {
        bytes.extend_from_slice(OTHER)?;
    }
    Ok(bytes)
}

// whether the bin is refused for its list, and how many looks were taken
fn looks(alloc: Global, header: &[u8; 32], others: usize) -> Result<(bool, u64), Refusal> {
    let image = Image::open(alloc, bin(alloc, header, others)?)?;
    let mut looks = Looks::new();
    let refusal = load(alloc, &image, 32, 5, &mut looks).err();
    let told = refusal == Some(SHARED) || refusal == Some(BAD_LIST);
    Ok((told, looks.count()))
}

// the root, its list, and the list again, however many other cells there are
#[test]
fn a_list_in_itself_takes_three_looks(rt: HostRuntime) {
    assert_eq!(rt; looks(rt.alloc(), PAGE, 495), Ok((true, 3)));
    assert_eq!(rt; looks(rt.alloc(), PAGES, 102_383), Ok((true, 3)));
}

#!/bin/sh
# A test of the drivers: small changes to copies of the originals, of the flash beneath them and of plain.rs, one at a time; compare, for plain.rs
# edges, must report a difference for each.
# Runs after build.sh and needs what that left in OUT (default target/oracle); takes a few minutes.
#   mutants.sh [NAME...]    only these
set -eu
here=$(cd "$(dirname "$0")" && pwd)
root=$(cd "$here/.." && pwd)
out=${OUT:-$root/target/oracle}
lib=${LIBFFI:-$root/target/staticlib/libffi.a}
work=$out/mutant
only="$*"
found=0
missed=0
rustc="rustc --edition 2021 -C opt-level=1 -A warnings"

build() {
    $rustc --crate-type rlib --crate-name originals "$work/lib.rs" -o "$work/liboriginals.rlib" \
        --extern libc="$out/liblibc.rlib" --extern std_standin="$out/libstd_standin.rlib"
    $rustc --crate-name compare "$here/driver/main.rs" -o "$work/compare" -L "$out" \
        --extern originals="$work/liboriginals.rlib" -C link-arg="$lib"
}

asked() {
    [ -z "$only" ] || case " $only " in *" $1 "*) ;; *) return 1 ;; esac
}

# change FILE OLD NEW: the first occurrence of the text OLD in FILE becomes NEW.
change() {
    OLD=$2 NEW=$3 perl -0pi -e 's/\Q$ENV{OLD}\E/$ENV{NEW}/ or die "text not found\n"' "$1"
}

# judge NAME LINE COMMAND...: the command must end with status 1 and print a line that begins with LINE.
judge() {
    name=$1; line=$2; shift 2
    status=0
    "$@" > "$work/out" 2>&1 || status=$?
    if [ $status -eq 1 ] && grep -q "^$line" "$work/out"; then
        found=$((found + 1))
        echo "found: $name: $(grep "^$line" "$work/out")"
    else
        missed=$((missed + 1))
        echo "MISSED: $name (status $status)"
    fi
}

# mutant NAME FILE OLD NEW: of an original.
mutant() {
    asked "$1" || return 0
    rm -rf "$work" && cp -R "$out/originals" "$work"
    change "$work/ftl/$2" "$3" "$4"
    build
    judge "$1" 'shortened to' "$work/compare" all --depth 4 --calls 100000
}

# plainly NAME OLD NEW: of plain.rs.
plainly() {
    asked "$1" || return 0
    rm -rf "$work" && cp -R "$here/driver" "$work"
    change "$work/plain.rs" "$2" "$3"
    $rustc --crate-name edges "$work/edges.rs" -o "$work/edges" -C link-arg="$lib"
    judge "$1" 'first difference' "$work/edges" runs --seed 1 --calls 100000
}

# Finding a page
mutant alloc-advances page_map.rs 'pgftl.alloc_segnum = segnum as u64;' 'pgftl.alloc_segnum = ((segnum + 1) % nr_segments) as u64;'
mutant alloc-stays page_map.rs 'pgftl.alloc_segnum = segnum as u64;' ''
mutant one-page-kept page_map.rs 'if nr_free_pages == 0 {' 'if nr_free_pages <= 1 {'
# Writing
mutant overrun-by-one page_write.rs 'offset + write_size > page_size' 'offset + write_size > page_size + 1'
mutant whole-page-refused page_write.rs 'offset + write_size > page_size' 'offset + write_size >= page_size'
mutant page-of-ones page_write.rs 'let mut buffer = vec![0u8; page_size];' 'let mut buffer = vec![255u8; page_size];'
mutant old-page-dropped page_write.rs 'if is_exist {' 'if is_exist && write_size > 0 {'
mutant queue-at-its-end page_write.rs 'pgftl.gc_list.insert(0, segnum);' 'pgftl.gc_list.push(segnum);'
mutant queued-too-early page_write.rs 'if nr_free_pages == 0 && !get_bit' 'if nr_free_pages <= 1 && !get_bit'
mutant list-order-lost page_write.rs 'segment.lpn_list.remove(index);' 'segment.lpn_list.swap_remove(index);'
mutant valid-kept page_write.rs 'segment.nr_valid_pages.fetch_sub(1, Ordering::SeqCst);' ''
# Collecting
mutant ties-by-number page_gc.rs 'segments[segnum].nr_valid_pages.load(Ordering::SeqCst));' '(segments[segnum].nr_valid_pages.load(Ordering::SeqCst), segnum));'
mutant queue-not-sorted page_gc.rs 'let segnum = pgftl.gc_list.remove(0);' 'let segnum = pgftl.gc_list.remove(0); pgftl.gc_list.reverse();'
mutant first-copied-first page_gc.rs 'lpn_list.last()' 'lpn_list.first()'
mutant copy-answers-5 page_gc.rs 'if let Err(err) = valid_page_copy(pgftl, segnum) {' 'if let Err(_) = valid_page_copy(pgftl, segnum) { let err = io::Error::from_raw_os_error(5);'
mutant flag-kept page_gc.rs 'reset_bit(&mut pgftl.gc_seg_bits, segnum as u64);' ''
mutant erase-not-done page_gc.rs 'if let Err(err) = segment_erase(pgftl, paddr) {' 'if let Err(err) = io::Result::Ok(()) {'
mutant one-pass-more page_gc.rs 'while idx < nr_gc_segments {' 'while idx <= nr_gc_segments {'
mutant counted-when-empty page_gc.rs 'if ret != 0 {
            pr_err!("garbage collection from list failed");' 'if pgftl.gc_list.is_empty() { idx += 1; }
        if ret != 0 {
            pr_err!("garbage collection from list failed");'
mutant threshold-reached page_core.rs 'free_pages as f64 > total_pages' 'free_pages as f64 >= total_pages'
# The flash: 02, M-102
mutant order-not-asked ../flash.rs 'self.marks[at + 1..end]' 'self.marks[end..end]'
mutant lower-asked-too ../flash.rs 'self.marks[at + 1..end]' 'self.marks[end - self.pages..end]'
mutant own-mark-unasked ../flash.rs 'self.marks[at] != 0 ||' ''
# Checkpoint
mutant crc-of-body page_core.rs 'crc ^ 0xFFFF_FFFF,' 'crc,'
mutant alloc-at-n page_core.rs 'alloc_segnum >= nr_segments' 'alloc_segnum > nr_segments'
mutant free-above-p page_core.rs 'if free > pages as u32' 'if free > pages as u32 + 1'
mutant page-past-used page_core.rs 'page >= programmed' 'page > programmed'
mutant repeats-kept page_core.rs '!claimed.insert(paddr)' 'false && !claimed.insert(paddr)'
mutant version-unread page_core.rs 'word(4) != CHECKPOINT_VERSION' 'false'
mutant longer-file page_core.rs 'len() != expected as u64' 'len() < expected as u64'
mutant pages-unread page_core.rs '|| pages_per_segment != pages as u64' ''
mutant list-descends page_core.rs 'for lpn in 0..pgftl.map_entries() {' 'for lpn in (0..pgftl.map_entries()).rev() {'
# The new numbers: 02, M-101
plainly full-told-as-14 'Cause::CopyNoRoom, Numbers::New) => 28' 'Cause::CopyNoRoom, Numbers::New) => 14'
plainly room-told-as-device 'Cause::NoRoom => Cause::CopyNoRoom' 'Cause::NoRoom => Cause::CopyDevice'
plainly device-told-as-room 'Cause::Device => Cause::CopyDevice' 'Cause::Device => Cause::CopyNoRoom'
plainly erase-told-as-copy '(Cause::Device | Cause::Erase, _) => 5' '(Cause::Erase, Numbers::New) => 121, (Cause::Device | Cause::Erase, _) => 5'
# Restores with the dead queued: 02, M-109
plainly live-queued '(tables.lists[g].len() as u64) < geo.p' '(tables.lists[g].len() as u64) <= geo.p'
plainly one-free-queued 'if tables.free[g] == 0 && (tables.lists' 'if tables.free[g] <= 1 && (tables.lists'
plainly dead-descending 'tables.queue.push(g as u32);' 'tables.queue.insert(0, g as u32);'
plainly dead-unflagged 'tables.flags[g] = 1;' ''

echo "mutants: $found found, $missed missed"
[ "$missed" -eq 0 ] && [ "$found" -gt 0 ]

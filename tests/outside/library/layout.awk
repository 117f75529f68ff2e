# What hlr.h has to agree with, as lines for layout.c: the layout of each struct that C is passed, each code, and the
# constants. Reads rows.rt, kept.rt, kept_part.rt, handle.rt, part.rt, owing.rt and codes.rt of crates/hlr_c/src, refusal.rt and
# ranges.rt of crates/tatp_rows/src, cells.rt of crates/tatp_actions/src, and region.rt and bounds.rt of
# crates/part_table/src, in this order.
#
# The structs are `#[repr(C)]`, so they lie as C's: each field stands in the order of the source, at the next multiple
# of its alignment, and the size is the next multiple of the greatest alignment. A ghost field has no place. What
# `prove!` says of a size is the compiler's own word, and has its line too.
BEGIN {
  size["u8"] = align["u8"] = 1
  size["u32"] = align["u32"] = size["i32"] = align["i32"] = 4
  size["u64"] = align["u64"] = size["*mut u8"] = align["*mut u8"] = 8
  structs = split("Hlr HlrPart HlrSubscriber HlrAccess HlrFacility HlrForwardingRow HlrAccessAsked HlrDestinationAsked HlrNumbers HlrRegion HlrRegions HlrBounds HlrCall", list, " ")
  for (i in list) name[list[i]] = snake(list[i])
  name["HlrRegions"] = "hlr_region_list"
  constants = split("LAST_SUBSCRIBER MAX_S_ID GREATEST_WIDTH MAX_WIDTH MOST_PARTS MAX_PARTS MOST_PIECES MAX_PIECES " \
    "FIRST_AREA AREA_CELL FIRST_ZONE ZONE_CELL ZONES ZONES WRITE TAPE_WRITE ZEROS TAPE_ZEROS SYNC TAPE_SYNC", list, " ") / 2
  for (i = 1; i <= 2 * constants; i += 2) c_name[list[i]] = list[i + 1]
}
function snake(camel) { gsub(/[A-Z]/, "_&", camel); return tolower(substr(camel, 2)) }
function next_multiple(at, of) { return int((at + of - 1) / of) * of }
function unknown(what) { print "#error \"layout.awk finds no " what "\"" }

/^#\[repr\(C\)\]/ { is_c = 1 }
/^pub struct (Hlr|Kept)/ {
  struct = $3; at = 0; most = 1
  if (!is_c) unknown("repr(C) on " struct)
  is_c = 0
}
struct && /^    (pub )?[a-z_0-9]+: .*,$/ {
  sub(/^ *(pub )?/, ""); sub(/,$/, "")
  field = type = $0
  sub(/: .*/, "", field); sub(/^[a-z_0-9]+: /, "", type)
  count = 1
  if (type ~ /^\[/) {
    count = type; sub(/.*; /, "", count); sub(/\]$/, "", count)
    sub(/^\[/, "", type); sub(/; .*/, "", type)
  }
  if (!(type in size)) unknown("layout of " struct "." field)
  else {
    at = next_multiple(at, align[type])
    if (struct in name) print "FIELD(" name[struct] ", " field ", " at ", " count * size[type] ")"
    at += count * size[type]
    if (align[type] > most) most = align[type]
  }
}
struct && /^}/ {
  size[struct] = next_multiple(at, most); align[struct] = most
  if (struct in name) { print "SIZE(" name[struct] ", " size[struct] ", " most ")"; laid++ }
  struct = ""
}
/^const _: \(\) = prove!\(size_of::</ {
  proved = $0; sub(/.*size_of::</, "", proved); sub(/>.*/, "", proved)
  if (proved in name) { print "SIZE(" name[proved] ", " $(NF) + 0 ", " align[proved] ")"; sized++ }
}

/^pub const (DONE|LOCKED|BAD_JOURNAL|FAILED|JOURNALED|NO_JOURNAL|ELSEWHERE|AWAY|NOT_OPEN|STILL_OPEN|CELLS): u8 = [0-9]+;/ {
  sub(/:/, "", $3)
  print "IS(" $3 ", " $NF + 0 ")"; numbers++
}
/^(pub )?const [A-Z_]+: u(8|32) = [0-9_]+;/ {
  constant = $0; sub(/^(pub )?const /, "", constant); sub(/:.*/, "", constant)
  number = $NF; gsub(/[_;]/, "", number)
  if (constant in c_name) { print "IS(" c_name[constant] ", " number ")"; found++ }
}
# the program's own refusals, which no call for C answers
/Refusal::(Thread|Syntax|Read|Write) => / { next }
/Refusal::[A-Za-z]+ => [0-9]+,/ {
  refusal = $1; sub(/Refusal::/, "", refusal)
  print "IS(" toupper(snake(refusal)) ", " $NF + 0 ")"; numbers++
}
END {
  if (laid != structs || sized != structs) unknown("layout of " structs " structs")
  if (numbers != 29) unknown("28 codes and the cells")
  if (found != constants) unknown(constants " constants")
}

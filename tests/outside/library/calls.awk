# The calls for C, each with its result, its parameters and its refusals in order, one a line: of hlr.h, by its lines
# `Refusals:`, or of the sources in crates/hlr_c/src, by the names in backquotes in a call's comment. The two are the same,
# apart from those of hlr_file.c, which are left out, because that is a source in C.
#
#   awk -f calls.awk crates/hlr_c/hlr.h
#   awk -f calls.awk crates/hlr_c/src/*.rt
function snake(camel) { gsub(/[A-Z]/, "_&", camel); return toupper(substr(camel, 2)) }

# a type of the sources, as C has it
function c_type(type) {
  if (type == "HlrRegions") return "hlr_region_list"
  if (type ~ /^Hlr/) return tolower(snake(type))
  return (type ~ /^u/ ? "uint" : "int") substr(type, 2) "_t"
}

# a parameter of the sources, as C has it: what is behind a reference that isn't `mut` is const, and a slice has a count
function c_parameter(text,   name, type, behind) {
  name = type = text; sub(/: .*/, "", name); sub(/^[^:]*: /, "", type)
  if (type !~ /^&/) return c_type(type) " " name
  behind = type ~ /^&mut / ? "" : "const "
  sub(/^&(mut )?/, "", type)
  if (type !~ /^\[/) return behind c_type(type) " *" name
  sub(/^\[/, "", type); sub(/\]$/, "", type)
  if (sub(/; CELLS as usize$/, "", type)) return behind c_type(type) " " name "[HLR_CELLS]"
  return behind c_type(type) " *" name ", size_t " name "_count"
}

function call(text, result, refusals,   name, count, list, i, parameters) {
  name = text; sub(/\(.*/, "", name); sub(/.* /, "", name)
  sub(/^[^(]*\( */, "", text); sub(/,? *\).*/, "", text)
  count = split(text, list, / *, */)
  for (i = 1; i <= count; i++)
    # the allocator is no parameter for C
    if (list[i] !~ /^alloc: /) parameters = parameters (parameters ? ", " : "") (list[i] ~ /: / ? c_parameter(list[i]) : list[i])
  print result " " name "(" parameters "): " (refusals ? refusals : "none")
}

# of hlr.h, which calls the places of an array that a page goes into its room
/^ \* Refusals: / { listed = substr($0, 14) }
/^[a-z0-9_]+ hlr_[a-z_]*\(/ { declared = ""; result = $1; in_header = 1 }
in_header { gsub(/  +/, " "); declared = declared $0 }
in_header && /;$/ && declared ~ / hlr_(file_[a-z_]*|journal|snapshot|sync|journal_end)\(/ { in_header = 0 }
in_header && /;$/ { sub(/\*rows, size_t room/, "*rows, size_t rows_count", declared); call(declared, result, listed); listed = ""; in_header = 0 }

# of the sources; all but those that open a handle answer NOT_OPEN first
function named(about,   count, words, i, refusals) {
  count = split(about, words, /`/)
  for (i = 2; i <= count; i += 2)
    if (words[i] ~ /^[A-Z]/ && words[i] !~ /^(NOT_OPEN|DONE)$/)
      refusals = refusals (refusals ? ", " : "") (words[i] ~ /[a-z]/ ? snake(words[i]) : words[i])
  return refusals
}
/^\/\/\/ / { about = about " " $0; next }
/^pub extern "C" fn / { declared = ""; in_source = 1 }
in_source { declared = declared " " $0 }
in_source && /\)/ { sub(/ \{$/, ""); call(declared, c_type($NF), named(about)); in_source = 0 }
!/^#\[/ { about = in_source ? about : "" }

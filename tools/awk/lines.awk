# What a line that the script program printed says: explained(line), which is empty where it is no such line. The words of
# the numbers are document 01's.

BEGIN {
    outside = " outside 2 to 36"
    reason[1] = "mantissa radix" outside
    reason[2] = "exponent base" outside
    reason[3] = "exponent radix" outside
    invalid = " not a valid control byte"
    reason[4] = "separator" invalid
    reason[5] = "prefix" invalid
    reason[6] = "suffix" invalid
    reason[7] = "punctuation: fewer than two of the three are 0 and two are equal"
    reason[8] = "exponent flags 6 and 14 both"
    reason[9] = "mantissa sign 4 and 5 both"
    reason[10] = "exponent sign 7 and 8 both"
    reason[11] = "special: 10 with 11 or with 44"
    reason[12] = "consecutive alone: integer"
    reason[13] = "consecutive alone: fraction"
    reason[14] = "consecutive alone: exponent"
    reason[15] = "flags (plain check)"
    reason[16] = "cursor past the end"
    reason[17] = "counts together exceed the cursor"
    reason[18] = "the special reader has no zero skip and no block"
    reason[19] = "unknown kind, or reader byte above 3"
    reason[20] = "record cut short"
    reason[21] = "out of turn: call before an accepted open; text or open after one"
    reason[22] = "text full"
    split("text,open,peek,take,read,zero skip,block", kind_name, ",")
}

function named(kind) { return kind_name[kind + 1] }

function numbered(number) { return number ": " reason[number] }

function explained(line,    field) {
    split(line, field, " ")
    if (line ~ /^!(19|20|21|22)$/) return "stopped, " numbered(substr(line, 2))
    if (line == "1 0") return "open: accepted"
    if (line ~ /^1 ([1-9]|1[0-5])$/) return "open refused, " numbered(field[2])
    if (line ~ /^[2-6] !1[2-8]$/) return named(field[1]) " refused, " numbered(substr(field[2], 2))
    if (line == "6 none") return "block: none, the reader has flags"
    if (line ~ /^[2-6] (-|[0-9]+) [0-9]+ [0-9]+ [0-9]+$/ && found(field[1], field[2]) != "")
        return named(field[1]) ": " found(field[1], field[2]) "; cursor " field[3] ", " field[4] " taken, " field[5] " passed"
    return ""
}

# What stands in the byte's place.
function found(kind, shown) {
    if (kind == 6) return shown == "-" ? "a block" : ""
    if (kind == 5) return shown == "-" ? "" : shown (shown == 1 ? " zero" : " zeros")
    if (shown == "-") return kind == 4 ? "declined or the end" : "the end"
    return shown > 255 ? "" : "byte " shown " " character(shown)
}

function character(byte) {
    return byte >= 32 && byte <= 126 ? sprintf("'%c'", byte + 0) : sprintf("(0x%02X)", byte)
}

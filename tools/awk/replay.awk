# Turns recorded scripts into shell commands: each script's input and expected output into files in "$work", then
# 'replay NAME'; where the input has several pieces, a function 'pieces' that gives them, then 'replay_pieces NAME'.
# Bytes become octal escapes for printf, since awk cannot be trusted with a byte 0.

BEGIN {
    for (value = 0; value < 256; value++) octal[sprintf("%02X", value)] = sprintf("\\%03o", value)
}

function quoted(text) {
    gsub(/'/, "'\\''", text)
    return "'" text "'"
}

function mistake(reason) {
    printf "replay: line %d: %s\n", NR, reason > "/dev/stderr"
    mistakes = 1
}

# The escapes of bytes in hexadecimal with blanks between them.
function escapes(bytes,    list, count, i, result) {
    count = split(bytes, list, " ")
    for (i = 1; i <= count; i++) {
        if (!(list[i] in octal)) mistake("not a byte: " list[i])
        result = result octal[list[i]]
    }
    return result
}

function times(text, count,    result) {
    for (; count > 0; count = int(count / 2)) {
        if (count % 2) result = result text
        text = text text
    }
    return result
}

# What stands in the brackets of a repeat 'N*(..)'.
function inner(repeat) {
    sub(/^[0-9]+\*\(/, "", repeat)
    sub(/\)$/, "", repeat)
    return repeat
}

# The escapes of bytes and of repeats of them.
function expanded(line,    repeat, result) {
    while (match(line, /[0-9]+\*\([0-9A-F ]*\)/)) {
        repeat = substr(line, RSTART, RLENGTH)
        result = result escapes(substr(line, 1, RSTART - 1))
        line = substr(line, RSTART + RLENGTH)
        result = result times(escapes(inner(repeat)), repeat + 0)
    }
    return result escapes(line)
}

# The next piece's first bytes, or more of this one's.
function give(line) {
    if (pieces == 0 || lines[pieces] > 0) {
        input[++pieces] = ""
        lines[pieces] = 0
    }
    input[pieces] = input[pieces] expanded(line)
}

# A line of output, or one that is repeated.
function expect(line,    count) {
    if (pieces == 0) mistake("output stands before any input")
    count = 1
    if (line ~ /^[0-9]+\*\(.*\)$/) {
        count = line + 0
        line = inner(line)
    }
    lines[pieces] += count
    if (count > 0) output = output times(line "\n", count)
}

function finish(    i) {
    if (name == "") return
    print "printf '%s' " quoted(output) " >\"$work/expected\""
    if (pieces > 1) {
        print "pieces() {"
        for (i = 1; i < pieces; i++) print "printf '" input[i] "' >&3 && lines " lines[i] " || return"
        print "printf '" input[pieces] "' >&3\n}\nreplay_pieces " quoted(name)
    } else {
        print "printf '" input[1] "' >\"$work/input\"\nreplay " quoted(name)
    }
    name = ""
}

/^# / { finish(); name = substr($0, 3); pieces = 0; input[1] = output = ""; next }
/^$/ { next }
name == "" { mistake("stands before any name"); next }
/^<$/ { give(""); next }
/^< / { give(substr($0, 3)); next }
/^> / { expect(substr($0, 3)); next }
{ mistake("begins with none of '# ', '< ', '> '") }

END { finish(); exit mistakes }

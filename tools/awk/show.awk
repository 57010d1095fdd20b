# The statements of a script beside their answers. First file: what the program printed. Second: the statements, as
# assemble.awk writes them. The bytes are cut into records as the program does it, so that raw bytes are told right too.

BEGIN {
    split("1 16 1 1 2 1 5", body, " ")
    MOST_TEXT = 4096
    WIDEST = 40
}

# Of the first file. It may be empty, so the second is told by its tabs.
!/\t/ { answer[++answers] = $0; next }

{
    split($0, part, "\t")
    source[++statements] = part[3]
    if (length(part[3]) > width) width = length(part[3])
    for (i = 1; i < length(part[2]); i += 4) {
        byte[++bytes] = substr(part[2], i + 1, 1) * 64 + substr(part[2], i + 2, 1) * 8 + substr(part[2], i + 3, 1)
        owner[bytes] = statements
    }
}

# Whether a record prints nothing: text in its turn.
function is_silent(place) {
    return byte[place] == 0 && place < bytes && !opened && texts < MOST_TEXT
}

# The place behind the record at a place; its answer goes to the statement in which it begins.
function run_record(place,    line) {
    begun[owner[place]] = 1
    if (is_silent(place)) texts++
    else {
        line = used < answers ? answer[++used] : "(nothing printed)"
        lines[owner[place]] = lines[owner[place]] line "\n"
        if (line == "1 0") opened = 1
        if (line ~ /^!/ || line ~ /^\(/) stopped = 1
    }
    return place + 1 + (byte[place] < 7 ? body[byte[place] + 1] : 0)
}

function print_line(left, line) {
    printf "%-" width "s   %-12s %s\n", left, line, explained(line)
}

function print_statement(i,    list, count, j) {
    count = split(lines[i], list, "\n")
    if (lines[i] == "") {
        if (begun[i] || !(i in start)) print source[i]
        else printf "%-" width "s   %s\n", source[i], start[i] < place ? "within the record before" : "not reached"
    }
    for (j = 1; j < count; j++) print_line(j == 1 ? source[i] : "", list[j])
}

END {
    if (width > WIDEST) width = WIDEST
    for (i = bytes; i >= 1; i--) start[owner[i]] = i
    for (place = 1; place <= bytes && !stopped; ) place = run_record(place)
    for (i = 1; i <= statements; i++) print_statement(i)
    while (used < answers) print_line("(no statement)", answer[++used])
}

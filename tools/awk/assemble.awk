# Readable statements to bytes: for each statement a line of its line number, its bytes as octal escapes, and its source,
# with tabs between them. tools/script says what statements there are.

BEGIN {
    for (value = 1; value < 256; value++) code[sprintf("%c", value)] = value
    for (value = 0; value < 256; value++) {
        hexadecimal[sprintf("%02X", value)] = value
        hexadecimal[sprintf("%02x", value)] = value
    }
    split("integer fraction exponent special", name, " ")
    for (i = 1; i <= 4; i++) reader_of[name[i]] = i - 1
    kind_of["peek"] = 2; kind_of["take"] = 3; kind_of["read"] = 4; kind_of["zeros"] = 5; kind_of["block"] = 6
    arguments_of["peek"] = 2; arguments_of["take"] = 2; arguments_of["zeros"] = 2
    arguments_of["read"] = 3; arguments_of["block"] = 3
    shift_of["I"] = 32; shift_of["L"] = 35; shift_of["T"] = 38; shift_of["C"] = 41
    number_at["radix"] = 104; number_at["exponent-base"] = 112; number_at["exponent-radix"] = 120
    byte_at["separator"] = 64; byte_at["prefix"] = 88; byte_at["suffix"] = 96
    ONE_BYTE = "one character or 0xNN (a blank and # between quotes)"
}

# Of the mistakes in a line the first is told.
function mistake(reason) {
    if (told != NR) printf "script: line %d: %s\n", NR, reason > "/dev/stderr"
    told = NR
    mistakes = 1
}

function emit(value) { bytes = bytes sprintf("\\%03o", value) }

function is_number(text, most) { return text ~ /^[0-9]+$/ && length(text) <= 10 && text + 0 <= most }

# Cuts the line into word[1], word[2], .. up to a comment; contents[i] has the bytes of one between quotes, as numbers with
# blanks around them.
function cut(line,    rest, end) {
    words = 0
    rest = line
    for (;;) {
        sub(/^[ \t]+/, "", rest)
        if (rest == "" || rest ~ /^#/) {
            source = substr(line, 1, length(line) - length(rest))
            return
        }
        words++
        if (rest ~ /^"/) {
            rest = cut_quoted(substr(rest, 2))
        } else {
            end = match(rest, /[ \t]/) ? RSTART : length(rest) + 1
            word[words] = substr(rest, 1, end - 1)
            is_quoted[words] = 0
            rest = substr(rest, end)
        }
    }
}

# What follows the quote at the end; word[words] is how the word would look for a message.
function cut_quoted(rest,    start, escape) {
    start = rest
    is_quoted[words] = 1
    contents[words] = " "
    while (rest != "" && rest !~ /^"/) {
        if (rest !~ /^\\/) {
            contents[words] = contents[words] code[substr(rest, 1, 1)] " "
            rest = substr(rest, 2)
        } else if (rest ~ /^\\["\\]/) {
            contents[words] = contents[words] code[substr(rest, 2, 1)] " "
            rest = substr(rest, 3)
        } else {
            escape = substr(rest, 3, 2)
            if (rest !~ /^\\x/ || !(escape in hexadecimal)) mistake("between quotes, \\ wants \", \\ or xNN behind it")
            else contents[words] = contents[words] hexadecimal[escape] " "
            rest = substr(rest, 5)
        }
    }
    if (rest == "") mistake("no quote at the end")
    word[words] = "\"" substr(start, 1, length(start) - length(rest)) "\""
    rest = substr(rest, 2)
    if (rest ~ /^[^ \t]/) mistake("a blank is wanted behind the quote at the end")
    return rest
}

# The byte that a word stands for, or -1.
function byte_of(i,    list) {
    if (i > words) return -1
    if (is_quoted[i]) return split(contents[i], list, " ") == 1 ? list[1] : -1
    if (length(word[i]) == 1) return code[word[i]]
    if (word[i] ~ /^0x/ && substr(word[i], 3) in hexadecimal) return hexadecimal[substr(word[i], 3)]
    return -1
}

# Bytes in hexadecimal from word[first] on, each behind a byte 0 where they are text.
function emit_hexadecimal(first, are_text,    i) {
    if (first > words) mistake("bytes are wanted, in hexadecimal")
    for (i = first; i <= words; i++) {
        if (is_quoted[i] || !(word[i] in hexadecimal)) { mistake("not a byte of two hexadecimal digits: " word[i]); return }
        if (are_text) emit(0)
        emit(hexadecimal[word[i]])
    }
}

function text(    i, count, list) {
    if (words < 2) mistake("text wants bytes")
    else if (!is_quoted[2] && word[2] == "hex") emit_hexadecimal(3, 1)
    else if (words > 2) mistake("text with a blank in it stands between quotes")
    else if (is_quoted[2]) {
        count = split(contents[2], list, " ")
        for (i = 1; i <= count; i++) { emit(0); emit(list[i]) }
    } else
        for (i = 1; i <= length(word[2]); i++) { emit(0); emit(code[substr(word[2], i, 1)]) }
}

function set_byte(position, number,    i) {
    for (i = 0; i < 8; i++) if (int(number / 2 ^ i) % 2) bit[position + i] = 1
}

function emit_word(    i, j, sum) {
    for (i = 0; i < 128; i += 8) {
        sum = 0
        for (j = 0; j < 8; j++) if ((i + j) in bit) sum += 2 ^ j
        emit(sum)
    }
}

function open(    i) {
    for (i in bit) delete bit[i]
    for (i in given) delete given[i]
    emit(1)
    if (words < 2) { mistake("open wants a separator, settings, or 'word HI LO'"); return }
    if (word[2] == "word") { any_word(); return }
    i = 2
    if (byte_of(2) >= 0) {
        set_byte(64, byte_of(2))
        given["separator"] = 1
        i = 3
    }
    while (i <= words && told != NR) i = setting(i)
    emit_word()
}

# One setting of an open; where the next begins.
function setting(i,    what) {
    what = word[i]
    if (what in given && what != "flag") mistake(what " is given twice")
    given[what] = 1
    if (what == "special") { bit[44] = 1; return i + 1 }
    if (what == "integer" || what == "fraction" || what == "exponent") set_flags(what, i + 1)
    else if (what in number_at) {
        if (is_number(word_at(i + 1), 255)) set_byte(number_at[what], word[i + 1])
        else mistake(what " wants a number from 0 to 255")
    } else if (what in byte_at) {
        if (byte_of(i + 1) >= 0) set_byte(byte_at[what], byte_of(i + 1))
        else mistake(what " wants " ONE_BYTE)
    } else if (what == "flag") {
        if (is_number(word_at(i + 1), 127)) bit[word[i + 1] + 0] = 1
        else mistake("flag wants a number from 0 to 127")
    } else mistake("no setting of an open: " what)
    return i + 2
}

function word_at(i) { return i > words || is_quoted[i] ? "" : word[i] }

function set_flags(reader, i,    flags, j, letter, position) {
    flags = word_at(i)
    if (flags !~ /^[ILTC]+$/) mistake(reader " wants letters of I, L, T, C")
    for (j = 1; j <= length(flags); j++) {
        letter = substr(flags, j, 1)
        position = shift_of[letter] + reader_of[reader]
        if (position in bit) mistake(letter " is given twice")
        bit[position] = 1
    }
}

# 'word HI LO': the lower half comes first, its lowest byte first.
function any_word(    half, i, digits) {
    if (words != 4) mistake("open word wants two halves, HI LO")
    for (half = 4; half >= 3 && told != NR; half--) {
        digits = toupper(word_at(half))
        sub(/^0X/, "", digits)
        if (digits !~ /^[0-9A-F]+$/ || length(digits) > 16) {
            mistake("not a half of up to 16 hexadecimal digits: " word[half])
            return
        }
        while (length(digits) < 16) digits = "0" digits
        for (i = 15; i >= 1; i -= 2) emit(hexadecimal[substr(digits, i, 2)])
    }
}

function call(    what) {
    what = word[1]
    emit(kind_of[what])
    if (words != arguments_of[what]) {
        mistake(what " wants " (what == "read" ? "a reader and a byte" : what == "block" ? "a reader and a count" : "a reader"))
        return
    }
    if (word_at(2) in reader_of) emit(reader_of[word[2]])
    else if (is_number(word_at(2), 255)) emit(word[2])
    else mistake("no reader: " word[2] " (integer, fraction, exponent, special or a number from 0 to 255)")
    if (what == "read") {
        if (byte_of(3) >= 0) emit(byte_of(3))
        else mistake("read wants " ONE_BYTE ", not " word[3])
    }
    if (what == "block") emit_count(word_at(3))
}

function emit_count(count,    i) {
    if (!is_number(count, 4294967295)) { mistake("block wants a count from 0 to 4294967295"); return }
    for (i = 0; i < 4; i++) { emit(count % 256); count = int(count / 256) }
}

{
    sub(/\r$/, "")
    bytes = ""
    cut($0)
    if (words == 0) next
    if (is_quoted[1]) mistake("no statement: " word[1])
    else if (word[1] == "text") text()
    else if (word[1] == "open") open()
    else if (word[1] == "bytes") emit_hexadecimal(2, 0)
    else if (word[1] in kind_of) call()
    else mistake("no statement: " word[1] " (text, open, peek, take, read, zeros, block or bytes)")
    gsub(/\t/, " ", source)
    sub(/^ +/, "", source)
    sub(/ +$/, "", source)
    printf "%d\t%s\t%s\n", NR, bytes, source
}

END { exit mistakes }

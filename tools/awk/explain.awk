# Each line followed by what it says (lines.awk). The exit status is 1 where a line is none that the program prints.

{
    words = explained($0)
    if (words == "") { words = "no line of an answer"; status = 1 }
    printf "%-12s %s\n", $0, words
}

END { exit status }

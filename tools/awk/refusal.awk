# What rt says of each must-fail edit, as a line 'edit NAME/LABEL: refused, first at PLACE' where a fact fails, and else
# 'edit NAME/LABEL: FAILED: WHY', with the prover's further lines below it.
#
# rt tells the first line of the prover that says more than that a proof file names what is gone. A fact fails where that is a goal
# that is not proved, or an answer that does not prove its goal. A text of src/ or specs/ that cannot be read, or an answer that names
# what is not there, shows that the text has another form, and nothing about what it answers. So does a goal without an answer that is
# not proved, where it has a name that the crate without the edit does not know, unless values are found at which it is false.
#
# 'goals' is a file of lines 'CRATE GOAL', the goals that the crates have without an edit (tools/goals).

BEGIN {
    intro = "rt: must-fail "
    well = "refused, as it must be"
    gone = "has no ([a-z]+ )*`|that can be named from here|is not in scope|is no name|was not admitted|[(]nearest: |record `[^`]*`$"
    while ((getline line < goals) > 0) is_goal[line] = 1
}

# is_known CRATE WORDS: the goal that the words name in brackets, of which a clause may be meant, is one of the crate's
function is_known(crate, words) {
    if (!match(words, /\(`[^`]*`/)) return 0
    words = substr(words, RSTART + 2, RLENGTH - 3)
    sub(/-clause-.*/, "", words)
    return (crate " " words) in is_goal
}

# is_fact CRATE PLACE IS_NOTE WORDS
function is_fact(crate, place, is_note, words) {
    if (is_note) return words ~ /^it is not proved/ && (is_known(crate, words) || words ~ /the facts known there allow values/)
    return place ~ /^proofs\// && words ~ /^error: / && words !~ gone
}

# judged CRATE SAID: what rt's words about an edit come to
function judged(crate, said,    place, words, is_note) {
    if (index(said, well) != 1) return "FAILED: " said
    said = substr(said, length(well) + 1)
    if (!match(said, /^: (note: )?(\.\/)?[^ ]+\.(antt|rt):[0-9]+:[0-9]+: /)) return "FAILED: refused without a fact that fails" said
    place = substr(said, 3, RLENGTH - 4)
    words = substr(said, RLENGTH + 1)
    is_note = sub(/^note: /, "", place)
    sub(/^\.\//, "", place)
    return is_fact(crate, place, is_note, words) ? "refused, first at " place : "FAILED: refused for its form, at " place ": " words
}

match($0, /^rt: must-fail [^ ]+\.edit: /) {
    label = substr($0, length(intro) + 1, RLENGTH - length(intro ".edit: "))
    verdict = judged(substr(label, 1, index(label, "/") - 1), substr($0, RLENGTH + 1))
    print "edit " label ": " verdict
    next
}
verdict ~ /^FAILED/ && /^(\.\/)?(src|specs|proofs)\// { print "    " $0; next }
{ verdict = "" }

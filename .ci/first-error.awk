# Why the prover refused a must-fail edit: the first error, and whether that is a fact that does not hold. Run in the C locale on the edit and on all that
# rt check says of it, or, with -v short=1, on what rt ci and rt must-fail say of it in a line: the start of one error, which need not be the first.
# Prints 'fact' or 'no fact', then a tab, and what failed; of a line also 'look' where it tells too little, or 'told' and the line where it is no refusal.

# The edit: which files it changes. A proof file of these only follows the code, as where a goal has a number of the code in its name.
FNR == NR { if (sub(/^file: /, "") && !/^proofs\//) edited[$0] = 1; next }

short {
    told = $0
    if (sub(/^refused, as it must be/, "")) refused = 1
    if (/^ \(only because a proof file names what the edit took away/) unfit = 1
    if (/^ \(only by a limit of the prover/) limited = 1
    sub(/^( \(only [^()]*\))?:? ?/, "")
    if (refused && $0 != "") first = text = plain($0)
    exit
}

/^logic=not-proved/ { refused = 1 }

# the first error and the lines that go on with it, which are indented; what waits on another error comes from that
first != "" && !whole && /^  / { text = text substr($0, 2); next }
{ whole = first != "" }
waits($0) { next }
/^fn .*: no proof: it calls / { next }
/^fn .*: no proof: / { if (first == "") first = text = $0; next }
/^(note: )?(\.\/)?(src|specs|proofs)\/[^ ]*:[0-9]+:[0-9]+: (error|it is not proved that )/ {
    if (first == "") first = text = plain($0)
    if (untrue == "" && /the facts known there allow values at which this goal is false/) untrue = plain($0)
    # a goal that is not proved may be one that a proof file answers under the name that it had
    if (misfit == "" && /^(\.\/)?proofs\// && (names_what_is_gone(said_in($0)) || is_not_bound(said_in($0)))) misfit = plain($0)
}

# whether an error only says that something else has to be mended first
function waits(line) { return line ~ /: error: .*( was not admitted|[0-9] declarations? that depends? on )/ }

# an error without what stands before its file
function plain(line) { sub(/^note: /, "", line); sub(/^\.\//, "", line); return line }

# an error without its place and the name of what it is in
function said_in(line) { sub(/^[^ ]*: error: (`[^`]*`: )?/, "", line); return line }

function names_what_is_gone(said) {
    return said ~ /^(`[^`]*`: )?module `[^`]*` has no `|^record `[^`]*` has no field |^`[^`]*` is not a field of /
}
function is_not_bound(said) { return said ~ /^`[^`]*` is not in scope/ }

# A type of data, by its looks: a name alone, a list, a universe, or a function to one of these. A fact is of something, or is ⊥.
function data(type,    parts, n) {
    n = split(type, parts, / → /)
    type = parts[n]
    return type ~ /^([^ ]*\.)?(List|Type) / || (type !~ / / && type !~ /⊥$/ && !goal(type))
}

# what a function owes, by its name
function goal(type) { return type ~ /^(goal|[^ ]*\.Goals)\.[^ ]*( |$)/ }

# what stands in backquotes behind some words
function quoted(words,    i, s) {
    i = index(text, words " `")
    if (!i) return ""
    s = substr(text, i + length(words) + 2)
    return substr(s, 1, index(s, "`") - 1)
}

# Two types or values that differ are facts, unless one is a type of data, or the proof file hands over one goal for another.
function differ(    expected, found) {
    expected = quoted("expected type")
    found = quoted("this has type")
    if (goal(expected) && goal(found)) return "the proof file no longer fits the code"
    if (found != "" && (data(expected) || data(found))) return "an ill-typed expression"
    if ((file in edited) && expected !~ /≡/) return "an ill-typed expression of the edit"
    return ""
}

# the empty text where a fact does not hold, otherwise what is wrong instead
function fault(    said) {
    if (first ~ /^fn /) return "there is no proof file for this code"
    # a goal that is false is one, whatever becomes of the others; but its loop's invariant may be gone
    if (misfit != "" && untrue != "" && misfit !~ /Invariants\.antt:/ && (first == misfit || first ~ /^[^ ]*: it is not proved that /)) {
        first = untrue
        return ""
    }
    if (first ~ /^[^ ]*: it is not proved that /) {
        if (misfit == "") return ""
        first = misfit
        return "the proof file no longer fits the code"
    }
    if (file ~ /^src\//) return "the contract that the edit writes is ill-formed"
    said = said_in(text)
    if (names_what_is_gone(said)) return "the proof file no longer fits the code"
    if (is_not_bound(said)) return "a name that is not bound"
    if (said ~ /^`omega`: the goal does not follow |^`search`: no proof of |^`cc`: the equations do not join |^`rw`: no part of the goal /) return ""
    if (said ~ /^give a proof of that as the last argument, /) return ""
    # an end of a path, or an index that a constructor gives, is another value than the goal's
    if (said ~ /^on the face `[^`]*` this λ's body is `[^`]*`, but the extension \(path\) type/) return ""
    if (said ~ /^this `[^`]*` lands at index `[^`]*` \(position [0-9]+\) but the expected type /) return ""
    if (said ~ /^expected type `|^(as printed|computed as far as they go), the two (types|values|indices) /) return differ()
    return "not known as the failure of a fact"
}

# Whether a line tells too little: a goal that was left, for whatever reason; an error in what the edit wrote, or in a definition, of which the types
# are wanted; or one that is cut before its types end.
function tells_too_little(    said) {
    if (first !~ /: error: / || waits(first) || file !~ /^proofs\// || file in edited) return 1
    said = said_in(first)
    return said ~ /^expected type `/ && said !~ /^expected type `[^`]*`, but this has type `[^`]*`/
}

# the start of a line, no character cut; the log has it whole
function cut(line) {
    if (length(line) <= 160) return line
    line = substr(line, 1, 160)
    sub(/[\300-\377][\200-\277]*$/, "", line)
    return line " …"
}

END {
    file = first
    sub(/:.*/, "", file)
    if (short && !refused) { print "told\t" told; exit }
    if (!refused) why = "it did not come to the prover, or was not refused"
    else if (unfit) why = "the proof file no longer fits the code"
    else if (limited) why = "a limit of the prover, which gave no verdict"
    else if (short && tells_too_little()) { print "look\t" first; exit }
    else why = first == "" ? "no error is told" : fault()
    print (why == "" ? "fact\t" : "no fact\t" why (first == "" ? "" : ": ")) cut(first)
}

# What a verdict means, in words, for the script solutions. It is given the `verdict`, the `rule` of its number where it is a refusal, and the lines of the
# solution, the position first, as `sed -n l` shows them: broken by a backslash where they are long, and with a dollar sign at their end.

function tell(what) { print "    " what }

function show(what, text) {
    tell(what ": '" (length(text) > 90 ? substr(text, 1, 88) ".." : text) "'")
    if (text ~ /(^|[^\\])(\\\\)*\\r$/) tell("the \\r at its end is a carriage return: a newline alone ends a line")
}

function man(letter) {
    split("pawn knight bishop rook queen king", men, " ")
    return men[index("PNBRQK", letter)]
}

function file_of(square) { return index("abcdefgh", substr(square, 1, 1)) }

# The letter of the man on a square of the position, in capitals.
function letter_on(square) {
    split(position[1], ranks, "/")
    rank = ranks[9 - substr(square, 2, 1)]
    for (n = 1; n <= 8; n++) gsub(n, substr("........", 1, n), rank)
    return toupper(substr(rank, file_of(square), 1))
}

# A retraction as the move that it takes back, in the words of step.
function move(fields, taken, mark) {
    split(lines[0], position, " ")
    source = substr(fields, 1, 2)
    target = substr(fields, 3, 2)
    letter = letter_on(source)
    files = file_of(source) - file_of(target)
    words = (position[2] == "b" ? "White's " : "Black's ") man(mark == "=" ? "P" : letter) " from " target " to " source
    if (taken != ".") words = words ", taking a " man(taken)
    else if (letter == "P" && files != 0) words = words ", taking en passant"
    else if (letter == "K" && files * files > 1) words = words ", castling"
    return words (mark == "=" ? ", becoming a " man(letter) : "")
}

function complete() {
    if (count == 0) tell("no line: there is no last move, as claimed")
    else if (count == 1) tell("1 line, and it is exactly the strict list")
    else tell(count " lines, and they are exactly the strict list")
}

function wrong(number) {
    show("line " number " below the position", lines[number])
    for (n = 1; n < number; n++)
        if (lines[n] == lines[number]) {
            tell("it repeats line " n)
            return
        }
    tell("it is not in the strict list: that cannot have been the last move")
}

function incomplete(fields, taken, mark) {
    if (count == 0) tell("no line: this claims that there is no last move, but there is one")
    else if (count == 1) tell("the one line is right")
    else tell("all " count " lines are right")
    tell("the first that is missing: " move(fields, taken, mark))
}

function refused(number, line) {
    tell(rule)
    if (number == 23) {
        show("line " line " below the position", lines[line])
        tell("a line has eight bytes, such as 'd6e5 P .' or 'd8e7 N ='; solutions -h says more")
    } else if (number != 24) show("the position", lines[0])
}

{ line = line substr($0, 1, length($0) - 1) }
/\\$/ { next }
{
    lines[all++] = line
    line = ""
}

END {
    count = all - 1
    split(verdict, word, " ")
    if (word[1] == "complete") complete()
    if (word[1] == "wrong") wrong(word[2])
    if (word[1] == "incomplete") incomplete(word[2], word[3], word[4])
    if (word[1] == "refused") refused(word[2], word[3])
}

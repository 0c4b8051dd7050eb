# explain.awk: reads an application and writes where its refusal is, as `explain.sh` says. The refusal comes in the environment: number, offset,
# path and file.

# The meaning of the refusal, for a place that is the end of the text, or at the end of a line, or in it.
function meaning(number, at_end, at_line_end, byte) {
    if (number == 0) return "something that is not built yet"
    if (number == 1) return at_line_end ? "a text that does not end on its line" : "a byte that is not allowed here"
    if (number == 2) return at_end ? "the text ends inside of a form or of a text" : "a ) too many"
    if (number == 3) return "forms nest deeper than 64"
    if (number == 4) return "a number outside of 64 bits with a sign"
    if (number == 5) return "this symbol heads nothing here"
    if (number == 6) return "this form is wrong: what it is, how many parts it has, a part of it, or a key"
    if (number == 7) return "this name stands twice in its space, or is kept for the language"
    if (number == 8) return "this name is not declared"
    if (number == 9) return "user types or command tables in a ring; this is the first declaration on it"
    if (number == 10) return "an opening value, a default, an :else or a predicate of this declaration reads a slot"
    if (number == 11) return "the :cache-value of this form does not cover " ENVIRON["path"] ", which its body reads"
    if (number == 12) return "this value traps, or is not of its type"
    if (number == 13) return at_end ? "the text is too long" : "one more than the limit, or too long"
    if (number == 14) return at_end ? "there is no frame" : "a second frame, of another name"
    if (number == 15) return "the screen is too large, or a side is below 1, or this pane leaves the screen or overlaps an earlier one"
    if (number == 16) return "the program hands in no host type of this name"
    return "docs/language.md does not know this number"
}

# A line as it is shown: control bytes would move the cursor.
function shown(line) {
    sub(/\r$/, "", line)
    gsub(/\r/, " ", line)
    gsub(/[^\t\040-\176\200-\377]/, "?", line)
    return line
}

# Spaces that are as wide as a piece of a line: a tab stays, and a byte that goes on a character has no width.
function blank(piece) {
    gsub(/[\200-\277]/, "", piece)
    gsub(/[^\t]/, " ", piece)
    return piece
}

# Writes a place with what is said of it, its line, and a mark under it. Of a long line the part around the place is shown.
function tell(row, column, words,    line, from, to, head, tail) {
    line = shown(lines[row])
    from = column > MOST / 2 && length(line) > MOST ? int(column - MOST / 2) : 1
    to = from + MOST - 1
    while (from > 1 && substr(line, from, 1) ~ /[\200-\277]/) from--
    head = from > 1 ? "..." : ""
    tail = to < length(line) ? "..." : ""
    printf "%s:%d:%d: %s\n", ENVIRON["file"], row, column, words
    printf "%s%s%s\n", head, substr(line, from, to - from + 1), tail
    printf "%s%s^\n", blank(head), blank(substr(line, from, column - from))
}

# Looks through the forms of a line up to a column, past texts and comments. `first_row` and `first_column` are the place of the outermost form
# that is open. `wrong_row` and `wrong_column` are the place where a declaration, or a form in column 1, begins inside of it; there the
# look ends.
function look_through(row, last,    line, at, byte) {
    line = lines[row]
    at = 1
    while (at <= last && wrong_row == 0 && match(substr(line, at), /[();"]/)) {
        at += RSTART - 1
        if (at > last) return
        byte = substr(line, at, 1)
        if (byte == ";") return
        if (byte == "\"") at = text_end(row, line, at)
        else if (byte == ")") depth--
        else open_form(row, line, at)
        at++
    }
}

# The place of the `"` that ends the text that begins there, or a place behind the line.
function text_end(row, line, at,    byte) {
    text_row = row
    text_column = at
    for (at++; at <= length(line); at++) {
        byte = substr(line, at, 1)
        if (byte == "\\") at++
        else if (byte == "\"") {
            text_row = 0
            return at
        }
    }
    return at
}

# A `(` opens a form there.
function open_form(row, line, at) {
    if (depth == 0) {
        first_row = row
        first_column = at
    } else if (at == 1 || substr(line, at) ~ /^\([ \t]*[dD][eE][fF][iI][nN][eE]-/) {
        wrong_row = row
        wrong_column = at
        return
    }
    depth++
}

# Says where the form begins that is most likely not closed, looking as far as a place. Where the text does not end there, it says so only if
# another form begins inside of it as no form does.
function tell_unclosed(row, column, at_end,    i) {
    for (i = 1; i < row && wrong_row == 0; i++) look_through(i, length(lines[i]))
    if (wrong_row == 0) look_through(row, column)
    if (wrong_row > 0) tell(first_row, first_column, "most likely this form is not closed; another one begins in it at " wrong_row ":" wrong_column)
    else if (at_end && text_row > 0) tell(text_row, text_column, "this text is not closed")
    else if (at_end && depth > 0) tell(first_row, first_column, "this form is not closed")
}

BEGIN {
    MOST = 140
    number = ENVIRON["number"] + 0
    offset = ENVIRON["offset"] + 0
    place_row = 0
}

{
    lines[NR] = $0
    if (place_row == 0 && offset <= start + length($0)) {
        place_row = NR
        place_column = offset - start + 1
    }
    start += length($0) + 1
}

END {
    at_end = place_row == 0
    if (at_end) {
        place_row = NR + 1
        place_column = 1
        lines[place_row] = ""
    }
    line = lines[place_row]
    behind = place_column > length(line)
    at_end = at_end || (place_row == NR && behind) || offset == 1048576
    at_line_end = behind || substr(line, place_column) == "\r"
    tell(place_row, place_column, "refused " number ": " meaning(number, at_end, at_line_end))
    if (number == 2 && at_end) tell_unclosed(place_row, place_column, 1)
    if (number == 5 && tolower(substr(line, place_column)) ~ /^define-/) tell_unclosed(place_row, place_column, 0)
}

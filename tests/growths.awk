# Judges a run of rows in which memory was refused, for tests/growths.sh:
#   awk -v how=alone|all -v refused=N -v status=N -f tests/growths.awk growths.rows DUE PUT
# DUE has the answers of all rows of growths.rows with ample memory, in their order, and PUT what
# the run printed. Tells why PUT may not be, and ends with status 1; or tells which row wanted
# memory and `own`, where that is told by the call's own answer, or `failed` where the row says so.
#
# growths.rows has a line for each row: its name, how want of memory may be told, and what belongs
# to that, with a TAB between each two. In each text `|` is the end of a line.
# - `either TEXT..`: one of these is all that is told. `%` stands for a digit from 0 to 4.
# - `ended LINE..`: one of these comes in the place of the first line, and after it a front of what
#   is due after that. `#` stands for the number of bytes of this front.
# - `lines OLD NEW [NONE]`: in a line of what is due, NEW stands for OLD where that line hasn't come
#   before; what comes after it is as due. Where OLD ends in a star, NEW stands for a line that it
#   begins. NONE is the last line where each line before it wanted memory.
# - `alone`: no want of memory is told by the call.
# In each row `failed Memory` may come after a front of the lines that are due.
BEGIN { FS = "\t" }

FILENAME == ARGV[1] {
    if ($0 ~ /^#/ || $0 == "") next
    name[++rows] = $1
    rule[$1] = $0
    next
}

{
    at = index($0, ": ")
    row = substr($0, 1, at - 1)
    text = substr($0, at + 2)
    if (FILENAME == ARGV[2]) {
        if (row in due) text = due[row] "\n" text
        due[row] = text
        next
    }
    if (row != name[puts]) {
        if (row != name[++puts]) refuse("a line of another row than comes next: " $0)
    }
    if (row in put) text = put[row] "\n" text
    put[row] = text
}

END {
    if (failed) exit 1
    judge()
    if (wanting != "") print wanting, word
    else print puts < rows ? "reading" : "due"
}

function refuse(text) {
    if (!failed) print text
    failed = 1
    exit 1
}

# The run: each row is as due, but for one that wants memory; where memory is wanting from there
# on, no row comes after that. It may end with status 1 where the next row can't be read.
function judge(    i, times) {
    for (i = 1; i <= puts; i++) {
        row = name[i]
        if (put[row] == due[row]) continue
        times = wants(row)
        if (!times) refuse("a row is answered as it may not be: " row)
        if (wanting != "") refuse("two rows want memory: " wanting " and " row)
        if (how == "alone" && times > 1) refuse("a row wants memory more than once: " row)
        if (how == "all" && i < puts) refuse("a row comes after one that found no memory: " row)
        wanting = row
    }
    if (!refused && (status || wanting != "" || puts < rows))
        refuse("no memory was refused, and the run is another")
    if (status > 1) refuse("the status is " status)
    if (!status && puts < rows) refuse("rows are missing, and the status is 0")
    if (status && how == "alone" && wanting != "")
        refuse("memory is wanting twice: in a row, and where one is read")
}

# How often memory is wanting in the answer to a row, or 0 where it may not be so.
function wants(row,    parts, n, d, p, times) {
    n = split(rule[row], parts, "\t")
    d = due[row]
    p = put[row]
    cut = 0
    word = "own"
    if (p == "failed Memory" || p ~ /\nfailed Memory$/) {
        p = substr(p, 1, length(p) - length("\nfailed Memory"))
        cut = 1
    }
    if (cut && same(p, d)) {
        word = "failed"
        return 1
    }
    if (parts[2] == "either") times = is_told(p, parts, n, 0)
    if (parts[2] == "ended") times = is_ended(p, d, parts, n)
    if (parts[2] == "lines") times = is_in_lines(p, d, parts[3], parts[4], parts[5])
    return times ? times + cut : 0
}

# Whether a text is another one or, of a row that failed, a front of its lines.
function same(text, other) {
    return text == other || cut && (text == "" || index(other "\n", text "\n") == 1)
}

function is_front(text, whole) { return substr(whole, 1, length(text)) == text }

# The number of bytes that a told text stands for.
function bytes_of(text) {
    gsub(/\{tab\}/, "t", text)
    return length(text)
}

# Whether a text is one of those of a rule. The end of the last line isn't told of its front.
function is_told(text, parts, n, front,    i, digit, more, told) {
    for (i = 3; i <= n; i++)
        for (digit = 0; digit < 5; digit++)
            for (more = 0; more < 2; more++) {
                told = parts[i]
                gsub(/\|/, "\n", told)
                gsub(/%/, digit, told)
                sub(/#/, front + more, told)
                if (same(text, told)) return 1
            }
    return 0
}

function is_ended(p, d, parts, n,    at, first, rest) {
    at = index(p "\n", "\n")
    first = substr(p, 1, at - 1)
    rest = substr(p, at + 1)
    return is_front(rest, substr(d, index(d "\n", "\n") + 1)) &&
        is_told(first, parts, n, bytes_of(rest))
}

function is_in_lines(p, d, old, new, none,    lines, found, n, i, count, seen, times) {
    count = split(d, lines, "\n")
    n = split(p, found, "\n")
    if (n > count || !cut && n != count) return 0
    for (i = 1; i <= n; i++) {
        if (found[i] == lines[i]) seen[lines[i]]
        else if (!(lines[i] in seen) && changes(lines[i], old, new, found[i])) times++
        else return none != "" && found[i] == none && i == count && times == i - 1 ? times : 0
    }
    return times
}

# Whether a line has NEW in the place of OLD, or is NEW where OLD ends in a star and begins it.
function changes(line, old, new, found,    at) {
    if (old ~ /\*$/) return is_front(substr(old, 1, length(old) - 1), line) && found == new
    at = index(line, old)
    return at && found == substr(line, 1, at - 1) new substr(line, at + length(old))
}

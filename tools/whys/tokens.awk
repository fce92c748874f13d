# The tokens of a line, and what is wrong with the first part that is none (docs/SCRIPT.md, "Lines and tokens").
#
# A scan leaves `count` tokens: kind[i] is one of word, path, number, text, ( and ), or ? for a part that is no token and so may
# stand for any; part[i] is the part as it stands, from its first byte first[i] on.

function quoted(what) {
  return "`" (length(what) > 60 ? substr(what, 1, 57) "..." : what) "`"
}

function is_word(what) {
  return what ~ /^[A-Za-z][A-Za-z0-9_-]*$/ && length(what) <= 32
}

# Digits that are within 64 bits, with the sign before them.
function is_small(digits, most) {
  return length(digits) < 19 || (length(digits) == 19 && digits "" <= most "")
}

function is_number(what) {
  if (what ~ /^(0|[1-9][0-9]*)$/) return is_small(what, "9223372036854775807")
  return what ~ /^-[1-9][0-9]*$/ && is_small(substr(what, 2), "9223372036854775808")
}

function is_path(what,  dot) {
  dot = index(what, ".")
  return dot && is_word(substr(what, 1, dot - 1)) && is_word(substr(what, dot + 1))
}

function kind_of(what) {
  if (is_word(what)) return "word"
  if (is_number(what)) return "number"
  if (is_path(what)) return "path"
  return "?"
}

function take(which, what, at) {
  kind[++count] = which
  part[count] = what
  first[count] = at
}

# Reads the tokens of a line. A part that is no token is told once; what of it is meant is taken in its place.
function scan(n, text,  at, end, c, what) {
  count = 0
  at = 1
  while (at <= length(text)) {
    c = substr(text, at, 1)
    if (c == " ") { at++; continue }
    if (c == "(" || c == ")") { take(c, c, at++); continue }
    if (c == "\"") { at = scan_text(n, text, at); continue }
    end = at
    while (end <= length(text) && substr(text, end, 1) !~ /[ ()]/) end++
    what = substr(text, at, end - at)
    if (kind_of(what) != "?") take(kind_of(what), what, at)
    else {
      end = scan_odd(n, text, at, what)
      if (!end) return
    }
    at = end
  }
}

# A part that is no token. What stands behind it is read on, if anything.
function scan_odd(n, text, at, what,  close_mark, sense) {
  if (what ~ /^(#|\/\/|\/\*|--)/) {
    bad(n, "token", at, what ~ /^#/ ? 1 : 2, quoted(what ~ /^#/ ? "#" : substr(what, 1, 2)) ": " comment_help(at, what))
    return 0
  }
  if (what ~ /^'/) {
    close_mark = index(substr(text, at + 1), "'")
    if (close_mark) what = substr(text, at, close_mark + 1)
    bad(n, "token", at, length(what), quoted(what) ": a text stands between double quotation marks, as in \"" letters(what) "\"")
    take("?", what, at)
    return at + length(what)
  }
  bad(n, "token", at, length(what), bare_help(what, at))
  sense = what
  sub(/[;,]+$/, "", sense)
  take(kind_of(sense), sense, at)
  return at + length(what)
}

function letters(what) {
  gsub(/'/, "", what)
  return what
}

function comment_help(at, what) {
  if (at == 1 && what !~ /^#/) return "a comment is a line that begins with #"
  return "a comment stands on a line of its own" (what ~ /^#/ ? "" : ", which begins with #")
}

# Why a part without quotation marks is no token.
function bare_help(what, at,  odd) {
  if (what ~ /^-?[0-9]+[.][0-9]+$/) {
    odd = what (what ~ /[.][0-9]$/ ? "0" : "")
    sub(/[.]/, "", odd)
    sub(/^0+/, "", odd)
    if (odd == "") odd = 0
    return quoted(what) ": numbers have no point; count " (what ~ /[.][0-9]?[0-9]$/ ? "cents, for example, " odd : "in a smaller unit")
  }
  if (what ~ /^(=|==|<|<=|>|>=|!=|<>)$/) return compared_help(what)
  if (what == "*") return "`*`: select ids gives the identifiers, select count their number, select COL a column"
  if (what ~ /;$/) return quoted(what) ": no `;` ends a line"
  if (what ~ /,$/) return quoted(what) ": no comma stands between parts, but a space"
  if (what ~ /^[1-9][0-9]*$/) return quoted(what) " is above 9223372036854775807, the greatest number"
  if (what ~ /^-[1-9][0-9]*$/) return quoted(what) " is below -9223372036854775808, the least number"
  if (what ~ /^-?0[0-9]+$/ || what == "-0") return quoted(what) ": a number other than 0 doesn't begin with 0, and 0 has no sign"
  if (what ~ /^[+][0-9]+$/) return quoted(what) ": no `+` stands before a number"
  if (what ~ /"/) return quoted(what) ": a quotation mark stands in it; a space stands before a text"
  if (what ~ /=/) return quoted(what) ": no `=` stands between a column and its cell, but a space"
  if (what ~ /[.].*[.]/) return quoted(what) " has more than one dot; a name has none, and a path has one, as in `shelf.room`"
  odd = what
  gsub(/[A-Za-z0-9_.-]/, "", odd)
  if (odd != "") return quoted(substr(odd, 1, 1)) " can't stand in " quoted(what) "; " word_help()
  if (what ~ /^[0-9]/ && count == 1 && part[1] ~ /^(session|query|entity|column)$/)
    return quoted(what) " begins with a digit and is no number; " word_help()
  if (what ~ /^[0-9]/) return quoted(what) " begins with a digit and is no number; an identifier is a number"
  if (what ~ /^[A-Za-z][A-Za-z0-9_-]*$/) return "the word has " length(what) " bytes, and may have 32"
  return quoted(what) ": " word_help()
}

function word_help() { return "a word is a letter, then letters, digits, _ and -" }

function compared_help(what,  name) {
  if (part[1] != "query" && part[1] != "update" && part[1] != "delete")
    return quoted(what) ": the column and its cell stand side by side, as in `set Book 1 stock 2`"
  name = what ~ /^==?$/ ? "eq" : what == "<" ? "lt" : what == "<=" ? "le" : what == ">" ? "gt" : what == ">=" ? "ge" : "ne"
  return quoted(what) ": a test is a word and stands first, as in (" name " stock 4)"
}

# A quoted text from its mark on; answers where it is read on.
function scan_text(n, text, at,  i, c, size) {
  for (i = at + 1; i <= length(text); i++) {
    c = substr(text, i, 1)
    if (c == "\"") break
    if (c == "\\") {
      if (substr(text, ++i, 1) !~ /["\\]/ || i > length(text)) {
        bad(n, "token", i - 1, 2, "in a text only \\\" and \\\\ may follow a \\")
        return length(text) + 1
      }
    }
    size++
  }
  take("text", substr(text, at, i - at + 1), at)
  if (i > length(text)) bad(n, "token", at, i - at, "this text isn't closed by a quotation mark")
  else if (size > 200) bad(n, "token", at, i - at + 1, "the text has " size " bytes, and may have 200")
  else if (i < length(text) && substr(text, i + 1, 1) !~ /[ ()]/) {
    bad(n, "token", i + 1, 1, quoted(substr(text, i + 1, 1)) ": a space, a parenthesis or the line's end follows a text")
    i++
  }
  return i + 1
}

# The first byte of a line that isn't printable, or else that the line is too long. Of lines that end with a return the first is told.
function find_byte(n, text,  at, size, rest) {
  if (!match(text, /[^ -~]/)) {
    if (length(text) > 4096) bad(n, "long", 0, 0, "the line has " length(text) " bytes")
    return
  }
  at = RSTART
  rest = substr(text, at)
  if (rest == "\r" && told_return++ && n != line) return
  size = match(rest, /^[\200-\377]+/) ? RLENGTH : 1
  bad(n, "byte", at, size, byte_help(rest, at == length(text)))
}

# A line with bytes that aren't printable, as it is meant.
function printable(text) {
  sub(/^\357\273\277/, "", text)
  sub(/\r$/, "", text)
  gsub(/\342\200[\234-\237]/, "\"", text)
  gsub(/[\t\240]/, " ", text)
  gsub(/[^ -~]/, "x", text)
  return text
}

function byte_help(rest, is_last) {
  if (rest ~ /^\t/) return "a tab; spaces stand between the parts of a line"
  if (rest ~ /^\r/ && !is_last) return "a return"
  if (rest ~ /^\r/) return "the line ends with a return and a line feed" (returns > 1 ? ", as " returns " lines do" : "") \
    "; `tr -d '\\r'` takes the returns away"
  if (rest ~ /^\357\273\277/) return "a byte-order mark; the file has to be saved without one"
  if (rest ~ /^\342\200[\234-\237]/) return "a curved quotation mark; a text stands between two of \""
  if (rest ~ /^\302\240/) return "a space that doesn't break; an ordinary space is wanted"
  if (rest ~ /^\342\200[\220-\225]/) return "a long dash; - is wanted"
  if (rest ~ /^[\200-\377]/) return "a letter or sign that isn't ASCII; a script has printable ASCII alone"
  return "a byte that isn't printable"
}

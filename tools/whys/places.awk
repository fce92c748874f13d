# Where lines stand, and what is wrong with each: the program that tools/why runs over a script.
#
# Variables: line and said are what the program said. It prints first `at COLUMN LENGTH`, the part of the refused line that the caret
# stands below (0 where none does), and then the lines of help. With the variable `only` it prints the first bad line alone, its
# number and word, as the program would say it; or the forms of lines, if that is `forms`; or a line for each bad line, if it is `brief`.

# Notes that something is wrong with a line: the word, the part, and a text.
function bad(n, which, at, size, text) {
  notes[n]++
  note_kind[n, notes[n]] = which
  note_at[n, notes[n]] = at
  note_size[n, notes[n]] = size
  note_text[n, notes[n]] = text
}

{ lines[NR] = $0 }

END {
  if (NR > 0 || only) explain()
}

function explain(  n) {
  if (only == "forms") { print forms_of(); return }
  split("byte long token header order cached line words many-entities many-columns entity-taken column-taken strategy capacity column-type " \
    "ref-unknown default no-columns reserved taken unknown number plain cells type depth many last no-end", order, " ")
  for (n in order) rank_of[order[n]] = n + 0
  split("timeout results entity row query session schedule", parts, " ")
  for (n in parts) part_rank[parts[n]] = n + 0
  split("`timeout`|`results`|entities|rows|queries|sessions|schedule", plural, "|")
  statement_words = "find persist set remove list flush clear mode commit rollback"
  order_words = "run kill evict restart"
  learn_forms()
  look_ahead()
  place = "start"
  for (n = 1; n <= NR; n++) if (is_said(n)) read_line(n)
  finish()
  if (only == "brief") print_brief()
  else if (only) print_first()
  else print_help()
}

function is_said(n) { return lines[n] !~ /^ *(#.*)?$/ || lines[n] ~ /[^ -~]/ || length(lines[n]) > 4096 }

# The names that are declared somewhere, the word that each line begins with, and the section.
function look_ahead(  n, w, next_word) {
  for (n = NR; n >= 1; n--) {
    if (lines[n] ~ /^(collections|bulk|nodes|journal)$/) section_line = n
    if (lines[n] ~ /^ *(#.*)?$/) continue
    if (lines[n] ~ /\r$/) returns++
    split(lines[n], w, " ")
    follower[n] = next_word
    next_word = w[1]
    if (w[1] ~ /^(entity|query|session)$/) below[w[1], w[2]] = n
  }
}

# ---- a line

function read_line(n) {
  if (n == section_line && place == "behind") { begin_section(n); return }
  form_of_line = form_again = ""
  in_condition = 0
  find_byte(n, lines[n])
  ends = length(lines[n])
  scan(n, lines[n] ~ /[^ -~]/ ? printable(lines[n]) : lines[n])
  if (count == 0) return
  if (section != "") { section_part(n); keep_form(n); return }
  check_for_section(n)
  if (place == "start") header(n)
  else if (place == "session") in_session(n)
  else if (place == "schedule") in_schedule(n)
  else behind(n)
  keep_form(n)
}

# The form of a line is told if its first word begins one.
function keep_form(n) {
  if (!(part[1] in form) && form_of_line == "") return
  forms_told[n] = form_of_line != "" ? form_of_line : form[part[1]]
  if (form_again != "") forms_told[n] = forms_told[n] "\n" form_again
  condition_told[n] = in_condition
}

function header(n) {
  place = "behind"
  if (part[1] == "hib") {
    if (count != 2 || part[2] != "1") bad_part(n, "header", 2, "the first line that says something has to be `hib 1`")
    return
  }
  bad_part(n, "header", 1, "the first line that says something has to be `hib 1`")
  behind(n)
}

# The words that may begin a line here.
function may_begin(  out, i) {
  if (place == "session") return statement_words " end"
  if (place == "schedule") return order_words " end"
  if (open) out = "column "
  for (i = 1; i <= 7; i++) if (i > last || (i == last && i ~ /^[3456]$/)) out = out parts[i] " "
  return out
}

# Tells that a word can't begin a line here.
function misplaced(n, text,  may) {
  bad_part(n, "line", 1, text)
  may = may_begin()
  gsub(/ $/, "", may)
  gsub(/ /, ", ", may)
  may_told[n] = may
}

# What a word that begins no line stands for, as it is often written; with it the line may be read on.
function meant(word,  may, found) {
  may = may_begin()
  if (index(" " may " ", " " tolower(word) " ")) return tolower(word)
  found = near(word, may)
  return found ~ /[ ,]/ ? "" : found
}

function instead(word,  w) {
  w = tolower(word)
  if (word ~ /^(hib)$/) return "`hib 1` stands once, at the front"
  if (word ~ /^(collections|bulk|nodes)$/)
    return quoted(word) " alone on a line begins a section, which `hib " (word == "collections" ? "collect" : word) "` reads behind the script"
  if (word == "journal") return "the line `journal` and what follows is for `hib audit` alone"
  if (place == "session") {
    if (w ~ /^(begin|start|transaction)$/)
      return "nothing begins a transaction: it begins with the session, and anew behind each commit or rollback"
    if (w ~ /^(update|put|change|modify)$/) return "write `set ENTITY ID COL CELL ..`"
    if (w ~ /^(insert|create|save|add|new)$/) return "write `persist ENTITY ID CELL ..`"
    if (w ~ /^(delete|drop)$/) return "write `remove ENTITY ID`"
    if (w ~ /^(get|load|read|fetch)$/) return "write `find ENTITY ID`"
    if (w ~ /^(select|query)$/) return "write `list QUERY`; the query stands before the sessions"
    if (w ~ /^(abort|cancel|undo)$/) return "write `rollback`"
    if (w ~ /^(wait|sleep|pause)$/) return "nothing waits: the schedule says which session acts when"
  } else if (place == "behind") {
    if (w ~ /^(table|class|create)$/) return "write `entity NAME STRATEGY VERSIONING CAPACITY`"
    if (w == "insert") return "write `row ENTITY ID vN CELL ..`"
    if (w == "select") return "write `query NAME from ENTITY .. select ids`"
    if (w ~ /^(thread|transaction|begin|start)$/) return "write `session NAME`, statements, `end`"
  }
  return ""
}

# A word that can't begin this line; answers whether the line may be read as one that begins with what was meant.
function strange(n,  word, found, text) {
  word = part[1]
  if (kind[1] != "word") { misplaced(n, "a word stands first"); return 0 }
  text = instead(word)
  found = text == "" ? meant(word) : ""
  if (found == "") {
    misplaced(n, text != "" ? text : quoted(word) " begins no line")
    return 0
  }
  misplaced(n, tolower(word) == found ? "words are written in small letters: " found : quoted(word) " begins no line; near: " found)
  part[1] = found
  return 1
}

function is_part(word) { return word in part_rank }

function is_among(word, words) { return index(" " words " ", " " word " ") > 0 }

# ---- behind a part

function behind(n,  p, w) {
  w = part[1]
  if (w != "column" && !is_part(w) && !stray_word(n) && !strange(n)) {
    if (open) loose[open] = 1
    return
  }
  w = part[1]
  if (w == "column") {
    if (open) { stray = 0; column_line(n, open) }
    else if (!stray || only) { stray = 1; misplaced(n, "`column` stands behind its entity, before any other line") }
    return
  }
  if (!is_part(w)) return
  stray = 0
  p = part_rank[w]
  if (p < last || (p == last && p !~ /^[3456]$/)) out_of_order(n, p)
  else last = p
  if (w != "entity") open = 0
  part_line(n, w)
}

# A line of a part that stands behind one that it has to stand before; of each part it is told once.
function out_of_order(n, p) {
  if (out_of_place[p]++) more = 1
  else misplaced(n, p == last ? quoted(parts[p]) " stands once" : quoted(parts[p]) " stands before the " last_plural())
}

function last_plural() { return last <= 2 ? "line " plural[last] : plural[last] }

# A statement or an order outside of its block; of lines side by side the first is told.
function stray_word(n,  w) {
  w = part[1]
  if (is_among(w, statement_words)) { if (!stray) misplaced(n, quoted(w) " stands within a session, between `session NAME` and `end`") }
  else if (is_among(w, order_words)) { if (!stray) misplaced(n, quoted(w) " stands within the schedule, between `schedule` and `end`") }
  else if (w == "end") { if (!stray) misplaced(n, "`end` ends a session or the schedule, and none is open") }
  else return 0
  stray = 1
  return 1
}

function part_line(n, w) {
  if (w == "timeout" || w == "results") { if (has_form(n)) is_within(n, 2, 1, w == "timeout" ? 1000000 : 100000, "`" w "`") }
  else if (w == "entity") entity_line(n)
  else if (w == "row") row_line(n)
  else if (w == "query") query_line(n)
  else if (w == "session") session_line(n)
  else { place = "schedule"; since = n; has_form(n) }
}

function session_line(n) {
  place = "session"
  since = n
  ending = 0
  session_name = count > 1 && kind[2] == "word" ? part[2] : ""
  if (session_name == "") unsure["session"] = more = 1
  if (!has_form(n)) return
  if (session_name == "") return
  if (session_name in session_at) is_there(n, "taken", "a session", session_at[session_name])
  else { session_at[session_name] = n; names["session"] = names["session"] " " session_name }
  if (++sessions > 1000) bad_part(n, "many", 1, "there may be 1000 sessions")
  check_reserved(n)
}

# ---- within a session or the schedule

function open_block() {
  if (place == "schedule") return "the schedule of line " since
  return "the session " (session_name == "" ? "" : quoted(session_name) " ") "of line " since
}

# A line of a part within a block, whose end was forgotten.
function unended(n) {
  misplaced(n, open_block() " has no `end`")
  place = "behind"
  behind(n)
}

function in_session(n,  w) {
  w = part[1]
  if (!is_among(w, statement_words " end")) {
    if (is_part(w) && w != "query") { unended(n); return }
    if (is_among(w, order_words)) { misplaced(n, quoted(w) " stands within the schedule"); return }
    if (!strange(n)) return
  }
  if (part[1] != "end") { statement_line(n); return }
  place = "behind"
  if (is_over(n, 2, "") && !ending) bad_part(n, "last", 1, "`commit` or `rollback` has to stand before this `end`")
}

function in_schedule(n,  w) {
  w = part[1]
  if (!is_among(w, order_words " end")) {
    if (is_part(w)) { unended(n); return }
    if (is_among(w, statement_words)) { misplaced(n, quoted(w) " stands within a session"); return }
    if (!strange(n)) return
  }
  if (part[1] != "end") { order_line(n); return }
  place = "behind"
  is_over(n, 2, "")
}

function finish() {
  ends = length(lines[NR])
  count = 0
  if (section != "") {
    if (in_section == "schedule") bad_part(NR, "no-end", 1, "the schedule of line " since " has no `end`")
  } else if (place == "session" || place == "schedule") bad_part(NR, "no-end", 1, open_block() " has no `end`")
  else if (place == "start") { ends = -1; bad_part(1, "header", 1, "the first line that says something has to be `hib 1`") }
}

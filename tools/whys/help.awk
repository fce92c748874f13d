# What is printed of all that was noted.

# The note of a line that comes first by the table of refusals; of two of one word the one that was found first.
function first_note(n,  i, best) {
  for (i = 1; i <= notes[n]; i++)
    if (!best || rank_of[note_kind[n, i]] < rank_of[note_kind[n, best]]) best = i
  return best
}

# A note of this word of a line.
function note_of(n, which,  i) {
  for (i = 1; i <= notes[n]; i++) if (note_kind[n, i] == which) return i
  return 0
}

function is_lexical(which) { return which ~ /^(byte|long|token)$/ }

function print_first(  n, i) {
  for (n = 1; n <= NR; n++) { i = first_note(n); if (i && is_lexical(note_kind[n, i])) { print n, note_kind[n, i]; return } }
  for (n = 1; n <= NR || n == 1; n++) { i = first_note(n); if (i) { print n, note_kind[n, i]; return } }
}

function print_help(  i) {
  i = note_of(line, said)
  print "at " (i ? note_at[line, i] " " note_size[line, i] : "0 0")
  if (i) print "here: " note_text[line, i]
  if (said ~ /^(token|words)$/) print_forms()
  if (i && said == "line" && (line in may_told)) print "may begin a line here: " (may_told[line] == "" ? "none" : may_told[line])
  print_others()
}

# What is wrong, a line for each line of the script: FILE:LINE:COLUMN: WORD: what. A line of which no more is known has the text `told`.
function print_brief(  n, i) {
  i = note_of(line, said)
  print file ":" line ":" (i ? note_at[line, i] : 1) ": " said ": " (i ? note_text[line, i] : told)
  for (n = 1; n <= NR; n++) {
    i = first_note(n)
    if (n != line && i) print file ":" n ":" note_at[n, i] ": " note_kind[n, i] ": " note_text[n, i]
  }
}

function print_forms(  list, k, size) {
  size = split(forms_told[line], list, "\n")
  for (k = 1; k <= size; k++) print "form: " list[k]
  if (condition_told[line])
    print "a condition: (and COND COND) (or COND COND) (not COND) (eq PATH CELL) (ne ..) (lt ..) (le ..) (gt ..) (ge ..) (in PATH CELL ..)"
}

function print_others(  n, i, shown) {
  for (n = 1; n <= NR; n++) {
    i = first_note(n)
    if (n == line || !i) continue
    if (++shown == 1) print "also bad:"
    if (shown > 20) { more = 1; break }
    print "    line " n ", " note_kind[n, i] ": " note_text[n, i]
  }
  if (more) print "more may be wrong"
}

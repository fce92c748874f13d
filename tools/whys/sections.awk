# The lines of a section behind a script, and what a script with a section may not have (docs/SCRIPT.md, from "Collections" on).

function begin_section(n) {
  section = lines[n]
  in_section = "lines"
  if (said == "line" && line == n) { count = 1; part[1] = section; first[1] = 1; kind[1] = "word"; misplaced(n, instead(section)) }
}

# What may begin a line of the section here.
function section_words() {
  if (section == "collections") return "collection"
  if (in_section == "schedule") return section == "bulk" ? "run end" : "run deliver end"
  if (in_section == "over") return ""
  return section == "bulk" ? "update delete schedule" : "place schedule"
}

function section_part(n,  w, words) {
  w = part[1]
  if (section == "journal") { notes[n] = 0; return }
  words = section_words()
  if (!is_among(w, words)) {
    bad_part(n, "line", 1, quoted(w) " begins no line here" or_near(w, words))
    gsub(/ /, ", ", words)
    may_told[n] = words
    return
  }
  if (w == "update" || w == "delete") bulk_line(n)
  else if (!has_form(n)) return
  else if (w == "collection") collection_line(n)
  else if (w == "schedule") { in_section = "schedule"; since = n }
  else if (w == "end") in_section = "over"
  else if (w == "place") {
    if (!(part[2] in session_at)) { no_name(n, 2, "session"); return }
    if (part[2] in placed) bad_part(n, "taken", 2, "the session has a place since line " placed[part[2]])
    placed[part[2]] = n
    is_within(n, 3, 1, 2, "a node")
    return
  }
  if (w ~ /^(run|deliver)$/ && ++orders > 20000) bad_part(n, "many", 1, "there may be 20000 orders")
  if (w == "deliver") is_within(n, 2, 1, 2, "a node")
  if (w == "run") {
    if (!(part[2] in session_at) && !index(bulk_names " ", " " part[2] " "))
      bad_part(n, "unknown", 2, "there is no session " (section == "bulk" ? "or bulk line " : "") quoted(part[2]) \
        known("there are", part[2], names["session"] bulk_names))
    is_within(n, 3, 1, 1000000, "the number of steps")
  }
}

# A name that a line of the section declares.
function section_name(n, what) {
  if (part[2] in section_at) is_there(n, "taken", "a " what, section_at[part[2]])
  else section_at[part[2]] = n
}

function collection_line(n,  e, c) {
  section_name(n, "collection")
  check_reserved(n)
  e = entity_in(n, 3)
  c = e ? column_in(n, 4, e, part[4]) : 0
  if (c && column_type[e, c] !~ /^ref /) bad_part(n, "unknown", 4, quoted(part[4]) " is no `ref` column; " columns_of(e))
  if (c && ((e, c) in kept)) bad_part(n, "taken", 4, "a collection of this column is there since line " kept[e, c])
  kept[e, c] = n
  is_within(n, 5, 1, 100000, "the capacity")
  if (e && versioned[e] == "0") bad_part(n, "plain", 3, name_of[e] " is plain, and a collection is of a versioned entity")
}

function bulk_line(n,  e, past) {
  if (!fits(n, 2, "NAME")) return
  bulk_names = bulk_names " " part[2]
  if (!fits(n, 3, "ENTITY")) return
  past = 4
  if (part[1] == "update") {
    if (!is_the(4, "set")) { bad_part(n, "words", 4, 4 > count ? "`set` is missing" : "`set` is wanted"); return }
    past = 5
    while (past <= count && !is_the(past, "where")) past++
    if (!are_pairs(n, 5, past)) return
  }
  if (past <= count && !is_the(past, "where")) { bad_part(n, "words", past, "`where`, or the line's end, is wanted"); return }
  e = entity_in(n, 3)
  if (past <= count) { q = past + 1; if (!condition(n, e, 1) || !is_over(n, q, "")) return }
  if (part[2] in session_at) is_there(n, "taken", "a session", session_at[part[2]])
  else section_name(n, "line")
  if (part[1] == "update") check_pairs(n, 5, past, e)
  if (++bulk_lines > 100) bad_part(n, "many", 1, "there may be 100 lines")
}

# What a script with a section may not have.
function check_for_section(n,  w) {
  w = section_line ? lines[section_line] : ""
  if (w == "collections" && place == "schedule" && part[1] ~ /^(kill|evict|restart)$/)
    bad_part(n, "order", 1, "a schedule before collections has `run` alone")
  if (w != "bulk" && w != "nodes") return
  if (part[1] == "entity" && part[3] ~ /^(read-only|nonstrict)$/)
    bad_part(n, "strategy", 3, "`hib " w "` takes the strategies none and read-write alone")
  if (part[1] == "query" && is_the(3, "cached")) bad_part(n, "cached", 3, "`hib " w "` takes no cached query")
  if (part[1] == "schedule" && place == "behind") bad_part(n, "order", 1, "the schedule stands in the section, behind the line `" w "`")
}

# The forms of lines, and what names and cells have to be (docs/SCRIPT.md). The forms stand in forms_of, word by word as there.

function learn_forms(  forms, n, i, w) {
  n = split(forms_of(), forms, "\n")
  for (i = 1; i <= n; i++) {
    split(forms[i], w, " ")
    if (!(w[1] in form)) form[w[1]] = forms[i]
  }
  wanted["NAME"] = "a name is wanted, a word"; missing["NAME"] = "the name is missing"
  wanted["ENTITY"] = "an entity's name is wanted"; missing["ENTITY"] = "the entity is missing"
  wanted["QUERY"] = "a query's name is wanted"; missing["QUERY"] = "the query is missing"
  wanted["SESSION"] = "a session's name is wanted"; missing["SESSION"] = "the session is missing"
  wanted["STRATEGY"] = "a strategy is wanted: none, read-only, nonstrict or read-write"
  missing["STRATEGY"] = "the strategy is missing: none, read-only, nonstrict or read-write"
  wanted["TYPE"] = "a type is wanted: int, text, bool or ref ENTITY"
  missing["TYPE"] = "the type is missing: int, text, bool or ref ENTITY"
  wanted["VERSIONING"] = "`versioned` or `plain` is wanted"; missing["VERSIONING"] = "`versioned` or `plain` is missing"
  wanted["CAPACITY"] = "a capacity is wanted, a number"; missing["CAPACITY"] = "the capacity is missing: 1 to 100000, or 0 with the strategy none"
  wanted["ID"] = "an identifier is wanted, a number"; missing["ID"] = "the identifier is missing, a number"
  wanted["COL"] = "a column's name is wanted"; missing["COL"] = "the column is missing"
  wanted["M"] = "a mode is wanted: normal, get, put or ignore"; missing["M"] = "the mode is missing: normal, get, put or ignore"
  wanted["N"] = "a number is wanted"; missing["N"] = "the number is missing"
}

function forms_of() {
  return "timeout N\nresults N\nentity NAME STRATEGY VERSIONING CAPACITY\ncolumn NAME TYPE\nrow ENTITY ID vN CELL ..\n" \
    "query NAME [cached] from ENTITY [where COND] [order COL [desc] ..] [offset N] [limit N] select ids|count|COL\n" \
    "session NAME\nschedule\nend\nfind ENTITY ID\npersist ENTITY ID CELL ..\nset ENTITY ID COL CELL ..\nremove ENTITY ID\n" \
    "list QUERY\nflush\nclear\nmode M\ncommit\nrollback\nrun SESSION N\nkill SESSION\nevict ENTITY ID\nrestart\n" \
    "collection NAME ENTITY COL CAPACITY\nupdate NAME ENTITY set COL CELL .. where COND\ndelete NAME ENTITY where COND\n" \
    "place SESSION N\ndeliver N"
}

# ---- single parts

# Something is wrong with a part of a line, or with its end.
function bad_part(n, which, i, text) {
  if (i > count) bad(n, which, ends + 1, 1, text)
  else bad(n, which, first[i], length(part[i]), text)
}

function is_kind(i, which) { return i <= count && (kind[i] == which || kind[i] == "?") }

function is_the(i, word) { return i <= count && kind[i] == "word" && part[i] == word }

# Whether the i-th part is what stands at this place of a form; if not, it is told.
function fits(n, i, slot,  which, text) {
  which = slot ~ /^(ID|N|CAPACITY)$/ ? "number" : "word"
  if (is_kind(i, which) && (slot != "VERSIONING" || part[i] ~ /^(versioned|plain)$/ || kind[i] == "?")) return 1
  text = i > count ? missing[slot] : wanted[slot]
  if (i > count && slot == "N" && part[1] == "run") text = "the number of steps is missing"
  if (i <= count && kind[i] == "text") text = text "; " (which == "number" ? "numbers" : "names") " have no quotation marks"
  bad_part(n, "words", i, text)
  return 0
}

# Whether the parts of a line have its form, which has a word for each part.
function has_form(n,  slots, size, i) {
  size = split(form[part[1]], slots, " ")
  for (i = 2; i <= size; i++) if (!fits(n, i, slots[i])) return 0
  return is_over(n, size + 1, part[1] == "list" ? "; a query has no parameters" : "")
}

function is_over(n, i, hint) {
  if (i > count) return 1
  bad_part(n, "words", i, "the line ends before this" hint)
  return 0
}

# A number within bounds.
function is_within(n, i, low, high, what) {
  if (kind[i] != "number" || (part[i] + 0 >= low && part[i] + 0 <= high)) return 1
  bad_part(n, "number", i, what " is " low " to " high)
  return 0
}

function is_identifier(n, i) {
  if (kind[i] != "number" || part[i] !~ /^(0|-.*)$/) return 1
  bad_part(n, "number", i, "an identifier is 1 to 9223372036854775807")
  return 0
}

function is_cell(i) { return is_kind(i, "number") || is_kind(i, "text") || is_the(i, "true") || is_the(i, "false") }

# Tells that a cell is wanted.
function no_cell(n, i, e,  text, word) {
  text = "a cell is wanted: a number, a text such as \"Dune\", true or false"
  word = i > count ? "" : tolower(part[i])
  if (i > count) text = "a cell is missing"
  else if (word ~ /^(null|nil|none|undefined)$/) text = text "; there is no null, and 0 serves as one in a `ref` column"
  else if (word ~ /^v[0-9]+$/ && part[1] == "row" && e) text = text "; " name_of[e] " is plain, and its rows have no version"
  else if (word ~ /^v[0-9]+$/) text = text "; a version stands in a `row` alone"
  else if (word ~ /^(true|false)$/) text = text ", in small letters"
  else if (kind[i] == "word" || kind[i] == "path") text = text "; is it the text \"" part[i] "\"?"
  bad_part(n, "words", i, text)
  return 0
}

function are_cells(n, i, e) {
  for (; i <= count; i++) if (!is_cell(i)) return no_cell(n, i, e)
  return 1
}

# ---- names

# What is said of a name that isn't there; `which` is entity, query or session. Of a name it is said once, and of the refused line.
function no_name(n, i, which,  text, name, all) {
  name = part[i]
  if (unsure[which]) { more = 1; return 0 }
  if (told_name[which, name]++ && n != line && !only) return 0
  text = "there is no " which " " quoted(name)
  all = which == "entity" ? "the entities are" : which == "query" ? "the queries are" : "the sessions are"
  if ((which, name) in below && below[which, name] > n)
    text = "the " which " " quoted(name) " is declared below, at line " below[which, name] "; " place_of(which)
  else if (which == "entity" && name in query_at)
    text = text "; " quoted(name) " is a query, as in " quoted("list " name) "; " all " " listed(names[which])
  else if (which == "query" && name in entity_at)
    text = text "; " quoted(name) " is an entity, as in " quoted("find " name " 1") known(all, name, names[which])
  else text = text known(all, name, names[which])
  bad_part(n, part[1] == "column" ? "ref-unknown" : "unknown", i, text)
  return 0
}

function place_of(which) {
  if (part[1] == "column") return "it has to stand before this one"
  if (which == "session") return "sessions stand before the schedule"
  return which == "query" ? "queries stand before the sessions" : "entities stand before all else"
}

# The number of the entity that a part names; 0 if there is none, which is told.
function entity_in(n, i) {
  if (kind[i] == "?") { more = 1; return 0 }
  if (part[i] in entity_at) return entity_at[part[i]]
  return no_name(n, i, "entity")
}

function columns_of(e,  i, out) {
  for (i = 1; i <= columns[e]; i++) out = out (i > 1 ? ", " : "") column_name[e, i] " " column_type[e, i]
  return name_of[e] " has the columns " out
}

# The number of the column that a part names.
function column_in(n, i, e, name,  c, all, text) {
  if ((e, name) in column_at) return column_at[e, name]
  if (!e || loose[e]) { more = 1; return 0 }
  if (told_name[e, name]++ && n != line && !only) return 0
  for (c = 1; c <= columns[e]; c++) all = all " " column_name[e, c]
  text = "there is no column " quoted(name) (name == "by" ? "; write `order COL`" : "") or_near(name, all)
  bad_part(n, "unknown", i, text "; " columns_of(e))
  return 0
}

# Whether a part, which is a cell, has a type; of what is no type nothing is said.
function is_of(i, type) {
  if (kind[i] == "?" || type !~ /^(int|text|bool|ref .*)$/) return 1
  return kind[i] == (type == "text" ? "text" : type == "bool" ? "word" : "number")
}

function cell_of(type) { return type == "text" ? "a text" : type == "bool" ? "true or false" : "a number" }

# Whether a part is a cell of a column.
function has_type(n, i, e, c) {
  if (!c || loose[e] || is_of(i, column_type[e, c])) return 1
  bad_part(n, "type", i, cell_of(column_type[e, c]) " is wanted for " column_name[e, c] "; " columns_of(e))
  return 0
}

# Whether there is a cell of its type for each column of an entity, from the i-th part on.
function are_typed(n, i, e,  c, size, text) {
  if (!e || loose[e]) { more = 1; return }
  size = count - i + 1
  text = columns[e] (columns[e] == 1 ? " cell is" : " cells are") " wanted, and there " (size == 1 ? "is 1" : "are " size)
  if (size != columns[e]) bad_part(n, "cells", size < columns[e] ? count + 1 : i + columns[e], text "; " columns_of(e))
  for (c = 1; c <= columns[e] && c <= size; c++) if (!has_type(n, i + c - 1, e, c)) return
}

function check_reserved(n,  words) {
  words = "cached, from, where, order, desc, offset, limit, select, ids, count, true, false, none, default"
  if (kind[2] == "word" && index(" " words ",", " " part[2] ","))
    bad_part(n, "reserved", 2, quoted(part[2]) " is a reserved word, as are " words)
}

# ---- declarations

function entity_line(n,  e, fine) {
  e = ++entities
  fine = has_form(n)
  name_of[e] = part[2]
  open = e
  if (kind[2] != "word" || count < 2) { unsure["entity"] = more = 1; return }
  if (fine && entities > 64) bad_part(n, "many-entities", 1, "there may be 64 entities")
  if (part[2] in entity_at) {
    is_there(n, "entity-taken", "an entity", line_of[entity_at[part[2]]])
    loose[entity_at[part[2]]] = 1
  } else {
    entity_at[part[2]] = e
    names["entity"] = names["entity"] " " part[2]
  }
  line_of[e] = n
  versioned[e] = fine ? part[4] == "versioned" : "?"
  strategy[e] = part[3]
  if (!fine) return
  check_strategy(n)
  if (follower[n] != "column") {
    loose[e] = 1
    bad_part(n, "no-columns", count + 1, "a line `column NAME TYPE` has to follow" or_near(follower[n], "column"))
  }
  check_reserved(n)
}

function check_strategy(n,  text) {
  text = "with the strategy " part[3] " the capacity is "
  if (kind[3] != "word") return
  if (part[3] !~ /^(none|read-only|nonstrict|read-write)$/) {
    text = quoted(part[3]) " is no strategy; the strategies are none, read-only, nonstrict, read-write"
    bad_part(n, "strategy", 3, text or_near(usual_strategy(part[3]), "none read-only nonstrict read-write"))
  } else if (kind[5] != "number") return
  else if (part[3] == "none" && part[5] != "0") bad_part(n, "capacity", 5, text "0")
  else if (part[3] != "none" && (part[5] + 0 < 1 || part[5] + 0 > 100000)) bad_part(n, "capacity", 5, text "1 to 100000")
}

# A strategy by the name that Hibernate has for it.
function usual_strategy(word) { return tolower(word) ~ /^nonstrict[-_]read[-_]write$/ ? "nonstrict" : word }

# The declared name is there since another line.
function is_there(n, which, what, since_line) { bad_part(n, which, 2, what " " quoted(part[2]) " is there since line " since_line) }

function or_near(name, names,  found) {
  found = name == "" ? "" : near(name, names)
  return found == "" ? "" : "; near: " found
}

# What stands behind a type, and isn't `default`: a length, as types have in other languages, or what belongs to no column.
function behind_type(n, i,  usual) {
  usual = usual_type(part[3])
  if (kind[3] == "word" && part[3] !~ /^(int|text|bool|ref)$/)
    bad_part(n, "words", 3, quoted(part[3]) " is no type; " \
      (usual ~ /^(int|text|bool)$/ ? "write " usual : "the types are int, text, bool, ref ENTITY"))
  else if (kind[i] == "(") bad_part(n, "words", i, "a type has no length; write " part[3])
  else bad_part(n, "words", i, "the line ends before this, or `default CELL` stands here")
}

# column NAME TYPE, and perhaps default CELL.
function column_line(n, e,  i, c, type, fine) {
  form_again = "column NAME TYPE default CELL"
  fine = fits(n, 2, "NAME") && fits(n, 3, "TYPE")
  if (fine && is_the(3, "default") && count == 4) { fine = 0; bad_part(n, "words", 3, missing["TYPE"]) }
  i = 4
  if (fine && is_the(3, "ref")) { fine = fits(n, 4, "ENTITY"); i = 5 }
  if (fine && i <= count && kind[i] != "?") {
    if (!is_the(i, "default")) { fine = 0; behind_type(n, i) }
    else if (!is_cell(i + 1)) fine = no_cell(n, i + 1, e)
    else fine = is_over(n, i + 2, "")
  }
  if (!fine || kind[2] != "word") { loose[e] = 1; more = 1; return }
  if (columns[e] >= 16) bad_part(n, "many-columns", 1, "an entity may have 16 columns")
  if ((e, part[2]) in column_at) {
    bad_part(n, "column-taken", 2, name_of[e] " has a column " quoted(part[2]) " since line " column_line_of[e, part[2]])
    return
  }
  type = part[3]
  c = ++columns[e]
  if (type == "ref") {
    type = "ref " part[4]
    target[e, c] = part[4] == name_of[e] ? e : entity_in(n, 4)
  } else if (type !~ /^(int|text|bool)$/ && kind[3] == "word")
    bad_part(n, "column-type", 3, quoted(type) " is no type; the types are int, text, bool, ref ENTITY" \
      or_near(usual_type(type), "int text bool ref"))
  column_name[e, c] = part[2]
  column_type[e, c] = type
  column_at[e, part[2]] = c
  column_line_of[e, part[2]] = n
  check_default(n, i, e, c)
  check_reserved(n)
}

# A type as it is called elsewhere.
function usual_type(type) {
  type = tolower(type)
  if (type ~ /^(integer|long|short|byte|number|bigint)$/) return "int"
  if (type ~ /^(string|varchar|char)$/) return "text"
  return type ~ /^bool/ ? "bool" : type
}

function check_default(n, i, e, c) {
  if (i > count) {
    if (defaults[e]) bad_part(n, "default", count + 1, "a column after one with a default has a default, too")
    return
  }
  defaults[e] = 1
  if (!is_of(i + 1, column_type[e, c]))
    bad_part(n, "default", i + 1, cell_of(column_type[e, c]) " is wanted, since the column's type is " column_type[e, c])
}

# row ENTITY ID vN CELL .., or without a version.
function row_line(n,  e, at) {
  if (!fits(n, 2, "ENTITY") || !fits(n, 3, "ID")) return
  e = entity_in(n, 2)
  at = 4
  if (e && versioned[e] == "0") form_of_line = "row ENTITY ID CELL .."
  if (!e) form_again = "row ENTITY ID CELL .."
  if (e ? versioned[e] == "1" : is_version(4)) {
    if (!is_version(4)) {
      bad_part(n, "words", 4, (4 > count ? "the version is missing, such as v0" : "a version such as v0 is wanted") \
        ", since " name_of[e] " is versioned")
      return
    }
    at = 5
  }
  if (versioned[e] == "?" && is_version(4)) at = 5
  if (!are_cells(n, at, e) || !e) return
  if (is_identifier(n, 3) && kind[3] == "number") {
    if ((e, part[3]) in row_at) bad_part(n, "taken", 3, "the row " part[2] " " part[3] " is there since line " row_at[e, part[3]])
    else { row_at[e, part[3]] = n; if (++rows > 10000) bad_part(n, "many", 1, "there may be 10000 rows") }
  }
  if (at == 5 && kind[4] == "word" && (length(part[4]) > 8 || substr(part[4], 2) + 0 > 1000000))
    bad_part(n, "number", 4, "a version is v0 to v1000000")
  are_typed(n, at, e)
}

function is_version(i) { return i <= count && (kind[i] == "?" || (kind[i] == "word" && part[i] ~ /^v(0|[1-9][0-9]*)$/)) }

# ---- statements

function statement_line(n,  e, w) {
  w = part[1]
  if (++statements > 5000) bad_part(n, "many", 1, "there may be 5000 statements in all")
  ending = w == "commit" || w == "rollback"
  if (w == "persist") {
    if (!fits(n, 2, "ENTITY") || !fits(n, 3, "ID") || !are_cells(n, 4, 0)) return
    e = entity_in(n, 2)
    is_identifier(n, 3)
    are_typed(n, 4, e)
  } else if (w == "set") {
    if (!fits(n, 2, "ENTITY") || !fits(n, 3, "ID") || !are_pairs(n, 4, count + 1)) return
    e = entity_in(n, 2)
    is_identifier(n, 3)
    check_pairs(n, 4, count + 1, e)
  } else if (has_form(n)) {
    if (w == "find" || w == "remove") { entity_in(n, 2); is_identifier(n, 3) }
    if (w == "list" && kind[2] == "word" && !(part[2] in query_at)) no_name(n, 2, "query")
    if (w == "mode" && kind[2] == "word" && part[2] !~ /^(normal|get|put|ignore)$/)
      bad_part(n, "unknown", 2, "there is no mode " quoted(part[2]) known("the modes are", part[2], "normal get put ignore"))
  }
}

# Whether pairs of a column and a cell stand from one part up to another.
function are_pairs(n, from, past,  i) {
  if (from >= past) { bad_part(n, "words", from, missing["COL"]); return 0 }
  for (i = from; i < past; i += 2) {
    if (!fits(n, i, "COL")) return 0
    if (i + 1 >= past) { bad_part(n, "words", i + 1, "the cell of " quoted(part[i]) " is missing"); return 0 }
    if (!is_cell(i + 1)) return no_cell(n, i + 1, 0)
  }
  return 1
}

# What is wrong with pairs of columns of an entity, none of which may stand twice.
function check_pairs(n, from, past, e,  i, c, seen) {
  for (i = from; i < past; i += 2) {
    if (kind[i] == "?") continue
    if (part[i] in seen) bad_part(n, "taken", i, "the column " quoted(part[i]) " is set in this line already")
    seen[part[i]] = 1
    c = e ? column_in(n, i, e, part[i]) : 0
    has_type(n, i + 1, e, c)
  }
}

# ---- orders

function order_line(n,  e) {
  if (++orders > 20000) bad_part(n, "many", 1, "there may be 20000 orders")
  if (!has_form(n)) return
  if ((part[1] == "run" || part[1] == "kill") && kind[2] == "word" && !(part[2] in session_at)) no_name(n, 2, "session")
  if (part[1] == "run") is_within(n, 3, 1, 1000000, "the number of steps")
  if (part[1] == "evict") {
    e = entity_in(n, 2)
    if (e && strategy[e] == "none") bad_part(n, "unknown", 2, name_of[e] " isn't cached, so none of its rows is in memory")
    is_identifier(n, 3)
  }
}

# The form of a query line, and of conditions (docs/SCRIPT.md, "Queries"). `q` is the part that is read next.

function query_line(n,  e, name) {
  name = part[2]
  if (!fits(n, 2, "NAME")) { unsure["query"] = more = 1; return }
  if (kind[2] == "word") {
    if (name in query_at) is_there(n, "taken", "a query", query_at[name])
    else { query_at[name] = n; names["query"] = names["query"] " " name }
    if (++queries > 1000) bad_part(n, "many", 1, "there may be 1000 queries")
    check_reserved(n)
  } else unsure["query"] = more = 1
  q = is_the(3, "cached") ? 4 : 3
  if (!is_the(q, "from") && kind[q] != "?") { bad_part(n, "words", q, q > count ? "`from ENTITY` is missing" : "`from` is wanted"); return }
  if (!fits(n, ++q, "ENTITY")) return
  e = entity_in(n, q++)
  if (is_the(q, "where")) { q++; if (!condition(n, e, 1)) return }
  clauses(n, e)
}

function clauses(n, e,  sorted, offset, limit) {
  if (is_the(q, "order")) {
    sorted = 1
    q++
    if (!fits(n, q, "COL")) return
    do {
      if (is_the(q, "where") && q < count && part[q + 1] == "(") { bad_part(n, "words", q, "`where COND` stands before `order`"); return }
      if (is_clause(q)) { bad_part(n, "words", q, wanted["COL"]); return }
      column_in(n, q, e, part[q])
      q++
      if (is_the(q, "desc")) q++
    } while (is_kind(q, "word") && !is_clause(q))
  }
  if (is_the(q, "offset")) {
    offset = 1
    if (!fits(n, ++q, "N")) return
    is_within(n, q++, 0, 1000000, "an offset")
  }
  if (is_the(q, "limit")) {
    limit = 1
    if (!fits(n, ++q, "N")) return
    is_within(n, q++, 1, 200, "a limit")
  }
  if (!is_the(q, "select")) { no_clause(n, sorted, offset, limit); return }
  q++
  if (is_the(q, "count") && (sorted || offset || limit)) bad_part(n, "words", q, "with `count` there is no order, offset or limit")
  else if (!is_kind(q, "word")) bad_part(n, "words", q, "ids, count or a column is " (q > count ? "missing" : "wanted"))
  else if (!is_over(n, q + 1, "; one column is selected")) return
  else if (!is_the(q, "ids") && !is_the(q, "count") && kind[q] == "word") column_in(n, q, e, part[q])
}

function is_clause(i) { return is_the(i, "offset") || is_the(i, "limit") || is_the(i, "select") }

function no_clause(n, sorted, offset, limit,  text) {
  text = limit ? "select" : offset ? "limit or select" : sorted ? "offset, limit or select" : "order, offset, limit or select"
  if (q > count) { bad_part(n, "words", q, text " is missing; a query ends with select ids, select count or select COL"); return }
  if (part[q] == "where") text = "`where COND` stands before order, offset and limit"
  else if (part[q] ~ /^(order|offset|limit)$/)
    text = quoted(part[q]) " stands elsewhere: the parts come as where, order, offset, limit, select"
  else {
    text = text " is wanted"
    if (kind[q] == ")") text = text "; a parenthesis is closed that wasn't opened"
    else if (kind[q] == "(") text = text "; `where` stands before a condition"
    else if (part[q] ~ /^(and|or)$/) text = text "; " quoted(part[q]) " stands in parentheses before what it joins, as in (" part[q] " A B)"
  }
  bad_part(n, "words", q, text)
}

# ---- conditions

function is_mark(i, mark) { return i <= count && kind[i] == mark }

function no_condition(n, text) {
  in_condition = 1
  bad_part(n, "words", q, text)
  return 0
}

function condition(n, e, depth,  op) {
  if (q > count) return no_condition(n, "a condition is missing")
  if (!is_mark(q, "(")) return no_condition(n, "`(` is wanted: a condition stands in parentheses, as in (eq stock 1)")
  if (depth > 16) bad_part(n, "depth", q, "conditions may be nested 16 deep")
  op = ++q <= count ? part[q] : ""
  if (kind[q] != "word" || op !~ /^(and|or|not|eq|ne|lt|le|gt|ge|in)$/)
    return no_condition(n, "and, or, not, eq, ne, lt, le, gt, ge or in is " (q > count ? "missing" : "wanted: the test stands first, as in (eq stock 1)"))
  q++
  if (op ~ /^(and|or)$/) {
    if (!condition(n, e, depth + 1) || !condition(n, e, depth + 1)) return 0
    return closes(n, quoted(op) " joins two conditions, as in (" op " A (" op " B C))")
  }
  if (op == "not") return condition(n, e, depth + 1) && closes(n, "`not` has one condition")
  return test(n, e, op)
}

function closes(n, why) {
  if (is_mark(q, ")")) { q++; return 1 }
  return no_condition(n, q > count ? "`)` is missing" : "`)` is wanted: " why)
}

# A test of the column or path in the next part by the cells behind it.
function test(n, e, op,  at, c, last, from) {
  if (!is_kind(q, "word") && !is_kind(q, "path"))
    return no_condition(n, q > count ? "the column is missing" : "a column is wanted, or a path as in `shelf.room`")
  at = q++
  from = q
  while (is_cell(q) && (op == "in" || q == from)) q++
  if (q == from) { in_condition = 1; return no_cell(n, q, 0) }
  if (op == "in" && q <= count && !is_mark(q, ")")) { in_condition = 1; return no_cell(n, q, 0) }
  last = q - 1
  if (!closes(n, "a test has one cell, and `in` may have several")) return 0
  c = subject(n, at, e)
  if (last - from >= 64) bad_part(n, "depth", from + 64, "`in` has 64 cells at most")
  if (!c) return 1
  if (column_type[ending_entity, c] == "bool" && op ~ /^(lt|le|gt|ge)$/) bad_part(n, "type", at - 1, "of bools there is no " quoted(op))
  for (; from <= last; from++) if (!has_type(n, from, ending_entity, c)) break
  return 1
}

# The column at which a path ends, and its entity.
function subject(n, i, e,  dot, c) {
  ending_entity = e
  if (kind[i] == "?") return 0
  if (kind[i] == "word") return column_in(n, i, e, part[i])
  dot = index(part[i], ".")
  c = column_in(n, i, e, substr(part[i], 1, dot - 1))
  if (!c) return 0
  if (column_type[e, c] !~ /^ref /) {
    if (!loose[e]) bad_part(n, "unknown", i, quoted(column_name[e, c]) " is no reference, so no path leads on from it; " columns_of(e))
    return 0
  }
  ending_entity = target[e, c]
  return column_in(n, i, ending_entity, substr(part[i], dot + 1))
}

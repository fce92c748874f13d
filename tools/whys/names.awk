# Names that are near another.

function least(a, b) { return a < b ? a : b }

# How many letters are to be changed, put in, left out or exchanged with the next; case isn't looked at. Above 2 it is 3.
function apart(a, b,  i, j, cost, d, best) {
  a = tolower(a)
  b = tolower(b)
  if (length(a) - length(b) > 2 || length(b) - length(a) > 2) return 3
  for (i = 0; i <= length(a); i++) d[i, 0] = i
  for (j = 0; j <= length(b); j++) d[0, j] = j
  for (i = 1; i <= length(a); i++)
    for (j = 1; j <= length(b); j++) {
      cost = substr(a, i, 1) != substr(b, j, 1)
      best = least(least(d[i - 1, j] + 1, d[i, j - 1] + 1), d[i - 1, j - 1] + cost)
      if (i > 1 && j > 1 && substr(a, i, 1) substr(a, i - 1, 1) == substr(b, j - 1, 2)) best = least(best, d[i - 2, j - 2] + 1)
      d[i, j] = best
    }
  return least(d[length(a), length(b)], 3)
}

# Of names between blanks, those that are nearest, three at most; of a short name one letter may be another.
function near(name, names,  list, n, i, d, best, found, shown) {
  n = split(names, list, " ")
  best = length(name) > 3 ? 2 : 1
  for (i = 1; i <= n; i++) {
    d = apart(name, list[i])
    if (d > best) continue
    if (d < best) { best = d; found = ""; shown = 0 }
    if (++shown <= 3) found = found (found == "" ? "" : ", ") list[i]
  }
  return found
}

# Names as they are shown, eight at most.
function listed(names,  list, n, i, out) {
  n = split(names, list, " ")
  for (i = 1; i <= n && i <= 8; i++) out = out (i > 1 ? ", " : "") list[i]
  return out (n > 8 ? " .." : "")
}

# What is said of a name that isn't there: the near ones, or else all.
function known(of_them, name, names,  found) {
  found = near(name, names)
  if (found != "") return "; near: " found
  if (names == "") return ""
  return "; " of_them " " listed(names)
}

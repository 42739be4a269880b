# The program's texts as data frames. Fields hold no comma and no quote, and each table has its columns by its task.

# The columns of each table in their order, with the kind of what stands in them.
DEBT <- c(debtor = "name", creditor = "name", class = "amount", claim = "amount")
TABLES <- list(
  banks = c(name = "name", cash = "amount", rule = "name", outside = "amount"),
  debts = DEBT,
  payments = c(DEBT, paid = "amount"),
  bounds = c(DEBT, least = "amount", greatest = "amount"),
  journal = c(stamp = "amount", debtor = "name", creditor = "name", class = "amount", to = "amount"),
  standings = c(bank = "name", estate = "amount", outside_paid = "amount", paid = "amount", owed = "amount",
                equity = "amount", state = "state"),
  cost_standings = c(bank = "name", estate = "amount", lost = "amount", outside_paid = "amount", paid = "amount",
                     equity = "amount", state = "state"),
  cost_bounds = c(bank = "name",
                  lost_at_least = "amount", equity_at_least = "amount", state_at_least = "state",
                  lost_at_greatest = "amount", equity_at_greatest = "amount", state_at_greatest = "state"),
  waves = c(bank = "name", wave = "amount", gridlock = "answer", equity = "amount"),
  cuts = c(bank = "name", cut = "amount", state = "state"),
  ruins = c(bank = "name", cash = "amount", own = "amount", others = "amount", falls = "amount"),
  harms = c(bank = "name", of = "name", lost = "amount", falls = "answer"),
  savings = c(bank = "name", added = "amount", short = "amount", also_saved = "amount", still_short = "amount"),
  saved = c(bank = "name", saves = "name"),
  ranks = c(class = "amount", bank = "name", rank = "amount"),
  scenario_sums = c(scenario = "name", cash = "amount", paid = "amount", outside_paid = "amount", equity = "amount",
                    defaults = "amount", fundamental = "amount"),
  bank_counts = c(bank = "name", defaults = "amount", fundamental = "amount")
)

# Columns that a text has only where a bank owes something outside.
OPTIONAL <- c("outside", "outside_paid")

# The words of a kind that has no others.
KIND_WORDS <- list(state = c("sound", "fundamental", "contagion"), answer = c("yes", "no"))

# What the text of the program cannot say.
not_understood <- function(what) fail(sprintf("%s: the text of the program is not understood", what))

# Amounts as numbers of R; fails at one that R does not have exactly.
amounts <- function(text) {
  wrong <- !grepl("^[0-9]{1,40}$", text)
  if (any(wrong)) not_understood(sprintf("%s is no amount", text[wrong][1]))
  numbers <- as.numeric(text)
  # A text that is a little greater is rounded to the last exact number.
  inexact <- numbers > EXACT | numbers == EXACT & !endsWith(text, format(EXACT, digits = 16))
  if (any(inexact)) fail(sprintf("%s is more than R has exactly", text[inexact][1]))
  numbers
}

# The values of a column by its kind.
values_of <- function(kind, text) {
  if (kind == "amount") return(amounts(text))
  words <- KIND_WORDS[[kind]]
  if (is.null(words)) return(text)
  wrong <- !text %in% words
  if (any(wrong)) not_understood(sprintf("%s is no %s", text[wrong][1], kind))
  text
}

# The fields of a line.
fields_in <- function(line) strsplit(line, ",", fixed = TRUE)[[1]]

# The headers that a table may have: with its optional columns, and without.
headers_of <- function(table) {
  columns <- names(TABLES[[table]])
  unique(c(paste(columns, collapse = ","), paste(setdiff(columns, OPTIONAL), collapse = ",")))
}

# A table out of its header and the lines below it.
table_of <- function(table, lines) {
  if (!isTRUE(lines[1] %in% headers_of(table))) not_understood(sprintf("no table of %s", table))
  columns <- fields_in(lines[1])
  fields <- strsplit(lines[-1], ",", fixed = TRUE)
  if (any(lengths(fields) != length(columns))) not_understood("a line with too many or too few fields")
  read <- function(place) values_of(TABLES[[table]][[columns[place]]], vapply(fields, `[[`, "", place))
  as.data.frame(setNames(lapply(seq_along(columns), read), columns), stringsAsFactors = FALSE)
}

# The parts of a text between empty lines, of which there must be so many.
parts_of <- function(lines, count) {
  parts <- split_parts(lines)
  if (length(parts) != count) not_understood(sprintf("%d parts in place of %d", length(parts), count))
  parts
}

# The parts of a text, however many there are.
split_parts <- function(lines) {
  part <- cumsum(lines == "")
  lapply(unname(split(lines, part)), function(one) one[one != ""])
}

# The numbers of a line behind its word, of which there must be so many.
numbers_behind <- function(word, line, count = 1L) {
  fields <- fields_in(line[1])
  if (!identical(fields[1], word) || length(fields) != count + 1) {
    not_understood(sprintf("no line with %s and as many numbers as it has", word))
  }
  amounts(fields[-1])
}

# A table of standings and the two lines of sums below it, `total` and `cash`, which are told by their place.
with_sums <- function(table, part) {
  last <- length(part)
  standings <- table_of(table, part[seq_len(max(last - 2, 0))])
  summed <- c(setdiff(names(standings), c("bank", "state")), "defaults", "cash")
  sums <- c(numbers_behind("total", part[last - 1], length(summed) - 1), numbers_behind("cash", part[last]))
  list(standings = standings, totals = as.data.frame(as.list(setNames(sums, summed))))
}

# Lines of a word and a number each.
counts_of <- function(words, lines) {
  if (length(lines) != length(words)) not_understood("too many or too few lines of sums")
  as.data.frame(Map(numbers_behind, words, lines))
}

# A journal with its number of rounds.
journal_of <- function(part) {
  last <- length(part)
  list(journal = table_of("journal", part[-last]), rounds = numbers_behind("rounds", part[last]))
}

# What a task gave, with the name of its task.
result <- function(task, tables, more = character(0)) {
  structure(tables, task = task, class = c(more, "clearing_result"))
}

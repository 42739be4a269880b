# The readers of each task: which tables its text has, and what they are called in the result.

# The tables of a text that has payments alone.
PAYMENTS <- c(payments = "payments")

# What reads a text of tables alone; `tables` has what each is, by its name in the result.
reader_of <- function(task, tables, more = character(0)) {
  function(lines) result(task, Map(table_of, tables, parts_of(lines, length(tables))), more)
}

# What `check` counts, and what `gen` counts and sums.
COUNTS <- c("banks", "debts", "owed", "cash")
GENERATED <- c(COUNTS, "paid", "defaults", "equity")

# Counts, and both tables as the program reads them.
read_check <- function(lines) {
  parts <- parts_of(lines, 3)
  result("check", list(totals = counts_of(COUNTS, parts[[1]]), banks = table_of("banks", parts[[2]]),
                       debts = table_of("debts", parts[[3]])))
}

# Counts and sums of a network that was made from a number.
read_generated <- function(lines) result("gen", list(totals = counts_of(GENERATED, lines)))

# Payments, and the journal by which a run came to them.
read_both <- function(lines) {
  parts <- parts_of(lines, 2)
  result("clear", c(list(payments = table_of("payments", parts[[1]])), journal_of(parts[[2]])), "clearing_payments")
}

# A journal alone.
read_journal <- function(lines) result("clear", journal_of(lines))

# Standings and their sums.
read_defaults <- function(lines) result("defaults", with_sums("standings", lines))

# A part for each scenario.
read_stress <- function(lines) {
  outcomes <- if (length(lines)) split_parts(lines) else list()
  read <- Map(outcome_of, outcomes, seq_along(outcomes))
  bound <- function(what) or(do.call(rbind, lapply(read, `[[`, what)), data.frame())
  result("stress", list(payments = bound("payments"), standings = bound("standings"), totals = bound("totals")))
}

# What a scenario leaves: a line with its name, the payments, and then the standings.
outcome_of <- function(part, number) {
  if (!isTRUE(startsWith(part[1], "scenario,"))) not_understood("no line with scenario")
  name <- sub("^scenario,", "", part[1])
  first <- which(part %in% headers_of("standings"))
  if (length(first) != 1) not_understood("no table of standings")
  tables <- c(list(payments = table_of("payments", part[seq_len(first - 1)][-1])),
              with_sums("standings", part[first:length(part)]))
  lapply(tables, function(table) if (nrow(table)) cbind(number = number, scenario = name, table) else NULL)
}

# What is told of a journal that fails, by the verdict.
VERDICTS <- list(falls = c("entry", "last", "stamp"), unlawful = c("entry", "had", "allowed"), unfinished = "bank")

# A verdict, with the payments of a journal that is lawful, and with the place where another one fails.
read_replay <- function(lines) {
  fields <- fields_in(lines[1])
  verdict <- fields[1]
  if (identical(verdict, "lawful")) {
    parts <- parts_of(lines, 2)
    raises <- numbers_behind(verdict, parts[[1]])
    payments <- table_of("payments", parts[[2]])
    return(result("replay", list(verdict = verdict, raises = raises, payments = payments), "clearing_payments"))
  }
  where <- VERDICTS[[verdict]]
  if (is.null(where) || length(fields) != length(where) + 1) not_understood("no verdict")
  values <- as.list(if (verdict == "unfinished") fields[-1] else amounts(fields[-1]))
  result("replay", list(verdict = verdict, where = as.data.frame(setNames(values, where), stringsAsFactors = FALSE)))
}

# The sum that saves a bank, what it lacks with a unit less, and the payments with that sum.
read_rescue <- function(lines) {
  parts <- parts_of(lines, 2)
  first <- fields_in(parts[[1]][1])
  if (!identical(first[1], "rescue") || length(first) != 3) not_understood("no line with rescue")
  result("rescue", list(added = amounts(first[3]), short = numbers_behind("short", parts[[1]][2]),
                        payments = table_of("payments", parts[[2]])), "clearing_payments")
}

# Payments where default costs, with the standings and their sums.
read_costs <- function(lines) {
  parts <- parts_of(lines, 2)
  result("costs", c(list(payments = table_of("payments", parts[[1]])), with_sums("cost_standings", parts[[2]])),
         "clearing_payments")
}

# The debts that are left, the ranks, and what was cancelled.
read_compress <- function(lines) {
  parts <- parts_of(lines, 2)
  last <- length(parts[[2]])
  result("compress", list(debts = table_of("debts", parts[[1]]), ranks = table_of("ranks", parts[[2]][-last]),
                          cancelled = numbers_behind("cancelled", parts[[2]][last])))
}

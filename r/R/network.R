# Networks: two data frames, kept as the two files that the program reads.

# Whole amounts of at least 0 as text; fails at what is not one, with the name of the column.
whole_text <- function(values, column) {
  if (is.factor(values)) values <- as.character(values)
  if (is.character(values)) {
    wrong <- is.na(values) | !grepl("^[0-9]{1,20}$", values)
  } else if (is.numeric(values)) {
    wrong <- is.na(values) | values < 0 | values != floor(values) | values > EXACT
    values <- format(values, scientific = FALSE, trim = TRUE, digits = 16)
  } else {
    wrong <- rep(TRUE, length(values))
  }
  if (any(wrong)) {
    fail(sprintf("%s, row %d: not a whole number of units from 0 on that R has exactly", column, which(wrong)[1]))
  }
  values
}

# A column of a data frame, or a value for all rows where there is no such column.
column_or <- function(frame, name, default) {
  if (is.null(frame[[name]])) rep(default, length.out = nrow(frame)) else frame[[name]]
}

# Names, or words such as a rule, as the files have them; fails at what would be another field or line.
name_text <- function(values, column) {
  values <- enc2utf8(as.character(values))
  wrong <- is.na(values) | grepl("[\",\n\r]", values)
  if (any(wrong)) {
    fail(sprintf("%s, row %d: the text has a comma, a quote or a line end, or is missing", column, which(wrong)[1]))
  }
  values
}

# Fails where a data frame is none, or lacks a column.
needed <- function(frame, columns, what) {
  if (!is.data.frame(frame)) fail(sprintf("%s is no data frame", what))
  missing <- setdiff(columns, names(frame))
  if (length(missing)) fail(sprintf("%s has no column %s", what, missing[1]))
}

# A network of a data frame of banks and one of debts.
bank_network <- function(banks, debts, rule = "webster", class = 1, limits = NULL) {
  needed(banks, c("name", "cash"), "banks")
  needed(debts, c("debtor", "creditor", "claim"), "debts")
  banks$rule <- column_or(banks, "rule", rule)
  debts$class <- column_or(debts, "class", class)
  as_network(file_of("banks", banks), file_of("debts", debts), limits)
}

# The lines of a file with the columns of a table, of which a data frame may lack the optional ones.
file_of <- function(table, frame) {
  texts <- texts_of(table, frame)
  c(paste(names(texts), collapse = ","), joined(texts))
}

# The columns of a table, out of a data frame, as texts.
texts_of <- function(table, frame) {
  kinds <- TABLES[[table]]
  columns <- names(kinds)[!names(kinds) %in% setdiff(OPTIONAL, names(frame))]
  text_of <- function(column) {
    if (kinds[[column]] == "amount") whole_text(frame[[column]], column) else name_text(frame[[column]], column)
  }
  setNames(lapply(columns, text_of), columns)
}

# The fields of rows with commas between; no row where there is none.
joined <- function(fields) {
  if (length(fields[[1]])) do.call(paste, c(unname(fields), sep = ",")) else character(0)
}

# What the standard limits have; the wide ones are the program's to judge.
STANDARD <- c(banks = 1000, debts = 20000, owed = 10000000, bytes = 8388608)

# A network of the lines of its files, with the limits by which they are read: those that were said, else `wide` where
# it needs them, which a message tells.
as_network <- function(banks, debts, limits = NULL) {
  if (is.null(limits)) {
    what <- beyond(banks, debts)
    limits <- if (is.null(what)) "standard" else "wide"
    if (!is.null(what)) {
      message(sprintf("the network is read by the wide limits, as it has %s; limits = \"wide\" says so", what))
    }
  } else if (!identical(limits, "standard") && !identical(limits, "wide")) {
    fail("limits: neither standard nor wide")
  }
  structure(list(banks_file = banks, debts_file = debts, limits = limits), class = "bank_network")
}

# What passes the standard limits, in words, or nothing.
beyond <- function(banks, debts) {
  shown <- function(count) format(count, big.mark = ",", scientific = FALSE)
  files <- list(banks = banks, debts = debts)
  for (what in names(files)) {
    lines <- files[[what]]
    if (sum(nchar(lines, "bytes") + 1) > STANDARD[["bytes"]]) {
      return(sprintf("a %s file of more than %s bytes", what, shown(STANDARD[["bytes"]])))
    }
    records <- sum(grepl("[^, \t\r\"]", lines, useBytes = TRUE)) - 1
    if (records > STANDARD[[what]]) return(sprintf("more than %s %s", shown(STANDARD[[what]]), what))
  }
  claims <- gsub("[ \t\r\"]", "", sub("^.*,", "", debts[-1], useBytes = TRUE), useBytes = TRUE)
  owed <- sum(as.numeric(claims[grepl("^[0-9]{1,20}$", claims, useBytes = TRUE)]))
  if (owed > STANDARD[["owed"]]) return(sprintf("claims of more than %s units", shown(STANDARD[["owed"]])))
  NULL
}

# A network of its two files.
read_network <- function(banks, debts, limits = NULL) {
  for (file in c(banks, debts)) if (!file.exists(file) || dir.exists(file)) fail(paste("cannot read", file), 3L)
  as_network(read_lines(banks), read_lines(debts), limits)
}

# Writes the two files of a network.
write_network <- function(network, banks, debts) {
  files <- network_of(network)
  write_text(files$banks_file, banks)
  write_text(files$debts_file, debts)
  invisible(network)
}

# The network of a case, or one itself; fails at anything else.
network_of <- function(network) {
  if (inherits(network, "bank_case")) network <- network$network
  if (!inherits(network, "bank_network")) fail("the first argument is neither a network nor a case")
  network
}

# Calls a function with the names of the network's two files, which are there as long as it runs.
with_files <- function(network, call) {
  folder <- tempfile("clearing-")
  dir.create(folder, mode = "0700")
  on.exit(unlink(folder, recursive = TRUE))
  files <- file.path(folder, c("banks.csv", "debts.csv"))
  write_network(network, files[1], files[2])
  call(files[1], files[2], folder)
}

# Showing

print.bank_network <- function(x, ...) {
  count <- function(lines) max(0, length(lines) - 1)
  cat(sprintf("<network of %d banks and %d debts>\n", count(x$banks_file), count(x$debts_file)))
  invisible(x)
}

summary.bank_network <- function(object, ...) structure(as.list(check(object)$totals), class = "summary.bank_network")

print.summary.bank_network <- function(x, ...) {
  for (name in names(x)) cat(sprintf("%-6s %s\n", name, format(x[[name]], big.mark = ",", scientific = FALSE)))
  invisible(x)
}

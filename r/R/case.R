# A case: a folder with the two files, scenarios, labels, and a description by the Data Package standard.

DESCRIPTION <- "datapackage.json"
CASE_FILES <- c(banks = "banks.csv", debts = "debts.csv", scenarios = "scenarios.toml", labels = "labels.csv")
LABEL_COLUMNS <- c("bank", "short", "full", "group", "country")

# The folder of a case with copies of the sheets that it was made of.
SHEETS <- "sources"

# A case of a network and of what a description says of it.
bank_case <- function(network, title = "", description = "", as_of = NULL, test = NULL, currency = NULL, unit = "1",
                      labels = NULL, keep = NULL) {
  if (!inherits(network, "bank_network")) fail("a case is made of a network")
  ours <- list(asOf = as_of, test = test, currency = currency, unit = unit, limits = network$limits, keep = keep)
  check_described(ours)
  document <- list(title = title, description = description, clearing = drop_null(ours))
  as_case(network, document, labels, list(), character(0))
}

# A case of its parts: `paths` are the files that it was read from, by what they are, and `sheets` the copies of sheets
# by their names in the folder. What stands in a document is asked for by `[[`, since `$` would take a longer key too.
as_case <- function(network, document, labels, paths, notes, sheets = character(0)) {
  ours <- document[["clearing"]]
  parts <- list(network = network, labels = labels, title = or(document[["title"]], ""),
                description = or(document[["description"]], ""), as_of = ours[["asOf"]], test = ours[["test"]],
                currency = ours[["currency"]], unit = or(ours[["unit"]], "1"), limits = network$limits,
                keep = ours[["keep"]],
                notes = notes, document = document, paths = paths, sheets = sheets)
  structure(parts, class = "bank_case")
}

# What is stated of a case, what is to be told of it, and how large its network is.
print.bank_case <- function(x, ...) {
  cat(sprintf("<case %s>\n", if (nzchar(x$title)) x$title else "without a title"))
  for (name in c("as_of", "test", "currency", "unit")) cat(sprintf("%-9s%s\n", name, or(x[[name]], "not stated")))
  for (note in x$notes) cat("note:", note, "\n")
  print(x$network)
  invisible(x)
}

# The sums of its network.
summary.bank_case <- function(object, ...) summary(object$network)

# Units of a case as exact amounts of its currency, as text.
amount <- function(case, units) {
  parts <- strsplit(case$unit, ".", fixed = TRUE)[[1]]
  digits <- if (length(parts) == 2) nchar(parts[2]) else 0L
  whole <- as.numeric(paste0(parts, collapse = ""))
  product <- units * whole
  # A product that is a little greater is rounded to the last exact number.
  if (any(units != floor(units)) || any(abs(product) >= EXACT)) {
    fail("an amount that R does not have exactly")
  }
  text <- format(abs(product), scientific = FALSE, trim = TRUE, digits = 16)
  if (digits) {
    text <- paste0(strrep("0", pmax(0, digits + 1 - nchar(text))), text)
    cut <- nchar(text) - digits
    text <- paste0(substr(text, 1, cut), ".", substring(text, cut + 1))
  }
  paste0(ifelse(product < 0, "-", ""), text)
}

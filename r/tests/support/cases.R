# What the tests of cases use: a case, its folder, and the bytes of its sheets.

labelled_case <- function() {
  labels <- data.frame(bank = "A", short = "A", full = "Alpha, \"S.A.\"", group = "", country = "DE")
  bank_case(two_banks(), title = "Zwei Banken \u2013 Test", description = "A line.\n\nA \\ and a \"quote\".",
            as_of = "2026-03-31", test = "liquidity", currency = "EUR", unit = "0.01", labels = labels)
}

# A new folder with a case, and with sheets of these names.
folder_of <- function(case = labelled_case(), sheets = character(0)) {
  folder <- tempfile("case-")
  write_case(case, folder)
  if (length(sheets)) dir.create(file.path(folder, "sources"))
  for (name in sheets) {
    cat("debtor,creditor,amount\nA,B,10\n", name, file = file.path(folder, "sources", name), sep = "")
  }
  folder
}

# The bytes of the sheets in a folder, by their names.
bytes_of <- function(folder) {
  names <- list.files(file.path(folder, "sources"))
  sapply(names, function(name) readBin(file.path(folder, "sources", name), "raw", 1000), simplify = FALSE)
}

description_in <- function(folder) file.path(folder, "datapackage.json")

# Writes more keys below `clearing` into the description in a folder.
describe_more <- function(folder, keys) {
  file <- description_in(folder)
  text <- paste(readLines(file, encoding = "UTF-8"), collapse = "\n")
  writeLines(sub("\"clearing\": {", paste0("\"clearing\": {", keys, ","), text, fixed = TRUE), file, useBytes = TRUE)
}

# Whether a file can be told from the one that was described.
can_hash <- nzchar(Sys.which("sha256sum")) || exists("sha256sum", asNamespace("tools"))

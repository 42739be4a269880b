# How a case is written into its folder: beside it first, and then moved into its place.

# Writes a case into a folder, which is new or, where `replace` says so, that of a case.
write_case <- function(case, folder, replace = FALSE) {
  if (!inherits(case, "bank_case")) fail("this is no case")
  # Without a slash at its end, behind which a link would not be seen.
  folder <- sub("(.)/+$", "\\1", folder)
  check_replaceable(folder, replace)
  part <- tempfile(".part-", tmpdir = dirname(folder))
  dir.create(part)
  on.exit(unlink(part, recursive = TRUE))
  write_network(case$network, file.path(part, "banks.csv"), file.path(part, "debts.csv"))
  if (!is.null(case$paths$scenarios)) copy_file(case$paths$scenarios, file.path(part, "scenarios.toml"))
  if (!is.null(case$labels) && nrow(case$labels)) write_labels(case$labels, file.path(part, "labels.csv"))
  if (length(case$sheets)) dir.create(file.path(part, SHEETS))
  for (name in names(case$sheets)) copy_file(case$sheets[[name]], file.path(part, SHEETS, name))
  write_text(write_json(document_of(case, part)), file.path(part, DESCRIPTION))
  move_into(part, folder)
  invisible(folder)
}

# Whether a folder may be written over: that was said, and it has nothing that is no part of a case.
check_replaceable <- function(folder, replace) {
  if (!file.exists(folder) && !is_link(folder)) return(invisible())
  if (!replace || is_link(folder) || !dir.exists(folder)) {
    fail(sprintf("%s is there; nothing is written over it", folder))
  }
  other <- setdiff(list.files(folder, all.files = TRUE, no.. = TRUE), c(CASE_FILES, DESCRIPTION, SHEETS))
  if (length(other)) {
    fail(sprintf("%s has %s, which is no part of a case; nothing is written over it", folder, other[1]))
  }
  sheets_in(folder)
  invisible()
}

# Copies a file of a case, which is no link by now either.
copy_file <- function(from, to) {
  if (is_link(from)) fail(sprintf("%s is a link; a case has files alone", from))
  if (!file.copy(from, to)) fail(sprintf("%s cannot be read", from), 3L)
}

# Moves a folder that was made into its place. What stood there comes back where that fails, and goes where it does not.
move_into <- function(part, folder, rename = file.rename) {
  kept <- NULL
  if (file.exists(folder)) {
    kept <- tempfile(".before-", tmpdir = dirname(folder))
    if (!rename(folder, kept)) fail(sprintf("%s cannot be moved aside", folder))
  }
  if (!rename(part, folder)) {
    if (!is.null(kept)) rename(kept, folder)
    fail(sprintf("%s cannot be written", folder))
  }
  if (!is.null(kept)) unlink(kept, recursive = TRUE)
}

# Writes the labels of banks, with quotes where a field needs them.
write_labels <- function(labels, file) {
  field <- function(column) {
    inner <- gsub("\"", "\"\"", column, fixed = TRUE)
    ifelse(grepl("[\",\n\r]", column), paste0("\"", inner, "\""), column)
  }
  rows <- lapply(LABEL_COLUMNS, function(name) field(enc2utf8(or(labels[[name]], rep("", nrow(labels))))))
  write_text(c(paste(LABEL_COLUMNS, collapse = ","), joined(rows)), file)
}

# What all files of the package use.

# Beyond this not every whole number is a number of R.
EXACT <- 2^53

# A condition of class `clearing_error` with the status of the program, or NA where it was not run.
fail <- function(message, status = NA_integer_) {
  fault <- list(message = message, call = NULL, status = status)
  stop(structure(fault, class = c("clearing_error", "error", "condition")))
}

# A value, or another where there is none.
or <- function(value, other) if (is.null(value)) other else value

# A list without what is NULL.
drop_null <- function(values) values[!vapply(values, is.null, NA)]

# Whether a path is a link.
is_link <- function(path) {
  target <- Sys.readlink(path)
  !is.na(target) && nzchar(target)
}

# The lines of a file, in UTF-8, whatever the locale has.
read_lines <- function(file) {
  size <- file.size(file)
  if (is.na(size) || size == 0) return(character(0))
  whole <- rawToChar(readBin(file, "raw", size))
  Encoding(whole) <- "UTF-8"
  strsplit(whole, "\n", fixed = TRUE)[[1]]
}

# Writes a text as it is, in UTF-8.
write_text <- function(lines, file) {
  writeBin(charToRaw(enc2utf8(paste0(lines, "\n", collapse = ""))), file)
}

# A text in double quotes, as JSON and TOML both have it.
quoted <- function(text) {
  text <- gsub("\\", "\\\\", enc2utf8(text), fixed = TRUE)
  text <- gsub("\"", "\\\"", text, fixed = TRUE)
  text <- gsub("\n", "\\n", text, fixed = TRUE)
  for (code in c(1:9, 11:31, 127)) text <- gsub(intToUtf8(code), sprintf("\\u%04x", code), text, fixed = TRUE)
  paste0("\"", text, "\"")
}

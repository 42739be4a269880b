# The program: where it is, how it is run, and what its statuses mean.

# What a status says where the program writes no text that is read. 0 is well, and 7 a verdict.
STATUSES <- c(
  "2" = "the command line is not understood",
  "3" = "a file cannot be read",
  "4" = "a file is refused",
  "5" = "the output cannot be written",
  "6" = "there is not enough memory"
)

# The path of the program: what the environment variable CLEARING names, else what the path has.
find_program <- function() {
  named <- Sys.getenv("CLEARING")
  if (nzchar(named)) {
    found <- if (grepl("/", named, fixed = TRUE)) named else unname(Sys.which(named))
  } else {
    found <- unname(Sys.which("clearing"))
  }
  if (!nzchar(found) || !file.exists(found) || dir.exists(found)) {
    fail("there is no program `clearing`: install it, or let the environment variable CLEARING name it")
  }
  normalizePath(found)
}

# Runs the program with some words; gives the bytes that it printed, as one text in UTF-8, and its status.
run_program <- function(words) {
  output <- tempfile("clearing-out-")
  message <- tempfile("clearing-err-")
  on.exit(unlink(c(output, message)))
  # Words are given to the shell byte by byte, whatever the locale has.
  quoted <- shQuote(enc2utf8(words))
  Encoding(quoted) <- "unknown"
  status <- system2(find_program(), quoted, stdout = output, stderr = message)
  told <- sub("^clearing: ", "", trimws(paste(read_lines(message), collapse = "\n")))
  if (!status %in% c(0L, 7L)) {
    known <- status %in% names(STATUSES)
    if (!nzchar(told)) told <- if (known) STATUSES[[as.character(status)]] else paste("status", status)
    fail(told, as.integer(status))
  }
  list(lines = read_lines(output), status = as.integer(status))
}

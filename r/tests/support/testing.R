# What all tests use: a test has a name, checks compare whole values, and a test that is skipped says so.
library(clearing)

# Runs a test in an environment of its own; a fault in it has its name in front.
test <- function(name, code) {
  run <- substitute(code)
  place <- new.env(parent = parent.frame())
  tryCatch(eval(run, place), error = function(fault) {
    stop(sprintf("%s: %s", name, conditionMessage(fault)), call. = FALSE)
  })
  cat(sprintf("passed: %s\n", name))
}

# A test that asks the program, which is skipped where there is none.
test_with_program <- function(name, code) {
  there <- !inherits(try(find_program(), silent = TRUE), "try-error")
  if (!there) return(cat(sprintf("SKIPPED, as there is no program: %s\n", name)))
  eval(substitute(test(name, code)), parent.frame())
}

# Fails where a value is not exactly another: of the same type, length and names.
expect_same <- function(found, wanted) {
  if (identical(found, wanted)) return(invisible())
  shown <- function(value) paste(deparse(value), collapse = " ")
  stop(sprintf("%s is %s and not %s", paste(deparse(substitute(found)), collapse = " "), shown(found), shown(wanted)),
       call. = FALSE)
}

# Fails where an expression is no fault of the package, or one without some words in its message or of another status.
expect_fault <- function(expression, words = "", status = NA_integer_) {
  what <- paste(deparse(substitute(expression)), collapse = " ")
  fault <- tryCatch({
    expression
    NULL
  }, clearing_error = identity)
  if (is.null(fault)) stop(sprintf("%s is not refused", what), call. = FALSE)
  if (!grepl(words, conditionMessage(fault), fixed = TRUE)) {
    stop(sprintf("%s is refused by the words: %s", what, conditionMessage(fault)), call. = FALSE)
  }
  if (!identical(fault$status, status)) {
    stop(sprintf("%s is refused with the status %s", what, format(fault$status)), call. = FALSE)
  }
}

# Three banks in a row: the values of their tasks are those that a pencil gives.
three_banks <- function() {
  bank_network(data.frame(name = c("A", "B", "C"), cash = c(7, 1, 0)),
               data.frame(debtor = c("A", "B"), creditor = c("B", "C"), claim = c(10, 9)))
}

# Two banks, one of which owes the other more than it has.
two_banks <- function(...) {
  bank_network(data.frame(name = c("A", "B"), cash = c(7, 1)),
               data.frame(debtor = "A", creditor = "B", claim = 10), ...)
}

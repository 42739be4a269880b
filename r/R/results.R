# What a task gave, printed and summed up.

# The first rows of each table, and single values as they are.
print.clearing_result <- function(x, ...) {
  cat(sprintf("<%s>\n", attr(x, "task")))
  for (name in names(x)) {
    value <- x[[name]]
    if (is.data.frame(value)) {
      cat(sprintf("\n%s: %d rows\n", name, nrow(value)))
      print(head(value, 10), row.names = FALSE)
      if (nrow(value) > 10) cat(sprintf("... and %d more\n", nrow(value) - 10))
    } else {
      cat(sprintf("%s: %s\n", name, format(value, big.mark = ",", scientific = FALSE)))
    }
  }
  invisible(x)
}

# The sums of a result: those that the program gives, else those of its payments, else how long its tables are.
summary.clearing_result <- function(object, ...) {
  if (is.data.frame(object$totals)) return(object$totals)
  if (is.data.frame(object$payments)) {
    owed <- sum(object$payments$claim)
    paid <- sum(object$payments$paid)
    return(data.frame(debts = nrow(object$payments), owed = owed, paid = paid, unpaid = owed - paid))
  }
  rows_of <- function(value) if (is.data.frame(value)) nrow(value) else 1L
  data.frame(table = names(object), rows = vapply(object, rows_of, 1L),
             row.names = NULL)
}

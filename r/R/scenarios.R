# Scenarios: what is lost, the file of it in TOML, and the words that name the file.

# A scenario: a cut of all cash in thousandths, and losses of single banks by their names.
losses <- function(name, cut = 0, ...) {
  amounts <- list(...)
  if (length(amounts) == 1 && !is.null(names(amounts[[1]]))) amounts <- as.list(amounts[[1]])
  if (length(amounts) && (is.null(names(amounts)) || any(names(amounts) == ""))) {
    fail("each loss has the name of its bank")
  }
  list(name = name, cut = cut, losses = amounts)
}

# A scenario as lines of TOML.
scenario_lines <- function(scenario) {
  one <- function(bank, amount) {
    c("[[scenario.loss]]", paste("bank =", quoted(bank)), paste("amount =", whole_text(amount, bank)))
  }
  cut <- whole_text(or(scenario$cut, 0), "cut")
  c("[[scenario]]", paste("name =", quoted(scenario$name)), paste("cut =", cut),
    unlist(Map(one, names(scenario$losses), scenario$losses), use.names = FALSE), "")
}

# The words that name a scenarios file: one that is there, or one that is written for a list of `losses`.
scenarios_words <- function(network, scenarios, folder) {
  if (is.null(scenarios)) {
    file <- if (inherits(network, "bank_case")) network$paths[["scenarios"]] else NULL
    if (is.null(file)) fail("there are no scenarios: name a file, or give a list of `losses`")
  } else if (is.character(scenarios)) {
    file <- scenarios
  } else {
    file <- file.path(folder, "scenarios.toml")
    write_text(unlist(lapply(scenarios, scenario_lines)), file)
  }
  c("--scenarios", file)
}

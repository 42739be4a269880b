# The tasks of the program, a function each.

# Runs a task on a network by its limits; `more` are its further words, or a function of the folder that gives them.
ask <- function(network, task, read, more = character(0)) {
  network <- network_of(network)
  with_files(network, function(banks, debts, folder) {
    words <- c(if (is.function(more)) more(folder) else more, if (network$limits == "wide") c("--limits", "wide"))
    read(run_program(c(task, "--banks", banks, "--debts", debts, words))$lines)
  })
}

# The words for how many threads work, and how many sweeps a round has.
effort <- function(workers, sweeps) {
  c("--workers", whole_text(workers, "workers"), "--sweeps", whole_text(sweeps, "sweeps"))
}

# The sizes and sums of a network, which the program accepts, and its banks and debts as tables.
check <- function(network) ask(network, "check", read_check)

# The payments that clear, their journal, or both.
clear <- function(network, show = c("payments", "journal", "both"), workers = 4, sweeps = 1) {
  show <- match.arg(show)
  read <- switch(show, payments = reader_of("clear", PAYMENTS, "clearing_payments"), journal = read_journal,
                 both = read_both)
  ask(network, "clear", read, c("--show", show, effort(workers, sweeps)))
}

# The same payments, computed on one thread.
central <- function(network) ask(network, "central", reader_of("central", PAYMENTS, "clearing_payments"))

# How each bank stands once all have paid: what it keeps, and why it is in default.
defaults <- function(network, workers = 4, sweeps = 1) ask(network, "defaults", read_defaults, effort(workers, sweeps))

# Both ends of the payments that clear, for each debt and each bank.
bounds <- function(network, workers = 4, sweeps = 1) {
  ask(network, "bounds", reader_of("bounds", c(debts = "bounds", banks = "waves")), effort(workers, sweeps))
}

# The least cash that lets a bank pay in full, and the payments with it.
rescue <- function(network, bank, workers = 4, sweeps = 1) {
  ask(network, "rescue", read_rescue, c("--bank", enc2utf8(bank), effort(workers, sweeps)))
}

# The least cash for each bank in default, and which others it saves too.
rescues <- function(network) ask(network, "rescues", reader_of("rescues", c(banks = "savings", saves = "saved")))

# The least cut of all cash at which each bank falls.
breaking <- function(network) {
  ask(network, "breaking", reader_of("breaking", c(banks = "cuts"), "clearing_breaking"))
}

# What it costs the others where a bank loses all its cash, and which of them fall.
impact <- function(network) ask(network, "impact", reader_of("impact", c(banks = "ruins", pairs = "harms")))

# The debts without the cycles of one class, which cancel, and the ranks of the banks by it.
compress <- function(network) ask(network, "compress", read_compress)

# The banks with what they owe outside in a column of their own.
convert <- function(network) ask(network, "convert", reader_of("convert", c(banks = "banks")))

# The payments where default keeps so many thousandths of an estate.
costs <- function(network, keep) ask(network, "costs", read_costs, c("--keep", whole_text(keep, "keep")))

# Both ends of the payments that clear where default costs.
cost_bounds <- function(network, keep) {
  read <- reader_of("cost-bounds", c(debts = "bounds", banks = "cost_bounds"))
  ask(network, "cost-bounds", read, c("--keep", whole_text(keep, "keep")))
}

# The payments and the standings of each scenario.
stress <- function(network, scenarios = NULL, workers = 4, sweeps = 1) {
  words <- function(folder) c(scenarios_words(network, scenarios, folder), effort(workers, sweeps))
  ask(network, "stress", read_stress, words)
}

# What becomes of each bank in all scenarios.
outcomes <- function(network, scenarios = NULL) {
  read <- reader_of("outcomes", c(scenarios = "scenario_sums", banks = "bank_counts"))
  ask(network, "outcomes", read, function(folder) scenarios_words(network, scenarios, folder))
}

# Whether a journal is lawful, and if not, where it fails.
replay <- function(network, journal) {
  ask(network, "replay", read_replay, function(folder) {
    file <- file.path(folder, "journal.csv")
    if (inherits(journal, "clearing_result")) journal <- list(table = journal$journal, rounds = journal$rounds)
    if (is.data.frame(journal)) journal <- list(table = journal)
    if (is.character(journal)) file <- journal else write_text(journal_lines(journal), file)
    c("--journal", file)
  })
}

# The sums of a network that is made from a number, and cleared.
generate <- function(seed, size, tries, workers = 4, sweeps = 1) {
  words <- c("--seed", whole_text(seed, "seed"), "--size", whole_text(size, "size"), "--tries",
             whole_text(tries, "tries"))
  read_generated(run_program(c("gen", words, effort(workers, sweeps)))$lines)
}

# A journal as a file.
journal_lines <- function(journal) {
  table <- journal$table
  if (is.null(table)) fail("the journal is not among what `clear` gave: ask for it by show = \"both\"")
  needed(table, names(TABLES$journal), "journal")
  end <- if (is.null(journal$rounds)) character(0) else paste0("rounds,", whole_text(journal$rounds, "rounds"))
  c(file_of("journal", table), end)
}

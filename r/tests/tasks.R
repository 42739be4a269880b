# Each task on three banks: the values are those that a pencil gives.
source("support/testing.R")

test_with_program("payments are the least that clear, with the journal that came to them", {
  net <- three_banks()
  paid <- clear(net, "both", workers = 1)
  expect_same(paid$payments$paid, c(7, 8))
  expect_same(paid$rounds, 2)
  expect_same(nrow(paid$journal), 2L)
  expect_same(central(net)$payments, paid$payments)
  expect_same(clear(net, "journal", workers = 1)$journal, paid$journal)
  expect_same(summary(clear(net)), data.frame(debts = 2L, owed = 19, paid = 15, unpaid = 4))
})

test_with_program("a journal is lawful, and one with a raise too high is not", {
  net <- three_banks()
  paid <- clear(net, "both", workers = 1)
  expect_same(replay(net, paid)$verdict, "lawful")
  expect_same(replay(net, paid)$payments, paid$payments)
  paid$journal$to[2] <- 9
  false <- replay(net, paid)
  expect_same(false$verdict, "unlawful")
  expect_same(false$where[c("entry", "allowed")], data.frame(entry = 2, allowed = 8))
  expect_fault(replay(net, clear(net)), "ask for it by show = \"both\"")
})

test_with_program("standings say who is in default, and with which label", {
  left <- defaults(three_banks())
  expect_same(left$standings$state, c("fundamental", "contagion", "sound"))
  expect_same(left$totals[c("defaults", "cash")], data.frame(defaults = 2, cash = 8))
})

test_with_program("bounds have the waves of defaults", {
  both <- bounds(three_banks())
  expect_same(both$banks$wave, c(1, 2, 0))
  expect_same(both$debts$least, c(7, 8))
})

test_with_program("rescues, ruins and breaking cuts", {
  net <- three_banks()
  expect_same(rescue(net, "A")$added, 3)
  expect_same(rescues(net)$saves, data.frame(bank = "A", saves = "B"))
  expect_same(breaking(net)$banks$cut, c(0, 0, 1001))
  lost <- impact(net)
  expect_same(lost$banks$others, c(7, 1, 0))
  expect_same(lost$banks$falls, c(0, 0, 0))
  expect_same(unique(lost$pairs$falls), "no")
})

test_with_program("costs of default", {
  net <- three_banks()
  expect_same(costs(net, 500)$payments$paid, c(3, 2))
  expect_same(cost_bounds(net, 500)$debts$greatest, c(3, 2))
})

test_with_program("counts, compression and what banks owe outside", {
  net <- three_banks()
  expect_same(check(net)$totals, data.frame(banks = 3, debts = 2, owed = 19, cash = 8))
  expect_same(compress(net)$cancelled, 0)
  expect_same(compress(net)$ranks$rank, c(0, 1, 2))
  expect_same(convert(net)$banks$outside, c(0, 0, 0))
  expect_same(generate(1, 3, 3)$totals$banks, 3)
})

test_with_program("scenarios take cash away", {
  net <- three_banks()
  bad <- list(losses("A has nothing", A = 7), losses("half", cut = 500))
  expect_same(stress(net, bad)$totals$paid, c(1, 9))
  expect_same(outcomes(net, bad)$banks$defaults, c(2, 2, 0))
  expect_same(nrow(stress(net, list())$totals), 0L)
  expect_fault(stress(net), "there are no scenarios")
})

test("a loss without the name of its bank is refused", expect_fault(losses("x", 0, 7), "has the name of its bank"))

test("each loss stands in the file with its own amount, also where two are of one bank", {
  expect_same(clearing:::scenario_lines(losses("\"x\"", 10, A = 7, A = 3)),
              c("[[scenario]]", "name = \"\\\"x\\\"\"", "cut = 10",
                "[[scenario.loss]]", "bank = \"A\"", "amount = 7",
                "[[scenario.loss]]", "bank = \"A\"", "amount = 3", ""))
})

test_with_program("estates are exact beyond a million million", {
  large <- bank_network(data.frame(name = c("A", "B"), cash = c(1e12, 0)),
                        data.frame(debtor = "A", creditor = "B", claim = 1e6))
  expect_same(defaults(large)$standings$estate[1], 1e12)
})

test_with_program("odd names come through, as sheets have them", {
  odd <- c("$(touch X)", "a;b", "d'Italia", "total", "cash", "scenario", "NA", "Cr\u00e9dit Loire", "\u6f22\u5b57", "#")
  ring <- bank_network(data.frame(name = odd, cash = 1),
                       data.frame(debtor = odd, creditor = c(odd[-1], odd[1]), claim = 2))
  expect_same(defaults(ring)$standings$bank, odd)
  expect_same(clear(ring)$payments$debtor, odd)
  expect_same(nrow(rescue(ring, odd[8])$payments), 10L)
  expect_same(stress(ring, list(losses("total", cut = 1)))$standings$bank, odd)
})

test_with_program("a fault of the program is an error with its message and status", {
  none <- data.frame(debtor = character(0), creditor = character(0), claim = numeric(0))
  expect_fault(clear(bank_network(data.frame(name = "A", cash = 1, rule = "none"), none)), "banks row 1: rule", 4L)
})

test("a task without a network is refused", expect_fault(check(1), "neither a network nor a case"))

test("a program that is not there is a fault of the package", {
  find_nowhere <- function() {
    named <- Sys.getenv("CLEARING", NA)
    on.exit(if (is.na(named)) Sys.unsetenv("CLEARING") else Sys.setenv(CLEARING = named))
    Sys.setenv(CLEARING = "/nowhere/clearing")
    find_program()
  }
  expect_fault(find_nowhere(), "there is no program")
})

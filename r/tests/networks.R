# Networks of data frames: what is refused, the limits by which they are read, and their files.
source("support/testing.R")
none <- data.frame(debtor = character(0), creditor = character(0), claim = numeric(0))
many <- data.frame(name = paste0("B", 0:1000), cash = 1)

test("amounts that are no whole number from 0 on are refused", {
  for (cash in list(-1, 0.5, NA, 2^54, "1.0", "x", TRUE)) {
    expect_fault(bank_network(data.frame(name = "A", cash = cash), none), "cash, row 1: not a whole number")
  }
})

test("a name that would be another field or line is refused, and so is a rule", {
  for (word in c("A,B", "A\"", "A\nB,5,order", NA)) {
    expect_fault(bank_network(data.frame(name = word, cash = 1), none), "name, row 1:")
    expect_fault(bank_network(data.frame(name = "A", cash = 1, rule = word), none), "rule, row 1:")
  }
})

test("a data frame without its columns is refused", {
  expect_fault(bank_network(none, none), "banks has no column name")
  expect_fault(bank_network(many, many), "debts has no column debtor")
  expect_fault(bank_network(1, none), "banks is no data frame")
})

test("what a data frame does not have stands in the files all the same", {
  net <- two_banks(rule = "equal", class = 2)
  expect_same(net$banks_file, c("name,cash,rule", "A,7,equal", "B,1,equal"))
  expect_same(net$debts_file, c("debtor,creditor,class,claim", "A,B,2,10"))
  expect_same(bank_network(data.frame(outside = 3, name = "A", cash = factor(7)), none)$banks_file,
              c("name,cash,rule,outside", "A,7,webster,3"))
})

test("a network is read as it was written, and so is that of a case", {
  files <- tempfile(c("banks-", "debts-"))
  for (written in list(two_banks(), bank_case(two_banks()))) {
    write_network(written, files[1], files[2])
    expect_same(read_network(files[1], files[2]), two_banks())
  }
  expect_fault(read_network(files[1], tempfile()), "cannot read", 3L)
})

test("more than 1,000 banks are read by the wide limits, which is told", {
  told <- tryCatch(bank_network(many, none), message = conditionMessage)
  expect_same(grepl("as it has more than 1,000 banks", told, fixed = TRUE), TRUE)
  expect_same(suppressMessages(bank_network(many, none))$limits, "wide")
  expect_same(two_banks()$limits, "standard")
})

test("claims of 10,000,000 units are read by the standard limits, and one unit more by the wide ones", {
  owed <- data.frame(debtor = "A", creditor = "B", class = 1:9, claim = 1e6)
  more <- data.frame(debtor = "B", creditor = "A", class = 1:2, claim = c(1e6, 1))
  two <- data.frame(name = c("A", "B"), cash = 0)
  expect_same(suppressMessages(bank_network(two, rbind(owed, more)))$limits, "wide")
  expect_same(bank_network(two, rbind(owed, more[1, ]))$limits, "standard")
})

test("limits that are said decide, without a message", {
  net <- withCallingHandlers(two_banks(limits = "wide"), message = function(told) stop("a message"))
  expect_same(net$limits, "wide")
  expect_fault(two_banks(limits = "narrow"), "neither standard nor wide")
})

test_with_program("the program reads a network by its limits", {
  expect_same(check(suppressMessages(bank_network(many, none)))$totals$banks, 1001)
  expect_same(clear(two_banks(limits = "wide"))$payments$paid, 7)
  expect_fault(check(bank_network(many, none, limits = "standard")), "banks row 1001: too many", 4L)
})

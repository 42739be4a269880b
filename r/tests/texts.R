# The program's texts: columns have the types of their table, whatever stands in them, and other texts are refused.
source("support/testing.R")
amounts <- clearing:::amounts
reader_of <- clearing:::reader_of
read_impact <- reader_of("impact", c(banks = "ruins", pairs = "harms"))

test("a column is a number of banks beside a ruin, and an answer beside a pair", {
  read <- read_impact(c("bank,cash,own,others,falls", "A,7,0,7,2", "", "bank,of,lost,falls", "A,B,7,no", "A,C,1,yes"))
  expect_same(read$banks$falls, 2)
  expect_same(read$pairs$falls, c("no", "yes"))
})

test("a table without a row has the types of its columns", {
  read <- read_impact(c("bank,cash,own,others,falls", "", "bank,of,lost,falls"))
  expect_same(vapply(read$banks, typeof, ""),
              c(bank = "character", cash = "double", own = "double", others = "double", falls = "double"))
  expect_same(vapply(read$pairs, typeof, ""),
              c(bank = "character", of = "character", lost = "double", falls = "character"))
})

test("names that look like amounts stay names", {
  read <- reader_of("rescues", c(banks = "savings", saves = "saved"))
  expect_same(read(c("bank,added,short,also_saved,still_short", "7,3,1,1,0", "", "bank,saves", "7,08"))$saves,
              data.frame(bank = "7", saves = "08"))
})

test("amounts are numbers as far as R has them exactly", {
  expect_same(amounts(c("0", "007", "9007199254740992")), c(0, 7, 2^53))
  expect_same(amounts(character(0)), numeric(0))
  for (text in c("9007199254740993", "9007199254740994", "99999999999999999999")) {
    expect_fault(amounts(c("1", text)), paste(text, "is more than R has exactly"))
  }
})

test("what is no amount is refused", {
  for (text in c("", "x", "-1", "1e3", "0x10", " 1", "1.0", "NA", "Inf")) expect_fault(amounts(text), "is no amount")
})

test("a table with another header, or with a line of more or fewer fields, is refused", {
  read <- reader_of("breaking", c(banks = "cuts"))
  expect_same(read(c("bank,cut,state", "A,0,contagion"))$banks,
              data.frame(bank = "A", cut = 0, state = "contagion"))
  for (lines in list(character(0), "bank,cut", c("bank,state,cut", "A,sound,0"), c("bank,cut,state", "A,0"),
                     c("bank,cut,state", "A,0,sound,1"), c("bank,cut,state", "A,0,well"),
                     c("bank,cut,state", "A,0,sound", "", "bank,cut,state"))) {
    expect_fault(read(lines), "the text of the program is not understood")
  }
})

test("sums are told by their place, whatever banks are called", {
  read <- clearing:::read_defaults(c("bank,estate,paid,owed,equity,state", "total,7,7,10,0,fundamental",
                                     "cash,8,0,0,8,sound", "total,15,7,10,8,1", "cash,8"))
  expect_same(read$standings$bank, c("total", "cash"))
  expect_same(read$totals, data.frame(estate = 15, paid = 7, owed = 10, equity = 8, defaults = 1, cash = 8))
  expect_fault(clearing:::read_defaults("bank,estate,paid,owed,equity,state"), "not understood")
})

test("scenarios are told apart by their numbers", {
  part <- c("scenario,half", "debtor,creditor,class,claim,paid", "A,B,1,10,3", "bank,estate,paid,owed,equity,state",
            "A,3,3,10,0,fundamental", "total,3,3,10,0,1", "cash,3")
  read <- clearing:::read_stress(c(part, "", part))
  expect_same(read$payments[c("number", "scenario", "paid")],
              data.frame(number = 1:2, scenario = "half", paid = c(3, 3)))
  expect_same(read$totals$defaults, c(1, 1))
  expect_same(dim(clearing:::read_stress(character(0))$totals), c(0L, 0L))
})

test("a verdict that fails says where", {
  expect_same(clearing:::read_replay("falls,3,5,4")$where, data.frame(entry = 3, last = 5, stamp = 4))
  expect_same(clearing:::read_replay("unfinished,08")$where, data.frame(bank = "08"))
  for (lines in list(character(0), "", "well,1", "falls,3", "lawful")) {
    expect_fault(clearing:::read_replay(lines), "not understood")
  }
})

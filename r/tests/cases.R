# Cases: what is written is read back, sheets stay, and a folder is written whole or not at all.
source("support/testing.R")
source("support/cases.R")

test("a case is read as it was written", {
  case <- labelled_case()
  read <- read_case(folder_of(case))
  for (what in c("title", "description", "as_of", "test", "currency", "unit", "labels", "network")) {
    expect_same(read[[what]], case[[what]])
  }
  expect_same(read$notes, character(0))
})

test("the summary of a case is that of its network", {
  case <- labelled_case()
  expect_same(summary(case), summary(case$network))
})

test("amounts of a case are exact texts", {
  case <- labelled_case()
  expect_same(amount(case, c(0, 1, 10, 123456, -5)), c("0.00", "0.01", "0.10", "1234.56", "-0.05"))
  expect_same(amount(bank_case(two_banks(), unit = "1000"), 7), "7000")
  expect_fault(amount(case, 0.5), "R does not have exactly")
})

test("an amount that R would round is refused", {
  expect_fault(amount(bank_case(two_banks(), unit = "3002399751580331"), 3), "R does not have exactly")
  expect_fault(amount(bank_case(two_banks(), unit = "9007199254740993"), 1), "R does not have exactly")
})

test("a case is written over another only where that is said", {
  folder <- folder_of()
  expect_fault(write_case(labelled_case(), folder), "nothing is written over it")
  write_case(read_case(folder), folder, replace = TRUE)
  expect_same(read_case(folder)$title, labelled_case()$title)
  cat("x", file = file.path(folder, "thesis.txt"))
  expect_fault(write_case(labelled_case(), folder, replace = TRUE), "has thesis.txt, which is no part of a case")
})

test("sheets stay with the case byte by byte, also from another working folder and over the case itself", {
  folder <- folder_of(sheets = c("list.csv", "banks of January.bin"))
  there <- bytes_of(folder)
  before <- setwd(dirname(folder))
  case <- read_case(basename(folder))
  setwd(before)
  again <- folder_of(case)
  write_case(case, folder, replace = TRUE)
  for (place in c(folder, again)) {
    expect_same(bytes_of(place), there)
    expect_same(read_case(place)$notes, character(0))
  }
  paths <- vapply(read_case(again)$document$resources, function(one) one$path, "")
  expect_same(setdiff(c("sources/list.csv", "sources/banks of January.bin"), paths), character(0))
})

test("a sheet that is gone cannot be written, and what stood there stays", {
  folder <- folder_of(sheets = "list.csv")
  there <- bytes_of(folder)
  again <- folder_of(read_case(folder))
  case <- read_case(again)
  unlink(file.path(again, "sources", "list.csv"))
  # R tells of the file that it cannot open, too.
  suppressWarnings(expect_fault(write_case(case, folder, replace = TRUE), "cannot be read", 3L))
  expect_same(bytes_of(folder), there)
})

test("a case comes back where the new one cannot be moved into its place", {
  folder <- folder_of(sheets = "list.csv")
  there <- bytes_of(folder)
  part <- tempfile("part-")
  dir.create(part)
  fails <- function(from, to) from != part && file.rename(from, to)
  expect_fault(clearing:::move_into(part, folder, fails), "cannot be written")
  expect_same(read_case(folder)$title, labelled_case()$title)
  expect_same(bytes_of(folder), there)
})

test("a folder without the two files is no case", {
  folder <- folder_of()
  unlink(file.path(folder, "debts.csv"))
  expect_fault(read_case(folder), "has no debts.csv, and is no case")
  expect_fault(read_case(file.path(folder, "none")), "is no folder", 3L)
})

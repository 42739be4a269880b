# Links in the folder of a case: they are refused, and what stands behind them stays.
source("support/testing.R")
source("support/cases.R")

# A folder of somebody's own, to which links lead.
thesis <- function() {
  other <- tempfile("else-")
  dir.create(other)
  cat("years of work", file = file.path(other, "thesis.csv"))
  other
}

refused_in <- function(folder, words) {
  expect_fault(read_case(folder), words)
  expect_fault(write_case(labelled_case(), folder, replace = TRUE), words)
}

test("a link in the place of the folder of sheets is refused", {
  folder <- folder_of()
  other <- thesis()
  expect_same(file.symlink(other, file.path(folder, "sources")), TRUE)
  refused_in(folder, "sources is a link")
  expect_same(list.files(other), "thesis.csv")
})

test("a link in the place of a sheet is refused, and a folder too", {
  folder <- folder_of(sheets = "list.csv")
  link <- file.path(folder, "sources", "a.csv")
  expect_same(file.symlink(file.path(thesis(), "thesis.csv"), link), TRUE)
  refused_in(folder, "sources/a.csv is a link")
  unlink(link)
  dir.create(file.path(folder, "sources", "b"))
  refused_in(folder, "sources/b is no file")
})

test("a link in the place of a file of the case is refused", {
  folder <- folder_of(bank_case(two_banks()))
  expect_same(file.symlink("banks.csv", file.path(folder, "labels.csv")), TRUE)
  expect_fault(read_case(folder), "labels.csv is a link")
})

test("nothing is written through a link in the place of the case, also with a slash behind it", {
  folder <- folder_of(sheets = "list.csv")
  there <- bytes_of(folder)
  link <- tempfile("link-")
  expect_same(file.symlink(folder, link), TRUE)
  for (path in c(link, paste0(link, "/"))) {
    expect_fault(write_case(labelled_case(), path, replace = TRUE), "nothing is written over it")
  }
  expect_same(bytes_of(folder), there)
})

# Descriptions of cases: what is told of them, what of them stays, and which are refused.
source("support/testing.R")
source("support/cases.R")

test("keys of ours that nobody knows are told, and stay", {
  folder <- folder_of()
  describe_more(folder, "\"colour\": \"red\", \"import\": {\"command\": [], \"tool\": 1}, \"from\": {\"by\": \"Ada\"}")
  told <- sprintf("the key clearing.%s is unknown", c("colour", "import.tool", "from.by"))
  expect_same(read_case(folder)$notes, told)
  expect_same(read_case(folder_of(read_case(folder)))$notes, told)
})

test("a longer key is not taken for the one that it begins with", {
  folder <- folder_of(bank_case(two_banks()))
  text <- "{\"titles\": \"x\", \"clearing\": {\"units\": \"5\", \"asOfDay\": \"x\", \"tests\": 1, \"keeper\": \"Ada\"}}"
  writeLines(text, description_in(folder))
  read <- read_case(folder)
  expect_same(read[c("title", "unit", "as_of", "test", "keep")],
              list(title = "", unit = "1", as_of = NULL, test = NULL, keep = NULL))
})

test("a file that was changed is told where hashes are at hand", {
  folder <- folder_of(read_case(folder_of(sheets = "list.csv")))
  cat("C,5,webster\n", file = file.path(folder, "banks.csv"), append = TRUE)
  cat("x", file = file.path(folder, "sources", "list.csv"), append = TRUE)
  told <- sprintf("%s is not the file that was described", c("banks.csv", "sources/list.csv"))
  expect_same(read_case(folder)$notes, if (can_hash) told else character(0))
})

test("a file that is gone is told, and one that came", {
  folder <- folder_of()
  unlink(file.path(folder, "labels.csv"))
  expect_same(read_case(folder)$notes, "labels.csv is described, and is not there")
  folder <- folder_of(bank_case(two_banks()))
  writeLines("bank,short,full,group,country", file.path(folder, "labels.csv"))
  expect_same(read_case(folder)$notes, "labels.csv is not described")
})

test("a case needs no description", {
  folder <- folder_of()
  unlink(description_in(folder))
  expect_same(read_case(folder)[c("unit", "notes")], list(unit = "1", notes = character(0)))
})

test("a description that is none is refused", {
  folder <- folder_of()
  wrong <- c("{" = "not JSON", "[]" = "no object of JSON", "{\"clearing\": 1}" = "clearing: no object of JSON",
             "{\"clearing\": {\"unit\": 0.01}}" = "clearing.unit", "{\"clearing\": {\"keep\": 1001}}" = "clearing.keep",
             "{\"clearing\": {\"asOf\": \"2026-02-30\"}}" = "clearing.asOf",
             "{\"clearing\": {\"currency\": \"euro\"}}" = "clearing.currency",
             "{\"resources\": [\"banks.csv\"]}" = "a resource is no object",
             "{\"resources\": [{\"path\": \"../x\"}]}" = "not below the folder",
             "{\"resources\": [{\"path\": \"/etc/passwd\"}]}" = "not below the folder")
  for (text in names(wrong)) {
    writeLines(text, description_in(folder))
    expect_fault(read_case(folder), wrong[[text]])
  }
})

test("a unit that is no exact decimal above 0 is refused", {
  for (unit in list("0", "1e3", "-1", 0.01, "")) expect_fault(bank_case(two_banks(), unit = unit), "clearing.unit")
})

test("what default keeps is one whole number of thousandths", {
  for (keep in list(c(1, 2), 1001, -1, 0.5, "500", NA_real_)) {
    expect_fault(write_case(bank_case(two_banks(), keep = keep), folder_of()), "clearing.keep")
  }
})
